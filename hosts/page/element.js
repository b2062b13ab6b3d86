// Elements of the page. What a sheet holds goes in as text, and never as markup.

const SVG = 'http://www.w3.org/2000/svg';

/** An HTML element: attributes by name, and children, elements or text. */
export function element(name, attributes = {}, ...children) {
    return filled(document.createElement(name), attributes, children);
}

/** The same for a part of a picture. */
export function drawn(name, attributes = {}, ...children) {
    return filled(document.createElementNS(SVG, name), attributes, children);
}

/** The element of the page with that name. */
export function the(id) {
    return document.getElementById(id);
}

const BATCH = 40; // children that are added at a time
const shown = new WeakMap(); // what a child is for
const adding = new Map(); // parents to which children are still added, each with what adds the next ones

/**
 * Gives a parent a child for each of a list, all alike: copies of a pattern, which `fill` is handed with what they are for.
 * Children that are there are filled anew, and only where they are for something else, since of a long table few rows change
 * with a letter that is typed. Of a long list that is new the first come at once and the others with the next frames, so that
 * nobody waits for what is out of sight; until then the parent says that it is busy.
 */
export function showEach(parent, pattern, list, fill, batch = BATCH) {
    while (parent.childElementCount > list.length) parent.lastElementChild.remove();
    Array.from(parent.children).forEach((child, place) => fillFor(child, list[place], fill));
    const add = () => {
        const next = list.slice(parent.childElementCount, parent.childElementCount + batch);
        parent.append(...next.map((its) => fillFor(pattern.cloneNode(true), its, fill)));
        const busy = parent.childElementCount < list.length;
        parent.setAttribute('aria-busy', busy);
        if (busy) adding.set(parent, add);
        else adding.delete(parent);
    };
    add();
    addLater();
}

function fillFor(child, its, fill) {
    const what = JSON.stringify(its);
    if (shown.get(child) !== what) fill(child, its);
    shown.set(child, what);
    return child;
}

function addMore() {
    for (const add of adding.values()) add();
}

let waiting = false; // for the next frame
function addLater() {
    if (waiting || adding.size === 0) return;
    waiting = true;
    requestAnimationFrame(() => {
        waiting = false;
        addMore();
        addLater();
    });
}

// Paper has all of it
function addAll() {
    while (adding.size > 0) addMore();
}

addEventListener('beforeprint', addAll);

/** Calls back with the data of any button in an element when it is pressed. */
export function whenPressed(id, pressed) {
    the(id).addEventListener('click', ({ target }) => {
        const button = target.closest('button');
        if (button) pressed(button.dataset);
    });
}

function filled(made, attributes, children) {
    for (const [attribute, value] of Object.entries(attributes)) made.setAttribute(attribute, value);
    made.append(...children);
    return made;
}
