// A picture of each class's long and short in each currency: the length of a bar is the position before offsetting, its filled
// part what remains, its hatched part what the priority rows took. It reads without colour, and each bar has its figures beside
// it.
import { count, whole } from './amounts.js';
import { drawn, element, showEach } from './element.js';

const TITLE = 20; // px, the height of a class's own line
const LABEL = 17; // px, of a bar's line of figures
const BAR = 14; // px
const GAP = 6; // px, below a bar
const CLASS = TITLE + 2 * (LABEL + BAR + GAP) + 8; // px, of a class with both its bars

const [LONG, SHORT] = [TITLE, TITLE + LABEL + BAR + GAP]; // px, where a side begins in its class
const side = (top) => [
    drawn('text', { y: top + 11 }),
    drawn('rect', { y: top + LABEL, height: BAR, class: 'taken' }),
    drawn('rect', { y: top + LABEL, height: BAR, class: 'remains' }),
    drawn('line', { y1: top + LABEL, y2: top + LABEL + BAR }),
];
const BARS = drawn(
    'svg',
    { width: '100%', height: CLASS, role: 'img' },
    drawn('text', { y: 14, class: 'class' }),
    ...side(LONG),
    ...side(SHORT),
);
const FIGURE = element('figure', {}, element('figcaption'), element('div'));

/** Draws the classes of each currency into an element. A class has its K lines of the full reports, `before` and `after`. */
export function showPictures(parent, classes) {
    const currencies = [...new Set(classes.map(({ before }) => before.currency))];
    const of = (currency) => classes.filter(({ before }) => before.currency === currency);
    showEach(parent, FIGURE, currencies.map((currency) => ({ currency, classes: of(currency) })), draw, 1);
}

// One scale holds for the classes of a currency, so that lengths can be compared. Each has a picture, which paper keeps whole
function draw({ children: [caption, pictures] }, { currency, classes }) {
    const longest = Math.max(1, ...classes.flatMap(({ before }) => [Number(before.long), Number(before.short)])); // whole units
    caption.textContent = currency;
    showEach(pictures, BARS, classes.map((its) => ({ ...its, longest })), drawClass);
}

function drawClass(picture, { before, after, longest }) {
    const { currency, number } = before;
    const share = (digits) => `${(100 * Number(digits)) / longest}%`;
    const told = (side) => `${side} ${whole(after[side], currency)} of ${whole(before[side], currency)}`;
    const [title, ...parts] = picture.children;
    picture.setAttribute('aria-label', `Class ${number}: what remains is ${told('long')}, ${told('short')}`);
    Object.assign(picture.dataset, { currency, class: number });
    title.textContent = `Class ${number}`;
    ['long', 'short'].forEach((side, place) => {
        const [label, taken, remains] = parts.slice(4 * place);
        label.textContent = `${side} ${count(after[side])} of ${whole(before[side], currency)}`;
        taken.setAttribute('width', share(before[side]));
        remains.setAttribute('width', share(after[side]));
    });
}
