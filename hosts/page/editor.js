// The sheet in its text box: with line numbers, and one line marked. Only the numbers in sight are drawn, so that a sheet of
// many lines costs no more than a short one.
import { the } from './element.js';

const EDGE = 6; // px, above the first line; page.css has the same

const box = the('sheet');
const numbers = the('numbers');
const mark = the('mark');
let marked = 0; // the marked line, or 0
let put = ''; // the text that was put in last
let undone = false; // whether something of it was undone since

// A browser may make it larger than page.css has it
const lineHeight = () => parseFloat(getComputedStyle(box).lineHeight); // px

/** Calls back after each change that a user makes in the box. */
export function whenTyped(changed) {
    box.addEventListener('input', changed);
}

/** What stands in the box. */
export function shownText() {
    return box.value;
}

/** Puts a text into the box; what is only shown cannot be changed there. */
export function showText(text, changeable = true) {
    const { scrollTop, scrollLeft } = box; // px
    put = box.value = text;
    undone = false;
    box.readOnly = !changeable;
    box.scrollTo(scrollLeft, scrollTop);
    draw();
}

/** Marks a line, or none for 0. */
export function markLine(line) {
    marked = line;
    box.setAttribute('aria-invalid', String(line > 0));
    mark.dataset.line = line;
    draw();
}

/** Brings a line into sight. */
export function showLine(line) {
    const height = lineHeight(); // px
    const top = (line - 1) * height; // px
    if (top < box.scrollTop || top + 2 * height > box.scrollTop + box.clientHeight) box.scrollTop = top - box.clientHeight / 3;
    draw();
}

/** Brings a line into sight, and puts the cursor on it with all of the line selected. */
export function goToLine(line) {
    const lines = box.value.split('\n');
    const start = lines.slice(0, line - 1).reduce((place, text) => place + text.length + 1, 0); // letters
    box.focus();
    box.setSelectionRange(start, start + (lines[line - 1] ?? '').length);
    box.scrollLeft = 0;
    showLine(line);
    box.scrollIntoView({ block: 'nearest' });
}

// Where the box stands is asked for once a frame, since the browser lays the page out to tell
let waiting = false;
function draw() {
    if (!waiting) requestAnimationFrame(drawNow);
    waiting = true;
}

function drawNow() {
    waiting = false;
    const height = lineHeight(); // px
    const first = Math.floor(box.scrollTop / height); // lines out of sight
    const last = Math.min(lineCount(), first + Math.ceil(box.clientHeight / height) + 1);
    const shown = Array.from({ length: Math.max(last - first, 0) }, (_, place) => numbered(first + place + 1));
    numbers.textContent = shown.join('\n');
    numbers.style.transform = `translateY(${first * height - box.scrollTop}px)`;
    mark.hidden = marked === 0;
    mark.style.height = `${height}px`;
    mark.style.transform = `translateY(${EDGE + (marked - 1) * height - box.scrollTop}px)`;
}

function numbered(line) {
    return line === marked ? `\u25b6 ${line}` : String(line);
}

// Counted anew only where the text is another: scrolling asks often
let counted = { text: undefined, lines: 0 };
function lineCount() {
    if (counted.text !== box.value) counted = { text: box.value, lines: box.value.split('\n').length };
    return counted.lines;
}

// Chromium would undo, and do again, what was typed into a sheet that was here before
function keepToSheet(event) {
    const undoes = event.inputType === 'historyUndo';
    if (undoes ? box.value === put : event.inputType === 'historyRedo' && !undone) event.preventDefault();
    else undone ||= undoes;
}

box.addEventListener('beforeinput', keepToSheet);
box.addEventListener('scroll', draw);
box.addEventListener('input', draw);
new ResizeObserver(draw).observe(box);
