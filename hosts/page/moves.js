// The priority rows with what moves them, and what a move did: whether it is harmless by demand 3, and the reports side by
// side.
import { count } from './amounts.js';
import { element, showEach, the, whenPressed } from './element.js';
import { disturbed, priorityRows } from './priorities.js';
import { linesOf, subjectOf } from './report.js';

const HARMLESS = 'Harmless: each class still meets the rows that name it, the same rows in the same order.';
const OTHERWISE = 'Not harmless: a class meets the rows that name it in another order.';
const SAME = 'The report is the same byte for byte.';

const mover = (by, sign) => element('button', { type: 'button', 'data-move': by }, sign);
const ROW = element('li', {}, mover(-1, '\u2191'), mover(1, '\u2193'), element('code'), element('span', { class: 'told' }));

/** Shows the rows of a sheet's text. The first cannot go up, and the last not down. */
export function showRows(text) {
    const rows = priorityRows(text);
    const last = rows.length - 1;
    showEach(the('rows'), ROW, rows.map((row, place) => ({ ...row, stuck: [place === 0, place === last] })), fillRow);
    the('rows').start = rows[0]?.line ?? 1;
    the('priorities-part').hidden = rows.length === 0;
}

function fillRow({ children: [up, down, code, told] }, { line, row, first, second, factor, stuck }) {
    [up, down].forEach((button, place) => {
        button.dataset.line = line;
        button.disabled = stuck[place];
        button.setAttribute('aria-label', `Move ${row} on line ${line} ${['up', 'down'][place]}`);
    });
    code.textContent = row;
    const classes = first === second ? `within class ${first}` : `classes ${first} and ${second}`;
    told.textContent = ` ${classes}, ${count(factor)} ten-thousandths`;
}

/** Calls back with a row's line and -1 for up, 1 for down, when it is to be moved. */
export function whenMoved(move) {
    whenPressed('rows', (its) => move(Number(its.line), Number(its.move)));
}

/** Puts the focus on what moves a line's row up (-1) or down (1), or the other way where the row is at its end. */
export function focusMove(line, by) {
    const [up, down] = the('rows').querySelectorAll(`[data-line="${line}"]`);
    const wanted = by < 0 ? up : down;
    (wanted.disabled ? (by < 0 ? down : up) : wanted).focus();
}

/**
 * Shows what moving did: the sheet's text before and after, and for each the lines of its report as listed and of its full one,
 * by which they are put side by side.
 */
export function showMove(before, after) {
    const classes = disturbed(before.text, after.text);
    const same = before.report === after.report;
    the('moves').hidden = false;
    const harmless = classes.length === 0;
    the('disturbed').replaceChildren(...classes.map(disturbedItem));
    the('comparison').tBodies[0].replaceChildren(...sideBySide(before, after));
    const differing = the('comparison').querySelectorAll('.differs').length;
    const told = same ? SAME : `The report is another: ${differing} of its lines differ.`;
    the('verdict').textContent = `${harmless ? HARMLESS : OTHERWISE} ${told}`;
    the('verdict').dataset.harmless = harmless ? 'yes' : 'no';
}

/** Hides it. */
export function hideMove() {
    the('moves').hidden = true;
    the('verdict').textContent = '';
}

function disturbedItem({ number, before, after }) {
    const rows = (list) => list.flatMap((row) => [element('code', {}, row), ', ']).slice(0, -1);
    return element('li', {}, `Class ${number} met `, ...rows(before), '; now it meets ', ...rows(after), '.');
}

// Both reports have a line for every subject in the full list, and in the same order; one that is listed on neither side is
// left out
function sideBySide(before, after) {
    const bySubject = ({ report }) => new Map(linesOf(report).map((line) => [subjectOf(line), line]));
    const [listed, lists] = [before, after].map(bySubject);
    return linesOf(after.full)
        .map(subjectOf)
        .filter((subject) => listed.has(subject) || lists.has(subject))
        .map((subject) => comparedRow(listed.get(subject), lists.get(subject)));
}

function comparedRow(before, after) {
    const differs = before !== after;
    const shown = (line) => (line === undefined ? element('i', {}, 'no line: all zero') : element('code', {}, line));
    const cell = (line) => element('td', {}, differs ? element('mark', {}, shown(line)) : shown(line));
    const told = element('td', {}, differs ? '\u2260 differs' : '');
    return element('tr', differs ? { class: 'differs' } : {}, cell(before), cell(after), told);
}
