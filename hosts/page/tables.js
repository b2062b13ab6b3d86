// The report as tables: totals, classes and trades. Each amount has its unit, and a column says whether it is to the cent.
import { cents, whole } from './amounts.js';
import { goToLine } from './editor.js';
import { element, showEach, the, whenPressed } from './element.js';

const TRADES = { R: 'repo', C: 'cash' };
const SIDES = { S: 'seller', P: 'purchaser' };

const head = (...inside) => element('th', { scope: 'row' }, ...inside);
const amount = () => element('td', { class: 'amount' });
const code = () => element('td', { class: 'code' });
const line = () => element('button', { type: 'button', class: 'line' });
const why = () => element('td', { class: 'screen' }, element('button', { type: 'button' }, 'Why?'));
const ROWS = {
    total: element('tr', {}, element('th', { scope: 'row', class: 'roomy' }), amount(), amount(), amount()),
    class: element('tr', {}, element('td', { class: 'roomy' }), head(), amount(), amount(), amount(), why()),
    trade: element('tr', {}, head(line()), element('td'), code(), element('td', { class: 'amount roomy' }), amount()),
    net: element('tr', {}, element('th', { scope: 'row', class: 'code' }), amount()),
    taken: element('tr', {}, head(line()), code(), amount(), amount()),
};

/** Shows a report; `lines` are the sheet's, of which a trade is one. */
export function showTables({ totals, classes, trades }, lines) {
    const [year, month, day] = [[2, 6], [6, 8], [8, 10]].map((places) => lines[1].slice(...places)); // of D;20190612
    the('date').textContent = `Calculation date ${year}-${month}-${day}`;
    fill('totals', ROWS.total, totals, totalCells);
    fill('classes', ROWS.class, classes, classCells);
    the('no-class').hidden = classes.length > 0;
    the('totals-part').hidden = totals.length === 0;
    the('classes-part').hidden = totals.length === 0;
    the('trades-part').hidden = trades.length === 0;
    fill('trades', ROWS.trade, trades.map((trade) => ({ ...trade, row: lines[trade.line - 1] })), tradeCells);
}

/** Calls back with the currency and the number of a class whose reason is asked for. */
export function whenAsked(asked) {
    whenPressed('classes', ({ currency, number }) => asked({ currency, number }));
}

/** Fills a table's body with the nets of a currency's securities. */
export function showNets(body, nets, currency) {
    showEach(body, ROWS.net, nets, ({ cells }, { code, net }) => say(cells, code, whole(net, currency)));
}

/** Fills a table's body with what priority rows took in a currency; `lines` are the sheet's. */
export function showTaken(body, rows, currency, lines) {
    showEach(body, ROWS.taken, rows, ({ cells }, { line, offLong, offShort }) => {
        sayLine(cells[0], line);
        say(cells, undefined, lines[line - 1], whole(offLong, currency), whole(offShort, currency));
    });
}

function fill(table, pattern, list, cells) {
    showEach(the(table).tBodies[0], pattern, list, cells);
    the(table).closest('.wide').hidden = list.length === 0;
}

// Each cell's words; a cell without any is left as it is
function say(cells, ...words) {
    words.forEach((text, place) => {
        if (text !== undefined) cells[place].textContent = text;
    });
}

function sayLine(cell, line) {
    cell.firstChild.textContent = line;
    cell.firstChild.dataset.line = line;
    cell.firstChild.setAttribute('aria-label', `Go to line ${line}`);
}

function totalCells({ cells }, { currency, mark, initial, total }) {
    say(cells, currency, cents(mark, currency), whole(initial, currency), cents(total, currency));
}

function classCells({ cells }, { currency, number, long, short, margin }) {
    say(cells, currency, number, whole(long, currency), whole(short, currency), whole(margin, currency));
    const why = cells[5].firstChild;
    why.setAttribute('aria-label', `Why is the margin of class ${number} in ${currency} what it is?`);
    Object.assign(why.dataset, { currency, number });
}

// Line and figure are the report's, the rest of the trade stands on the sheet
function tradeCells({ cells }, { line, currency, mark, row }) {
    const [, trade, side, code, nominal] = row.split(';');
    sayLine(cells[0], line);
    say(cells, undefined, `${TRADES[trade]}, ${SIDES[side]}`, code, whole(nominal, currency), cents(mark, currency));
}

for (const place of ['trades', 'why']) {
    whenPressed(place, ({ line }) => {
        if (line) goToLine(Number(line));
    });
}
