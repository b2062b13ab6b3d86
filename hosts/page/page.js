// The page: a sheet, the kit's answer to it, and what can be asked about that. It computes nothing: every figure is read off a
// report or an explanation of the kit.
import { cents, count } from './amounts.js';
import { bytesOf, hasSigns, textOf } from './bytes.js';
import { markLine, showLine, shownText, showText, whenTyped } from './editor.js';
import { element, the, whenPressed } from './element.js';
import { copy, save, whenOpened } from './files.js';
import { load } from '../web/kit.js';
import { focusMove, hideMove, showMove, showRows, whenMoved } from './moves.js';
import { showPictures } from './picture.js';
import { moved, withoutPriorities } from './priorities.js';
import { showRefusal } from './refused.js';
import { explanationIn, linesOf, reportIn } from './report.js';
import { showTables, whenAsked } from './tables.js';
import { hideReason, showReason, whenClosed } from './why.js';

const LONGEST = 1048576; // bytes of a sheet that the text box takes; of a longer one it shows the beginning
const BEGINNING = 65536; // bytes
const SIGNS = 'Bytes that are no plain text are shown by signs, one for each, as \u240d for CR, and kept as they are.';

// Where the page itself fails, as in a browser that cannot run the kit, it says so
addEventListener('error', ({ error, message }) => {
    if (error) the('status').textContent = `This page has stopped: ${message}. Load it again, or try another browser.`;
});

const inside = JSON.parse(the('inside').textContent);
const kit = await load(Uint8Array.from(atob(inside.module), (letter) => letter.charCodeAt(0)));

let sheet; // { name, bytes, changed }: whether it is another than the one of that name
let unmoved; // the sheet before its rows were moved, or undefined
let left; // the sheet that was changed last before another came, or undefined
let asked; // { currency, number } of the class whose reason is shown, or undefined

const read = (bytes) => new TextDecoder().decode(bytes); // reports and accepted sheets are ASCII
const listed = (bytes) => (the('full').checked ? kit.marginFull(bytes) : kit.margin(bytes));
const fullReport = (text) => read(kit.marginFull(bytesOf(text)).report);

// The answer, as text and shown
function answer() {
    const { report, number, line } = listed(sheet.bytes);
    the('text').textContent = report ? read(report) : `N;${number};${line}\n`;
    the('refusal').hidden = Boolean(report);
    the('report').hidden = !report;
    markLine(report ? 0 : line);
    const told = report ? showReport(read(report)) : showRefusal(inside.refusals, sheet.bytes, { number, line });
    if (the('status').textContent !== told) the('status').textContent = told; // the same words are not read aloud again
    the('copied').textContent = '';
    list();
}

// Shows a report in all its parts; gives what to say of it in one sentence
function showReport(text) {
    const rows = read(sheet.bytes);
    const report = reportIn(text);
    const after = fullReport(rows);
    const before = reportIn(fullReport(withoutPriorities(rows))).classes;
    showTables(report, linesOf(rows));
    picture(before, reportIn(after).classes);
    showRows(rows);
    compare({ text: rows, report: text, full: after });
    explain(before, reportIn(after).classes, linesOf(rows));
    const totals = report.totals.map(({ currency, total }) => cents(total, currency));
    if (totals.length === 0) return 'Accepted. The report has no line, since the sheet has no security.';
    return `Accepted. Total: ${totals.join('; ')}.`;
}

// The positions before offsetting are the kit's on the sheet without its priority rows
function picture(before, after) {
    const classes = before.map((its, place) => ({ before: its, after: after[place] }));
    const held = classes.filter(({ before: { long, short } }) => long !== '0' || short !== '0');
    showPictures(the('pictures'), held);
    the('pictures-part').hidden = held.length === 0;
}

// What the moves did, where there are any
function compare(now) {
    const text = unmoved && read(unmoved.bytes);
    if (text === undefined || text === now.text) hideMove();
    else showMove({ text, report: read(listed(unmoved.bytes).report) }, now);
}

function ask(about) {
    asked = about;
    answer();
    the('why-title')?.focus();
}

function close() {
    const { currency, number } = asked;
    asked = undefined;
    hideReason();
    the('classes').querySelector(`[data-currency="${currency}"][data-number="${number}"]`)?.focus();
}

function explain(before, after, lines) {
    const place = after.findIndex(({ currency, number }) => currency === asked?.currency && number === asked.number);
    if (place < 0) return hideReason();
    const { report } = kit.explain(sheet.bytes, bytesOf(asked.currency), BigInt(asked.number));
    showReason(explanationIn(read(report)), before[place], after[place], lines);
}

// A sheet from elsewhere than the box; of a file that is longer than the box takes only a beginning is handed on
function take(name, bytes, size = bytes.length /* bytes */) {
    if (sheet?.changed) left = sheet;
    begin({ name, bytes, changed: false }, size);
}

function resume(typed) {
    left = sheet.changed ? sheet : undefined;
    begin(typed);
}

function begin(its, size) {
    sheet = its;
    unmoved = asked = undefined;
    show(size);
    scrollTo(0, 0);
    if (the('mark').dataset.line !== '0') showLine(Number(the('mark').dataset.line));
}

function choose({ name, text }) {
    take(`${name}.sheet`, bytesOf(text));
}

function typed() {
    const bytes = bytesOf(shownText());
    if (alike(bytes, sheet.bytes)) return;
    sheet = { name: sheet.name, bytes, changed: true };
    unmoved = undefined;
    tell();
    answer();
}

function move(line, by) {
    unmoved ??= sheet;
    const bytes = bytesOf(moved(read(sheet.bytes), line, by));
    sheet = alike(bytes, unmoved.bytes) ? unmoved : { name: sheet.name, bytes, changed: true };
    show();
    focusMove(line + by, by);
}

function putBack() {
    sheet = unmoved;
    show();
    the('rows').querySelector('button:enabled').focus(); // what was pressed is gone
}

function alike(bytes, others) {
    return bytes.length === others.length && bytes.every((byte, place) => byte === others[place]);
}

// Puts the sheet into the box, or its beginning where it is too long for that, and answers it
function show(size = sheet.bytes.length /* bytes */) {
    const whole = size <= LONGEST;
    showText(textOf(whole ? sheet.bytes : sheet.bytes.subarray(0, BEGINNING)), whole);
    tell(size);
    answer();
}

// What stands beside the box: the sheet's name, and what the box cannot show as it is
function tell(size = sheet.bytes.length /* bytes */) {
    the('name').textContent = sheet.changed ? `${sheet.name}, changed` : sheet.name;
    document.title = `${sheet.name} \u2013 Gronnhyl`;
    const text = shownText();
    const notes = [];
    if (size > LONGEST) notes.push(`The file has ${count(String(size))} bytes. Its beginning is shown, for reading alone.`);
    if (hasSigns(text)) notes.push(SIGNS);
    the('note').textContent = notes.join(' ');
    the('note').hidden = notes.length === 0;
    the('carriage').hidden = size > LONGEST || !text.includes('\u240d');
    the('save-sheet').disabled = size > LONGEST;
    the('back').hidden = left === undefined;
}

// The sheet by its lines, for paper
function list() {
    const wanted = the('with-sheet').checked;
    const lines = wanted ? linesOf(shownText()) : [];
    const width = String(lines.length).length; // digits
    the('listing').textContent = lines.map((line, place) => `${String(place + 1).padStart(width)}  ${line}\n`).join('');
    the('listing-part').hidden = !wanted;
}

// Of a file as long as the box takes one byte more is enough to see that it is longer
let opening = 0; // files so far: an earlier one that comes later is not shown
async function open(file) {
    const turn = ++opening;
    const bytes = await file.slice(0, LONGEST + 1).arrayBuffer().catch(() => undefined);
    if (turn !== opening) return;
    if (bytes) take(file.name, new Uint8Array(bytes), file.size);
    else the('status').textContent = `${file.name} cannot be read. What was here stays.`;
}

for (const { name, title } of inside.examples) {
    the('examples').append(' ', element('button', { type: 'button', 'data-example': name }, title));
}
whenPressed('examples', ({ example }) => choose(inside.examples.find(({ name }) => name === example)));
whenTyped(typed);
whenOpened(open);
whenAsked(ask);
whenMoved(move);
whenClosed(close);
the('back').addEventListener('click', () => resume(left));
addEventListener('beforeunload', (event) => {
    if (sheet.changed) event.preventDefault(); // the browser asks whether to leave
});
the('full').addEventListener('change', answer);
the('with-sheet').addEventListener('change', list);
the('print').addEventListener('click', () => print());
the('put-back').addEventListener('click', putBack);
the('drop-carriage').addEventListener('click', () => {
    showText(shownText().replaceAll('\u240d', ''));
    typed();
});
the('save-sheet').addEventListener('click', () => save(sheet.bytes, sheet.name));
the('save').addEventListener('click', () => {
    save(bytesOf(the('text').textContent), `${sheet.name.replace(/\.[^.]*$/, '')}.report.txt`);
});
the('copy').addEventListener('click', async () => {
    const done = await copy(the('text'));
    the('copied').textContent = done ? 'Copied.' : 'The browser does not let a page copy; select the text instead.';
});
choose(inside.examples[0]);
