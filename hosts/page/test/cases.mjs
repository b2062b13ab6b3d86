// Every case and question under tests/ through the page: the text byte for byte, and the tables, refusals and reasons, which
// are put together here once more, from the expected texts.
import assert from 'node:assert/strict';
import { existsSync, readdirSync, readFileSync } from 'node:fs';
import { fileURLToPath } from 'node:url';
import { listed, opened, pressed } from './seen.mjs';

const tests = (path) => fileURLToPath(new URL(`../../../tests/${path}`, import.meta.url));
const bytesIn = (path) => readFileSync(tests(path), 'latin1');
const wholes = new Intl.NumberFormat('en-US');
const hundredths = new Intl.NumberFormat('en-US', { minimumFractionDigits: 2 });

/** The path of a case's sheet. */
export function sheetOf(name) {
    return tests(`cases/${name}.sheet`);
}

/** What a case's file has, a letter for each byte. */
export function caseText(name, ending) {
    return bytesIn(`cases/${name}.${ending}`);
}

// The table of docs/REFUSALS.md by its cells
const refusals = readFileSync(new URL('../../../docs/REFUSALS.md', import.meta.url), 'utf8')
    .split('\n')
    .filter((line) => /^\| \d/.test(line))
    .map((line) => line.split('|').slice(1, -1).map((cell) => cell.trim()));

/** The entry for a refusal: the words for the row of the sheet's line, or else those for every row. */
function wordsFor(number, row) {
    const entry = (letter) => refusals.find(([its, one]) => its === number && one === letter);
    const own = entry(row) ?? entry('');
    assert.ok(own, `docs/REFUSALS.md has nothing for ${number} on a row ${row}`);
    return own.slice(2);
}

// What each column of the three tables says that it has
const HEADS = [
    'CurrencyMark-to-market to the centInitial margin whole unitsTotal to the cent',
    'CurrencyClassLong whole unitsShort whole unitsMargin whole unitsReason',
    'LineTradeSecurityNominal whole unitsMark-to-market to the cent',
];

const minus = (text) => text.replace('-', '\u2212');
const inWhole = (digits, currency) => `${minus(wholes.format(BigInt(digits)))} ${currency}`;
// Node's own division by 100 is exact to the cent far beyond the largest amount
const inCents = (digits, currency) => `${minus(hundredths.format(Number(digits) / 100))} ${currency}`;

const linesOf = (text) => text.split('\n').slice(0, -1);
const fieldsOf = (text, letter) => linesOf(text).filter((line) => line[0] === letter).map((line) => line.split(';').slice(1));

/** The page shows a refusal: number and line, its line marked, the words of the table, and no figure. */
export function holdRefusal(shown, sheet, number, line) {
    const row = line === 0 ? '' : (/^([DCOST])(;|$)/.exec(sheet.split('\n')[line - 1] ?? '')?.[1] ?? '');
    const [meaning, should] = wordsFor(String(number), row);
    assert.equal(shown.marked, line);
    assert.equal(shown.status, `Refused, number ${number}${line > 0 ? ` on line ${line}` : ''}: ${meaning}.`);
    const byFields = should.split('; ').map((rule) => rule.split(': ')); // said in the table of fields, where it is about each
    const fields = shown.fields.map(([name, , rule]) => [name, rule]).slice(0, byFields.length);
    if (shown.should === undefined) assert.deepEqual(fields, byFields);
    else assert.equal(shown.should, should);
    assert.equal(shown.meaning, meaning);
    assert.deepEqual([shown.totals, shown.classes, shown.trades, shown.why], [[], [], [], undefined]);
    if (row !== '') holdFields(shown, sheet.split('\n')[line - 1].split(';').slice(1), row);
}

// The refused line's fields stand beside what the table has for each; a field too many has no name
function holdFields(shown, stands, row) {
    const rules = wordsFor(row === 'D' ? '7' : '6', row)[1].split('; ').map((rule) => rule.split(': '));
    const told = (field) => (field === undefined ? 'missing' : field === '' ? 'blank' : field);
    shown.fields.forEach(([name, field, rule], place) => {
        assert.deepEqual([name, rule], rules[place] ?? ['', 'nothing: one field too many']);
        if (!/[^ -~]/.test(stands[place] ?? '')) assert.equal(field, told(stands[place]));
    });
    assert.ok(shown.fields.length >= rules.length);
}

/** The tables show a report's figures, grouped, each with its unit: cents with a point, whole units without one. */
function holdTables(shown, sheet, report) {
    const rows = sheet.split('\n');
    assert.deepEqual(shown.totals, fieldsOf(report, 'Z').map(([currency, mark, initial, total]) =>
        [currency, inCents(mark, currency), inWhole(initial, currency), inCents(total, currency)]));
    assert.deepEqual(shown.classes, fieldsOf(report, 'K').map(([currency, number, ...amounts]) =>
        [currency, number, ...amounts.map((digits) => inWhole(digits, currency)), 'Why?']));
    assert.deepEqual(shown.trades, fieldsOf(report, 'M').map(([line, currency, mark]) => {
        const [, trade, side, code, nominal] = rows[line - 1].split(';');
        const told = `${trade === 'R' ? 'repo' : 'cash'}, ${side === 'S' ? 'seller' : 'purchaser'}`;
        return [line, told, code, inWhole(nominal, currency), inCents(mark, currency)];
    }));
    assert.deepEqual([shown.marked, shown.meaning], [0, undefined]);
    assert.deepEqual(shown.heads.slice(0, 3), HEADS);
    assert.match(shown.status, /^Accepted\. /);
    for (const [currency, , , total] of fieldsOf(report, 'Z')) assert.ok(shown.status.includes(inCents(total, currency)));
}

// The bars are as long as the positions, which remain on the right side of what they were: held to the report
function holdBars(shown, full) {
    const sides = ([currency, number, long, short]) => [`${currency};${number}`, [long, short]];
    const after = new Map(fieldsOf(full, 'K').map(sides));
    const drawn = new Set(shown.bars.map(({ currency, number }) => `${currency};${number}`));
    for (const [its, left] of after) assert.ok(drawn.has(its) || left.every((side) => side === '0'), `${its} is not drawn`);
    const lengths = new Map(); // px for a unit, by currency: one scale for all of its classes
    let above; // of the same currency
    for (const { currency, number, labels, widths, told, top, bottom } of shown.bars) {
        const remains = after.get(`${currency};${number}`);
        const before = labels.slice(1).map((label) => /of ([\d,]+) /.exec(label)[1].replaceAll(',', ''));
        assert.equal(told, `Class ${number}: what remains is ${labels[1].replace(' of', ` ${currency} of`)}, ${
            labels[2].replace(' of', ` ${currency} of`)}`);
        assert.ok(above?.currency !== currency || top >= above.bottom, `${currency} ${number} stands over the class above`);
        above = { currency, bottom };
        assert.deepEqual(labels, [
            `Class ${number}`,
            `long ${wholes.format(BigInt(remains[0]))} of ${inWhole(before[0], currency)}`,
            `short ${wholes.format(BigInt(remains[1]))} of ${inWhole(before[1], currency)}`,
        ]);
        [0, 1].forEach((side) => {
            const [length, filled] = widths.slice(2 * side);
            const wanted = before[side] === '0' ? 0 : (length * remains[side]) / before[side]; // px
            assert.ok(Math.abs(filled - wanted) < 1, `${currency} ${number}: a bar`);
            if (!lengths.has(currency) && length > 0) lengths.set(currency, length / before[side]);
            const scaled = before[side] === '0' ? 0 : lengths.get(currency) * before[side]; // px
            assert.ok(Math.abs(length - scaled) < 2, `${currency} ${number}: another scale`);
        });
    }
}

function names(folder) {
    const found = readdirSync(tests(folder)).filter((name) => name.endsWith('.sheet')).map((name) => name.slice(0, -6));
    assert.ok(found.length > 0, `no ${folder}`);
    return found.filter((name) => !existsSync(tests(`${folder}/${name}.room`))); // the page lends the usual room
}

/** Every case, quiet and full. */
export async function holdCases(browser) {
    const numbers = new Set();
    for (const name of names('cases')) {
        try {
            const [sheet, quiet] = [caseText(name, 'sheet'), caseText(name, 'expect')];
            const full = existsSync(tests(`cases/${name}.full`)) ? caseText(name, 'full') : quiet;
            const shown = await opened(browser, sheetOf(name));
            assert.equal(shown.text, quiet);
            const refusal = /^N;(\d+);(\d+)\n$/.exec(quiet);
            if (refusal) {
                holdRefusal(shown, sheet, Number(refusal[1]), Number(refusal[2]));
                numbers.add(Number(refusal[1]));
                continue;
            }
            holdTables(shown, sheet, quiet);
            holdBars(shown, full);
            const whole = await listed(browser, true);
            assert.equal(whole.text, full);
            holdTables(whole, sheet, full);
            await listed(browser, false);
        } catch (error) {
            error.message = `${name}: ${error.message}`;
            throw error;
        }
    }
    const came = [...numbers].sort((one, other) => one - other);
    assert.deepEqual(came, [3, 4, 5, 6, 7, 8, 9, 10, 11, 12], 'refusals that came up'); // sheets.mjs has 2
    return names('cases').length;
}

/** Every question that can be asked on the page; of the others that there is no button for them. */
export async function holdQuestions(browser) {
    let answered = 0;
    for (const name of names('questions')) {
        const [sheet, question, expected] = ['sheet', 'ask', 'expect'].map((ending) => bytesIn(`questions/${name}.${ending}`));
        const at = question.lastIndexOf(';');
        const [currency, number] = [question.slice(0, at), question.slice(at + 1).trimEnd()];
        await opened(browser, tests(`questions/${name}.sheet`));
        const shown = await listed(browser, true);
        const place = shown.classes.findIndex(([its, one]) => its === currency && one === number);
        assert.equal(place >= 0, !expected.startsWith('N;'), `${name}: a button`);
        if (place >= 0) {
            const { why } = await pressed(browser, `#classes tbody tr:nth-child(${place + 1}) button`);
            holdReason(name, why, sheet, expected, shown.classes[place], currency);
            answered++;
        }
        await listed(browser, false);
    }
    assert.ok(answered > 20, `${answered} questions are few`);
    return answered;
}

// The nets add up to what stands there before offsetting, which the page has from the kit and not from them
function holdReason(name, why, sheet, expected, row, currency) {
    const rows = sheet.split('\n');
    const nets = fieldsOf(expected, 'P');
    const taken = fieldsOf(expected, 'R');
    const [[side, amount]] = fieldsOf(expected, 'B');
    const [, number, long, short, margin] = row;
    const sized = (sign) => nets.map(([, net]) => sign * BigInt(net)).filter((net) => net > 0n);
    const sum = (sign) => sized(sign).reduce((all, net) => all + net, 0n);
    assert.deepEqual(why.heads, [
        `Why class ${number} has a margin of ${margin}`,
        `Before offsetting: long ${inWhole(sum(1n), currency)}, short ${inWhole(sum(-1n), currency)}`,
        'Taken by priority rows',
        `Remains: long ${long}, short ${short}`,
    ], name);
    const tables = [
        nets.map(([code, net]) => [code, inWhole(net, currency)]),
        taken.map(([line, ...off]) => [line, rows[line - 1], ...off.map((digits) => inWhole(digits, currency))]),
    ];
    assert.deepEqual(why.tables, tables.filter((table) => table.length > 0), name);
    const setter = { L: 'the long, which', S: 'the short, which', E: 'both sides, which' }[side];
    const words = why.words.at(-1);
    assert.ok(words.startsWith(`The margin is set by ${setter} `), `${name}: ${words}`);
    const [, , , , factor] = rows.find((row) => row.startsWith(`C;${number};`)).split(';');
    assert.ok(words.includes(` deposit factor is ${wholes.format(factor)} ten-thousandths, `), `${name}: ${words}`);
    assert.ok(words.includes(`: ${inWhole(amount, currency)}.`) && words.endsWith(`is ${margin}.`), `${name}: ${words}`);
}
