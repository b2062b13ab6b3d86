// kit.wasm in Node by kit.js, quiet reports, full ones and explanations, held to the written cases and to the plain
// implementation's answers: node hosts/web/test.mjs ANSWERS, a file that hosts/rust's program `answers` wrote.
import assert from 'node:assert/strict';
import { readdirSync, readFileSync, existsSync } from 'node:fs';
import { load } from './kit.js';

const ROOM = 32768; // bytes
const PAGE = 65536; // bytes
const PAINT = 0xa5; // what the stack holds before the first call
const STACK = 1048576; // bytes, at the bottom of the memory, as hosts/build has it; the constants stand behind it

const kit = await load(readFileSync(new URL('kit.wasm', import.meta.url)));
const stack = () => new Uint8Array(kit.memory.buffer, 0, STACK);
const constants = () => new Uint8Array(kit.memory.buffer, STACK, kit.base - STACK);
stack().fill(PAINT);
const constantsBefore = constants().slice();

// What memory and buffers hold before a call: no byte that a report has, from another start in each case
const pattern = Uint8Array.from({ length: 64 * PAGE }, (_, at) => 128 | ((at * 37) ^ (at >> 8)));
const patterned = (length, shift) => Uint8Array.from(pattern.subarray(shift, shift + length));

function same(got, expected, what) {
    if (Buffer.compare(got, expected) === 0) return;
    const at = expected.findIndex((byte, place) => byte !== got[place]);
    assert.fail(`${what}: byte ${at} is ${got[at]} and not ${expected[at]}, of ${got.length} and ${expected.length}`);
}

// What can be asked about a sheet: the quiet report, the full one, or an explanation for a question. Each takes the report buffer
// itself, or its room alone
const quiet = {
    call: (sheet, report) => kit.call(sheet, report),
    answer: (sheet, room) => kit.margin(sheet, room),
};
const full = {
    call: (sheet, report) => kit.callFull(sheet, report),
    answer: (sheet, room) => kit.marginFull(sheet, room),
};
const about = (currency, classNumber) => ({
    currency,
    call: (sheet, report) => kit.callExplain(sheet, currency, classNumber, report),
    answer: (sheet, room) => kit.explain(sheet, currency, classNumber, room),
});

// One call, and after it every byte of the lent buffer and of the memory: sheet, currency, buffer, and all about them
function hold(name, sheet, room, answer, report, { currency = none, ...asked }) {
    const at = kit.places(sheet.length, room, currency.length);
    const lacking = at.free + PAGE - kit.memory.buffer.byteLength; // bytes
    if (lacking > 0) kit.memory.grow(Math.ceil(lacking / PAGE));
    const memory = () => new Uint8Array(kit.memory.buffer, kit.base);
    const shift = (sheet.length * 7 + room) % PAGE;
    const around = patterned(memory().length, shift);
    const buffer = patterned(room, shift + 1);
    memory().set(around);

    const got = asked.call(sheet, buffer);

    assert.equal(got, answer, name);
    const expected = patterned(room, shift + 1);
    expected.set(report);
    same(buffer, expected, `${name}: the buffer`);
    around.set(sheet, at.sheet - kit.base);
    around.set(currency, at.currency - kit.base);
    around.set(expected, at.report - kit.base);
    same(memory(), around, `${name}: the memory`);

    const short = asked.answer(sheet, room);
    if (answer < 65536) same(short.report, report, `${name}: the report`);
    else assert.deepEqual(short, { number: Math.floor(answer / 65536), line: answer % 65536 }, name);
}

const none = new Uint8Array(0);
const refused = (number, line) => 65536 * number + line;

// Both reports, where they are the same: refused, or without K lines
function holdBoth(name, sheet, room, answer, report) {
    hold(name, sheet, room, answer, report, quiet);
    hold(`${name}, full`, sheet, room, answer, report, full);
}

// What stands in NAME.ask: the class behind the last `;`
function questionIn(text) {
    const at = text.lastIndexOf(';');
    return about(text.subarray(0, at), BigInt(text.subarray(at + 1).toString('latin1').trimEnd()));
}

// A text as the forecast prints it: the report, or the refusal
function holdText(name, sheet, room, text, asked) {
    const refusal = /^N;(\d+);(\d+)\n$/.exec(text.toString('latin1'));
    if (refusal) hold(name, sheet, room, refused(Number(refusal[1]), Number(refusal[2])), none, asked);
    else hold(name, sheet, room, text.length, text, asked);
}

function cases(path) {
    const folder = new URL(`../../tests/${path}/`, import.meta.url);
    const names = readdirSync(folder).filter((name) => name.endsWith('.sheet')).map((name) => name.slice(0, -6));
    assert.ok(names.length > 0, `no ${path}`);
    for (const name of names) {
        const file = (ending) => new URL(`${name}.${ending}`, folder);
        const room = existsSync(file('room')) ? Number(readFileSync(file('room'), 'utf8')) : ROOM;
        const [sheet, expect] = [file('sheet'), file('expect')].map((path) => readFileSync(path));
        if (existsSync(file('ask'))) {
            holdText(name, sheet, room, expect, questionIn(readFileSync(file('ask'))));
            continue;
        }
        holdText(name, sheet, room, expect, quiet);
        holdText(`${name}, full`, sheet, room, existsSync(file('full')) ? readFileSync(file('full')) : expect, full);
    }
    return names.length;
}

// How often each answer came, place 0 for acceptance: to sheets, and to questions about them
function generated(path) {
    const file = readFileSync(path);
    let place = 0; // bytes
    const whole = () => file.readBigUInt64LE((place += 8) - 8);
    const number = () => Number(whole());
    const bytes = (length) => {
        assert.ok(place + length <= file.length, `${path} is cut short`);
        return file.subarray(place, (place += length));
    };
    const text = (answer) => (answer < 65536 ? bytes(answer) : none);
    const counts = { sheets: Array(13).fill(0), questions: Array(14).fill(0) };
    const sheets = number();
    for (let at = 0; at < sheets; at++) {
        const [length, room, answer, fullAnswer] = [number(), number(), number(), number()];
        const [currencyLength, classNumber, explained] = [number(), whole(), number()];
        const sheet = bytes(length);
        hold(`generated sheet ${at}`, sheet, room, answer, text(answer), quiet);
        hold(`generated sheet ${at}, full`, sheet, room, fullAnswer, text(fullAnswer), full);
        const currency = bytes(currencyLength);
        hold(`generated question ${at}`, sheet, room, explained, text(explained), about(currency, classNumber));
        counts.sheets[Math.floor(answer / 65536)]++;
        counts.questions[Math.floor(explained / 65536)]++;
    }
    assert.equal(place, file.length, `${path} has more than its sheets`);
    for (const [what, those] of Object.entries(counts)) {
        const missing = those.flatMap((count, at) => (count === 0 ? [at] : []));
        assert.deepEqual(missing, [], `answers to ${what} that never came`);
    }
    return counts;
}

// Document 01's own borders, and sheets far longer than any
function borders() {
    const text = (words) => new TextEncoder().encode(words);
    const filled = (length) => text('BRM;1\nD;20190612\n'.padEnd(length, 'x'));
    holdBoth('an empty sheet', none, ROOM, refused(3, 1), none);
    holdBoth('an empty sheet and no buffer', none, 0, refused(1, 0), none);
    holdBoth('a buffer of 32,767', text('BRM;1\nD;20190612\n'), ROOM - 1, refused(1, 0), none);
    holdBoth('a report without lines', text('BRM;1\nD;20190612\n'), ROOM, 0, none);
    holdBoth('a sheet of 65,536', filled(65536), ROOM, refused(5, 3), none);
    holdBoth('a sheet of 65,537', filled(65537), ROOM, refused(2, 0), none);
    holdBoth('a sheet of 65,537 and a buffer of 32,767', filled(65537), ROOM - 1, refused(1, 0), none);
    holdBoth('a sheet of a million', filled(1000000), ROOM, refused(2, 0), none);
    holdBoth('a buffer of a million', filled(17), 1000000, 0, none);
    hold('an empty currency, no sheet and no buffer', none, 0, refused(1, 0), none, about(none, 0));
    hold('a question without securities', filled(17), ROOM, refused(13, 0), none, about(text('EUR'), 6));
    hold('a currency of a million', filled(17), ROOM, refused(13, 0), none, about(filled(1000000), 2n ** 64n - 1n));
}

function wrongWords() {
    const wrong = ['BRM;1', null, undefined, 7, [66, 82], new ArrayBuffer(8), new Uint16Array(8), new Uint8ClampedArray(8)];
    for (const value of wrong) {
        for (const margin of ['margin', 'marginFull']) {
            assert.throws(() => kit[margin](value), { name: 'TypeError', message: /^the sheet is a Uint8Array, not / });
        }
        for (const call of ['call', 'callFull']) {
            assert.throws(() => kit[call](value, new Uint8Array(ROOM)), { name: 'TypeError', message: /^the sheet is a / });
            assert.throws(() => kit[call](none, value), { name: 'TypeError', message: /^the report buffer is a Uint8Array, not / });
        }
        assert.throws(() => kit.explain(value, none, 6), { name: 'TypeError', message: /^the sheet is a Uint8Array, not / });
        assert.throws(() => kit.explain(none, value, 6), { name: 'TypeError', message: /^the currency is a Uint8Array, not / });
        assert.throws(() => kit.callExplain(none, none, 6, value), { name: 'TypeError', message: /^the report buffer is a / });
    }
    for (const value of [-1, 0.5, NaN, 2 ** 53, '6', null, undefined, -1n, 2n ** 64n]) {
        assert.throws(() => kit.explain(none, none, value), { name: 'TypeError', message: /^the class is a whole number of / });
    }
    for (const { answer } of [quiet, full, about(none, 6)]) {
        for (const room of [-1, 0.5, NaN, Infinity, '32768', 32768n, null]) {
            assert.throws(() => answer(none, room), { name: 'TypeError', message: /^the room for the report is a whole number/ });
        }
        for (const room of [2 ** 32, 2 ** 40]) assert.throws(() => answer(none, room), { name: 'RangeError' });
    }
    holdBoth('a sheet after wrong words', none, ROOM, refused(3, 1), none);
}

// A module of kit.wasm's form whose three entries only trap: twice (func (param i32 i64 i32 i64) (result i64) unreachable), and
// the same with (param i32 i64 i32 i64 i64 i32 i64)
function trapping() {
    const section = (id, ...bytes) => [id, bytes.length, ...bytes];
    const name = (word) => [word.length, ...new TextEncoder().encode(word)];
    const entries = [...name('brm_margin'), 0, 0, ...name('brm_margin_full'), 0, 1, ...name('brm_explain'), 0, 2];
    const memory = [...name('memory'), 2, 0, ...name('__heap_base'), 3, 0];
    return Uint8Array.from([
        0, 0x61, 0x73, 0x6d, 1, 0, 0, 0,
        ...section(1, 2, 0x60, 4, 0x7f, 0x7e, 0x7f, 0x7e, 1, 0x7e, 0x60, 7, 0x7f, 0x7e, 0x7f, 0x7e, 0x7e, 0x7f, 0x7e, 1, 0x7e),
        ...section(3, 3, 0, 0, 1),
        ...section(5, 1, 0, 1),
        ...section(6, 1, 0x7f, 0, 0x41, 0, 0x0b),
        ...section(7, 5, ...entries, ...memory),
        ...section(10, 3, 3, 0, 0x00, 0x0b, 3, 0, 0x00, 0x0b, 3, 0, 0x00, 0x0b),
    ]);
}

// After a trap no entry is called again
async function trap() {
    const calls = [(kit) => kit.margin(none), (kit) => kit.marginFull(none), (kit) => kit.explain(none, none, 6)];
    for (const first of calls) {
        const stopping = await load(trapping());
        assert.throws(() => first(stopping), WebAssembly.RuntimeError);
        for (const next of calls) {
            assert.throws(() => next(stopping), /^Error: the kit was stopped in an earlier call: load it again$/);
        }
    }
}

// What the deepest call so far took of the stack, in bytes; half of it is to stay free
function deepest() {
    const used = STACK - stack().findIndex((byte) => byte !== PAINT);
    assert.ok(used <= STACK / 2, `a call took ${used} bytes of a stack of ${STACK}`);
    return used;
}

assert.equal(process.argv.length, 3, 'usage: node hosts/web/test.mjs ANSWERS');
const [written, asked] = ['cases', 'questions'].map(cases);
const { sheets, questions } = generated(process.argv[2]);
borders();
wrongWords();
await trap();
same(constants(), constantsBefore, 'the constants');
const told = ([accepted, ...refusals]) =>
    [`accepted ${accepted}`, ...refusals.map((count, at) => `refused ${at + 1}: ${count}`)].join(', ');
console.log(`kit.wasm: ${written} cases, quiet and full, and ${asked} questions; generated sheets: ${told(sheets)}`);
console.log(`kit.wasm: generated questions: ${told(questions)}`);
console.log(`kit.wasm: every byte as expected; the deepest call took ${deepest()} of ${STACK} bytes of stack`);
