// What a refusal means, in the words of docs/REFUSALS.md, for a page and for the forecast in Node. It reads no file: the caller
// hands in the text.

const LF = 0x0a;
const SEMICOLON = 0x3b;
const ROWS = 'DCOST';
const ENTRY = /^\| *(\d+) *\| *([A-Z]?) *\| *([^|\n]*?) *\| *([^|\n]*?) *\|$/gm;

/** The entries of the table in docs/REFUSALS.md's text: { number, row, meaning, should }, with row '' where it is empty. */
export function refusalsIn(markdown) {
    return Array.from(markdown.matchAll(ENTRY), ([, number, row, meaning, should]) => (
        { number: Number(number), row, meaning, should }
    ));
}

/** The entry for a refusal of a line of that row, or else the one without a row, or else undefined. */
export function refusalFor(entries, number, row) {
    const entryOf = (letter) => entries.find((entry) => entry.number === number && entry.row === letter);
    return entryOf(row) ?? entryOf('');
}

/** The letter of a line of the sheet: its first field, where that is the letter of a row, and else ''. Line 0 is no line. */
export function rowOf(sheet /* Uint8Array */, line) {
    const [first, next] = lineOf(sheet, line); // bytes
    const letter = String.fromCharCode(first);
    return (next === undefined || next === SEMICOLON) && ROWS.includes(letter) ? letter : '';
}

/** The bytes of a line of the sheet, without its LF; none for line 0, and where the sheet ends above it. */
export function lineOf(sheet /* Uint8Array */, line) {
    let start = line === 0 ? sheet.length : 0; // bytes
    for (let above = 1; above < line; above++) {
        const end = sheet.indexOf(LF, start);
        start = end < 0 ? sheet.length : end + 1;
    }
    const end = sheet.indexOf(LF, start);
    return sheet.subarray(start, end < 0 ? sheet.length : end);
}
