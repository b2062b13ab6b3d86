// The kit's texts by their lines. Every figure stays the digits that the kit wrote: nothing is reckoned with them.

/** A report: trades (M), classes (K) and totals (Z), each in the order of the report. */
export function reportIn(text) {
    const report = { trades: [], classes: [], totals: [] };
    for (const line of linesOf(text)) {
        const [letter, ...fields] = line.split(';');
        if (letter === 'M') report.trades.push(named(fields, 'line', 'currency', 'mark'));
        if (letter === 'K') report.classes.push(named(fields, 'currency', 'number', 'long', 'short', 'margin'));
        if (letter === 'Z') report.totals.push(named(fields, 'currency', 'mark', 'initial', 'total'));
    }
    return report;
}

/** An explanation: nets (P), rows that took something (R), and the side that sets the margin with its amount (B). */
export function explanationIn(text) {
    const explanation = { nets: [], rows: [] };
    for (const line of linesOf(text)) {
        const [letter, ...fields] = line.split(';');
        if (letter === 'P') explanation.nets.push(named(fields, 'code', 'net'));
        if (letter === 'R') explanation.rows.push(named(fields, 'line', 'offLong', 'offShort'));
        if (letter === 'B') Object.assign(explanation, named(fields, 'side', 'amount'));
    }
    return explanation;
}

/** What a line of a report is about: the trade, the class in its currency, or the currency. */
export function subjectOf(line) {
    const [letter, ...fields] = line.split(';');
    return [letter, ...fields.slice(0, letter === 'Z' ? 1 : 2)].join(';');
}

/** The lines of a text, each without its LF. Behind the last LF there is no further line, unless something stands there. */
export function linesOf(text) {
    const lines = text.split('\n');
    if (lines.at(-1) === '') lines.pop();
    return lines;
}

function named(fields, ...names) {
    return Object.fromEntries(names.map((name, place) => [name, fields[place]]));
}
