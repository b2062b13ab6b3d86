// The priority rows of an accepted sheet: moved up and down, left out, and whether an order is harmless by demand 3: each class
// still meets the rows that name it, the same rows in the same order.
import { linesOf } from './report.js';

/**
 * The priority rows of a sheet's text: where each stands, from 1, what it says, and the two classes and the factor it names.
 */
export function priorityRows(text) {
    return linesOf(text).flatMap((row, place) => {
        if (!isPriority(row)) return [];
        const [, first, second, factor] = row.split(';');
        return [{ line: place + 1, row, first, second, factor }];
    });
}

/** The text with the row of a line and the one above it (by -1) or below it (by 1) in each other's place. */
export function moved(text, line, by) {
    const lines = text.split('\n');
    const [place, other] = [line - 1, line - 1 + by];
    [lines[place], lines[other]] = [lines[other], lines[place]];
    return lines.join('\n');
}

/** The text without its priority rows. What the kit says of it are the positions before offsetting. */
export function withoutPriorities(text) {
    return text.split('\n').filter((row) => !isPriority(row)).join('\n');
}

/**
 * The classes that meet other rows, or the same in another order: each with the rows before and after. None: it is harmless.
 */
export function disturbed(before, after) {
    const [met, meets] = [meetings(before), meetings(after)];
    const numbers = [...new Set([...met.keys(), ...meets.keys()])].sort((one, other) => one - other);
    return numbers
        .map((number) => ({ number, before: met.get(number) ?? [], after: meets.get(number) ?? [] }))
        .filter((its) => its.before.join('\n') !== its.after.join('\n'));
}

function isPriority(row) {
    return row.startsWith('O;');
}

// For each class that a row names the rows that name it, in their order
function meetings(text) {
    const rows = new Map();
    for (const { row, first, second } of priorityRows(text)) {
        for (const number of new Set([first, second])) rows.set(number, [...(rows.get(number) ?? []), row]);
    }
    return rows;
}
