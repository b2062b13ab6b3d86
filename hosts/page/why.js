// Why the margin of a class is what it is, from the kit's explanation: its securities' nets, the rows that took something, and
// what remained. The positions before offsetting, and the margin, are the reports'.
import { count, whole } from './amounts.js';
import { element, the, whenPressed } from './element.js';
import { showNets, showTaken } from './tables.js';

const SETTER = { L: 'the long, which is the larger', S: 'the short, which is the larger', E: 'both sides, which are equal' };

/**
 * Shows the reason for a class in a currency: the explanation, the class's lines in the full reports before and after
 * offsetting, and the sheet's lines, where its deposit factor and the priority rows stand.
 */
export function showReason({ nets, rows, side, amount }, before, after, lines) {
    const { currency, number, margin } = after;
    const factor = lines.find((row) => row.startsWith(`C;${number};`)).split(';')[4]; // ten-thousandths
    const both = ({ long, short }) => `long ${whole(long, currency)}, short ${whole(short, currency)}`;
    const netTable = table('Nets of its securities', ['Security'], ['Net']);
    showNets(netTable.tBodies[0], nets, currency);
    const takenTable = table('What priority rows took', ['Line', 'Row'], ['Off the long', 'Off the short']);
    showTaken(takenTable.tBodies[0], rows, currency, lines);
    the('why').replaceChildren(
        element('h3', { id: 'why-title', tabindex: -1 }, `Why class ${number} has a margin of ${whole(margin, currency)}`),
        element('h4', {}, `Before offsetting: ${both(before)}`),
        nets.length > 0 ? netTable : element('p', {}, 'No security of the class has a net.'),
        element('h4', {}, 'Taken by priority rows'),
        rows.length > 0 ? takenTable : element('p', {}, 'No row took anything from the class.'),
        element('h4', {}, `Remains: ${both(after)}`),
        element(
            'p',
            {},
            `The margin is set by ${SETTER[side]}: ${whole(amount, currency)}. The class's deposit factor is ` +
                `${count(factor)} ten-thousandths, and that share of it, rounded, is ${whole(margin, currency)}.`,
        ),
        element('p', { class: 'tools' }, element('button', { type: 'button', 'data-close': '' }, 'Close')),
    );
    the('why').hidden = false;
}

/** Calls back when the reason is closed. */
export function whenClosed(closed) {
    whenPressed('why', ({ close }) => {
        if (close !== undefined) closed();
    });
}

/** Hides it. */
export function hideReason() {
    the('why').hidden = true;
    the('why').replaceChildren();
}

// A table by what it is called, with its heads, those of amounts last
function table(called, names, amounts) {
    const heads = [
        ...names.map((name) => element('th', { scope: 'col' }, name)),
        ...amounts.map((name) => element('th', { scope: 'col', class: 'amount' }, name)),
    ];
    return element('table', { 'aria-label': called }, element('thead', {}, element('tr', {}, ...heads)), element('tbody'));
}
