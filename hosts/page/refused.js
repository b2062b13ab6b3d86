// A refusal in words: what docs/REFUSALS.md says of its number, and the refused line field by field.
import { textOf } from './bytes.js';
import { goToLine } from './editor.js';
import { element, the } from './element.js';
import { lineOf, refusalFor, rowOf } from '../web/refusals.js';

const SHOWN = 400; // letters of a line, of which the longest has 65,536

/** Shows a refusal of a sheet's bytes, by the table's entries; gives what to say of it in one sentence. */
export function showRefusal(entries, bytes, { number, line }) {
    const row = rowOf(bytes, line);
    const { meaning, should } = refusalFor(entries, number, row);
    const refused = textOf(lineOf(bytes, line));
    the('meaning').textContent = meaning;
    the('should').textContent = should;
    the('refused-line').textContent = cut(refused);
    the('refused-line').hidden = refused === '';
    const listed = fieldsOf(entries, row);
    showFields(refused.split(';').slice(1), listed);
    // What is said field by field is not said twice
    the('should').hidden = the('should-title').hidden = should === listed;
    the('go').hidden = line === 0;
    the('go').textContent = `Go to line ${line}`;
    the('go').onclick = () => goToLine(line);
    return `Refused, number ${number}${line > 0 ? ` on line ${line}` : ''}: ${meaning}.`;
}

// What the fields of a row should be: the table lists them, by their names, where one of them can be ill formed
function fieldsOf(entries, row) {
    return row === '' ? '' : refusalFor(entries, row === 'D' ? 7 : 6, row).should;
}

function showFields(fields, listed) {
    const rules = listed === '' ? [] : listed.split('; ').map((rule) => rule.split(': '));
    const count = rules.length && Math.min(Math.max(fields.length, rules.length), 2 * rules.length);
    const rows = Array.from({ length: count }, (_, place) => {
        const [name, rule] = rules[place] ?? ['', 'nothing: one field too many'];
        const stands = fields[place] === undefined ? 'missing' : fields[place] === '' ? 'blank' : undefined;
        return element(
            'tr',
            {},
            element('th', { scope: 'row' }, name),
            element('td', {}, stands ? element('i', {}, stands) : element('code', {}, cut(fields[place]))),
            element('td', {}, rule),
        );
    });
    the('fields').hidden = count === 0;
    the('fields').tBodies[0].replaceChildren(...rows);
}

function cut(text) {
    return text.length > SHOWN ? `${text.slice(0, SHOWN)}…` : text;
}
