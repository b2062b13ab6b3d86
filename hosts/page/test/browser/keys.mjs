// The keys of a keyboard, by the names and numbers that each browser knows them by.

// Keys by name: their code, the number that DevTools knows them by, and the character that WebDriver does
const KEYS = {
    Enter: ['Enter', 13, '\uE006'],
    Tab: ['Tab', 9, '\uE004'],
    Space: ['Space', 32, ' '],
    Backspace: ['Backspace', 8, '\uE003'],
    Delete: ['Delete', 46, '\uE017'],
    Escape: ['Escape', 27, '\uE00C'],
    Home: ['Home', 36, '\uE011'],
    End: ['End', 35, '\uE010'],
    PageUp: ['PageUp', 33, '\uE00E'],
    PageDown: ['PageDown', 34, '\uE00F'],
    ArrowLeft: ['ArrowLeft', 37, '\uE012'],
    ArrowUp: ['ArrowUp', 38, '\uE013'],
    ArrowRight: ['ArrowRight', 39, '\uE014'],
    ArrowDown: ['ArrowDown', 40, '\uE015'],
    Shift: ['ShiftLeft', 16, '\uE008'],
    Control: ['ControlLeft', 17, '\uE009'],
    Alt: ['AltLeft', 18, '\uE00A'],
};
export const HELD = { Alt: 1, Control: 2, Shift: 8 }; // the bits by which DevTools says that they are
const MADE = { Enter: '\r', Space: ' ' }; // the characters of keys with a name

// The keys of an American keyboard that make neither letters nor a space: alone, with Shift, their codes, and their numbers
const PLAIN = '`1234567890-=[]\\;\',./';
const SHIFTED = '~!@#$%^&*()_+{}|:"<>?';
const CODES = [
    'Backquote', 'Digit1', 'Digit2', 'Digit3', 'Digit4', 'Digit5', 'Digit6', 'Digit7', 'Digit8', 'Digit9', 'Digit0', 'Minus',
    'Equal', 'BracketLeft', 'BracketRight', 'Backslash', 'Semicolon', 'Quote', 'Comma', 'Period', 'Slash',
];
const NUMBERS = [192, 49, 50, 51, 52, 53, 54, 55, 56, 57, 48, 189, 187, 219, 221, 220, 186, 222, 188, 190, 191];

/** What is done for a name such as Shift+Tab: the keys that are held, and the one that is pressed. */
export function stroke(name) {
    const held = name.split(/\+(?=.)/s);
    let key = held.pop();
    const wrong = held.find((other) => !Object.hasOwn(HELD, other));
    if (wrong) throw new TypeError(`${wrong} is not held in ${name}: of ${Object.keys(HELD).join(', ')}`);
    if (isLetter(key) && held.length > 0) key = held.includes('Shift') ? key.toUpperCase() : key.toLowerCase();
    const shifted = SHIFTED.includes(key) || (isLetter(key) && key === key.toUpperCase());
    if (shifted && !held.includes('Shift')) held.push('Shift');
    return { held: held.map(keyOf), pressed: keyOf(key) };
}

function isLetter(name) {
    return /^[A-Za-z]$/.test(name);
}

/** A key by its name or its character; one that no key makes comes as from a key without a code. */
function keyOf(name) {
    if (name === ' ') return keyOf('Space');
    if (Object.hasOwn(KEYS, name)) {
        const [code, number, sent] = KEYS[name];
        return { key: name === 'Space' ? ' ' : name, code, number, sent, text: MADE[name], bit: HELD[name] };
    }
    if ([...name].length !== 1) throw new TypeError(`no key is ${name}: a character, or of ${Object.keys(KEYS).join(', ')}`);
    const made = { key: name, sent: name, text: name };
    const capital = name.toUpperCase();
    if (isLetter(name)) return { ...made, code: `Key${capital}`, number: capital.charCodeAt(0) };
    const at = Math.max(PLAIN.indexOf(name), SHIFTED.indexOf(name));
    return { ...made, code: CODES[at] ?? '', number: NUMBERS[at] ?? 0 };
}
