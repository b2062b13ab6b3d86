// A sheet is bytes, and a text box holds text: it would take CR and LF for LF alone, and drop what is no text. So a byte that
// it would not keep has a sign that stands for it, and every byte comes back out of the box as it went in.

const SEEN = /^[\t\n \p{L}\p{M}\p{N}\p{P}\p{S}]*$/u; // what can be seen in a box, and kept; no blank but these
const CONTROL = 0x2400; // where Unicode has a picture for each byte below 32: the sign of CR is U+240D
const DELETE = 0x2421; // the picture for byte 127
const HIGH = 0x2800; // where it has a Braille sign for each byte: those from 128 on
const SIGNS = /[\u2400-\u241f\u2421\u2880-\u28ff]/;

/** The text that stands for the bytes in a text box. */
export function textOf(bytes) {
    const text = decoded(bytes);
    return text !== undefined && SEEN.test(text) && !SIGNS.test(text) ? text : Array.from(bytes, sign).join('');
}

/** The bytes that a text stands for: what `textOf` was given, or what was typed, in UTF-8 but for the signs. */
export function bytesOf(text) {
    if (!SIGNS.test(text)) return new TextEncoder().encode(text);
    return Uint8Array.from(Array.from(text).flatMap((letter) => byte(letter) ?? Array.from(new TextEncoder().encode(letter))));
}

/** Whether a text has a sign in it that stands for a byte. */
export function hasSigns(text) {
    return SIGNS.test(text);
}

function decoded(bytes) {
    try {
        return new TextDecoder('utf-8', { fatal: true, ignoreBOM: true }).decode(bytes);
    } catch {
        return undefined;
    }
}

function sign(byte) {
    if (byte === 0x7f) return String.fromCharCode(DELETE);
    if (byte >= 0x80) return String.fromCharCode(HIGH + byte);
    const kept = byte >= 0x20 || byte === 0x09 || byte === 0x0a;
    return String.fromCharCode(kept ? byte : CONTROL + byte);
}

function byte(letter) {
    if (!SIGNS.test(letter)) return undefined;
    const code = letter.charCodeAt(0);
    if (code === DELETE) return 0x7f;
    return code >= HIGH ? code - HIGH : code - CONTROL;
}
