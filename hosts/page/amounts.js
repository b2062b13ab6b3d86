// Amounts for reading, from the kit's digits: whole units without a point, cents with one and two digits behind it, so that the
// two are never mistaken for each other. Digits are set apart and never reckoned with.

const MINUS = '\u2212'; // as it is printed, and read aloud

/** An amount of whole units: 810,160 EUR. */
export function whole(digits, currency) {
    return `${signed(digits, grouped)} ${currency}`;
}

/** An amount of cents: 10,281.70 EUR. */
export function cents(digits, currency) {
    return `${signed(digits, pointed)} ${currency}`;
}

/** A plain number: 5,000. */
export function count(digits) {
    return signed(digits, grouped);
}

function signed(digits, shown) {
    return digits.startsWith('-') ? MINUS + shown(digits.slice(1)) : shown(digits);
}

function grouped(digits) {
    return digits.replace(/\B(?=(\d{3})+$)/g, ',');
}

function pointed(digits) {
    const padded = digits.padStart(3, '0');
    return `${grouped(padded.slice(0, -2))}.${padded.slice(-2)}`;
}
