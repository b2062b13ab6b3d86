//! Texts that a field must not have, each with the refusal it earns: numbers out of range or ill written, letters that
//! are none, codes and currencies a byte off, codes with a wrong digit, dates that are no days.

use super::chance::Chance;
use super::codes::{is_code, slip};

/// What stands in a field, as document 01 has it for the rows.
#[derive(Clone, Copy)]
pub enum Kind {
    Number(u64, u64), // lowest and highest
    Payments,
    Signed(u64), // furthest from zero
    Letter(&'static [u8]),
    Currency,
    Code,
    Date,
    Blank,
}

const CLASS: Kind = Kind::Number(1, 40);
const FACTOR: Kind = Kind::Number(0, 10_000);
const YEARS: Kind = Kind::Number(1, 1_000_000);
const KINDS: Kind = Kind::Letter(b"GCIF");

/// The field at that place of a row, the letter being place 0, given the whole row.
pub fn kind(row: &[&[u8]], place: usize) -> Kind {
    let years = |kind: &[u8]| if kind == b"G" || kind == b"C" { YEARS } else { Kind::Blank };
    let repo = row.get(1).is_some_and(|letter| *letter == b"R");
    match (row[0].first(), place) {
        (Some(b'C'), 1) => CLASS,
        (Some(b'C'), 2) => KINDS,
        (Some(b'C'), 3) => years(row[2]),
        (Some(b'C'), _) => FACTOR,
        (Some(b'O'), 1 | 2) => CLASS,
        (Some(b'O'), _) => FACTOR,
        (Some(b'S'), 1) => Kind::Code,
        (Some(b'S'), 2) => Kind::Currency,
        (Some(b'S'), 3) => KINDS,
        (Some(b'S'), 4) => years(row[3]),
        (Some(b'S'), 5) => Kind::Number(1, 20_000_000),
        (Some(b'S'), 6) => Kind::Number(0, 2_000_000),
        (Some(b'S'), 7) => Kind::Payments,
        (Some(b'T'), 1) => Kind::Letter(b"RC"),
        (Some(b'T'), 2) => Kind::Letter(b"SP"),
        (Some(b'T'), 3) => Kind::Code,
        (Some(b'T'), 4) => Kind::Number(1, 100_000_000),
        (Some(b'T'), 5) => Kind::Number(1, 30_000_000_000),
        (Some(b'T'), 7 | 8) if !repo => Kind::Blank,
        (Some(b'T'), 8) => Kind::Signed(200_000),
        _ => Kind::Date,
    }
}

/// A text for the field that is refused, by 6 or by 7, made from the good one that stood there.
pub fn bad(chance: &mut Chance, kind: Kind, good: &[u8]) -> (Vec<u8>, u64) {
    let good = if is_good(kind, good) { good } else { usual(kind) }; // it was spoiled before
    loop {
        let text = match kind {
            Kind::Number(low, high) => bad_number(chance, low, high, good),
            Kind::Payments if chance.one_in(2) => vec![*chance.pick(b"0356789")],
            Kind::Payments => bad_number(chance, 1, 4, good),
            Kind::Signed(most) => bad_signed(chance, most, good),
            Kind::Letter(_) => bad_letter(chance, good),
            Kind::Currency => bad_name(chance, good),
            Kind::Code => bad_code(chance, good),
            Kind::Date => bad_date(chance, good),
            Kind::Blank => filled(chance),
        };
        // What came out good by chance is made again.
        if !text.iter().any(|byte| b";\n".contains(byte)) && !is_good(kind, &text) {
            return (text, if matches!(kind, Kind::Date) { 7 } else { 6 });
        }
    }
}

/// Some good text.
fn usual(kind: Kind) -> &'static [u8] {
    match kind {
        Kind::Number(..) | Kind::Payments | Kind::Signed(_) => b"1",
        Kind::Letter(letters) => &letters[..1],
        Kind::Currency => b"EUR",
        Kind::Code => b"ZZ0000000016",
        Kind::Date => b"20190612",
        Kind::Blank => b"",
    }
}

fn is_good(kind: Kind, text: &[u8]) -> bool {
    match kind {
        Kind::Number(low, high) => number(text).is_some_and(|value| (low..=high).contains(&value)),
        Kind::Payments => [b"1", b"2", b"4"].iter().any(|good| text == *good),
        Kind::Signed(most) => match text.strip_prefix(b"-") {
            Some(size) => number(size).is_some_and(|value| (1..=most).contains(&value)),
            None => number(text).is_some_and(|value| value <= most),
        },
        Kind::Letter(letters) => text.len() == 1 && letters.contains(&text[0]),
        Kind::Currency => text.len() == 3 && text.iter().all(u8::is_ascii_uppercase),
        Kind::Code => is_code(text),
        Kind::Date => is_date(text),
        Kind::Blank => text.is_empty(),
    }
}

fn number(text: &[u8]) -> Option<u64> {
    let digits = text.iter().all(u8::is_ascii_digit) && !(text.len() > 1 && text[0] == b'0');
    digits.then(|| std::str::from_utf8(text).ok()?.parse().ok())?
}

fn is_date(text: &[u8]) -> bool {
    if text.len() != 8 || !text.iter().all(u8::is_ascii_digit) {
        return false;
    }
    let part = |from: usize, to: usize| text[from..to].iter().fold(0, |sum, byte| 10 * sum + (byte - b'0') as u32);
    let (year, month, day) = (part(0, 4), part(4, 6), part(6, 8));
    let leap = year % 400 == 0 || (year % 4 == 0 && year % 100 != 0);
    let length = match month {
        2 => 28 + leap as u32,
        4 | 6 | 9 | 11 => 30,
        1..=12 => 31,
        _ => 0,
    };
    (2_000..2_400).contains(&year) && (1..=length).contains(&day)
}

/// Bytes next to digits and letters in the code table, blanks, signs, and bytes that are no text.
const STRANGE: &[u8] = b"/:@[/:@[`{ +-.,\r\t\0aAzZ09\x7f\x80\xb0\xff";

/// A text with one byte changed, taken out or put in.
fn altered(chance: &mut Chance, good: &[u8]) -> Vec<u8> {
    let mut text = good.to_vec();
    let at = chance.place(text.len() + 1);
    match chance.below(3) {
        0 if at < text.len() => text[at] = *chance.pick(STRANGE),
        1 if at < text.len() => drop(text.remove(at)),
        _ => text.insert(at, *chance.pick(STRANGE)),
    }
    text
}

fn bad_number(chance: &mut Chance, low: u64, high: u64, good: &[u8]) -> Vec<u8> {
    let value = number(good).unwrap_or(low) as u128;
    let put = |value: u128| value.to_string().into_bytes();
    match chance.below(16) {
        0 => Vec::new(),
        1 | 2 => put((low as u128).saturating_sub(1)),
        3..=5 => put(high as u128 + 1),
        6 => [b"0", good].concat(),
        7 => [b"-", good].concat(),
        8 => put(value + (1u128 << *chance.pick(&[8, 16, 31, 32, 63, 64, 65]))), // good again where it wraps
        9 => put(value + 10u128.pow(*chance.pick(&[18, 19, 20, 21, 38]))),
        10 => put((1u128 << *chance.pick(&[32, 63, 64])) - chance.below(2) as u128),
        11 => [good, b"\r"].concat(),
        12 => vec![*chance.pick(b"09"); 2 + chance.below(60) as usize],
        13 => put(high as u128 + 1 + chance.below(1 << 40) as u128),
        _ => altered(chance, good),
    }
}

fn bad_signed(chance: &mut Chance, most: u64, good: &[u8]) -> Vec<u8> {
    let put = |value: u64| [b"-", value.to_string().as_bytes()].concat();
    match chance.below(10) {
        0 => b"-0".to_vec(),
        1 => b"-".to_vec(),
        2 => put(most + 1),
        3 => [b"-", good].concat(),
        4 => [b"+", good].concat(),
        5 => [b"-0", good].concat(),
        6 => put(u64::MAX - chance.below(most)), // small again where it wraps
        7 => [good, b"-"].concat(),
        _ => bad_number(chance, 0, most, good.strip_prefix(b"-").unwrap_or(good)),
    }
}

fn bad_letter(chance: &mut Chance, good: &[u8]) -> Vec<u8> {
    match chance.below(6) {
        0 => Vec::new(),
        1 => good.to_ascii_lowercase(),
        2 => good.repeat(2),
        3 => vec![good[0].wrapping_add(chance.below(256) as u8)],
        4 => vec![b'A' + chance.below(26) as u8],
        _ => altered(chance, good),
    }
}

fn bad_name(chance: &mut Chance, good: &[u8]) -> Vec<u8> {
    match chance.below(10) {
        0 => Vec::new(),
        1 => good.to_ascii_lowercase(),
        2 => good[1..].to_vec(),
        3 => [good, &good[good.len() - 1..]].concat(),
        4 => [&good[..good.len() - 1], b"A"].concat(),
        5 => [b"0", &good[1..]].concat(),
        _ => altered(chance, good),
    }
}

fn bad_code(chance: &mut Chance, good: &[u8]) -> Vec<u8> {
    let slipped = good.try_into().ok().and_then(|code| slip(chance, code));
    slipped.map_or_else(|| bad_name(chance, good), |code| code.to_vec())
}

fn bad_date(chance: &mut Chance, good: &[u8]) -> Vec<u8> {
    let mut text = good.to_vec();
    let mut put = |at: usize, part: &[u8]| text[at..at + part.len()].copy_from_slice(part);
    match chance.below(14) {
        0 => return Vec::new(),
        1 => put(4, *chance.pick(&[b"00", b"13", b"99", b"20"])),
        2 => put(6, *chance.pick(&[b"00", b"32", b"99"])),
        3 => put(4, *chance.pick(&[b"0230", b"0231", b"0431", b"0631", b"0931", b"1131"])),
        4 => put(4, b"0229"), // of a year that may lack it
        5 => return [*chance.pick(&[b"2100", b"2200", b"2300", b"2001", b"2399"]), b"0229".as_slice()].concat(),
        6 => put(0, *chance.pick(&[b"1999", b"2400", b"0000", b"9999", b"1900", b"2999"])),
        7 => return text[1..].to_vec(),
        8 => return [good, *chance.pick(&[b"0", b"1", b" ", b"\r"])].concat(),
        9 => return [*chance.pick(&[b"0", b" ", b"-", b"+"]), good].concat(),
        10 => return [&good[..4], b"-", &good[4..6], b"-", &good[6..]].concat(),
        _ => return altered(chance, good),
    }
    text
}

/// For a field that must be blank.
fn filled(chance: &mut Chance) -> Vec<u8> {
    let texts: [&[u8]; 8] = [b"0", b"1", b" ", b"\r", b"20190701", b"-", b"G", b"1000000"];
    chance.pick(&texts).to_vec()
}
