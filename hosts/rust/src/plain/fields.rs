//! A cursor on the sheet that takes one field after another.
//!
//! On one line the smallest refusal counts, so a bad field does not end the line: it is noted and passed over, since a
//! later field may still show that the line has the wrong shape. Only that, refusal 5, ends a line at once, and every
//! function here says it by `None`: the sheet ended, or the field did not end in the byte asked for.

use super::codes::is_code;
use super::days;
use super::tables::{places_below, CODES};

/// Ends a field that is not the last of its line.
pub const PART: u8 = b';';
/// Ends the last field of a line.
pub const LINE: u8 = b'\n';

const NO_FAULT: u64 = u64::MAX;

pub struct Cursor<'a> {
    sheet: &'a [u8],
    at: usize,
    fault: u64, // the smallest refusal met on this line
}

impl<'a> Cursor<'a> {
    pub fn new(sheet: &'a [u8], at: usize) -> Self {
        Cursor { sheet, at, fault: NO_FAULT }
    }

    pub fn at_end(&self) -> bool {
        self.at == self.sheet.len()
    }

    /// Steps over `letter` and `;` where they stand next.
    #[inline(always)]
    pub fn begins(&mut self, letter: u8) -> bool {
        let here = self.peek::<2>() == Some(&[letter, PART]);
        if here {
            self.at += 2;
        }
        here
    }

    /// Notes a refusal of this line.
    #[inline(always)]
    pub fn refuse(&mut self, number: u64) {
        self.fault = self.fault.min(number);
    }

    #[inline(always)]
    pub fn refuse_if(&mut self, wrong: bool, number: u64) {
        if wrong {
            self.refuse(number);
        }
    }

    /// At the end of a line: its refusal, if it has one.
    #[inline(always)]
    pub fn verdict(&self) -> Result<(), u64> {
        if self.fault == NO_FAULT {
            Ok(())
        } else {
            Err(self.fault)
        }
    }

    /// A number of decimal digits from `low` to `high`, or refusal 6.
    #[inline(always)]
    pub fn number(&mut self, end: u8, low: u64, high: u64) -> Option<u64> {
        let rest = self.sheet.get(self.at..)?;
        // Twenty digits are beyond every range; where the sheet has as many bytes left, they need no further test.
        let (mut value, digits) = match rest.first_chunk::<20>() {
            Some(window) => leading_digits(window),
            None => leading_digits(rest),
        };
        self.at += digits;
        let formed = digits == 1 || (digits != 0 && digits <= 19 && rest[0] != b'0');
        if !formed || value < low || value > high {
            self.refuse(6);
            value = 0;
        }
        if *rest.get(digits)? == end {
            self.at += 1;
        } else {
            self.pass_over(end, 6)?;
        }
        Some(value)
    }

    /// A number with `-` before it where it is below zero, at most `most` from zero either way, or refusal 6.
    #[inline(always)]
    pub fn signed(&mut self, end: u8, most: u64) -> Option<i64> {
        let below = self.sheet.get(self.at) == Some(&b'-');
        self.at += below as usize;
        let value = self.number(end, below as u64, most)? as i64; // from 1 below zero, since -0 is no number
        Some(if below { -value } else { value })
    }

    /// The day of a date, or refusal 7.
    #[inline(always)]
    pub fn date(&mut self, end: u8) -> Option<u32> {
        if let Some(&[ref text @ .., stop]) = self.peek::<9>() {
            if let (Some(day), true) = (days::day(text), stop == end) {
                self.at += 9;
                return Some(day);
            }
        }
        self.pass_over(end, 7)?;
        Some(0)
    }

    /// A field of one byte, which the caller judges; or refusal 6.
    #[inline(always)]
    pub fn letter(&mut self, end: u8) -> Option<u8> {
        if let Some(&[letter, stop]) = self.peek::<2>() {
            if stop == end && letter != PART && letter != LINE {
                self.at += 2;
                return Some(letter);
            }
        }
        self.pass_over(end, 6)?;
        Some(0)
    }

    /// Three letters A-Z, or refusal 6.
    #[inline(always)]
    pub fn currency(&mut self) -> Option<[u8; 3]> {
        if let Some(&[a, b, c, PART]) = self.peek::<4>() {
            if a.is_ascii_uppercase() && b.is_ascii_uppercase() && c.is_ascii_uppercase() {
                self.at += 4;
                return Some([a, b, c]);
            }
        }
        self.pass_over(PART, 6)?;
        Some([0; 3])
    }

    /// A code as one number that orders as its bytes do, or refusal 6.
    #[inline(always)]
    pub fn code(&mut self) -> Option<u128> {
        if let Some(&[ref code @ .., PART]) = self.peek::<13>() {
            if is_code(code) {
                self.at += 13;
                return Some(code_key(code));
            }
        }
        self.pass_over(PART, 6)?;
        Some(0)
    }

    /// The place of a code among `codes`, which rise; refusal 10 for one that is not there, 6 for what is no code.
    /// Those in the table are codes with a right check digit, so one is looked at closely only when it is not found.
    #[inline(always)]
    pub fn place_of_code(&mut self, codes: &[u128; CODES]) -> Option<usize> {
        if let Some(&[ref code @ .., PART]) = self.peek::<13>() {
            let key = code_key(code);
            let place = places_below(codes, key);
            if codes[place] == key {
                self.at += 13;
                return Some(place);
            }
        }
        if self.code()? != 0 {
            self.refuse(10);
        }
        Some(0)
    }

    /// A field that must be blank, or refusal 6.
    #[inline(always)]
    pub fn blank(&mut self, end: u8) -> Option<()> {
        if self.sheet.get(self.at) == Some(&end) {
            self.at += 1;
            return Some(());
        }
        self.pass_over(end, 6)
    }

    /// The next `N` bytes, if the sheet has them.
    #[inline(always)]
    fn peek<const N: usize>(&self) -> Option<&'a [u8; N]> {
        self.sheet.get(self.at..)?.first_chunk()
    }

    /// Notes a bad field and steps over what is left of it.
    #[inline(always)]
    fn pass_over(&mut self, end: u8, number: u64) -> Option<()> {
        self.refuse(number);
        self.at = behind(self.sheet, self.at, end)?;
        Some(())
    }
}

/// The place behind the field that `at` stands in, if the field ends in `end`.
#[cold]
#[inline(never)]
fn behind(sheet: &[u8], at: usize, end: u8) -> Option<usize> {
    let length = sheet[at..].iter().position(|&byte| byte == PART || byte == LINE)?;
    (sheet[at + length] == end).then_some(at + length + 1)
}

/// The number that the digits at the start make, and how many they are.
#[inline(always)]
fn leading_digits(bytes: &[u8]) -> (u64, usize) {
    let mut value: u64 = 0;
    for (at, byte) in bytes.iter().enumerate() {
        let digit = byte.wrapping_sub(b'0');
        if digit > 9 {
            return (value, at);
        }
        value = value.wrapping_mul(10).wrapping_add(digit as u64);
    }
    (value, bytes.len())
}

#[inline(always)]
fn code_key(code: &[u8; 12]) -> u128 {
    let mut key = [0; 16];
    key[4..].copy_from_slice(code);
    u128::from_be_bytes(key)
}
