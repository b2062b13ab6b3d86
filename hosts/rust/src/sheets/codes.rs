//! Codes with their check digit, and the slips that make it wrong. The digit is reckoned as the rule is worded, in
//! another way than the plain implementation's, so that each checks the other.

use super::chance::Chance;

/// The last digit of a well formed code by ISO 6166, as it is written.
pub fn check_digit(code: &[u8; 12]) -> u8 {
    let mut digits = Vec::with_capacity(22); // two for each letter
    for &byte in &code[..11] {
        match byte {
            b'A'..=b'Z' => digits.extend([(byte - b'A' + 10) / 10, (byte - b'A' + 10) % 10]),
            _ => digits.push(byte - b'0'),
        }
    }
    for digit in digits.iter_mut().rev().step_by(2) {
        *digit *= 2;
    }
    let sum: u8 = digits.iter().map(|number| number / 10 + number % 10).sum();
    let to_ten = (10 - sum % 10) % 10; // what the sum lacks
    b'0' + to_ten
}

/// Two letters, nine letters or digits, one digit, be it right or not.
fn is_formed(code: &[u8; 12]) -> bool {
    let upper_or_digit = |byte: &u8| byte.is_ascii_uppercase() || byte.is_ascii_digit();
    code[..2].iter().all(u8::is_ascii_uppercase) && code[2..].iter().all(upper_or_digit) && code[11].is_ascii_digit()
}

/// Whether a text is a code, with its last digit right.
pub fn is_code(text: &[u8]) -> bool {
    text.try_into().is_ok_and(|code| is_formed(code) && code[11] == check_digit(code))
}

/// The code with its last digit made right.
pub fn checked(mut code: [u8; 12]) -> [u8; 12] {
    code[11] = check_digit(&code);
    code
}

/// A well formed code with a wrong digit, by one slip of a clerk: a digit changed, the last one or one before it, or
/// two neighbours swapped. None where the slip leads to no such code.
pub fn slip(chance: &mut Chance, code: &[u8; 12]) -> Option<[u8; 12]> {
    let mut slipped = *code;
    match chance.below(4) {
        0 => slipped[11] = b'0' + chance.below(10) as u8,
        1 => {
            let at = chance.between(2, 10) as usize;
            if !code[at].is_ascii_digit() {
                return None;
            }
            slipped[at] = b'0' + chance.below(10) as u8;
        }
        _ => {
            let at = chance.below(11) as usize;
            slipped.swap(at, at + 1);
        }
    }
    (is_formed(&slipped) && !is_code(&slipped)).then_some(slipped)
}

/// The code with a 0 and a 9 swapped that are neighbours, if it has them: the digit is right for both.
pub fn hidden_slip(chance: &mut Chance, code: &[u8; 12]) -> Option<[u8; 12]> {
    let pairs: Vec<usize> = (2..11).filter(|&at| matches!(code[at..at + 2], [b'0', b'9'] | [b'9', b'0'])).collect();
    if pairs.is_empty() {
        return None;
    }
    let at = *chance.pick(&pairs);
    let mut slipped = *code;
    slipped.swap(at, at + 1);
    Some(slipped)
}
