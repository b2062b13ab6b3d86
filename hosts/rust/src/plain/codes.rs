//! Codes of securities: their form, and the check digit of ISO 6166.

/// Two letters A-Z, nine of A-Z and 0-9, one digit; and the last digit is right for the others.
pub fn is_code(code: &[u8; 12]) -> bool {
    is_formed(code) && check_sum(code).is_multiple_of(10)
}

fn is_formed(code: &[u8; 12]) -> bool {
    let letter = |byte: u8| byte.wrapping_sub(b'A') < 26;
    let digit = |byte: u8| byte.wrapping_sub(b'0') < 10;
    let mut formed = letter(code[0]) & letter(code[1]) & digit(code[11]);
    for &byte in &code[2..11] {
        formed &= letter(byte) | digit(byte);
    }
    formed
}

/// The sum of a well formed code's digits, from the right, every second one doubled. A letter is two digits, so only a
/// digit changes which ones are doubled before it; and with a table the processor has nothing to guess.
fn check_sum(code: &[u8; 12]) -> u32 {
    let mut sum = 0;
    let mut doubled = 0; // 1 where the next digit to the left is doubled
    for &byte in code.iter().rev() {
        sum += ADDS[byte as usize][doubled] as u32;
        doubled ^= (byte <= b'9') as usize;
    }
    sum
}

/// What a letter or digit adds to the sum, by its byte: with its last digit single, and with it doubled.
static ADDS: [[u8; 2]; 256] = {
    let mut adds = [[0; 2]; 256];
    let mut value = 0;
    while value < 36 {
        let byte = if value < 10 { b'0' + value } else { b'A' + value - 10 };
        let (tens, units) = (value / 10, value % 10);
        adds[byte as usize] = [twice(tens) + units, tens + twice(units)];
        value += 1;
    }
    adds
};

/// What a doubled digit adds: from 5 on it is 1 and a digit, which is 9 less than the number.
const fn twice(digit: u8) -> u8 {
    if digit < 5 {
        2 * digit
    } else {
        2 * digit - 9
    }
}
