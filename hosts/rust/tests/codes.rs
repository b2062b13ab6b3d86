//! Check digits as the plain implementation and the generator reckon them, each in its own way: against codes that are
//! published, and by what holds of every code.

use gronnhyl_host::{plain, sheets};

/// Bonds and shares, and the code that document 01 makes up.
const PUBLISHED: [&[u8; 12]; 12] = [
    b"FR0011337880",
    b"ZZ0000000016",
    b"US0378331005",
    b"GB0002634946",
    b"DE0007164600",
    b"JP3633400001",
    b"AU0000XVGZA3",
    b"US88160R1014",
    b"GB00B03MLX29",
    b"IE00B4BNMY34",
    b"DE000BAY0017",
    b"DE000A1EWWW0",
];

/// Two of them with two digits swapped.
const SWAPPED: [&[u8; 12]; 2] = [b"FR0011337808", b"US0378330105"];

/// What both say of a well formed code.
fn is_right(code: &[u8; 12]) -> bool {
    let right = plain::is_code(code);
    assert_eq!(sheets::check_digit(code) == code[11], right, "{}", String::from_utf8_lossy(code));
    right
}

/// The last digits with which a code is right.
fn last_digits(code: &[u8; 12]) -> Vec<u8> {
    let mut code = *code;
    let mut right = |digit: &u8| {
        code[11] = *digit;
        is_right(&code)
    };
    (b'0'..=b'9').filter(&mut right).collect()
}

/// The codes of some largest sheets, with few letters and with many.
fn generated() -> Vec<[u8; 12]> {
    let of_sheet = |number: u64| {
        let sheet = String::from_utf8(sheets::largest(1, number)).expect("a valid sheet is plain text");
        let codes = sheet.lines().filter_map(|line| line.strip_prefix("S;"));
        codes.map(|row| row.as_bytes()[..12].try_into().expect("twelve bytes")).collect::<Vec<_>>()
    };
    (0..20).flat_map(of_sheet).collect()
}

#[test]
fn published_codes() {
    for code in PUBLISHED {
        assert_eq!(last_digits(code), [code[11]], "{}", String::from_utf8_lossy(code));
    }
    for code in SWAPPED {
        assert!(!is_right(code), "{}", String::from_utf8_lossy(code));
    }
}

/// Whatever stands before it, at every place every letter and digit.
#[test]
fn one_last_digit_of_ten() {
    const BYTES: &[u8] = b"ABCDEFGHIJKLMNOPQRSTUVWXYZ0123456789";
    for code in generated() {
        assert!(is_right(&code));
        for at in 0..11 {
            let mut code = code;
            for &byte in if at < 2 { &BYTES[..26] } else { BYTES } {
                code[at] = byte;
                assert_eq!(last_digits(&code).len(), 1, "{}", String::from_utf8_lossy(&code));
            }
        }
    }
}

/// A changed digit always shows, and two swapped digits do unless they are 0 and 9.
#[test]
fn slips_of_digits() {
    for code in generated() {
        for at in (2..12).filter(|&at| code[at].is_ascii_digit()) {
            let mut changed = code;
            for digit in (b'0'..=b'9').filter(|&digit| digit != code[at]) {
                changed[at] = digit;
                assert!(!is_right(&changed), "{}", String::from_utf8_lossy(&changed));
            }
        }
        for at in (2..11).filter(|&at| code[at..at + 2].iter().all(u8::is_ascii_digit)) {
            let mut swapped = code;
            swapped.swap(at, at + 1);
            let hidden = code[at] == code[at + 1] || code[at].abs_diff(code[at + 1]) == 9;
            assert_eq!(is_right(&swapped), hidden, "{}", String::from_utf8_lossy(&swapped));
        }
    }
}
