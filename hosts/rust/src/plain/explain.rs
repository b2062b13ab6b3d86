//! Why a class's margin in a currency is what it is (document 02, c): the nets of its securities, what each row of the
//! priority list took from it, and the remaining side that set the margin.

use super::figures::{net, offset_all, open, Figures, Taken};
use super::tables::{Offset, Refusal, Tables};
use super::write::Pen;
use std::cmp::Ordering;

/// A currency and a class of the sheet, by their places in the tables.
pub struct Asked {
    currency: u8,
    class: u8,
}

/// The places of a currency by any bytes and of a class by any number; refusal 13 where the sheet lacks one of them.
pub fn asked(tables: &Tables, currency: &[u8], class: u64) -> Result<Asked, Refusal> {
    let currency = tables.currencies[..tables.currency_count].iter().position(|name| name == currency);
    let class = tables.classes[..tables.class_count].iter().position(|known| known.number as u64 == class);
    match (currency, class) {
        (Some(currency), Some(class)) => Ok(Asked { currency: currency as u8, class: class as u8 }),
        _ => Err(Refusal { number: 13, line: 0 }),
    }
}

/// Writes the explanation at the buffer's start and gives its length in bytes. The buffer has room for any.
pub fn explain(tables: &Tables, asked: Asked, report: &mut [u8]) -> usize {
    let mut pen = Pen::new(report);
    let mut figures = Figures::ZERO;
    let nets = open(tables, &mut figures); // cents
    for (place, security) in tables.securities[..tables.security_count].iter().enumerate() {
        if security.currency == asked.currency && security.class == asked.class {
            net_line(&mut pen, tables.codes[place], net(nets[place]));
        }
    }
    let currency = &mut figures.currencies[asked.currency as usize];
    let first_line = 3 + tables.class_count; // of the O rows
    offset_all(tables, currency, |place, row, taken| {
        let (long, short) = off(row, taken, asked.class);
        taken_line(&mut pen, first_line + place, long, short);
    });
    setter_line(&mut pen, currency.long[asked.class as usize], currency.short[asked.class as usize]);
    pen.length()
}

/// What a row took off a class's long and off its short, whole units.
fn off(row: &Offset, taken: Taken, class: u8) -> (u64, u64) {
    match (row.first == class, row.second == class) {
        (true, true) => (taken.there, taken.there),
        (true, false) => (taken.there, taken.back),
        (false, true) => (taken.back, taken.there),
        (false, false) => (0, 0),
    }
}

/// The P line of a security, unless its net in whole units is zero.
fn net_line(pen: &mut Pen, code: u128, net: i64) {
    if net == 0 {
        return;
    }
    let [_, _, _, _, code @ ..] = code.to_be_bytes();
    pen.text(b"P;");
    pen.text(&code);
    pen.text(b";");
    pen.signed(net);
    pen.text(b"\n");
}

/// The R line of a row, unless it took nothing off the class; whole units.
fn taken_line(pen: &mut Pen, line: usize, long: u64, short: u64) {
    if long == 0 && short == 0 {
        return;
    }
    pen.text(b"R;");
    pen.number(line as u64);
    pen.text(b";");
    pen.number(long);
    pen.text(b";");
    pen.number(short);
    pen.text(b"\n");
}

/// The B line of the remaining sides, whole units.
fn setter_line(pen: &mut Pen, long: u64, short: u64) {
    pen.text(match long.cmp(&short) {
        Ordering::Greater => b"B;L;",
        Ordering::Less => b"B;S;",
        Ordering::Equal => b"B;E;",
    });
    pen.number(long.max(short));
    pen.text(b"\n");
}
