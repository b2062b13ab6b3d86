//! Tables and figures to the report's lines, written straight into the lent buffer.

use super::figures::Figures;
use super::tables::{Tables, CURRENCIES};

/// Writes the report at the buffer's start and gives its length in bytes. A full one has a K line for every class, a
/// quiet one none of zeros. The buffer has room for any report.
pub fn write(tables: &Tables, figures: &Figures, full: bool, report: &mut [u8]) -> usize {
    let mut pen = Pen::new(report);
    for (trade, &mark) in tables.trades[..tables.trade_count].iter().zip(&figures.marks) {
        let security = &tables.securities[trade.security as usize];
        let [a, b, c] = tables.currencies[security.currency as usize];
        pen.text(b"M;");
        pen.number(trade.line as u64);
        pen.text(&[b';', a, b, c, b';']);
        pen.signed(mark);
        pen.text(b"\n");
    }
    for &place in &by_name(tables)[..tables.currency_count] {
        currency(&mut pen, tables, figures, full, place);
    }
    pen.length()
}

/// The K lines and the Z line of one currency.
fn currency(pen: &mut Pen, tables: &Tables, figures: &Figures, full: bool, place: usize) {
    let [a, b, c] = tables.currencies[place];
    let figures = &figures.currencies[place];
    for (at, class) in tables.classes[..tables.class_count].iter().enumerate() {
        let (long, short, margin) = (figures.long[at], figures.short[at], figures.margin[at]); // whole units
        if !full && (long, short, margin) == (0, 0, 0) {
            continue;
        }
        pen.text(&[b'K', b';', a, b, c, b';']);
        pen.number(class.number as u64);
        pen.text(b";");
        pen.number(long);
        pen.text(b";");
        pen.number(short);
        pen.text(b";");
        pen.number(margin);
        pen.text(b"\n");
    }
    pen.text(&[b'Z', b';', a, b, c, b';']);
    pen.signed(figures.mark);
    pen.text(b";");
    pen.number(figures.initial);
    pen.text(b";");
    pen.number(figures.total);
    pen.text(b"\n");
}

/// The places of the currencies, by rising name.
fn by_name(tables: &Tables) -> [usize; CURRENCIES] {
    let mut places = [0, 1, 2, 3, 4, 5, 6, 7];
    places[..tables.currency_count].sort_unstable_by_key(|&place| tables.currencies[place]);
    places
}

/// 00 to 99: digits are written in pairs.
const PAIRS: [[u8; 2]; 100] = {
    let mut pairs = [[0; 2]; 100];
    let mut value = 0;
    while value < 100 {
        pairs[value] = [b'0' + value as u8 / 10, b'0' + value as u8 % 10];
        value += 1;
    }
    pairs
};

/// Writes into the lent buffer, from its start on.
pub struct Pen<'a> {
    report: &'a mut [u8],
    at: usize, // bytes
}

impl<'a> Pen<'a> {
    pub fn new(report: &'a mut [u8]) -> Self {
        Pen { report, at: 0 }
    }

    /// Of what is written, in bytes.
    pub fn length(&self) -> usize {
        self.at
    }

    #[inline(always)]
    pub fn text<const N: usize>(&mut self, text: &[u8; N]) {
        self.report[self.at..self.at + N].copy_from_slice(text);
        self.at += N;
    }

    #[inline(always)]
    pub fn signed(&mut self, value: i64) {
        if value < 0 {
            self.text(b"-");
        }
        self.number(value.unsigned_abs());
    }

    #[inline(always)]
    pub fn number(&mut self, mut value: u64) {
        let length = value.checked_ilog10().map_or(1, |power| power as usize + 1);
        let field = &mut self.report[self.at..self.at + length];
        self.at += length;
        let mut left = length;
        while value >= 100 {
            field[left - 2..left].copy_from_slice(&PAIRS[(value % 100) as usize]);
            value /= 100;
            left -= 2;
        }
        if value >= 10 {
            field[..2].copy_from_slice(&PAIRS[value as usize]);
        } else {
            field[0] = b'0' + value as u8;
        }
    }
}
