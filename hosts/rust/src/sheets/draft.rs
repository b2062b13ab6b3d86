//! A sheet's rows as numbers, before they are written as text. Days count from 1 January 2000, other units are those
//! of the sheet; `None` is a blank field.

/// The last day that a date can name, 31 December 2399.
pub const LAST_DAY: i64 = 146_096;
/// The last calculation date, 20 December 2399.
pub const LAST_CALCULATION: i64 = 146_085;

#[derive(Clone)]
pub struct ClassRow {
    pub number: i64,
    pub kind: u8,
    pub border: Option<i64>,
    pub deposit: i64,
}

#[derive(Clone)]
pub struct OffsetRow {
    pub first: i64,
    pub second: i64,
    pub factor: i64,
}

#[derive(Clone, PartialEq)]
pub struct SecurityRow {
    pub code: [u8; 12],
    pub currency: [u8; 3],
    pub kind: u8,
    pub duration: Option<i64>,
    pub price: i64,
    pub coupon: i64,
    pub payments: i64,
    pub previous: i64,
    pub next: i64,
}

#[derive(Clone)]
pub struct TradeRow {
    pub repo: bool,
    pub seller: bool,
    pub code: [u8; 12],
    pub nominal: i64,
    pub amount: i64,
    pub first: i64,
    pub last: Option<i64>,
    pub rate: Option<i64>,
}

#[derive(Clone)]
pub struct Draft {
    pub calculation: i64,
    pub classes: Vec<ClassRow>,
    pub offsets: Vec<OffsetRow>,
    pub securities: Vec<SecurityRow>,
    pub trades: Vec<TradeRow>,
}

impl Draft {
    /// The lines of the sheet, each without its LF.
    pub fn lines(&self) -> Vec<Vec<u8>> {
        let mut lines = vec![b"BRM;1".to_vec(), [b"D;".as_slice(), &date(self.calculation)].concat()];
        lines.extend(self.classes.iter().map(|row| {
            let mut line = Line::new(b'C');
            line.number(row.number).bytes(&[row.kind]).maybe(row.border).number(row.deposit);
            line.0
        }));
        lines.extend(self.offsets.iter().map(|row| {
            let mut line = Line::new(b'O');
            line.number(row.first).number(row.second).number(row.factor);
            line.0
        }));
        lines.extend(self.securities.iter().map(|row| {
            let mut line = Line::new(b'S');
            line.bytes(&row.code).bytes(&row.currency).bytes(&[row.kind]).maybe(row.duration);
            line.number(row.price).number(row.coupon).number(row.payments);
            line.bytes(&date(row.previous)).bytes(&date(row.next));
            line.0
        }));
        lines.extend(self.trades.iter().map(|row| {
            let mut line = Line::new(b'T');
            line.bytes(if row.repo { b"R" } else { b"C" }).bytes(if row.seller { b"S" } else { b"P" });
            line.bytes(&row.code).number(row.nominal).number(row.amount).bytes(&date(row.first));
            match row.last {
                Some(last) => line.bytes(&date(last)),
                None => line.bytes(b""),
            };
            line.maybe(row.rate);
            line.0
        }));
        lines
    }

    /// The line of the first row of each section: C, O, S, T.
    pub fn starts(&self) -> [u64; 4] {
        let classes = 3;
        let offsets = classes + self.classes.len() as u64;
        let securities = offsets + self.offsets.len() as u64;
        [classes, offsets, securities, securities + self.securities.len() as u64]
    }
}

/// Lines to a sheet.
pub fn join(lines: &[Vec<u8>]) -> Vec<u8> {
    let mut sheet = Vec::with_capacity(lines.iter().map(|line| line.len() + 1).sum());
    for line in lines {
        sheet.extend_from_slice(line);
        sheet.push(b'\n');
    }
    sheet
}

struct Line(Vec<u8>);

impl Line {
    fn new(letter: u8) -> Self {
        let mut line = Vec::with_capacity(72);
        line.push(letter);
        Line(line)
    }

    fn bytes(&mut self, field: &[u8]) -> &mut Self {
        self.0.push(b';');
        self.0.extend_from_slice(field);
        self
    }

    fn number(&mut self, value: i64) -> &mut Self {
        self.0.push(b';');
        if value < 0 {
            self.0.push(b'-');
        }
        let mut digits = [0; 20];
        let mut at = digits.len();
        let mut left = value.unsigned_abs();
        loop {
            at -= 1;
            digits[at] = b'0' + (left % 10) as u8;
            left /= 10;
            if left == 0 {
                break;
            }
        }
        self.0.extend_from_slice(&digits[at..]);
        self
    }

    fn maybe(&mut self, value: Option<i64>) -> &mut Self {
        match value {
            Some(value) => self.number(value),
            None => self.bytes(b""),
        }
    }
}

/// A day as its eight digits. Years are counted from March, so that a leap day is the last day of its year; this is
/// another way than the plain implementation's, and each checks the other.
pub fn date(day: i64) -> [u8; 8] {
    let from_march = day + 146_037; // days from 1 March 1600, the start of 400 years of 146,097 days
    let cycle = from_march / 146_097;
    let in_cycle = from_march % 146_097;
    let year = (in_cycle - in_cycle / 1_460 + in_cycle / 36_524 - in_cycle / 146_096) / 365;
    let in_year = in_cycle - (365 * year + year / 4 - year / 100);
    let month = (5 * in_year + 2) / 153; // 0 is March
    let date = in_year - (153 * month + 2) / 5 + 1;
    let (month, later) = if month < 10 { (month + 3, 0) } else { (month - 9, 1) };
    let mut number = ((1_600 + 400 * cycle + year + later) * 100 + month) * 100 + date;
    let mut digits = [0; 8];
    for digit in digits.iter_mut().rev() {
        *digit = b'0' + (number % 10) as u8;
        number /= 10;
    }
    digits
}
