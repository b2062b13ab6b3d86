//! Questions about a sheet (document 02, c): mostly of a currency and a class that it has, sometimes of one that it
//! lacks. They are made from its text, be it a good sheet or not.

use super::chance::Chance;

/// A currency by any bytes and a class by any number.
#[derive(Clone, Debug, PartialEq, Eq)]
pub struct Question {
    pub currency: Vec<u8>,
    pub class: u64,
}

/// A question, and whether the sheet has both its currency and its class.
pub fn question(chance: &mut Chance, sheet: &[u8]) -> (Question, bool) {
    let rows = Rows::of(sheet);
    let mut question = rows.about_trade(chance).unwrap_or_else(|| rows.about_any(chance));
    match chance.below(16) {
        0 => question.currency = rows.lacking_currency(chance),
        1 => question.class = rows.lacking_class(chance),
        2 => question = Question { currency: rows.lacking_currency(chance), class: rows.lacking_class(chance) },
        3..=5 => question = rows.about_any(chance),
        _ => {}
    }
    let there = rows.has(&question);
    (question, there)
}

/// The currency and the class of the security at that place of a good sheet.
pub fn about_security(sheet: &[u8], place: usize) -> Option<Question> {
    let rows = Rows::of(sheet);
    rows.about(rows.securities.get(place)?)
}

type Row<'a> = Vec<&'a [u8]>;

/// The rows of a sheet with as many fields as they should have, in its order, each by its fields.
struct Rows<'a> {
    classes: Vec<Row<'a>>,
    securities: Vec<Row<'a>>,
    trades: Vec<Row<'a>>,
}

impl<'a> Rows<'a> {
    fn of(sheet: &'a [u8]) -> Self {
        let mut rows = Rows { classes: Vec::new(), securities: Vec::new(), trades: Vec::new() };
        for line in sheet.split(|&byte| byte == b'\n') {
            let row: Row = line.split(|&byte| byte == b';').collect();
            match (row[0], row.len()) {
                (b"C", 5) => rows.classes.push(row),
                (b"S", 10) => rows.securities.push(row),
                (b"T", 9) => rows.trades.push(row),
                _ => {}
            }
        }
        rows
    }

    fn has(&self, question: &Question) -> bool {
        let currency = self.securities.iter().any(|row| row[2] == question.currency);
        currency && self.classes.iter().any(|row| number(row[1]) == Some(question.class))
    }

    /// The currency and the class of some trade's security, if it has both.
    fn about_trade(&self, chance: &mut Chance) -> Option<Question> {
        let trade = some(chance, &self.trades)?;
        self.about(self.securities.iter().find(|row| row[1] == trade[3])?)
    }

    /// The currency and the class of a security: the borders of a kind rise, so the first that is not below the
    /// duration is the smallest. Both are blank for I and F.
    fn about(&self, security: &Row) -> Option<Question> {
        let reaches = |row: &&Row| row[2] == security[3] && number(row[3]) >= number(security[4]);
        let class = number(self.classes.iter().find(reaches)?[1])?;
        Some(Question { currency: security[2].to_vec(), class })
    }

    /// A currency and a class of the sheet, each by itself; usual ones where it has none.
    fn about_any(&self, chance: &mut Chance) -> Question {
        let currency = some(chance, &self.securities).map_or(b"EUR".as_slice(), |row| row[2]);
        let class = some(chance, &self.classes).and_then(|row| number(row[1])).unwrap_or(6);
        Question { currency: currency.to_vec(), class }
    }

    /// Bytes that are no currency of the sheet, most of them close to one.
    fn lacking_currency(&self, chance: &mut Chance) -> Vec<u8> {
        let lacks = |text: &Vec<u8>| !self.securities.iter().any(|row| row[2] == text);
        loop {
            let own = self.about_any(chance).currency;
            let text = off(chance, &own);
            if lacks(&text) {
                return text;
            }
        }
    }

    /// A number that is no class of the sheet: next to 1..40, one of them, or one that only its higher bits tell from a
    /// class of the sheet.
    fn lacking_class(&self, chance: &mut Chance) -> u64 {
        let lacks = |class: u64| !self.classes.iter().any(|row| number(row[1]) == Some(class));
        loop {
            let class = match chance.below(6) {
                0 => 0,
                1 => 41,
                2 => u64::MAX,
                3 => chance.between(1, 40) as u64,
                4 => self.about_any(chance).class | 1 << *chance.pick(&[6, 8, 16, 32, 63]),
                _ => chance.next(),
            };
            if lacks(class) {
                return class;
            }
        }
    }
}

/// A currency with a byte too few or too many, in small letters, with another letter, or with nothing of it left.
fn off(chance: &mut Chance, currency: &[u8]) -> Vec<u8> {
    let mut text = currency.to_vec();
    match chance.below(8) {
        0 => text.clear(),
        1 => drop(text.pop()),
        2 => text.push(*chance.pick(b"OR;\n\0 ")),
        3 => text.insert(0, *chance.pick(b"AR;\n\0 ")),
        4 => text.make_ascii_lowercase(),
        5 => text.reverse(),
        6 => text = [(); 3].map(|_| b'A' + chance.below(26) as u8).to_vec(),
        _ => text = (0..chance.below(300)).map(|_| chance.below(256) as u8).collect(),
    }
    text
}

/// The number that a field has, if it has one.
fn number(field: &[u8]) -> Option<u64> {
    std::str::from_utf8(field).ok()?.parse().ok()
}

/// One of them, if there are any.
fn some<'a, T>(chance: &mut Chance, from: &'a [T]) -> Option<&'a T> {
    (!from.is_empty()).then(|| chance.pick(from))
}
