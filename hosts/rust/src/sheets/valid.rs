//! Drafts that obey every rule. Values lean to the ends of their ranges and to rounding ties, and dates to the places
//! where selection, working days and coupon periods turn.

use super::calendar::{about_closing_day, working_day};
use super::chance::Chance;
use super::codes::checked;
use super::draft::{ClassRow, Draft, OffsetRow, SecurityRow, TradeRow, LAST_CALCULATION, LAST_DAY};

/// How many rows of each kind, and whether fields are to be long and all trades margined.
#[derive(Clone)]
pub struct Size {
    pub classes: usize,
    pub offsets: usize,
    pub securities: usize,
    pub trades: usize,
    pub currencies: usize,
    pub long: bool,
}

impl Size {
    pub const LARGEST: Size =
        Size { classes: 40, offsets: 200, securities: 200, trades: 500, currencies: 8, long: true };

    /// From tiny, most often, to the largest.
    pub fn any(chance: &mut Chance) -> Size {
        let most = match chance.below(100) {
            0..=34 => [3, 3, 3, 5],
            35..=49 => return Size::dense(chance),
            50..=84 => [8, 12, 10, 20],
            85..=96 => [40, 60, 50, 120],
            97..=98 => [40, 200, 200, 500],
            _ => return Size::LARGEST,
        };
        let mut up_to = |most: u64| if chance.one_in(12) { 0 } else { 1 + chance.below(most) as usize };
        let [classes, offsets, securities, trades] = most.map(&mut up_to);
        Size { classes, offsets, securities, trades, currencies: 1 + chance.below(8) as usize, long: false }
    }

    /// One currency and two classes with many nets, so that rows find something on all sides.
    fn dense(chance: &mut Chance) -> Size {
        let mut some = |least: i64, most: i64| chance.between(least, most) as usize;
        let (offsets, securities, trades) = (some(1, 4), some(4, 12), some(8, 30));
        Size { classes: 2, offsets, securities, trades, currencies: 1, long: false }
    }
}

/// The other tables have no rows where the tables they name have none.
pub fn draft(chance: &mut Chance, size: &Size) -> Draft {
    let calculation = calculation(chance);
    let classes = classes(chance, size);
    let offsets = if classes.is_empty() { 0 } else { size.offsets };
    let offsets = (0..offsets).map(|_| offset(chance, &classes, size.long)).collect();
    let securities = if classes.is_empty() { Vec::new() } else { securities(chance, size, &classes, calculation) };
    let trades = if securities.is_empty() { 0 } else { size.trades };
    // Trades on few securities give long chains of nets, trades on all of them many positions.
    let reach = if size.long { securities.len() } else { chance.place(securities.len().max(1)) + 1 };
    let only = *chance.pick(&[None, None, Some(true), Some(false)]);
    let mut trades: Vec<TradeRow> = (0..trades)
        .map(|_| {
            let security = &securities[chance.below(reach as u64) as usize];
            let repo = only.unwrap_or_else(|| chance.one_in(2));
            trade(chance, security, calculation, repo, size.long)
        })
        .collect();
    if !size.long && chance.one_in(3) {
        counter(chance, &securities, &mut trades);
    }
    Draft { calculation, classes, offsets, securities, trades }
}

/// Each second trade becomes the one above it, the other way: on the same security, so that its net is zero, or on the
/// next where that is a twin, so that their class has as much on both sides.
fn counter(chance: &mut Chance, securities: &[SecurityRow], trades: &mut [TradeRow]) {
    for pair in trades.chunks_exact_mut(2) {
        let mut counter = TradeRow { seller: !pair[0].seller, ..pair[0].clone() };
        let own = securities.iter().position(|row| row.code == counter.code);
        let twin = own.and_then(|at| securities.get(at + 1).filter(|row| is_twin(&securities[at], row)));
        if let Some(twin) = twin.filter(|_| !chance.one_in(4)) {
            counter.code = twin.code;
        }
        pair[1] = counter;
    }
}

/// Whether two securities are alike but for their codes.
fn is_twin(one: &SecurityRow, other: &SecurityRow) -> bool {
    SecurityRow { code: other.code, ..one.clone() } == *other
}

/// Closing days, leap days, year ends, the ends of the calendar, every day of the week.
fn calculation(chance: &mut Chance) -> i64 {
    match chance.below(15) {
        0 => chance.between(0, 3),
        1 => chance.between(LAST_CALCULATION - 3, LAST_CALCULATION),
        2 => {
            // About 28 February to 1 March of any year.
            let year = chance.between(0, 398);
            (year * 146_097 / 400 + 57 + chance.between(0, 4)).min(LAST_CALCULATION)
        }
        3 => {
            // About a year's end.
            let year = chance.between(1, 399);
            (year * 146_097 / 400 + chance.between(-3, 3)).min(LAST_CALCULATION)
        }
        4 => 7 * chance.between(0, LAST_CALCULATION / 7 - 1) + chance.between(5, 8).min(7), // Thursday to Saturday
        5..=9 => about_closing_day(chance),
        _ => chance.between(0, LAST_CALCULATION),
    }
}

fn factor(chance: &mut Chance, long: bool) -> i64 {
    if long {
        return chance.between(1_000, 10_000);
    }
    match chance.below(4) {
        0 => *chance.pick(&[0, 10_000]),
        1 => *chance.pick(&[5_000, 2_500, 1_250, 7_500, 500, 50]),
        2 => *chance.pick(&[1, 4_999, 5_001, 9_999]),
        _ => chance.between(0, 10_000),
    }
}

/// Some different numbers of `low..=high`, rising; with the ends now and then.
fn rising(chance: &mut Chance, count: usize, low: i64, high: i64) -> Vec<i64> {
    let mut numbers = Vec::with_capacity(count + 2);
    if chance.one_in(3) {
        numbers.push(low);
    }
    if chance.one_in(3) {
        numbers.push(high);
    }
    let near = chance.one_in(4) && high - low > 200; // neighbours, so that intervals hold one duration
    let from = if near { chance.between(low, high - 100) } else { low };
    let to = if near { from + 100 } else { high };
    while {
        numbers.sort_unstable();
        numbers.dedup();
        numbers.len() < count
    } {
        for _ in numbers.len()..count {
            numbers.push(chance.between(from, to));
        }
    }
    while numbers.len() > count {
        numbers.remove(chance.below(numbers.len() as u64) as usize);
    }
    numbers
}

fn classes(chance: &mut Chance, size: &Size) -> Vec<ClassRow> {
    let numbers = rising(chance, size.classes, 1, 40);
    let lowest = if size.long { 100_000 } else { 1 };
    let mut borders = [0, 1].map(|_| rising(chance, size.classes, lowest, 1_000_000).into_iter());
    let mut single = vec![b'I', b'F'];
    let mixed = !chance.one_in(3); // not only kind G
    numbers
        .into_iter()
        .map(|number| {
            let deposit = factor(chance, size.long);
            if mixed && !single.is_empty() && chance.one_in(8) {
                let kind = single.remove(chance.below(single.len() as u64) as usize);
                return ClassRow { number, kind, border: None, deposit };
            }
            let corporate = mixed && chance.one_in(2);
            let kind = if corporate { b'C' } else { b'G' };
            ClassRow { number, kind, border: borders[corporate as usize].next(), deposit }
        })
        .collect()
}

/// Rows about one class, rows about pairs, and rows that are the same again, since they name few classes.
fn offset(chance: &mut Chance, classes: &[ClassRow], long: bool) -> OffsetRow {
    let reach = if long { classes.len() } else { chance.place(classes.len()) + 1 };
    let first = classes[chance.below(reach as u64) as usize].number;
    let second = if chance.one_in(3) { first } else { classes[chance.below(reach as u64) as usize].number };
    OffsetRow { first, second, factor: factor(chance, long) }
}

/// A code that begins as another does, with few letters among its nine or with many.
fn code(chance: &mut Chance, prefix: &[u8; 12], shared: usize, few_letters: bool) -> [u8; 12] {
    const LETTERS: &[u8] = b"ABCDEFGHIJKLMNOPQRSTUVWXYZ0123456789";
    let mut code = *prefix;
    for (at, byte) in code[..11].iter_mut().enumerate().skip(shared) {
        let from = match at {
            0 | 1 => &LETTERS[..26],
            _ if few_letters && !chance.one_in(12) => &LETTERS[26..],
            _ => LETTERS,
        };
        *byte = if chance.one_in(6) { *chance.pick(&[from[0], from[from.len() - 1]]) } else { *chance.pick(from) };
    }
    checked(code)
}

/// Different codes, rising; in some sheets they differ only near their ends. The last digit follows from the others, so
/// few codes can do with one place before it, and many with two.
fn codes(chance: &mut Chance, count: usize) -> Vec<[u8; 12]> {
    let few_letters = chance.one_in(2);
    let prefix = code(chance, &[0; 12], 0, few_letters);
    let most = if count < 8 { 10 } else { 9 };
    let shared = if chance.one_in(2) { 0 } else { chance.below(most + 1) as usize };
    let mut codes = Vec::with_capacity(count);
    while {
        codes.sort_unstable();
        codes.dedup();
        codes.len() < count
    } {
        for _ in codes.len()..count {
            codes.push(code(chance, &prefix, shared, few_letters));
        }
    }
    codes
}

fn currencies(chance: &mut Chance, count: usize) -> Vec<[u8; 3]> {
    let mut names: Vec<[u8; 3]> = Vec::with_capacity(count);
    while names.len() < count {
        let name = match chance.below(4) {
            0 => **chance.pick(&[b"EUR", b"USD", b"GBP", b"CHF", b"AAA", b"ZZZ", b"AAB", b"BAA"]),
            1 => [b'A', b'A', b'A' + chance.below(26) as u8], // alike but for the last letter
            2 => [b'A' + chance.below(26) as u8, b'Z', b'Z'], // alike but for the first
            _ => [(); 3].map(|_| b'A' + chance.below(26) as u8),
        };
        if !names.contains(&name) {
            names.push(name);
        }
    }
    names
}

fn securities(chance: &mut Chance, size: &Size, classes: &[ClassRow], calculation: i64) -> Vec<SecurityRow> {
    let names = currencies(chance, size.currencies);
    let codes = codes(chance, size.securities);
    let row = |(at, code): (usize, [u8; 12])| {
        let class = chance.pick(classes);
        let below = classes
            .iter()
            .filter_map(|other| other.border.filter(|_| other.kind == class.kind))
            .filter(|&border| Some(border) < class.border)
            .max();
        // On the border, just above the one below, or between them.
        let duration = class.border.map(|border| {
            let lowest = below.unwrap_or(0) + 1;
            match chance.below(3) {
                0 => border,
                1 if !size.long => lowest,
                _ => chance.between(lowest, border),
            }
        });
        // Each currency once at least, if there are rows enough.
        let currency = if at < names.len() { names[at] } else { *chance.pick(&names) };
        let (previous, next) = coupon_period(chance, calculation, size.long);
        let (price, coupon, payments) = worth(chance, size.long);
        SecurityRow { code, currency, kind: class.kind, duration, price, coupon, payments, previous, next }
    };
    let mut rows: Vec<SecurityRow> = codes.into_iter().enumerate().map(row).collect();
    if !size.long && chance.one_in(4) {
        twin(&mut rows);
    }
    rows
}

/// Each second security becomes the one above it, but for its code.
fn twin(rows: &mut [SecurityRow]) {
    for pair in rows.chunks_exact_mut(2) {
        pair[1] = SecurityRow { code: pair[1].code, ..pair[0].clone() };
    }
}

/// Price, yearly coupon, payments a year. A repo half way through its coupon period, or a coupon of half a unit a
/// payment, gives a tie of the accrued coupon; half a percent above a whole one gives ties of the amounts.
fn worth(chance: &mut Chance, long: bool) -> (i64, i64, i64) {
    let payments = *chance.pick(&[1, 2, 4]);
    if long {
        return (chance.between(10_000_000, 20_000_000), chance.between(1_000_000, 2_000_000), payments);
    }
    let price = match chance.below(5) {
        0 => 5_000_000 * chance.between(1, 4),
        1 => 50_000 * chance.between(1, 400),
        2 => chance.between(9_000_000, 12_000_000),
        _ => chance.edgy(1, 20_000_000),
    };
    let coupon = match chance.below(5) {
        0 => 0,
        1 => payments * (2 * chance.between(0, 200_000) + 1),
        2 => chance.between(0, 600_000),
        _ => chance.edgy(0, 2_000_000),
    };
    (price, coupon, payments)
}

/// Previous and next coupon date: mostly about the first working day after calculation, at its ends or half way, or
/// begun on one of the closed days before it.
fn coupon_period(chance: &mut Chance, calculation: i64, about: bool) -> (i64, i64) {
    let length = match chance.below(5) {
        0 => *chance.pick(&[1, 2, 399, 400]),
        1 => *chance.pick(&[181, 182, 184, 365, 366]),
        2 => 2 * chance.between(1, 200),
        _ => chance.between(1, 400),
    };
    let working = working_day(calculation);
    let run = match chance.below(6) {
        0 => 0,
        1 => length - 1,
        2 | 3 if length % 2 == 0 => length / 2,
        4 => chance.between(0, working - calculation - 1).min(length - 1),
        _ => chance.below(length as u64) as i64,
    };
    let mark = if about || !chance.one_in(6) { working } else { chance.edgy(0, LAST_DAY) };
    let previous = (mark - run).clamp(0, LAST_DAY - 1);
    (previous, (previous + length).min(LAST_DAY))
}

/// A trade of this security, margined where its coupon period allows it and chance does not say otherwise.
fn trade(chance: &mut Chance, security: &SecurityRow, calculation: i64, repo: bool, long: bool) -> TradeRow {
    let working = working_day(calculation);
    let wanted = long || !chance.one_in(6);
    let code = security.code;
    let seller = chance.one_in(2);
    let nominal = nominal(chance, long);
    if !repo {
        let (from, to) = (security.previous.max(calculation + 1), security.next - 1);
        let first = if wanted && from <= to {
            chance.edgy(from, to)
        } else {
            (calculation - if chance.one_in(2) { chance.below(3) as i64 } else { chance.edgy(0, calculation) }).max(0)
        };
        let amount = amount(chance, security, nominal, long);
        return TradeRow { repo, seller, code, nominal, amount, first, last: None, rate: None };
    }
    let covered = (security.previous..security.next).contains(&working);
    let (first, last) = repo_dates(chance, calculation, wanted && covered);
    let rate = match chance.below(4) {
        _ if long => chance.between(-200_000, -100_000),
        0 => 1_000 * (2 * chance.between(-100, 99) + 1),
        1 => chance.between(-10_000, 40_000),
        2 if chance.one_in(3) => chance.between(-1, 1),
        _ => chance.edgy(-200_000, 200_000) * if chance.one_in(2) { 1 } else { -1 },
    };
    let days = working - first;
    let even = days.trailing_zeros();
    let amount = match chance.below(3) {
        // With an odd number of thousands as rate: half a unit of interest above a whole number.
        0 if !long && days > 0 && even <= 7 => (18_000_000 >> even) * (2 * chance.between(0, 99) + 1),
        _ => amount(chance, security, nominal, long),
    };
    TradeRow { repo, seller, code, nominal, amount, first, last: Some(last), rate: Some(rate) }
}

/// A repo of 1 to 730 days that is margined or not; its first date and its last are at a turn of the selection often.
fn repo_dates(chance: &mut Chance, calculation: i64, margined: bool) -> (i64, i64) {
    let length = match chance.below(4) {
        0 => *chance.pick(&[1, 2, 729, 730]),
        1 => chance.between(1, 14),
        _ => chance.between(1, 730),
    };
    if margined {
        let first = calculation - chance.edgy(0, (length - 1).min(calculation));
        return (first, (first + length).min(LAST_DAY));
    }
    if chance.one_in(2) && calculation > 0 {
        let last = calculation - chance.edgy(0, (calculation - 1).min(900));
        return ((last - length).max(0), last);
    }
    let first = calculation + chance.edgy(1, (LAST_DAY - 1 - calculation).min(900));
    (first, (first + length).min(LAST_DAY))
}

fn nominal(chance: &mut Chance, long: bool) -> i64 {
    match chance.below(6) {
        _ if long => chance.between(10_000_000, 100_000_000),
        0 => 50_000 * (2 * chance.between(0, 999) + 1),
        1 => *chance.pick(&[1, 2, 3, 5, 10, 50]),
        2 => 2 * chance.between(0, 500) + 1,
        3 => 1_000 * chance.between(1, 5_000),
        _ => chance.edgy(1, 100_000_000),
    }
}

/// Cents: about what the security is worth, or anything.
fn amount(chance: &mut Chance, security: &SecurityRow, nominal: i64, long: bool) -> i64 {
    if long {
        return chance.between(10_000_000_000, 30_000_000_000);
    }
    if chance.one_in(3) {
        return chance.edgy(1, 30_000_000_000);
    }
    let worth = nominal * security.price / 100_000;
    (worth + chance.between(-worth / 50 - 2, worth / 50 + 2)).clamp(1, 30_000_000_000)
}
