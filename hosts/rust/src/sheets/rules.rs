//! One rule broken in a draft that is else valid: the refusals that the numbers decide, 7 to 12, and 6 for a wrong
//! check digit. Each says what must come of it. Rows are judged by the rows above them, so nothing on a later line can
//! change that.

use super::calendar::working_day;
use super::chance::Chance;
use super::codes::{checked, hidden_slip, slip};
use super::draft::{Draft, OffsetRow, SecurityRow, TradeRow, LAST_CALCULATION, LAST_DAY};
use super::valid::Size;
use super::Aim;

type Break = fn(&mut Chance, &mut Draft) -> Option<Aim>;

const BREAKS: [Break; 36] = [
    security_with_wrong_code,
    security_with_wrong_code,
    both_with_wrong_code,
    both_with_wrong_code,
    trade_with_wrong_code,
    trade_with_wrong_code,
    trade_with_wrong_code,
    calculation_too_late,
    coupon_dates,
    coupon_dates,
    repo_dates,
    repo_dates,
    one_row_too_many,
    one_row_too_many,
    one_row_too_many,
    one_row_too_many,
    ninth_currency,
    class_order,
    border_order,
    second_single_class,
    code_order,
    offset_names_no_class,
    offset_names_no_class,
    trade_names_no_security,
    trade_names_no_security,
    trade_with_hidden_slip,
    trade_with_hidden_slip,
    trade_with_hidden_slip,
    orphan,
    no_class_for_security,
    no_class_for_security,
    accrual_outside,
    accrual_outside,
    coupon_over_closed_days,
    coupon_over_closed_days,
    coupon_over_closed_days,
];

/// A size for such a draft: any, or one with a full table, so that one more row is one too many.
pub fn size(chance: &mut Chance) -> Size {
    let mut size = Size::any(chance);
    match chance.below(24) {
        0 | 1 => size.classes = 40,
        2 => size.offsets = 200,
        3 => size.securities = 200,
        4 => size.trades = 500,
        5 | 6 => (size.currencies, size.securities) = (8, size.securities.max(12)),
        7 => size = Size::LARGEST,
        _ => {}
    }
    size
}

/// Breaks some rule that the draft lets be broken.
pub fn break_one(chance: &mut Chance, draft: &mut Draft) -> Aim {
    loop {
        // The calculation date can always be too late, so this ends.
        let broken = chance.pick(&BREAKS)(chance, draft);
        if let Some(aim) = broken {
            return aim;
        }
    }
}

/// Some row of a section, if it has rows, with the line it stands on.
fn row<T>(chance: &mut Chance, rows: &[T], start: u64) -> Option<(usize, u64)> {
    if rows.is_empty() {
        return None;
    }
    let at = chance.place(rows.len());
    Some((at, start + at as u64))
}

/// Some row but the first.
fn later_row<T>(chance: &mut Chance, rows: &[T], start: u64) -> Option<(usize, u64)> {
    let (at, line) = row(chance, rows.get(1..)?, start + 1)?;
    Some((at + 1, line))
}

/// The T rows have it right.
fn security_with_wrong_code(chance: &mut Chance, draft: &mut Draft) -> Option<Aim> {
    let (at, line) = row(chance, &draft.securities, draft.starts()[2])?;
    draft.securities[at].code = slip(chance, &draft.securities[at].code)?;
    Some(Aim::Refused(6, line))
}

/// The same wrong code in an S row and in the T rows that name it.
fn both_with_wrong_code(chance: &mut Chance, draft: &mut Draft) -> Option<Aim> {
    let (at, line) = row(chance, &draft.securities, draft.starts()[2])?;
    let right = draft.securities[at].code;
    let wrong = slip(chance, &right)?;
    draft.securities[at].code = wrong;
    draft.trades.iter_mut().filter(|trade| trade.code == right).for_each(|trade| trade.code = wrong);
    Some(Aim::Refused(6, line))
}

/// The S row has it right, or there is none even for the right one.
fn trade_with_wrong_code(chance: &mut Chance, draft: &mut Draft) -> Option<Aim> {
    let (at, line) = row(chance, &draft.trades, draft.starts()[3])?;
    let right = if chance.one_in(3) { missing_code(chance, &draft.securities)? } else { draft.trades[at].code };
    draft.trades[at].code = slip(chance, &right)?;
    Some(Aim::Refused(6, line))
}

fn calculation_too_late(chance: &mut Chance, draft: &mut Draft) -> Option<Aim> {
    if !chance.one_in(4) {
        return None;
    }
    draft.calculation = chance.edgy(LAST_CALCULATION + 1, LAST_DAY);
    Some(Aim::Refused(7, 2))
}

/// Dates that are equal, in the wrong order, or just too far apart.
fn ill_apart(chance: &mut Chance, first: i64, most: i64) -> Option<i64> {
    let last = match chance.below(3) {
        0 => first,
        1 => first - chance.edgy(1, first.clamp(1, 800)),
        _ => first + chance.edgy(most + 1, most + 400),
    };
    (0..=LAST_DAY).contains(&last).then_some(last)
}

fn coupon_dates(chance: &mut Chance, draft: &mut Draft) -> Option<Aim> {
    let (at, line) = row(chance, &draft.securities, draft.starts()[2])?;
    let security = &mut draft.securities[at];
    security.next = ill_apart(chance, security.previous, 400)?;
    Some(Aim::Refused(7, line))
}

fn repo_dates(chance: &mut Chance, draft: &mut Draft) -> Option<Aim> {
    let (at, line) = row(chance, &draft.trades, draft.starts()[3])?;
    let trade = &mut draft.trades[at];
    trade.last?;
    trade.last = Some(ill_apart(chance, trade.first, 730)?);
    Some(Aim::Refused(7, line))
}

/// One row more where a table is full. The row is a copy, so a C row is out of order too, and an S row may be.
fn one_row_too_many(chance: &mut Chance, draft: &mut Draft) -> Option<Aim> {
    let starts = draft.starts();
    let rows = [draft.classes.len(), draft.offsets.len(), draft.securities.len(), draft.trades.len()];
    let full: Vec<usize> = (0..4).filter(|&section| rows[section] == [40, 200, 200, 500][section]).collect();
    if full.is_empty() {
        return None;
    }
    let section = *chance.pick(&full);
    let at = chance.place(rows[section]);
    match section {
        0 => draft.classes.push(draft.classes[at].clone()),
        1 => draft.offsets.push(draft.offsets[at].clone()),
        2 => {
            let mut row = draft.securities[199].clone();
            if chance.one_in(2) {
                row.code = beyond(&row.code)?;
            }
            draft.securities.push(row);
        }
        _ => {
            let mut row = draft.trades[at].clone();
            if chance.one_in(4) {
                row.code = missing_code(chance, &draft.securities)?;
            }
            draft.trades.push(row);
        }
    }
    Some(Aim::Refused(8, starts[section] + rows[section] as u64))
}

fn ninth_currency(chance: &mut Chance, draft: &mut Draft) -> Option<Aim> {
    let count_before = |rows: &[SecurityRow]| {
        let mut names: Vec<_> = rows.iter().map(|row| row.currency).collect();
        names.sort_unstable();
        names.dedup();
        names.len()
    };
    let (at, line) = later_row(chance, &draft.securities, draft.starts()[2])?;
    if count_before(&draft.securities[..at]) < 8 {
        return None;
    }
    let name = [(); 3].map(|_| b'A' + chance.below(26) as u8);
    if draft.securities[..at].iter().any(|row| row.currency == name) {
        return None;
    }
    draft.securities[at].currency = name;
    Some(Aim::Refused(8, line))
}

fn class_order(chance: &mut Chance, draft: &mut Draft) -> Option<Aim> {
    let (at, line) = later_row(chance, &draft.classes, draft.starts()[0])?;
    draft.classes[at].number = chance.edgy(1, draft.classes[at - 1].number);
    Some(Aim::Refused(9, line))
}

fn border_order(chance: &mut Chance, draft: &mut Draft) -> Option<Aim> {
    let (at, line) = later_row(chance, &draft.classes, draft.starts()[0])?;
    let row = &draft.classes[at];
    row.border?;
    let above = draft.classes[..at].iter().rev().find(|other| other.kind == row.kind)?.border?;
    draft.classes[at].border = Some(if chance.one_in(2) { above } else { chance.edgy(1, above) });
    Some(Aim::Refused(9, line))
}

fn second_single_class(chance: &mut Chance, draft: &mut Draft) -> Option<Aim> {
    let (at, line) = later_row(chance, &draft.classes, draft.starts()[0])?;
    let kind = draft.classes[..at].iter().find(|row| row.border.is_none())?.kind;
    (draft.classes[at].kind, draft.classes[at].border) = (kind, None);
    Some(Aim::Refused(9, line))
}

fn code_order(chance: &mut Chance, draft: &mut Draft) -> Option<Aim> {
    let (at, line) = later_row(chance, &draft.securities, draft.starts()[2])?;
    let other = if chance.one_in(2) { at - 1 } else { chance.below(at as u64) as usize };
    if chance.one_in(2) {
        draft.securities[at].code = draft.securities[other].code;
        return Some(Aim::Refused(9, line));
    }
    let (one, two) = (draft.securities[at - 1].code, draft.securities[at].code);
    (draft.securities[at - 1].code, draft.securities[at].code) = (two, one);
    Some(Aim::Refused(9, line))
}

fn offset_names_no_class(chance: &mut Chance, draft: &mut Draft) -> Option<Aim> {
    let number = chance.edgy(1, 40);
    if draft.classes.iter().any(|row| row.number == number) {
        return None;
    }
    let (at, line) = row(chance, &draft.offsets, draft.starts()[1])?;
    let row = &mut draft.offsets[at];
    match chance.below(3) {
        0 => row.first = number,
        1 => row.second = number,
        _ => (row.first, row.second) = (number, number),
    }
    Some(Aim::Refused(10, line))
}

fn trade_names_no_security(chance: &mut Chance, draft: &mut Draft) -> Option<Aim> {
    let (at, line) = row(chance, &draft.trades, draft.starts()[3])?;
    draft.trades[at].code = missing_code(chance, &draft.securities)?;
    Some(Aim::Refused(10, line))
}

/// A slip that makes another right code, which no S row has.
fn trade_with_hidden_slip(chance: &mut Chance, draft: &mut Draft) -> Option<Aim> {
    let (at, line) = row(chance, &draft.trades, draft.starts()[3])?;
    let code = hidden_slip(chance, &draft.trades[at].code)?;
    draft.trades[at].code = missing(code, &draft.securities)?;
    Some(Aim::Refused(10, line))
}

/// Rows that name what an empty section does not have.
fn orphan(chance: &mut Chance, draft: &mut Draft) -> Option<Aim> {
    let [_, offsets, securities, trades] = draft.starts();
    let code = *b"ZZ0000000016";
    if draft.securities.is_empty() && chance.one_in(2) {
        let first = chance.edgy(0, LAST_DAY);
        let cash = TradeRow { repo: false, seller: true, code, nominal: 1, amount: 1, first, last: None, rate: None };
        draft.trades.push(cash);
        return Some(Aim::Refused(10, trades));
    }
    if !draft.classes.is_empty() {
        return None;
    }
    if chance.one_in(2) {
        draft.offsets.push(OffsetRow { first: 1, second: chance.edgy(1, 40), factor: 0 });
        return Some(Aim::Refused(10, offsets));
    }
    let kind = *chance.pick(b"GCIF");
    let duration = (kind == b'G' || kind == b'C').then_some(1);
    let (currency, price, coupon, payments, previous, next) = (*b"EUR", 1, 0, 1, 0, 1);
    draft.securities.push(SecurityRow { code, currency, kind, duration, price, coupon, payments, previous, next });
    Some(Aim::Refused(11, securities))
}

/// A security longer than the last border of its kind, or of a kind without a class.
fn no_class_for_security(chance: &mut Chance, draft: &mut Draft) -> Option<Aim> {
    let (at, line) = row(chance, &draft.securities, draft.starts()[2])?;
    let kind = *chance.pick(b"GCIF");
    let of_kind = || draft.classes.iter().filter(|row| row.kind == kind);
    let years = kind == b'G' || kind == b'C';
    let top = of_kind().filter_map(|row| row.border).max().unwrap_or(0);
    if top == 1_000_000 || (!years && of_kind().count() > 0) {
        return None;
    }
    let row = &mut draft.securities[at];
    row.kind = kind;
    row.duration = years.then(|| chance.edgy(top + 1, 1_000_000));
    Some(Aim::Refused(11, line))
}

/// A coupon period that ends on the accrual date, begins the day after it, or lies elsewhere.
fn accrual_outside(chance: &mut Chance, draft: &mut Draft) -> Option<Aim> {
    let (at, _) = row(chance, &draft.trades, 0)?;
    let working = working_day(draft.calculation);
    let accrual = if draft.trades[at].repo { working } else { draft.trades[at].first };
    let security = security_of(draft, at)?;
    let length = security.next - security.previous;
    let previous = match chance.below(3) {
        0 => accrual - length,
        1 => accrual + 1,
        _ => chance.edgy(0, LAST_DAY - length),
    };
    move_period(security, previous)?;
    // Where no trade falls out, the draft stays valid, with another coupon period.
    first_outside(draft).map(|line| Aim::Refused(12, line))
}

/// A coupon period that ends after calculation but not after the working day, where closed days lie between.
fn coupon_over_closed_days(chance: &mut Chance, draft: &mut Draft) -> Option<Aim> {
    let (at, _) = row(chance, &draft.trades, 0)?;
    let (tomorrow, working) = (draft.calculation + 1, working_day(draft.calculation));
    if working == tomorrow {
        return None;
    }
    let next = chance.between(tomorrow, working);
    let security = security_of(draft, at)?;
    move_period(security, next - (security.next - security.previous))?;
    first_outside(draft).map(|line| Aim::Refused(12, line))
}

/// The security that the trade of that place names.
fn security_of(draft: &mut Draft, trade: usize) -> Option<&mut SecurityRow> {
    let code = draft.trades[trade].code;
    draft.securities.iter_mut().find(|row| row.code == code)
}

/// The coupon period as long as it was, from another day on, if the calendar has it.
fn move_period(security: &mut SecurityRow, previous: i64) -> Option<()> {
    let next = previous + security.next - security.previous;
    if previous < 0 || next > LAST_DAY {
        return None;
    }
    (security.previous, security.next) = (previous, next);
    Some(())
}

/// The line of the first margined trade with its accrual date outside the coupon period.
fn first_outside(draft: &Draft) -> Option<u64> {
    let outside = |trade: &TradeRow| {
        let security = draft.securities.iter().find(|row| row.code == trade.code);
        let (margined, accrual) = match trade.last {
            Some(last) => {
                (trade.first <= draft.calculation && draft.calculation < last, working_day(draft.calculation))
            }
            None => (draft.calculation < trade.first, trade.first),
        };
        margined && security.is_some_and(|row| accrual < row.previous || accrual >= row.next)
    };
    draft.trades.iter().position(outside).map(|at| draft.starts()[3] + at as u64)
}

/// A code behind this one in order, that differs near its end alone.
fn beyond(code: &[u8; 12]) -> Option<[u8; 12]> {
    let mut next = *code;
    next[10] = match next[10] {
        b'9' => b'A',
        b'Z' => return None,
        byte => byte + 1,
    };
    Some(checked(next))
}

/// A code that no S row has, close to one that is there: before all, behind all or between.
fn missing_code(chance: &mut Chance, rows: &[SecurityRow]) -> Option<[u8; 12]> {
    let mut code = rows.get(chance.place(rows.len().max(1)))?.code;
    let at = *chance.pick(&[0, 1, 2, 6, 7, 8, 9, 10, 10]);
    code[at] = match at {
        0 | 1 => b'A' + chance.below(26) as u8,
        _ => *chance.pick(b"0189AZ"),
    };
    missing(checked(code), rows)
}

/// The code, if no S row has it.
fn missing(code: [u8; 12], rows: &[SecurityRow]) -> Option<[u8; 12]> {
    (!rows.iter().any(|row| row.code == code)).then_some(code)
}
