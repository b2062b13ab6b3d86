//! Sheets from a seed. Each case is made from the seed and its own number alone, so any one can be made again.
//!
//! About half are sheets that obey every rule, from tiny to the largest, full of border values and rounding ties.
//! The others break one rule at a chosen line, or two, or are damaged without a plan. Each comes with a question about
//! it. Where it is certain what an answer must be, the case says so.

mod calendar;
mod chance;
mod codes;
mod damage;
mod draft;
mod questions;
mod rules;
mod texts;
mod valid;

use crate::plain::LEAST_ROOM;
use chance::Chance;
use draft::Draft;
use valid::Size;

pub use codes::check_digit;
pub use questions::{about_security, Question};

/// What the answer must be, as far as the making of the case tells.
#[derive(Clone, Copy, Debug, PartialEq, Eq)]
pub enum Aim {
    Accepted,
    Refused(u64, u64), // refusal and line
    Open,
}

/// A sheet, a question about it, and the length of the report buffer that is lent for either answer, in bytes.
pub struct Case {
    pub sheet: Vec<u8>,
    pub question: Question,
    pub room: usize,
    pub aim: Aim,          // of the report
    pub question_aim: Aim, // of the explanation
}

/// The case of that number.
pub fn case(seed: u64, number: u64) -> Case {
    let mut chance = Chance::new(seed, number);
    let chance = &mut chance;
    let (sheet, aim) = match chance.below(100) {
        0..=44 => accepted(chance),
        45..=74 => one_fault(chance),
        75..=83 => two_faults(chance),
        84..=95 => damage::unplanned(chance),
        96 => damage::too_long(chance),
        97 => damage::noise(chance),
        _ => damage::header(chance),
    };
    let room = room(chance);
    let aim = if room < LEAST_ROOM { Aim::Refused(1, 0) } else { aim };
    let (question, there) = questions::question(chance, &sheet);
    let question_aim = if aim == Aim::Accepted && !there { Aim::Refused(13, 0) } else { aim };
    Case { sheet, question, room, aim, question_aim }
}

/// One of the largest sheets that the rules allow: every table full, every trade margined, eight currencies, and
/// fields near their longest.
pub fn largest(seed: u64, number: u64) -> Vec<u8> {
    let mut chance = Chance::new(seed, number);
    valid::draft(&mut chance, &Size::LARGEST).sheet()
}

fn accepted(chance: &mut Chance) -> (Vec<u8>, Aim) {
    let size = Size::any(chance);
    (valid::draft(chance, &size).sheet(), Aim::Accepted)
}

/// One broken rule, and nothing else wrong.
fn one_fault(chance: &mut Chance) -> (Vec<u8>, Aim) {
    if chance.one_in(2) {
        let size = rules::size(chance);
        let mut draft = valid::draft(chance, &size);
        let aim = rules::break_one(chance, &mut draft);
        return (draft.sheet(), aim);
    }
    let size = Size::any(chance);
    let mut lines = valid::draft(chance, &size).lines();
    let line = damage::line(chance, &lines);
    let aim = damage::spoil(chance, &mut lines, line);
    (draft::join(&lines), aim)
}

/// Two broken rules, on one line or on two. On two lines the earlier one counts.
fn two_faults(chance: &mut Chance) -> (Vec<u8>, Aim) {
    let size = rules::size(chance);
    let mut draft = valid::draft(chance, &size);
    let first = if chance.one_in(4) { Aim::Accepted } else { rules::break_one(chance, &mut draft) };
    let mut lines = draft.lines();
    let line = match first {
        Aim::Refused(_, line) if chance.one_in(2) && line as usize <= lines.len() => line as usize,
        _ => damage::line(chance, &lines),
    };
    let second = damage::spoil(chance, &mut lines, line);
    if first == Aim::Accepted {
        let line = if chance.one_in(2) { line.min(lines.len()) } else { damage::line(chance, &lines) };
        damage::spoil(chance, &mut lines, line);
        return (draft::join(&lines), Aim::Open);
    }
    let aim = match (first, second) {
        (Aim::Refused(_, one), Aim::Refused(_, other)) if one < other => first,
        (Aim::Refused(_, one), Aim::Refused(_, other)) if other < one => second,
        _ => Aim::Open,
    };
    (draft::join(&lines), aim)
}

/// Nearly always the least room; sometimes more, and sometimes too little.
fn room(chance: &mut Chance) -> usize {
    match chance.below(50) {
        0 => *chance.pick(&[0, 1, 2, LEAST_ROOM / 2, LEAST_ROOM - 2, LEAST_ROOM - 1]),
        1 => chance.below(LEAST_ROOM as u64) as usize,
        2 => LEAST_ROOM + chance.below(40_000) as usize,
        3 => *chance.pick(&[LEAST_ROOM + 1, LEAST_ROOM + 7, 65_535, 65_536, 65_537]),
        _ => LEAST_ROOM,
    }
}

impl Draft {
    fn sheet(&self) -> Vec<u8> {
        draft::join(&self.lines())
    }
}
