//! Both implementations on one case, its quiet report, its full one and its explanation: the same number back, and every
//! byte of the buffer the same. And the quiet report is the full one without its K lines of zeros, by the texts alone.

use crate::sheets::{Aim, Case};
use crate::{kit, plain};

/// Bytes before and behind the lent part that must stay as they were.
const GUARD: usize = 64;

/// The two buffers, kept from case to case.
#[derive(Default)]
pub struct Together {
    kit: Vec<u8>,
    plain: Vec<u8>,
}

/// A text's length in bytes, or 65,536 × refusal + line.
#[derive(Clone, Copy, Debug, PartialEq, Eq)]
pub struct Answers {
    pub report: u64, // quiet
    pub full: u64,
    pub explanation: u64,
}

impl Together {
    /// The answers both gave, or what is wrong with one.
    pub fn run(&mut self, case: &Case) -> Result<Answers, String> {
        let report = self.hold(case, case.aim, kit::brm_margin, plain::brm_margin)?;
        let quiet = self.text(report).to_vec();
        let full = self.hold(case, case.aim, kit::brm_margin_full, plain::brm_margin_full);
        let full = full.map_err(|wrong| format!("with the full list {wrong}"))?;
        if report.max(full) >= 65_536 && report != full {
            return Err(format!("both answer {}, and with the full list {}", name(report), name(full)));
        }
        if quiet != without_zeros(self.text(full)) {
            return Err("the quiet report is not the full one without its K lines of zeros".to_string());
        }
        let asked = &case.question;
        let kit = |sheet: &[u8], report: &mut [u8]| kit::brm_explain(sheet, &asked.currency, asked.class, report);
        let plain = |sheet: &[u8], report: &mut [u8]| plain::brm_explain(sheet, &asked.currency, asked.class, report);
        let explanation = self.hold(case, case.question_aim, kit, plain);
        let explanation = explanation.map_err(|wrong| format!("to the question {wrong}"))?;
        let fits =
            if report < 65_536 { explanation < 65_536 || explanation == 13 * 65_536 } else { explanation == report };
        if !fits {
            return Err(format!("both answer {}, and to the question {}", name(report), name(explanation)));
        }
        Ok(Answers { report, full, explanation })
    }

    /// The text of the last call, which gave that answer; none on a refusal.
    fn text(&self, answer: u64) -> &[u8] {
        let length = if answer < 65_536 { answer as usize } else { 0 }; // bytes
        &self.kit[GUARD..GUARD + length]
    }

    /// The answer that kit and plain gave, or what is wrong with it.
    fn hold(&mut self, case: &Case, aim: Aim, kit: impl Entry, plain: impl Entry) -> Result<u64, String> {
        let shift = case.sheet.len();
        let kit = call(kit, &case.sheet, case.room, &mut self.kit, shift);
        let plain = call(plain, &case.sheet, case.room, &mut self.plain, shift);
        if kit != plain {
            return Err(format!("the kit answers {}, the plain one {}", name(kit), name(plain)));
        }
        if self.kit != self.plain {
            let same = self.kit.iter().zip(&self.plain).take_while(|(kit, plain)| kit == plain).count();
            let at = same as i64 - GUARD as i64;
            return Err(format!("both answer {}, but byte {at} of the buffer differs", name(plain)));
        }
        let written = if plain < 65_536 { GUARD + plain as usize } else { GUARD };
        let touched = |at: usize| self.plain[at] != pattern(at, shift);
        if (0..GUARD).chain(written..self.plain.len()).any(touched) {
            return Err(format!("both answer {}, but bytes are touched that must not be", name(plain)));
        }
        match aim {
            Aim::Accepted if plain >= 65_536 => Err(format!("meant to be accepted, but both answer {}", name(plain))),
            Aim::Refused(number, line) if plain != 65_536 * number + line => {
                Err(format!("meant to be refused {number} on line {line}, but both answer {}", name(plain)))
            }
            _ => Ok(plain),
        }
    }
}

/// A full report without the K lines that end in three zeros: long, short and margin. It goes by the lines alone, apart
/// from both implementations.
fn without_zeros(full: &[u8]) -> Vec<u8> {
    let lines = full.split_inclusive(|&byte| byte == b'\n');
    let kept = lines.filter(|line| !(line.starts_with(b"K;") && line.ends_with(b";0;0;0\n")));
    kept.flatten().copied().collect()
}

/// A sheet and a lent buffer to an answer.
trait Entry: Fn(&[u8], &mut [u8]) -> u64 {}
impl<F: Fn(&[u8], &mut [u8]) -> u64> Entry for F {}

/// Calls one of them on a part of a buffer filled with a pattern.
fn call(entry: impl Entry, sheet: &[u8], room: usize, buffer: &mut Vec<u8>, shift: usize) -> u64 {
    buffer.clear();
    buffer.extend((0..room + 2 * GUARD).map(|at| pattern(at, shift)));
    entry(sheet, &mut buffer[GUARD..GUARD + room])
}

/// What a buffer holds before a call: no byte that a report has, and another row of bytes from case to case.
fn pattern(at: usize, shift: usize) -> u8 {
    128 | (at.wrapping_mul(37) ^ (at >> 8) ^ shift) as u8
}

/// An answer in words.
pub fn name(answer: u64) -> String {
    match (answer / 65_536, answer % 65_536) {
        (0, length) => format!("a text of {length} bytes"),
        (refusal, line) => format!("refusal {refusal} on line {line}"),
    }
}

/// How often each answer came: place 0 is acceptance, the others the refusals.
struct Counts<const N: usize>([u64; N]);

impl<const N: usize> Counts<N> {
    fn add(&mut self, answer: u64) {
        self.0[(answer / 65_536).min(N as u64 - 1) as usize] += 1;
    }

    /// The refusals that never came, and 0 if nothing was accepted.
    fn missing(&self) -> Vec<usize> {
        (0..N).filter(|&number| self.0[number] == 0).collect()
    }
}

impl<const N: usize> std::fmt::Display for Counts<N> {
    fn fmt(&self, to: &mut std::fmt::Formatter) -> std::fmt::Result {
        write!(to, "accepted {}", self.0[0])?;
        (1..N).try_for_each(|number| write!(to, ", refused {number}: {}", self.0[number]))
    }
}

/// How often each answer came, to sheets and to questions about them. Quiet and full, a sheet is refused alike.
pub struct Tally {
    reports: Counts<13>,
    shortened: u64, // quiet reports with fewer lines than the full ones
    explanations: Counts<14>,
}

impl Default for Tally {
    fn default() -> Self {
        Tally { reports: Counts([0; 13]), shortened: 0, explanations: Counts([0; 14]) }
    }
}

impl Tally {
    pub fn add(&mut self, answers: Answers) {
        self.reports.add(answers.report);
        self.shortened += (answers.report < answers.full) as u64;
        self.explanations.add(answers.explanation);
    }

    /// Of the sheets.
    pub fn accepted(&self) -> u64 {
        self.reports.0[0]
    }

    pub fn total(&self) -> u64 {
        self.reports.0.iter().sum()
    }

    /// The answers that never came to a sheet, and those that never came to a question.
    pub fn missing(&self) -> [Vec<usize>; 2] {
        [self.reports.missing(), self.explanations.missing()]
    }
}

impl std::fmt::Display for Tally {
    fn fmt(&self, to: &mut std::fmt::Formatter) -> std::fmt::Result {
        writeln!(to, "{} sheets: {}", self.total(), self.reports)?;
        writeln!(to, "quiet reports that leave lines out: {}", self.shortened)?;
        write!(to, "their questions: {}", self.explanations)
    }
}
