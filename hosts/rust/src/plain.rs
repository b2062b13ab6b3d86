//! Document 01 in plain safe Rust, written for speed: the kit is held against its answers and against its time. And the
//! question of document 02, c, and its quiet report, e.
//!
//! One pass over the sheet fills tables of fixed size, the figures are worked out from the tables, and only then is
//! the report written; nothing is allocated. The three steps are public so that each can be timed.

#![forbid(unsafe_code)]

mod codes;
pub mod days;
mod explain;
mod fields;
mod figures;
mod read;
mod tables;
mod write;

pub use codes::is_code;
pub use figures::{accrued, figures, interest, net, revaluated, share, CurrencyFigures, Figures};
pub use read::read;
pub use tables::{Class, Offset, Refusal, Security, Tables, Trade};
pub use write::write;

/// A buffer of this many bytes holds the report of any sheet.
pub const LEAST_ROOM: usize = 32_768;

/// The same entry as the kit's: the quiet report's length, or 65,536 × refusal + line and the buffer untouched.
pub fn brm_margin(sheet: &[u8], report: &mut [u8]) -> u64 {
    margin(sheet, false, report)
}

/// The kit's second entry: the same with the full report.
pub fn brm_margin_full(sheet: &[u8], report: &mut [u8]) -> u64 {
    margin(sheet, true, report)
}

/// The full report, or the quiet one.
fn margin(sheet: &[u8], full: bool, report: &mut [u8]) -> u64 {
    let mut tables = Tables::EMPTY;
    match read_with_room(sheet, report.len(), &mut tables) {
        Err(refusal) => refusal.answer(),
        Ok(()) => write(&tables, &figures(&tables), full, report) as u64,
    }
}

/// The kit's third entry: the explanation's length, or 65,536 × refusal + line and the buffer untouched.
pub fn brm_explain(sheet: &[u8], currency: &[u8], class: u64, report: &mut [u8]) -> u64 {
    let mut tables = Tables::EMPTY;
    let read = read_with_room(sheet, report.len(), &mut tables);
    match read.and_then(|()| explain::asked(&tables, currency, class)) {
        Err(refusal) => refusal.answer(),
        Ok(asked) => explain::explain(&tables, asked, report) as u64,
    }
}

/// Fills empty tables from the sheet, if the buffer has the room in bytes.
#[inline(always)]
fn read_with_room(sheet: &[u8], room: usize, tables: &mut Tables) -> Result<(), Refusal> {
    if room < LEAST_ROOM {
        return Err(Refusal { number: 1, line: 0 });
    }
    read(sheet, tables)
}
