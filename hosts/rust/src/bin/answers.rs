//! The plain implementation's answers to generated sheets and to a question about each, for a host that is not written
//! in Rust to be held to: `cargo run --release --bin answers -- SHEETS [SEED] >FILE`.
//!
//! The file has the number of sheets. Then, for each, seven numbers: the sheet's length, the room lent for an answer, the
//! answer to the sheet, the answer with the full list, the length of the question's currency, its class, the answer to
//! it. Then bytes: the sheet, its quiet report and its full one where there are reports, the currency, the explanation
//! where there is one. Numbers have 8 bytes, the lowest first.

use gronnhyl_host::asked::Asked;
use gronnhyl_host::plain;
use gronnhyl_host::sheets::{case, Question};
use std::io::{stdout, BufWriter, Result, Write};
use std::process::ExitCode;

fn main() -> ExitCode {
    let Some(asked) = Asked::from_words() else {
        eprintln!("answers SHEETS [SEED]");
        return ExitCode::from(2);
    };
    match write(&asked, &mut BufWriter::new(stdout().lock())) {
        Ok(()) => ExitCode::SUCCESS,
        Err(error) => {
            eprintln!("answers: cannot write: {error}");
            ExitCode::FAILURE
        }
    }
}

fn write(asked: &Asked, to: &mut impl Write) -> Result<()> {
    to.write_all(&asked.sheets.to_le_bytes())?;
    for number in 0..asked.sheets {
        let case = case(asked.seed, number);
        let Question { currency, class } = &case.question;
        let (report, text) = answer(case.room, |buffer| plain::brm_margin(&case.sheet, buffer));
        let (full, full_text) = answer(case.room, |buffer| plain::brm_margin_full(&case.sheet, buffer));
        let (explanation, reasons) =
            answer(case.room, |buffer| plain::brm_explain(&case.sheet, currency, *class, buffer));
        let (length, room, letters) = (case.sheet.len() as u64, case.room as u64, currency.len() as u64); // bytes
        for number in [length, room, report, full, letters, *class, explanation] {
            to.write_all(&number.to_le_bytes())?;
        }
        for bytes in [&case.sheet, &text, &full_text, currency, &reasons] {
            to.write_all(bytes)?;
        }
    }
    to.flush()
}

/// The answer of an entry that is lent a buffer of that room, in bytes, and the text that it wrote.
fn answer(room: usize, entry: impl FnOnce(&mut [u8]) -> u64) -> (u64, Vec<u8>) {
    let mut buffer = vec![0; room];
    let answer = entry(&mut buffer);
    buffer.truncate(if answer < 65_536 { answer as usize } else { 0 });
    (answer, buffer)
}
