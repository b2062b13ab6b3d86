//! Holds the kit against the plain implementation on as many generated sheets and questions as asked for:
//! `cargo run --release --bin agree -- SHEETS [SEED]`. A case that differs is printed and ends the run.

use gronnhyl_host::asked::Asked;
use gronnhyl_host::sheets::case;
use gronnhyl_host::together::{Tally, Together};
use std::io::Write;
use std::process::ExitCode;

fn main() -> ExitCode {
    let Some(Asked { sheets, seed }) = Asked::from_words() else {
        eprintln!("agree SHEETS [SEED]");
        return ExitCode::from(2);
    };
    println!("seed {seed}, {sheets} sheets");
    let (mut together, mut tally) = (Together::default(), Tally::default());
    for number in 0..sheets {
        let case = case(seed, number);
        match together.run(&case) {
            Ok(answers) => tally.add(answers),
            Err(wrong) => {
                println!("seed {seed}, case {number}, room {}, {:?}: {wrong}", case.room, case.question);
                let _ = std::io::stdout().write_all(&case.sheet);
                return ExitCode::FAILURE;
            }
        }
    }
    println!("{tally}\nall agree");
    ExitCode::SUCCESS
}
