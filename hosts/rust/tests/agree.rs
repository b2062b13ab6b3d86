//! The kit and the plain implementation on generated sheets and a question about each: the same number back and the
//! same bytes in the buffer. SHEETS sets how many, SEED which ones.

use gronnhyl_host::kit;
use gronnhyl_host::sheets::{about_security, case, largest, Aim, Case, Question};
use gronnhyl_host::together::{Answers, Tally, Together};
use std::cmp::Ordering;

fn setting(name: &str, usual: u64) -> u64 {
    match std::env::var(name) {
        Ok(text) => text.parse().unwrap_or_else(|_| panic!("{name} is no whole number: {text}")),
        Err(_) => usual,
    }
}

#[test]
fn generated_sheets() {
    let (seed, sheets) = (setting("SEED", 20_190_612), setting("SHEETS", 100_000));
    println!("SEED={seed} SHEETS={sheets}");
    let (mut together, mut tally) = (Together::default(), Tally::default());
    for number in 0..sheets {
        let case = case(seed, number);
        match together.run(&case) {
            Ok(answers) => tally.add(answers),
            Err(wrong) => {
                let sheet = String::from_utf8_lossy(&case.sheet);
                panic!("seed {seed}, case {number}, room {}, {:?}: {wrong}\n{sheet}", case.room, case.question);
            }
        }
    }
    println!("{tally}");
    if sheets >= 10_000 {
        assert_eq!(tally.missing(), [vec![], vec![]], "answers that never came");
        assert!(tally.accepted() * 4 >= tally.total(), "fewer than a quarter accepted");
    }
}

/// The kit's explanations against its own full reports, which have a K line for every class: the nets that are listed,
/// less what is listed as taken, are what remains in the K line, and the larger of it is the side that set the margin.
#[test]
fn explanations_lead_to_the_report() {
    const SEED: u64 = 20_190_612;
    const SHEETS: u64 = 20_000;
    let mut explained = 0; // questions
    for number in 0..SHEETS {
        let Case { sheet, question, .. } = case(SEED, number);
        let report = text(|buffer| kit::brm_margin_full(&sheet, buffer));
        let explanation = text(|buffer| kit::brm_explain(&sheet, &question.currency, question.class, buffer));
        let (Some(report), Some(explanation)) = (report, explanation) else { continue };
        let [long, short] = remaining(&explanation);
        let currency = String::from_utf8_lossy(&question.currency);
        let margined = format!("\nK;{currency};{};{long};{short};", question.class);
        assert!(format!("\n{report}").contains(&margined), "case {number}:\n{explanation}\n{report}");
        let side = match long.cmp(&short) {
            Ordering::Less => 'S',
            Ordering::Equal => 'E',
            Ordering::Greater => 'L',
        };
        let setter = format!("B;{side};{}\n", long.max(short));
        assert!(explanation.ends_with(&setter), "case {number}:\n{explanation}");
        explained += 1;
    }
    println!("{explained} explanations lead to the K line of their report");
    assert!(explained * 4 > SHEETS, "fewer than a quarter explained");
}

/// The text that an entry writes into a buffer, if it accepts.
fn text(entry: impl FnOnce(&mut [u8]) -> u64) -> Option<String> {
    let mut buffer = vec![0; 32_768];
    let answer = entry(&mut buffer);
    buffer.truncate(answer as usize);
    (answer < 65_536).then(|| String::from_utf8(buffer).expect("plain text"))
}

/// Long and short of an explanation's P lines, less its R lines, whole units.
fn remaining(explanation: &str) -> [i64; 2] {
    let mut sides = [0; 2]; // long, short
    for line in explanation.lines() {
        let fields: Vec<&str> = line.split(';').collect();
        let number = |at: usize| fields[at].parse::<i64>().expect("whole units");
        match fields[0] {
            "P" => sides[(number(2) < 0) as usize] += number(2).abs(),
            "R" => sides = [sides[0] - number(2), sides[1] - number(3)],
            _ => {}
        }
    }
    sides
}

/// A slice without bytes may have any address.
#[test]
fn empty_slices() {
    let mut together = Together::default();
    let mut answer = |sheet: &[u8], room| {
        let question = Question { currency: Vec::new(), class: 0 };
        together.run(&Case { sheet: sheet.to_vec(), question, room, aim: Aim::Open, question_aim: Aim::Open })
    };
    let all = |answer: u64| Ok(Answers { report: answer, full: answer, explanation: answer });
    assert_eq!(answer(b"", 0), all(65_536));
    assert_eq!(answer(b"", 32_768), all(3 * 65_536 + 1));
    assert_eq!(answer(b"BRM;1\nD;20190612\n", 32_768), Ok(Answers { report: 0, full: 0, explanation: 13 * 65_536 }));
    assert_eq!(kit::brm_margin(&[], &mut []), 65_536);
    assert_eq!(kit::brm_margin_full(&[], &mut []), 65_536);
    assert_eq!(kit::brm_explain(&[], &[], 0, &mut []), 65_536);
}

/// What ../kit.h asks of a thread that calls the kit. A call that needs more ends the whole test.
#[test]
fn a_thread_with_256_kilobytes_of_stack() {
    let calls = || {
        let mut report = vec![0; 32_768];
        let sheets = (0..16).map(|number| largest(1, number));
        let all = sheets.flat_map(|sheet| {
            let Question { currency, class } = about_security(&sheet, 0).expect("a security with its class");
            [
                kit::brm_margin(&sheet, &mut report),
                kit::brm_margin_full(&sheet, &mut report),
                kit::brm_explain(&sheet, &currency, class, &mut report),
            ]
        });
        all.collect::<Vec<u64>>()
    };
    let thread = std::thread::Builder::new().stack_size(256 * 1024).spawn(calls).expect("a thread");
    let lengths = thread.join().expect("the calls come back"); // bytes
    assert!(lengths.iter().all(|length| (1..65_536).contains(length)), "largest sheets are accepted: {lengths:?}");
}
