//! Every case of some folders, on the kit and on the plain implementation: NAME.sheet, the answer in NAME.expect, and
//! the buffer's length in NAME.room where it is not 32,768. A case with NAME.ask, `currency;class`, is a question and
//! its answer an explanation. The folders are ../../tests/cases and ../../tests/questions: there NAME.expect has the
//! quiet report, and NAME.full the full one where it is another.
//!
//! CASES names one folder in place of these. LISTING, quiet or full, says which report its NAME.expect has, and the
//! other one is not asked for; it is quiet if not said.

use gronnhyl_host::sheets::Question;
use gronnhyl_host::{kit, plain};
use std::env::VarError;
use std::fs;
use std::path::{Path, PathBuf};

fn folders() -> Vec<PathBuf> {
    let tests = Path::new(env!("CARGO_MANIFEST_DIR")).join("../../tests");
    match std::env::var_os("CASES") {
        Some(folder) => vec![PathBuf::from(folder)],
        None => vec![tests.join("cases"), tests.join("questions")],
    }
}

/// What is asked about a sheet.
#[derive(Debug)]
enum Asked {
    Quiet,
    Full,
    Why(Question),
}

/// The entries of an implementation.
struct Entries {
    quiet: fn(&[u8], &mut [u8]) -> u64,
    full: fn(&[u8], &mut [u8]) -> u64,
    explain: fn(&[u8], &[u8], u64, &mut [u8]) -> u64,
}

impl Entries {
    fn call(&self, sheet: &[u8], asked: &Asked, report: &mut [u8]) -> u64 {
        match asked {
            Asked::Quiet => (self.quiet)(sheet, report),
            Asked::Full => (self.full)(sheet, report),
            Asked::Why(question) => (self.explain)(sheet, &question.currency, question.class, report),
        }
    }

    /// The answer as the forecast program prints it, if the rest of the buffer stayed as it was.
    fn answer(&self, sheet: &[u8], asked: &Asked, room: usize) -> Vec<u8> {
        const UNTOUCHED: u8 = 0xA5;
        let mut report = vec![UNTOUCHED; room];
        let answer = self.call(sheet, asked, &mut report);
        let (refusal, rest) = (answer / 65_536, (answer % 65_536) as usize);
        let length = if refusal == 0 { rest } else { 0 };
        if report[length..].iter().any(|&byte| byte != UNTOUCHED) {
            return b"bytes touched behind the report".to_vec();
        }
        match refusal {
            0 => report[..length].to_vec(),
            _ => format!("N;{refusal};{rest}\n").into_bytes(),
        }
    }
}

/// The question of a case, if it is one: the class stands behind the last `;`.
fn question(sheet: &Path) -> Option<Question> {
    let text = fs::read(sheet.with_extension("ask")).ok()?;
    let at = text.iter().rposition(|&byte| byte == b';').expect("a question has its `;`");
    let class = std::str::from_utf8(&text[at + 1..]).expect("a class is plain text");
    Some(Question { currency: text[..at].to_vec(), class: class.trim_end().parse().expect("a class is a number") })
}

/// The report in every NAME.expect of the folder that CASES names, if it names one.
fn listing() -> Option<Asked> {
    std::env::var_os("CASES")?;
    match std::env::var("LISTING").as_deref() {
        Ok("quiet") | Err(VarError::NotPresent) => Some(Asked::Quiet),
        Ok("full") => Some(Asked::Full),
        other => panic!("LISTING is quiet or full: {other:?}"),
    }
}

/// What is asked about the sheet of a case, each with the file that has the answer.
fn asked(sheet: &Path) -> Vec<(Asked, PathBuf)> {
    let [expect, full] = ["expect", "full"].map(|ending| sheet.with_extension(ending));
    match (question(sheet), listing()) {
        (Some(question), _) => vec![(Asked::Why(question), expect)],
        (None, Some(listing)) => vec![(listing, expect)],
        (None, None) if full.exists() => vec![(Asked::Quiet, expect), (Asked::Full, full)],
        (None, None) => vec![(Asked::Quiet, expect.clone()), (Asked::Full, expect)],
    }
}

fn sheets(folder: &Path) -> Vec<PathBuf> {
    let mut sheets: Vec<PathBuf> = fs::read_dir(folder)
        .unwrap_or_else(|error| panic!("no cases in {}: {error}", folder.display()))
        .map(|entry| entry.expect("the folder can be listed").path())
        .filter(|path| path.extension().is_some_and(|ending| ending == "sheet"))
        .collect();
    sheets.sort();
    assert!(!sheets.is_empty(), "no cases in {}", folder.display());
    sheets
}

fn run(entries: Entries) {
    let sheets: Vec<PathBuf> = folders().iter().flat_map(|folder| sheets(folder)).collect();
    let (mut same, mut differ, mut questions) = (0, 0, 0); // answers
    for path in &sheets {
        let sheet = fs::read(path).expect("the sheet can be read");
        let room = fs::read_to_string(path.with_extension("room"))
            .map_or(plain::LEAST_ROOM, |text| text.trim().parse().expect("a room is a number"));
        for (asked, file) in asked(path) {
            let expect = fs::read(&file).expect("each sheet has its answer");
            let got = entries.answer(&sheet, &asked, room);
            questions += matches!(asked, Asked::Why(_)) as usize;
            if got == expect {
                same += 1;
                continue;
            }
            let text = |bytes: &[u8]| String::from_utf8_lossy(bytes).into_owned();
            eprintln!("{}, {asked:?}\nexpected:\n{}got:\n{}", file.display(), text(&expect), text(&got));
            differ += 1;
        }
    }
    println!("{} cases: {same} answers as expected, {differ} differ; {questions} are to questions", sheets.len());
    assert_eq!(differ, 0, "answers differ");
}

#[test]
fn kit_answers_as_expected() {
    run(Entries { quiet: kit::brm_margin, full: kit::brm_margin_full, explain: kit::brm_explain });
}

#[test]
fn plain_answers_as_expected() {
    run(Entries { quiet: plain::brm_margin, full: plain::brm_margin_full, explain: plain::brm_explain });
}
