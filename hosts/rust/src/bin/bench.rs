//! The kit's time over the plain implementation's, on the largest sheets: `cargo run --release --bin bench`.
//!
//! A round is a pass over all sheets by each of the two, with the report buffer cleared before each call, and one more
//! by each without. So every call meets a sheet that was not just read, as in a room that works through many, and a
//! busy moment of the computer falls on both. Each figure is a median over the rounds. Only the call is timed, never
//! the clearing.
//!
//! The report is the full one, asked for by its name. With it, the time of the quiet report and that of an explanation
//! over that of the full report of the same sheet, not cleared.

use gronnhyl_host::plain::{self, LEAST_ROOM};
use gronnhyl_host::sheets::Question;
use gronnhyl_host::{kit, processor, sheets};
use std::hint::black_box;
use std::time::Instant;

const SEED: u64 = 2_000;
const SHEETS: u64 = 16;
const ROUNDS: usize = 600;
const WARM_UP: usize = 20; // rounds
const ENTRIES: [Entry; 2] = [kit::brm_margin_full, plain::brm_margin_full];
const QUIET: [Entry; 2] = [kit::brm_margin, plain::brm_margin];
const EXPLAINERS: [Explainer; 2] = [kit::brm_explain, plain::brm_explain];

type Entry = fn(&[u8], &mut [u8]) -> u64;
type Explainer = fn(&[u8], &[u8], u64, &mut [u8]) -> u64;

/// One sheet with a question about it, and the times taken on it, in microseconds, one for each round.
struct Course {
    sheet: Vec<u8>,
    question: Question,
    cleared: [Vec<f64>; 2],     // kit, plain
    not_cleared: [Vec<f64>; 2], // kit, plain
    steps: [Vec<f64>; 3],       // plain: reading, margining, report
    quiet: [Vec<f64>; 2],       // kit, plain
    explained: [Vec<f64>; 2],   // kit, plain
}

/// The microseconds that some work takes.
fn timed<T>(work: impl FnOnce() -> T) -> f64 {
    let start = Instant::now();
    black_box(work());
    start.elapsed().as_nanos() as f64 / 1_000.0
}

fn median(times: &[f64]) -> f64 {
    let mut times = times.to_vec();
    times.sort_by(f64::total_cmp);
    times[times.len() / 2]
}

/// The length of the text, in bytes, once kit and plain have given the same one.
fn same(entries: [impl Fn(&mut [u8]) -> u64; 2]) -> u64 {
    let texts = entries.map(|entry| {
        let mut report = vec![0; LEAST_ROOM];
        (entry(&mut report), report)
    });
    assert!(texts[1].0 < 65_536, "a largest sheet is accepted");
    assert!(texts[0] == texts[1], "the two do not agree");
    texts[1].0
}

impl Course {
    fn new(number: u64) -> Self {
        let sheet = sheets::largest(SEED, number);
        let question = sheets::about_security(&sheet, 0).expect("a security with its class");
        Course {
            sheet,
            question,
            cleared: Default::default(),
            not_cleared: Default::default(),
            steps: Default::default(),
            quiet: Default::default(),
            explained: Default::default(),
        }
    }

    /// The full report's length, in bytes, once both have given the same two reports and the same explanation.
    fn same_report(&self) -> u64 {
        let Question { currency, class } = &self.question;
        same(EXPLAINERS.map(|entry| move |report: &mut [u8]| entry(&self.sheet, currency, *class, report)));
        same(QUIET.map(|entry| move |report: &mut [u8]| entry(&self.sheet, report)));
        same(ENTRIES.map(|entry| move |report: &mut [u8]| entry(&self.sheet, report)))
    }

    fn call(&mut self, which: usize, clear: bool, report: &mut [u8]) {
        if clear {
            black_box(&mut *report).fill(0);
        }
        let time = timed(|| ENTRIES[which](black_box(&self.sheet), black_box(report)));
        let times = if clear { &mut self.cleared } else { &mut self.not_cleared };
        times[which].push(time);
    }

    /// The plain implementation once more, step by step.
    fn step(&mut self, report: &mut [u8]) {
        let mut tables = plain::Tables::EMPTY;
        self.steps[0].push(timed(|| plain::read(black_box(&self.sheet), black_box(&mut tables))));
        let mut figures = None;
        self.steps[1].push(timed(|| figures = Some(plain::figures(black_box(&tables)))));
        let Some(figures) = figures else { return };
        self.steps[2].push(timed(|| plain::write(&tables, black_box(&figures), true, black_box(report))));
    }

    fn call_quiet(&mut self, which: usize, report: &mut [u8]) {
        let time = timed(|| QUIET[which](black_box(&self.sheet), black_box(report)));
        self.quiet[which].push(time);
    }

    fn explain(&mut self, which: usize, report: &mut [u8]) {
        let Question { currency, class } = &self.question;
        let time = timed(|| EXPLAINERS[which](black_box(&self.sheet), currency, *class, black_box(report)));
        self.explained[which].push(time);
    }

    fn forget(&mut self) {
        let times = self.cleared.iter_mut().chain(&mut self.not_cleared).chain(&mut self.steps);
        times.chain(&mut self.quiet).chain(&mut self.explained).for_each(Vec::clear);
    }
}

fn main() {
    let mut report = vec![0; LEAST_ROOM];
    let mut courses: Vec<Course> = (0..SHEETS).map(Course::new).collect();
    let lengths: Vec<u64> = courses.iter().map(Course::same_report).collect();
    for round in 0..WARM_UP + ROUNDS {
        if round == WARM_UP {
            courses.iter_mut().for_each(Course::forget);
        }
        for clear in [true, false] {
            for turn in 0..2 {
                let which = (turn + round) % 2;
                courses.iter_mut().for_each(|course| course.call(which, clear, &mut report));
            }
        }
        courses.iter_mut().for_each(|course| course.step(&mut report));
        for turn in 0..2 {
            let which = (turn + round) % 2;
            courses.iter_mut().for_each(|course| course.call_quiet(which, &mut report));
            courses.iter_mut().for_each(|course| course.explain(which, &mut report));
        }
    }

    println!("microseconds a sheet, medians of {ROUNDS} rounds; the clearing is not in the times");
    println!("                  buffer cleared    not cleared");
    println!("   sheet  report     kit   plain     kit   plain");
    let mut sums = [0.0; 11];
    for (course, length) in courses.iter().zip(lengths) {
        let times = course.cleared.iter().chain(&course.not_cleared).chain(&course.steps);
        let times = times.chain(&course.quiet).chain(&course.explained);
        let of_sheet: Vec<f64> = times.map(|times| median(times)).collect();
        let [kit, plain, kit_not, plain_not] = [0, 1, 2, 3].map(|at| of_sheet[at]);
        println!("{:8} {length:7} {kit:7.1} {plain:7.1} {kit_not:7.1} {plain_not:7.1}", course.sheet.len());
        sums.iter_mut().zip(of_sheet).for_each(|(sum, time)| *sum += time);
    }
    let means = sums.map(|sum| sum / SHEETS as f64);
    let [kit, plain, kit_not, plain_not, reading, margining, writing, kit_quiet, plain_quiet, kit_why, plain_why] =
        means;
    println!("    mean         {kit:7.1} {plain:7.1} {kit_not:7.1} {plain_not:7.1}");
    println!("plain by steps: reading {reading:.1}, margining {margining:.1}, report {writing:.1}");
    let (quiet, plain_over) = (kit_quiet / kit_not, plain_quiet / plain_not);
    println!("quiet over full: kit {quiet:.2}, plain {plain_over:.2}; on {}", processor::name());
    let (why, plain_over) = (kit_why / kit_not, plain_why / plain_not);
    println!("explanation over report: kit {why:.2}, plain {plain_over:.2}; on {}", processor::name());
    let (ratio, ratio_not) = (kit / plain, kit_not / plain_not);
    println!("kit over plain: cleared {ratio:.2}, not cleared {ratio_not:.2}; on {}", processor::name());
}
