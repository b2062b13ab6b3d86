//! The generator's own check: that its sheets reach every end of every range, every rounding tie and every turn of
//! the rules, and its questions every kind of answer. Without it, agreement on many could mean agreement on few things.

use gronnhyl_host::plain::{self, days, Tables};
use gronnhyl_host::sheets::{case, Case, Question};
use std::collections::BTreeMap;

const SEED: u64 = 20_190_612;
const SHEETS: u64 = 40_000;

#[derive(Default)]
struct Seen(BTreeMap<String, u64>);

impl Seen {
    fn note(&mut self, what: &str, is: bool) {
        match self.0.get_mut(what) {
            Some(count) => *count += is as u64,
            None => drop(self.0.insert(what.to_string(), is as u64)),
        }
    }

    /// A quotient that lies at a half, by the number below its size: a rounding to the even neighbour differs above an
    /// even one alone.
    fn tie(&mut self, place: &str, product: u64, divisor: u64) {
        if 2 * (product % divisor) == divisor {
            self.note(&tied(place, (product / divisor).is_multiple_of(2)), true);
        }
    }
}

/// Where a figure is rounded.
const ROUNDED: [&str; 8] = [
    "an accrued coupon",
    "a revaluated amount",
    "interest above zero",
    "interest below zero",
    "a net above zero",
    "a net below zero",
    "an offset",
    "a class margin",
];

fn tied(place: &str, even: bool) -> String {
    format!("{place} at a half above an {} number", if even { "even" } else { "odd" })
}

/// The smallest and the largest value of each numeric field and of each section's rows, and how they must come out.
const RANGES: [(&str, i64, i64); 21] = [
    ("C 1", 1, 40),
    ("C 3", 1, 1_000_000),
    ("C 4", 0, 10_000),
    ("O 1", 1, 40),
    ("O 2", 1, 40),
    ("O 3", 0, 10_000),
    ("S 4", 1, 1_000_000),
    ("S 5", 1, 20_000_000),
    ("S 6", 0, 2_000_000),
    ("S 7", 1, 4),
    ("S 8", 20000101, 23991230),
    ("S 9", 20000102, 23991231),
    ("T 4", 1, 100_000_000),
    ("T 5", 1, 30_000_000_000),
    ("T 6", 20000101, 23991230),
    ("T 7", 20000102, 23991231),
    ("T 8", -200_000, 200_000),
    ("C rows", 0, 40),
    ("O rows", 0, 200),
    ("S rows", 0, 200),
    ("T rows", 0, 500),
];

#[test]
fn the_generator_reaches_everything() {
    let mut seen = Seen::default();
    for place in ROUNDED {
        seen.note(&tied(place, true), false);
        seen.note(&tied(place, false), false);
    }
    let mut ranges: BTreeMap<String, (i64, i64)> = BTreeMap::new();
    let mut lines: BTreeMap<u64, (u64, u64)> = BTreeMap::new();
    let mut report = vec![0; 100_000];
    for number in 0..SHEETS {
        let case = case(SEED, number);
        let answer = plain::brm_margin_full(&case.sheet, &mut report[..case.room]);
        if answer >= 65_536 {
            let (refusal, line) = (answer / 65_536, answer % 65_536);
            wrong_question(&case, refusal, &mut seen);
            let (first, last) = lines.entry(refusal).or_insert((line, line));
            (*first, *last) = (line.min(*first), line.max(*last));
            match refusal {
                6 => wrong_code(&case.sheet, line as usize, &mut seen),
                10 => hidden_slip(&case.sheet, line as usize, &mut seen),
                12 => outside(&case.sheet, line as usize, &mut seen),
                _ => {}
            }
            continue;
        }
        zeros(&report[..answer as usize], &mut seen);
        let mut tables = Tables::EMPTY;
        assert!(plain::read(&case.sheet, &mut tables).is_ok());
        let nets = figures(&tables, &mut seen); // cents
        text(&case.sheet, &mut seen, &mut ranges);
        let question = &case.question;
        match plain::brm_explain(&case.sheet, &question.currency, question.class, &mut report) {
            length @ 0..65_536 => {
                Explained::new(question, &tables, &report[..length as usize]).note(&nets, &mut seen);
            }
            _ => lacking(question, &tables, &mut seen),
        }
    }
    println!("{:#?}\n{ranges:?}\nearliest and latest line of each refusal: {lines:?}", seen.0);
    let never: Vec<_> = seen.0.iter().filter(|(_, &count)| count == 0).collect();
    assert!(never.is_empty(), "never seen: {never:?}");
    for (field, least, most) in RANGES {
        assert_eq!(ranges.get(field), Some(&(least, most)), "{field}");
    }
    for refusal in 1..=12 {
        let (first, last) = lines[&refusal];
        match refusal {
            1 | 2 => assert_eq!((first, last), (0, 0)),
            3 | 4 => assert_eq!((first, last), (1, 1)),
            5 | 6 | 7 | 8 | 10 | 12 => assert!(first <= 43 && last >= 900, "refusal {refusal}: {first} to {last}"),
            _ => assert!(first <= 5 && last >= 40, "refusal {refusal}: {first} to {last}"),
        }
    }
}

/// Rounding ties, and what the positions look like. Gives the net of each security, cents.
fn figures(tables: &Tables, seen: &mut Seen) -> Vec<i64> {
    let mut nets = vec![0i64; tables.security_count]; // cents
    for trade in &tables.trades[..tables.trade_count] {
        let security = &tables.securities[trade.security as usize];
        let run = trade.accrual - security.previous;
        let divisor = security.payments * (security.next - security.previous);
        let accrued = plain::accrued(security, trade.accrual);
        seen.tie("an accrued coupon", (security.coupon * run) as u64, divisor as u64);
        seen.note("accrual on the previous coupon date", run == 0);
        seen.note("accrual on the day before the next", trade.accrual + 1 == security.next);
        let worth = trade.nominal as u64 * (security.price + accrued) as u64;
        seen.tie("a revaluated amount", worth, 100_000);
        let interest = trade.interest_days as u64 * trade.amount * trade.rate.unsigned_abs() as u64;
        seen.tie(if trade.rate < 0 { "interest below zero" } else { "interest above zero" }, interest, 36_000_000_000);
        let cents = plain::revaluated(trade.nominal, security.price, accrued) as i64;
        nets[trade.security as usize] += if trade.long { cents } else { -cents };
    }
    for &cents in &nets {
        seen.tie(if cents < 0 { "a net below zero" } else { "a net above zero" }, cents.unsigned_abs(), 100);
        seen.note("net of -50 cents", cents == -50);
        seen.note("net of -49 to -1 cents", (-49..0).contains(&cents));
    }
    for currency in 0..tables.currency_count {
        let mut long = vec![0u64; tables.class_count];
        let mut short = vec![0u64; tables.class_count];
        for (security, &cents) in tables.securities.iter().zip(&nets).filter(|(s, _)| s.currency as usize == currency) {
            let net = plain::net(cents);
            let side = if net < 0 { &mut short } else { &mut long };
            side[security.class as usize] += net.unsigned_abs();
        }
        let opening: Vec<(u64, u64)> = long.iter().copied().zip(short.iter().copied()).collect(); // whole units
        for row in &tables.offsets[..tables.offset_count] {
            let (one, two) = (row.first as usize, row.second as usize);
            let pairs = if one == two { vec![(one, one)] } else { vec![(one, two), (two, one)] };
            let all: Vec<u64> = pairs.iter().map(|&(of, and)| long[of].min(short[and])).collect();
            seen.note("an offset of one class", one == two && all[0] > 0 && row.factor > 0);
            seen.note("an offset of a pair", one != two && all[0] > 0 && row.factor > 0);
            seen.note("an offset both ways", one != two && all[0] > 0 && all[1] > 0 && row.factor > 0);
            seen.note("an offset by factor 0", all[0] > 0 && row.factor == 0);
            seen.note("an offset by factor 10,000", all[0] > 0 && row.factor == 10_000);
            for ((of, and), least) in pairs.into_iter().zip(all) {
                let taken = plain::share(row.factor, least);
                seen.tie("an offset", row.factor as u64 * least, 10_000);
                long[of] -= taken;
                short[and] -= taken;
            }
        }
        for ((class, &long), &short) in tables.classes.iter().zip(&long).zip(&short) {
            seen.tie("a class margin", class.deposit as u64 * long.max(short), 10_000);
            seen.note("both sides remain, long larger", long > short && short > 0);
            seen.note("both sides remain, short larger", short > long && long > 0);
        }
        for ((opening, &long), &short) in opening.into_iter().zip(&long).zip(&short) {
            let nothing_left = long == 0 && short == 0;
            seen.note("zeros after offsetting both sides away", nothing_left && opening.0 > 0 && opening.1 > 0);
            seen.note("zeros after offsetting the long away", nothing_left && opening.0 > 0 && opening.1 == 0);
            seen.note("zeros after offsetting the short away", nothing_left && opening.0 == 0 && opening.1 > 0);
        }
        let figures = &plain::figures(tables).currencies[currency];
        seen.note("a total of zero by its floor", figures.total == 0 && figures.mark > 100 * figures.initial as i64);
        seen.note("a total above zero", figures.total > 0);
        seen.note("a mark-to-market sum below zero", figures.mark < 0);
    }
    seen.note("eight currencies", tables.currency_count == 8);
    seen.note("500 margined trades", tables.trade_count == 500);
    nets
}

/// Where K lines of zeros stand in a full report, and what looks like one and is none. The quiet report lacks the former
/// alone.
fn zeros(full: &[u8], seen: &mut Seen) {
    let full = std::str::from_utf8(full).expect("a report is plain text");
    let lines: Vec<Vec<&str>> = full.lines().map(|line| line.split(';').collect()).collect();
    let is_zeros = |line: &Vec<&str>| line[0] == "K" && line[3..] == ["0"; 3];
    for line in lines.iter().filter(|line| line[0] == "K") {
        let [long, short, margin] = [3, 4, 5].map(|at| line[at] == "0"); // whether it is 0
        seen.note("a K line of zeros", is_zeros(line));
        seen.note("a K line with a long and a margin of 0", !long && short && margin);
        seen.note("a K line with a short and a margin of 0", long && !short && margin);
        seen.note("a K line with both sides and a margin of 0", !long && !short && margin);
    }
    for block in lines.split_inclusive(|line| line[0] == "Z") {
        let Some((total, classes)) = block.split_last() else { continue };
        let classes: Vec<bool> = classes.iter().filter(|line| line[0] == "K").map(is_zeros).collect();
        currency_zeros(&classes, total[2..] == ["0"; 3], seen);
    }
    let classes = lines.iter().filter(|line| line[0] == "K").count(); // lines
    let left_out = lines.iter().filter(|line| is_zeros(line)).count(); // lines
    seen.note("a report with K lines and none of zeros", classes > 0 && left_out == 0);
    seen.note("a quiet report without K lines, and not a full one", classes > 0 && left_out == classes);
    seen.note("a report without lines", lines.is_empty());
}

/// The K lines of one currency, by whether they are of zeros, and whether its Z line is.
fn currency_zeros(classes: &[bool], total: bool, seen: &mut Seen) {
    let (all, any) = (classes.iter().all(|&zeros| zeros), classes.contains(&true));
    let follows = |first: bool, second: bool| classes.windows(2).any(|pair| pair == [first, second]);
    seen.note("zeros in the first class of a currency, and not in all", !all && classes.first() == Some(&true));
    seen.note("zeros in the last class of a currency, and not in all", !all && classes.last() == Some(&true));
    seen.note("zeros in all classes of a currency", all);
    seen.note("zeros in no class of a currency", !any);
    seen.note("zeros in two neighbouring classes", follows(true, true));
    seen.note("zeros in the last class behind one with something", classes.ends_with(&[false, true]));
    seen.note("a class with something behind one of zeros", follows(true, false));
    seen.note(
        "zeros between two classes with something",
        classes.windows(3).any(|three| three == [false, true, false]),
    );
    seen.note("a Z line of zeros", total);
    seen.note("a Z line of zeros behind a class with something", total && !all);
    seen.note("zeros in all classes of a currency whose Z line has something", all && !total);
}

/// An explanation by the fields of its lines, and what it was given for.
struct Explained<'a> {
    question: &'a Question,
    tables: &'a Tables,
    class: u8, // place in the table of classes
    lines: Vec<Vec<&'a str>>,
}

impl<'a> Explained<'a> {
    fn new(question: &'a Question, tables: &'a Tables, text: &'a [u8]) -> Self {
        let text = std::str::from_utf8(text).expect("an explanation is plain text");
        let lines = text.lines().map(|line| line.split(';').collect()).collect();
        let class = tables.classes.iter().position(|class| class.number as u64 == question.class);
        Explained { question, tables, class: class.expect("a class of the sheet") as u8, lines }
    }

    /// What it lists and what it leaves out, given the nets of all securities in cents.
    fn note(&self, nets: &[i64], seen: &mut Seen) {
        let listed = self.lines.iter().any(|line| line[0] == "P");
        let (long, short) = self.rows(listed, seen); // whole units
        let equal = long == short;
        seen.note("a margin set by the long", long > short);
        seen.note("a margin set by the short", long < short);
        seen.note("a margin set by both sides, above zero", equal && long > 0);
        seen.note("a class that rows took down to nothing", equal && long == 0 && listed);
        seen.note("a class of the sheet without nets", !listed);
        self.securities(nets, seen);
    }

    /// The long and the short that the P lines add up to, whole units.
    fn opening(&self) -> (u64, u64) {
        let (mut long, mut short) = (0, 0);
        for line in self.lines.iter().filter(|line| line[0] == "P") {
            let net: i64 = line[2].parse().expect("whole units");
            *(if net < 0 { &mut short } else { &mut long }) += net.unsigned_abs();
        }
        (long, short)
    }

    /// What the R line of a row of the sheet says, off the long and off the short, if there is one; whole units.
    fn taken(&self, row: usize) -> Option<(u64, u64)> {
        let number = (3 + self.tables.class_count + row).to_string();
        let line = self.lines.iter().find(|line| line[0] == "R" && line[1] == number)?;
        Some((line[2].parse().expect("whole units"), line[3].parse().expect("whole units")))
    }

    /// What the rows took, and why some are left out. Gives the long and the short that remain, whole units.
    fn rows(&self, listed: bool, seen: &mut Seen) -> (u64, u64) {
        let rows = &self.tables.offsets[..self.tables.offset_count];
        let names = |row: &plain::Offset| row.first == self.class || row.second == self.class;
        seen.note("a class with nets that no row names", listed && !rows.iter().any(names));
        let (mut long, mut short) = self.opening(); // whole units
        for (place, row) in rows.iter().enumerate() {
            let pair = row.first != row.second;
            let taken = self.taken(place);
            let (off_long, off_short) = taken.unwrap_or((0, 0)); // whole units
            let both = off_long > 0 && off_short > 0;
            seen.note("a pair took from the long of the class alone", off_long > 0 && off_short == 0);
            seen.note("a pair took from the short of the class alone", off_short > 0 && off_long == 0);
            seen.note("a pair took from both sides of the class, not the same", both && off_long != off_short);
            seen.note("a pair took from both sides of the class, the same", both && pair && off_long == off_short);
            seen.note("a row of the class alone took", both && !pair);
            let left_out = names(row) && taken.is_none() && listed;
            let least = long.min(short); // whole units
            seen.note("a row left out for its factor of 0", left_out && row.factor == 0);
            seen.note("a row of a pair left out", left_out && pair && row.factor > 0);
            seen.note("a row left out for an empty side", left_out && !pair && row.factor > 0 && least == 0);
            seen.note("a row left out for a share that rounds to 0", left_out && !pair && row.factor > 0 && least > 0);
            (long, short) = (long - off_long, short - off_short);
        }
        (long, short)
    }

    fn securities(&self, nets: &[i64], seen: &mut Seen) {
        let tables = self.tables;
        for (place, security) in tables.securities[..tables.security_count].iter().enumerate() {
            let same_class = security.class == self.class;
            let same_currency = self.question.currency == tables.currencies[security.currency as usize];
            let own = same_class && same_currency;
            let trades = tables.trades[..tables.trade_count].iter(); // the margined ones
            let trades = trades.filter(|trade| trade.security as usize == place).count();
            let (net, size) = (nets[place], nets[place].unsigned_abs()); // cents
            seen.note("a security left out, its trades cancel", own && trades > 1 && net == 0);
            seen.note("a security left out, without margined trades", own && trades == 0);
            seen.note("a security left out, its net is below half a unit", own && (1..50).contains(&size));
            seen.note("a security listed for a net of 50 cents", own && net == 50);
            seen.note("a security listed for a net of -50 cents", own && net == -50);
            seen.note("a net of the class in another currency", same_class && !same_currency && size >= 50);
            seen.note("a net of the currency in another class", same_currency && !same_class && size >= 50);
        }
    }
}

/// A question of a currency or a class that an accepted sheet lacks.
fn lacking(question: &Question, tables: &Tables, seen: &mut Seen) {
    let currency = tables.currencies[..tables.currency_count].iter().any(|name| question.currency == name);
    let class = tables.classes[..tables.class_count].iter().any(|class| class.number as u64 == question.class);
    seen.note("a missing currency with a class of the sheet", !currency && class);
    seen.note("a missing class with a currency of the sheet", currency && !class);
    seen.note("a missing currency and a missing class", !currency && !class && tables.security_count > 0);
    seen.note("a question about a sheet without securities", tables.security_count == 0);
    if class {
        let name = &question.currency;
        let known = |name: &[u8]| tables.currencies[..tables.currency_count].iter().any(|known| known == name);
        let part = tables.currencies[..tables.currency_count].iter().any(|known| known[..2] == **name);
        let letters = name.len() == 3 && name.iter().all(u8::is_ascii_uppercase);
        seen.note("an empty currency", name.is_empty());
        seen.note("a currency of the sheet without its last letter", part);
        seen.note("a currency of the sheet with a byte behind it", name.len() == 4 && known(&name[..3]));
        seen.note("a currency of the sheet with a byte before it", name.len() == 4 && known(&name[1..]));
        seen.note("a currency of the sheet in small letters", !letters && known(&name.to_ascii_uppercase()));
        seen.note("a currency of three other letters", letters);
        seen.note("a currency of more than 200 bytes", name.len() > 200);
    }
    if currency {
        let low = tables.classes[..tables.class_count].iter().any(|class| class.number as u64 == question.class % 64);
        seen.note("class 0", question.class == 0);
        seen.note("class 41", question.class == 41);
        seen.note("a class of 1..40 that no C row has", (1..=40).contains(&question.class));
        seen.note("the highest class of 64 bits", question.class == u64::MAX);
        seen.note("a class with the lowest bits of one of the sheet", question.class > 41 && low);
    }
}

/// A question that no sheet could have answered, where the sheet is refused already.
fn wrong_question(case: &Case, refusal: u64, seen: &mut Seen) {
    let Question { currency, class } = &case.question;
    let wrong = currency.len() != 3 || !(1..=40).contains(class);
    seen.note("a wrong question and a short buffer", wrong && refusal == 1);
    seen.note("a wrong question about a refused sheet", wrong && refusal > 2);
    seen.note("a question that looks right about a refused sheet", !wrong && refusal > 2);
}

/// The day that a field names.
fn day(text: &str) -> u32 {
    days::day(text.as_bytes().try_into().expect("eight digits")).expect("a date")
}

/// The first day after that is neither Saturday nor Sunday, be it closed or not; day 0 was a Saturday.
fn weekday_after(day: u32) -> u32 {
    (day + 1..).find(|day| day % 7 > 1).expect("days go on")
}

/// A trade's accrual date outside its coupon period, on a line before which every line is good.
fn outside(sheet: &[u8], line: usize, seen: &mut Seen) {
    let sheet = String::from_utf8_lossy(sheet);
    let rows: Vec<Vec<&str>> = sheet.lines().take(line).map(|line| line.split(';').collect()).collect();
    let calculation = day(rows[1][1]);
    let trade = &rows[line - 1];
    let security = rows.iter().find(|row| row[0] == "S" && row[1] == trade[3]).expect("the trade's security");
    let period = day(security[8])..day(security[9]);
    let working = days::working_day_after(calculation);
    let only_closing = trade[1] == "R" && period.contains(&weekday_after(calculation));
    seen.note("refused by a closing day alone, coupon on the working day", only_closing && period.end == working);
    seen.note("refused by a closing day alone, coupon before the working day", only_closing && period.end < working);
}

type Code = [u8; 12];

/// The letter of an S or a T row and its code, be it right or not.
fn code(row: &[u8]) -> Option<(u8, Code)> {
    let mut fields = row.split(|&byte| byte == b';');
    let field = match fields.next()? {
        b"S" => fields.next()?,
        b"T" => fields.nth(2)?,
        _ => return None,
    };
    Some((row[0], field.try_into().ok()?))
}

/// The letter and the code of one line, and the codes of the T rows if it is an S row, else of the S rows.
fn code_and_others(sheet: &[u8], line: usize) -> Option<(u8, Code, Vec<Code>)> {
    let rows: Vec<&[u8]> = sheet.split(|&byte| byte == b'\n').collect();
    let (letter, own) = code(rows[line - 1])?;
    let others = rows.iter().filter_map(|row| code(row)).filter(|&(other, _)| other != letter);
    Some((letter, own, others.map(|(_, code)| code).collect()))
}

const SLIPS: [&str; 4] = ["the last digit changed", "another digit changed", "two digits swapped", "a letter swapped"];

/// The slip between two codes, if there is one.
fn slip(one: &Code, other: &Code) -> Option<&'static str> {
    let places: Vec<usize> = (0..12).filter(|&at| one[at] != other[at]).collect();
    let digits = places.iter().all(|&at| one[at].is_ascii_digit() && other[at].is_ascii_digit());
    match places[..] {
        [11] => Some(SLIPS[0]),
        [_] if digits => Some(SLIPS[1]),
        [at, next] if next == at + 1 && [one[at], one[next]] == [other[next], other[at]] => {
            Some(if digits { SLIPS[2] } else { SLIPS[3] })
        }
        _ => None,
    }
}

/// A code that only its last digit makes wrong, on a line before which every line is good.
fn wrong_code(sheet: &[u8], line: usize, seen: &mut Seen) {
    let Some((letter, code, others)) = code_and_others(sheet, line) else { return };
    let with_last = |digit: u8| [&code[..11], &[digit]].concat().try_into().expect("twelve bytes");
    let right = (b'0'..=b'9').find(|&digit| plain::is_code(&with_last(digit)));
    let wrong = code[11].is_ascii_digit() && right.is_some_and(|digit| digit != code[11]);
    let (in_security, in_trade) = (wrong && letter == b'S', wrong && letter == b'T');
    let same = others.contains(&code);
    let slips: Vec<&str> = others.iter().filter_map(|other| slip(&code, other)).collect();
    seen.note("a wrong code in an S row and its T rows", in_security && same);
    seen.note("a wrong code in a T row, and none near it in S rows", in_trade && slips.is_empty());
    for kind in SLIPS {
        seen.note(&format!("{kind} in an S row, not in its T rows"), in_security && !same && slips.contains(&kind));
        seen.note(&format!("{kind} in a T row"), in_trade && slips.contains(&kind));
    }
}

/// Two digits swapped where both codes are right, on a line before which every line is good.
fn hidden_slip(sheet: &[u8], line: usize, seen: &mut Seen) {
    if let Some((b'T', code, others)) = code_and_others(sheet, line) {
        let hidden = others.iter().any(|other| slip(&code, other) == Some("two digits swapped"));
        seen.note("0 and 9 swapped in a T row", hidden);
    }
}

/// Closing days that are the same date each year.
const FIXED: [(&str, &str); 4] =
    [("1 January", "0101"), ("1 May", "0501"), ("25 December", "1225"), ("26 December", "1226")];

/// What is stepped over from the calculation date to the first working day after it.
fn stepped_over(date: &str, seen: &mut Seen) {
    let year: u32 = date[..4].parse().expect("a year");
    let calculation = day(date);
    let working = days::working_day_after(calculation);
    let between = calculation + 1..working;
    let years = [year, (year + 1).min(2_399)]; // the next one for its 1 January
    let mut fixed = Vec::new();
    for (name, month_and_day) in FIXED {
        for closing in years.map(|year| day(&format!("{year}{month_and_day}"))) {
            let on_weekend = closing % 7 < 2;
            seen.note(&format!("{name} stepped over on a weekday"), !on_weekend && between.contains(&closing));
            let no_substitute = (calculation..working).contains(&closing) && working == weekday_after(closing);
            seen.note(&format!("{name} on a weekend, and then an open Monday"), on_weekend && no_substitute);
            fixed.push(closing);
        }
    }
    let movable = |weekday: u32| between.clone().any(|day| day % 7 == weekday && !fixed.contains(&day));
    let (good_friday, easter_monday) = (movable(6), movable(2));
    seen.note("Good Friday stepped over", good_friday);
    seen.note("Easter Monday stepped over", easter_monday);
    let closed = calculation % 7 > 1 && days::working_day_after(calculation - 1) != calculation;
    seen.note("calculation on a closing day that is a weekday", closed);
    seen.note("calculation on Maundy Thursday", good_friday && easter_monday && working == calculation + 5);
    for off in 1..=5 {
        seen.note(&format!("the first working day as day {off} after calculation"), working == calculation + off);
    }
}

/// Dates and ranges, from the rows as they are written.
fn text(sheet: &[u8], seen: &mut Seen, ranges: &mut BTreeMap<String, (i64, i64)>) {
    let mut spread = |field: String, value: i64| {
        let (least, most) = ranges.entry(field).or_insert((value, value));
        (*least, *most) = (value.min(*least), value.max(*most));
    };
    let sheet = std::str::from_utf8(sheet).expect("an accepted sheet is plain text");
    let rows: Vec<Vec<&str>> = sheet.lines().skip(1).map(|line| line.split(';').collect()).collect();
    let calculation = day(rows[0][1]);
    let working = days::working_day_after(calculation);
    for weekday in 0..7 {
        seen.note(&format!("calculation on weekday {weekday} after Saturday"), calculation % 7 == weekday);
    }
    seen.note("calculation on 20000101", rows[0][1] == "20000101");
    seen.note("calculation on 23991220", rows[0][1] == "23991220");
    seen.note("calculation on a leap day", rows[0][1].ends_with("0229"));
    for letter in ["C", "O", "S", "T"] {
        spread(format!("{letter} rows"), rows.iter().filter(|row| row[0] == letter).count() as i64);
    }
    let borders: Vec<(&str, i64)> = rows
        .iter()
        .filter(|row| row[0] == "C" && !row[3].is_empty())
        .map(|row| (row[2], row[3].parse().expect("a border")))
        .collect();
    let mut previous = BTreeMap::new(); // coupon date by code
    let mut margined_repo = false;
    for row in &rows[1..] {
        for (place, field) in row.iter().enumerate().skip(1) {
            if let Ok(value) = field.parse() {
                spread(format!("{} {place}", row[0]), value);
            }
        }
        if row[0] == "S" {
            previous.insert(row[1], day(row[8]));
            for digit in 0..10 {
                seen.note(&format!("check digit {digit}"), row[1].ends_with(&digit.to_string()));
            }
            let letters = row[1][2..11].bytes().filter(u8::is_ascii_uppercase).count();
            seen.note("a code without letters among its nine", letters == 0);
            seen.note("a code with letters and digits among its nine", (1..9).contains(&letters));
            seen.note("a code with nine letters", letters == 9);
            let length = day(row[9]) - day(row[8]);
            seen.note("a coupon period of a day", length == 1);
            seen.note("a coupon period of 400 days", length == 400);
            seen.note("a coupon date on a leap day", row[8].ends_with("0229"));
            if let Ok(duration) = row[4].parse::<i64>() {
                seen.note("a duration on its border", borders.contains(&(row[3], duration)));
                seen.note("a duration just above a border", borders.contains(&(row[3], duration - 1)));
            }
            for kind in ["G", "C", "I", "F"] {
                seen.note(&format!("a security of kind {kind}"), row[3] == kind);
            }
        }
        if row[0] == "T" && row[1] == "C" {
            let first = day(row[6]);
            seen.note("cash settled on the calculation date", first == calculation);
            seen.note("cash settled on the day after", first == calculation + 1);
            seen.note("cash settled on a leap day", row[6].ends_with("0229"));
        }
        if row[0] == "T" && row[1] == "R" {
            let (first, last) = (day(row[6]), day(row[7]));
            seen.note("a repo from the calculation date", first == calculation);
            seen.note("a repo from the day after", first == calculation + 1);
            seen.note("a repo to the calculation date", last == calculation);
            seen.note("a repo to the day after", last == calculation + 1 && first <= calculation);
            let margined = first <= calculation && calculation < last;
            margined_repo |= margined;
            seen.note("a margined repo that ends before the working day", margined && last < working);
            let coupon = previous[row[3]];
            let only_closing = margined && weekday_after(calculation) < coupon;
            seen.note("accepted by a closing day alone, coupon on the working day", only_closing && coupon == working);
            seen.note(
                "accepted by a closing day alone, coupon before the working day",
                only_closing && coupon < working,
            );
            seen.note("a repo of a day", last - first == 1);
            seen.note("a repo of 730 days", last - first == 730);
            seen.note("a margined repo with interest of 734 days", margined && first + 734 == working);
            seen.note("a rate of 0", row[8] == "0");
        }
    }
    if margined_repo {
        stepped_over(rows[0][1], seen);
    }
}
