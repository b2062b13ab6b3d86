//! Closing days and working days, in another way than the plain implementation's, so that each checks the other: dates
//! are counted back from the year's end, and Easter is found by Gauss's rule.

use super::chance::Chance;
use super::draft::LAST_CALCULATION;

/// The closing days of 2000 to 2399, six a year, rising; days from 1 January 2000.
static CLOSING_DAYS: [i64; 2_400] = {
    let mut days = [0; 2_400];
    let mut at = 0;
    while at < 2_400 {
        days[at] = closing_days(at as i64 / 6)[at % 6];
        at += 1;
    }
    days
};

/// The closing days of a year counted from 2000: 1 January, Good Friday, Easter Monday, 1 May, 25 and 26 December.
const fn closing_days(year: i64) -> [i64; 6] {
    let (start, end) = (new_year(year), new_year(year + 1));
    let easter = end - 285 + easter(year); // 285 days from 22 March to the next 1 January
    [start, easter - 2, easter + 1, end - 245, end - 7, end - 6]
}

/// A year's 1 January, days from 1 January 2000; the year is counted from 2000.
const fn new_year(year: i64) -> i64 {
    365 * year + (year + 3) / 4 - (year + 99) / 100 + (year + 399) / 400
}

/// Easter Sunday of a year counted from 2000, days from 22 March.
const fn easter(year: i64) -> i64 {
    let year = 2_000 + year;
    // What moves the moon and the Sunday in that century, days.
    let (moon, sunday) = match year / 100 {
        20 => (24, 5),
        21 => (24, 6),
        22 => (25, 0),
        _ => (26, 1),
    };
    let golden = year % 19; // years
    let full_moon = (19 * golden + moon) % 30; // days from 21 March
    let rest = (2 * (year % 4) + 4 * (year % 7) + 6 * full_moon + sunday) % 7; // days from the day after it to Sunday
    let too_late = rest == 6 && (full_moon == 29 || full_moon == 28 && golden > 10);
    full_moon + rest - if too_late { 7 } else { 0 }
}

/// The first day after that is no Saturday (0 in the week) and no Sunday (1).
fn weekday_after(day: i64) -> i64 {
    match day % 7 {
        6 => day + 3,
        0 => day + 2,
        _ => day + 1,
    }
}

/// The first working day after.
pub fn working_day(calculation: i64) -> i64 {
    let mut day = weekday_after(calculation);
    while CLOSING_DAYS.binary_search(&day).is_ok() {
        day = weekday_after(day);
    }
    day
}

/// A closing day of any kind and year, or a day about it: most often the day before, from where it is stepped over.
pub fn about_closing_day(chance: &mut Chance) -> i64 {
    let closing = *chance.pick(&CLOSING_DAYS);
    let off = match chance.below(4) {
        0 | 1 => -1,
        2 => 0,
        _ => chance.between(-4, 3),
    };
    (closing + off).clamp(0, LAST_CALCULATION)
}
