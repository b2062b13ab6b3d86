//! Dates as days from 1 January 2000, so that differences are subtractions.

#[derive(Clone, Copy)]
struct Year {
    start: u32,                 // 1 January, days from 1 January 2000
    easter: u32,                // Easter Sunday, days from the year's 1 January
    months: &'static [u32; 13], // days from its 1 January to the first of each month
}

/// The years 2000 to 2399.
static YEARS: [Year; 400] = {
    let mut years = [Year { start: 0, easter: 0, months: &LEAP_YEAR }; 400];
    let (mut year, mut start) = (0, 0);
    while year < 400 {
        let months = if leap(year) { &LEAP_YEAR } else { &COMMON_YEAR };
        years[year] = Year { start, easter: easter(year, months), months };
        start += months[12];
        year += 1;
    }
    years
};

/// Days from 1 January to the first of each month and of the next January.
const COMMON_YEAR: [u32; 13] = [0, 31, 59, 90, 120, 151, 181, 212, 243, 273, 304, 334, 365];
const LEAP_YEAR: [u32; 13] = [0, 31, 60, 91, 121, 152, 182, 213, 244, 274, 305, 335, 366];

/// Whether a year, counted from 2000, has a 29 February.
const fn leap(year: usize) -> bool {
    year.is_multiple_of(4) && (!year.is_multiple_of(100) || year.is_multiple_of(400))
}

/// Easter Sunday of a year counted from 2000, days from 1 January. This is Butcher's rule: month and day come straight
/// from the year, by remainders alone, with no weekday looked up and no exception told apart. The kit goes another way.
const fn easter(year: usize, months: &[u32; 13]) -> u32 {
    let year = 2_000 + year;
    let golden = year % 19; // years of the moon's cycle
    let (century, of_century) = (year / 100, year % 100); // centuries, years
    let drift = (century - (century + 8) / 25 + 1) / 3; // days of the moon against its cycle
    let moon = (19 * golden + century - century / 4 - drift + 15) % 30; // days from 21 March to the full moon
    let to_sunday = (32 + 2 * (century % 4) + 2 * (of_century / 4) - moon - of_century % 4) % 7; // days, less one
    let earlier = (golden + 11 * moon + 22 * to_sunday) / 451; // weeks: 1 where that would be too late, else 0
    let count = moon + to_sunday - 7 * earlier + 114; // days: 31 for each month and those before Easter in its own
    let (month, date) = (count / 31, count % 31 + 1);
    months[month - 1] + date as u32 - 1
}

/// The day that eight bytes name, if they are the digits of a real day of 2000 to 2399.
#[inline(always)]
pub fn day(text: &[u8; 8]) -> Option<u32> {
    let digit = |at: usize| text[at].wrapping_sub(b'0') as usize;
    for at in 0..8 {
        if digit(at) > 9 {
            return None;
        }
    }
    let pair = |at: usize| digit(at) * 10 + digit(at + 1);
    let (century, year, month, day) = (pair(0), pair(2), pair(4), pair(6));
    let year = (century * 100 + year).wrapping_sub(2_000);
    let Year { start, months, .. } = YEARS.get(year)?;
    let month = month.wrapping_sub(1);
    if month >= 12 {
        return None;
    }
    let last = months[month] + day as u32; // days from 1 January to the end of that day
    if day == 0 || last > months[month + 1] {
        return None;
    }
    Some(start + last - 1)
}

/// The first day after `day` that is not closed.
pub fn working_day_after(day: u32) -> u32 {
    let mut open = day + 1;
    while closed(open) {
        open += 1;
    }
    open
}

/// Saturdays, Sundays and closing days, after 2399 the weekends alone; day 0 was a Saturday.
fn closed(day: u32) -> bool {
    let Year { start, easter, months } = YEARS[YEARS.partition_point(|year| year.start <= day) - 1];
    let (good_friday, easter_monday) = (easter - 2, easter + 1);
    let (new_year, may_day, christmas) = (months[0], months[4], months[11] + 24);
    day % 7 < 2 || [new_year, good_friday, easter_monday, may_day, christmas, christmas + 1].contains(&(day - start))
}
