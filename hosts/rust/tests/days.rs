//! The plain implementation's closing days against facts: Easter Sundays written down, and what holds of every year.

use gronnhyl_host::plain::days;

/// Recent years and years to come, the turns of the centuries, the earliest and the latest Easters, and those years
/// where the full moon is late and counts a day earlier, which moves Easter by a week in 2049, 2076 and some others.
const EASTER_SUNDAYS: [u32; 61] = [
    20000423, 20010415, 20020331, 20030420, 20040411, 20050327, 20060416, 20070408, 20080323, 20090412, 20100404,
    20110424, 20120408, 20130331, 20140420, 20150405, 20160327, 20170416, 20180401, 20190421, 20200412, 20210404,
    20220417, 20230409, 20240331, 20250420, 20260405, 20300421, 20380425, 20490418, 20570422, 20680422, 20760419,
    20870420, 20950424, 20990412, 21000328, 21010417, 21060418, 21330419, 21440419, 21600323, 21630424, 21900425,
    21990414, 22000406, 22010419, 22280323, 22310424, 22580425, 22850322, 22960419, 22990416, 23000408, 23010331,
    23260425, 23530322, 23800323, 23830424, 23980405, 23990328,
];

/// The day of a date such as 20000423, days from 1 January 2000.
fn day(date: u32) -> u32 {
    days::day(date.to_string().as_bytes().try_into().expect("eight digits")).expect("a date")
}

/// A closing day that is no Saturday and no Sunday; day 0 was a Saturday.
fn closed_weekday(day: u32) -> bool {
    day % 7 > 1 && days::working_day_after(day - 1) != day
}

#[test]
fn easter_as_written_down() {
    for date in EASTER_SUNDAYS {
        let easter = day(date);
        let maundy_thursday = easter - 3;
        assert_eq!(easter % 7, 1, "{date} is a Sunday");
        assert_eq!(days::working_day_after(maundy_thursday - 1), maundy_thursday, "Easter of {date}");
        assert_eq!(days::working_day_after(maundy_thursday), easter + 2, "Easter of {date}");
    }
}

/// The fixed days where they are no weekend, with no day instead where they are; a Friday and a Monday with one Sunday
/// between, from 22 March to 25 April; and nothing else.
#[test]
fn closing_days_of_every_year() {
    for year in 2_000..2_400 {
        let date = |month_and_day: u32| day(10_000 * year + month_and_day);
        let fixed = [101, 501, 1_225, 1_226].map(date);
        let (of_fixed, movable): (Vec<u32>, Vec<u32>) =
            (date(101)..=date(1_231)).filter(|&day| closed_weekday(day)).partition(|day| fixed.contains(day));
        assert!(of_fixed.into_iter().eq(fixed.into_iter().filter(|day| day % 7 > 1)), "{year}");
        let &[good_friday, easter_monday] = movable.as_slice() else { panic!("{year}: {movable:?}") };
        let easter = good_friday + 2;
        assert_eq!((easter % 7, easter_monday), (1, easter + 1), "{year}");
        assert!((date(322)..=date(425)).contains(&easter), "{year}");
    }
}

#[test]
fn five_days_at_most_from_any_day() {
    const LAST_DAY: u32 = 146_096; // 31 December 2399
    let off = |day: u32| days::working_day_after(day) - day; // days
    assert_eq!((0..=LAST_DAY).map(off).min(), Some(1));
    assert_eq!((0..=LAST_DAY).map(off).max(), Some(5));
    assert_eq!(off(LAST_DAY), 3, "a Friday, then a weekend with 1 January, then Monday");
}
