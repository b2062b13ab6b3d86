//! The sheet to its tables, or the refusal of its earliest bad line. Sections stand in one order, so each has its own
//! loop, and a line that no loop took is out of its section.

use super::days;
use super::fields::{Cursor, LINE, PART};
use super::tables::{places_below, Class, Offset, Refusal, Security, Tables, Trade};
use super::tables::{CLASSES, CURRENCIES, OFFSETS, SECURITIES, TRADES};

const LONGEST_SHEET: usize = 65_536; // bytes
const NO_CLASS: u8 = u8::MAX;
/// The column of borders has a power of two of places, for bisection.
const BORDERS: usize = 64;
/// Above every border.
const NO_BORDER: u32 = u32::MAX;
/// The border of an I or F class and the duration of its securities, which the sheet leaves blank. With one border for
/// all of them, "borders rise" shuts out a second class, and the search by duration finds the first.
const BLANK: u32 = 1;

/// The classes of one kind, by rising border.
#[derive(Clone, Copy)]
struct Kind {
    count: usize,
    borders: [u32; BORDERS], // ten-thousandths of a year, NO_BORDER behind the last
    places: [u8; BORDERS],   // in the table of classes
}

/// What later rows ask of the C rows and the D row.
struct Known {
    calculation: u32,                // date, days from 1 January 2000
    working_day: u32,                // the first one after calculation, days from 1 January 2000
    kinds: [Kind; 4],                // G, C, I, F
    class_places: [u8; CLASSES + 1], // by class number; NO_CLASS where no C row has it
}

/// Fills empty tables from the sheet.
pub fn read(sheet: &[u8], tables: &mut Tables) -> Result<(), Refusal> {
    if sheet.len() > LONGEST_SHEET {
        return Err(Refusal { number: 2, line: 0 });
    }
    let mut line = 1;
    read_lines(sheet, tables, &mut line).map_err(|number| Refusal { number, line })
}

/// Reads on until a line is refused; `line` is then that line.
fn read_lines(sheet: &[u8], tables: &mut Tables, line: &mut u64) -> Result<(), u64> {
    if !sheet.starts_with(b"BRM;") {
        return Err(3);
    }
    if !sheet.starts_with(b"BRM;1\n") {
        return Err(4);
    }
    let mut cursor = Cursor::new(sheet, 6);
    *line = 2;
    let mut known = date_row(&mut cursor)?;
    *line = 3;
    while cursor.begins(b'C') {
        class_row(&mut cursor, &mut known, tables)?;
        *line += 1;
    }
    while cursor.begins(b'O') {
        offset_row(&mut cursor, &known, tables)?;
        *line += 1;
    }
    while cursor.begins(b'S') {
        security_row(&mut cursor, &known, tables)?;
        *line += 1;
    }
    let first_trade = *line;
    while cursor.begins(b'T') {
        trade_row(&mut cursor, &known, tables, first_trade, *line)?;
        *line += 1;
    }
    if cursor.at_end() {
        Ok(())
    } else {
        Err(5)
    }
}

fn date_row(cursor: &mut Cursor) -> Result<Known, u64> {
    if !cursor.begins(b'D') {
        return Err(5);
    }
    let calculation = cursor.date(LINE).ok_or(5u64)?;
    const LAST: u32 = 146_085; // 20 December 2399
    cursor.refuse_if(calculation > LAST, 7);
    cursor.verdict()?;
    Ok(Known {
        calculation,
        working_day: days::working_day_after(calculation),
        kinds: [Kind { count: 0, borders: [NO_BORDER; BORDERS], places: [0; BORDERS] }; 4],
        class_places: [NO_CLASS; CLASSES + 1],
    })
}

/// A kind's place, with the border or duration after it, which is blank exactly for I and F.
#[inline(always)]
fn kind_and_years(cursor: &mut Cursor) -> Option<(usize, u32)> {
    let kind = match cursor.letter(PART)? {
        b'G' => 0,
        b'C' => 1,
        b'I' => 2,
        b'F' => 3,
        _ => {
            cursor.refuse(6);
            0
        }
    };
    if kind < 2 {
        return Some((kind, cursor.number(PART, 1, 1_000_000)? as u32));
    }
    cursor.blank(PART)?;
    Some((kind, BLANK))
}

fn class_row(cursor: &mut Cursor, known: &mut Known, tables: &mut Tables) -> Result<(), u64> {
    let fields = |cursor: &mut Cursor| {
        let number = cursor.number(PART, 1, CLASSES as u64)?;
        let (kind, border) = kind_and_years(cursor)?;
        let deposit = cursor.number(LINE, 0, 10_000)? as u32;
        Some((number, kind, border, deposit))
    };
    let (number, kind, border, deposit) = fields(cursor).ok_or(5u64)?;
    let place = tables.class_count;
    let of_kind = &mut known.kinds[kind];
    cursor.refuse_if(place == CLASSES, 8);
    cursor.refuse_if(place > 0 && number <= tables.classes[place - 1].number as u64, 9);
    cursor.refuse_if(of_kind.count > 0 && border <= of_kind.borders[of_kind.count - 1], 9);
    cursor.verdict()?;
    of_kind.borders[of_kind.count] = border;
    of_kind.places[of_kind.count] = place as u8;
    of_kind.count += 1;
    known.class_places[number as usize] = place as u8;
    tables.classes[place] = Class { number: number as u32, deposit };
    tables.class_count = place + 1;
    Ok(())
}

fn offset_row(cursor: &mut Cursor, known: &Known, tables: &mut Tables) -> Result<(), u64> {
    let fields = |cursor: &mut Cursor| {
        let first = cursor.number(PART, 1, CLASSES as u64)?;
        let second = cursor.number(PART, 1, CLASSES as u64)?;
        let factor = cursor.number(LINE, 0, 10_000)? as u32;
        Some((first, second, factor))
    };
    let (first, second, factor) = fields(cursor).ok_or(5u64)?;
    let place_of = |number: u64| known.class_places.get(number as usize).copied().unwrap_or(NO_CLASS);
    let (first, second) = (place_of(first), place_of(second));
    cursor.refuse_if(tables.offset_count == OFFSETS, 8);
    cursor.refuse_if(first == NO_CLASS || second == NO_CLASS, 10);
    cursor.verdict()?;
    tables.offsets[tables.offset_count] = Offset { factor, first, second };
    tables.offset_count += 1;
    Ok(())
}

fn security_row(cursor: &mut Cursor, known: &Known, tables: &mut Tables) -> Result<(), u64> {
    let fields = |cursor: &mut Cursor| {
        let code = cursor.code()?;
        let currency = cursor.currency()?;
        let (kind, duration) = kind_and_years(cursor)?;
        let price = cursor.number(PART, 1, 20_000_000)? as u32;
        let coupon = cursor.number(PART, 0, 2_000_000)? as u32;
        let payments = cursor.number(PART, 1, 4)? as u32;
        cursor.refuse_if(payments == 3, 6);
        let previous = cursor.date(PART)?;
        let next = cursor.date(LINE)?;
        let security = Security { price, coupon, payments, previous, next, currency: 0, class: 0 };
        Some((code, currency, kind, duration, security))
    };
    let (code, currency, kind, duration, mut security) = fields(cursor).ok_or(5u64)?;
    let place = tables.security_count;
    let of_kind = &known.kinds[kind];
    let rank = places_below(&of_kind.borders, duration);
    let named = tables.currency_count;
    let mut money = named;
    for (place, known) in tables.currencies.iter().enumerate() {
        money = if *known == currency { place } else { money };
    }
    cursor.refuse_if(!apart(security.previous, security.next, 400), 7);
    cursor.refuse_if(place == SECURITIES || money == CURRENCIES, 8);
    cursor.refuse_if(place > 0 && code <= tables.codes[place - 1], 9);
    cursor.refuse_if(rank == of_kind.count, 11);
    cursor.verdict()?;
    if money == named {
        tables.currencies[money] = currency;
        tables.currency_count = money + 1;
    }
    security.currency = money as u8;
    security.class = of_kind.places[rank];
    tables.codes[place] = code;
    tables.securities[place] = security;
    tables.security_count = place + 1;
    Ok(())
}

fn trade_row(cursor: &mut Cursor, known: &Known, tables: &mut Tables, first_trade: u64, line: u64) -> Result<(), u64> {
    let codes = &tables.codes;
    let fields = |cursor: &mut Cursor| {
        let kind = cursor.letter(PART)?;
        let side = cursor.letter(PART)?;
        let known_letters = ((kind == b'R') | (kind == b'C')) & ((side == b'S') | (side == b'P'));
        cursor.refuse_if(!known_letters, 6);
        let repo = kind == b'R';
        let security = cursor.place_of_code(codes)?;
        let nominal = cursor.number(PART, 1, 100_000_000)? as u32;
        let amount = cursor.number(PART, 1, 30_000_000_000)?;
        let first = cursor.date(PART)?;
        let (last, rate) = if repo {
            (cursor.date(PART)?, cursor.signed(LINE, 200_000)? as i32)
        } else {
            cursor.blank(PART)?;
            cursor.blank(LINE)?;
            (0, 0)
        };
        let long = repo == (side == b'S');
        let trade = Trade {
            amount,
            nominal,
            rate,
            accrual: if repo { known.working_day } else { first },
            interest_days: if repo { known.working_day.wrapping_sub(first) } else { 0 },
            line: line as u16,
            security: security as u8,
            long,
        };
        Some((repo, first, last, trade))
    };
    let (repo, first, last, trade) = fields(cursor).ok_or(5u64)?;
    let margined =
        if repo { first <= known.calculation && last > known.calculation } else { first > known.calculation };
    let security = &tables.securities[trade.security as usize];
    cursor.refuse_if(repo && !apart(first, last, 730), 7);
    cursor.refuse_if(line - first_trade == TRADES as u64, 8);
    cursor.refuse_if(margined && !(security.previous..security.next).contains(&trade.accrual), 12);
    cursor.verdict()?;
    if margined {
        tables.trades[tables.trade_count] = trade;
        tables.trade_count += 1;
    }
    Ok(())
}

/// Whether `last` is 1 to `most` days after `first`.
fn apart(first: u32, last: u32, most: u32) -> bool {
    first < last && last - first <= most
}
