//! What reading hands to margining: rows as numbers, with everything that judging a row found out, so that
//! nothing is looked for twice. Tables have fixed sizes, the row limits of document 01.

pub const CLASSES: usize = 40;
pub const OFFSETS: usize = 200;
pub const SECURITIES: usize = 200;
pub const TRADES: usize = 500;
pub const CURRENCIES: usize = 8;

/// The column of codes has a power of two of places, for bisection.
pub const CODES: usize = 256;
/// Above every code.
pub const NO_CODE: u128 = u128::MAX;

/// Why a sheet was not accepted, and the line it falls on.
#[derive(Clone, Copy, Debug, PartialEq, Eq)]
pub struct Refusal {
    pub number: u64,
    pub line: u64,
}

impl Refusal {
    /// As the entry gives it back.
    pub fn answer(self) -> u64 {
        65_536 * self.number + self.line
    }
}

#[derive(Clone, Copy)]
pub struct Class {
    pub number: u32,  // 1..40
    pub deposit: u32, // deposit factor, ten-thousandths
}

/// An O row; its classes are places in the table of classes.
#[derive(Clone, Copy)]
pub struct Offset {
    pub factor: u32, // ten-thousandths
    pub first: u8,
    pub second: u8,
}

#[derive(Clone, Copy)]
pub struct Security {
    pub price: u32,    // hundred-thousandths of a percent
    pub coupon: u32,   // a year, hundred-thousandths of a percent
    pub payments: u32, // a year
    pub previous: u32, // coupon date, days from 1 January 2000
    pub next: u32,     // coupon date, days from 1 January 2000
    pub currency: u8,  // place in the table of currencies
    pub class: u8,     // place in the table of classes
}

/// A margined trade. Cash has rate 0 and so no interest.
#[derive(Clone, Copy)]
pub struct Trade {
    pub amount: u64,        // cents
    pub nominal: u32,       // whole currency units
    pub rate: i32,          // repo rate, ten-thousandths of a percent
    pub accrual: u32,       // accrual date, days from 1 January 2000
    pub interest_days: u32, // days from a repo's first date to the first working day after calculation
    pub line: u16,
    pub security: u8, // place in the table of securities
    pub long: bool,   // sign +1: cash purchaser or repo seller
}

pub struct Tables {
    pub class_count: usize,
    pub classes: [Class; CLASSES], // by rising number
    pub offset_count: usize,
    pub offsets: [Offset; OFFSETS], // in sheet order
    pub security_count: usize,
    pub codes: [u128; CODES], // rising; the 12 bytes of a code as one number, NO_CODE behind the last
    pub securities: [Security; SECURITIES],
    pub trade_count: usize,
    pub trades: [Trade; TRADES], // the margined ones, in sheet order
    pub currency_count: usize,
    pub currencies: [[u8; 3]; CURRENCIES], // as the S rows first name them
}

impl Tables {
    pub const EMPTY: Tables = Tables {
        class_count: 0,
        classes: [Class { number: 0, deposit: 0 }; CLASSES],
        offset_count: 0,
        offsets: [Offset { factor: 0, first: 0, second: 0 }; OFFSETS],
        security_count: 0,
        codes: [NO_CODE; CODES],
        securities: [Security { price: 0, coupon: 0, payments: 0, previous: 0, next: 0, currency: 0, class: 0 };
            SECURITIES],
        trade_count: 0,
        trades: [Trade {
            amount: 0,
            nominal: 0,
            rate: 0,
            accrual: 0,
            interest_days: 0,
            line: 0,
            security: 0,
            long: false,
        }; TRADES],
        currency_count: 0,
        currencies: [[0; 3]; CURRENCIES],
    };
}

/// How many of the rising numbers are below `key`, by bisection. There are a power of two of them and the last is no
/// smaller than any key; so the steps are always the same, and the processor guesses none of them wrong.
#[inline(always)]
pub fn places_below<T: Ord, const N: usize>(rising: &[T; N], key: T) -> usize {
    let mut place = 0;
    let mut step = N / 2;
    while step > 0 {
        place = std::hint::select_unpredictable(rising[place + step - 1] < key, place + step, place);
        step /= 2;
    }
    place
}
