//! Valuation, netting, offsetting and margins, from the tables. "Rounded" is to the nearest, halves away from zero,
//! once, after all multiplying; every product fits 64 bits.

use super::tables::{Offset, Security, Tables, Trade, CLASSES, CURRENCIES, SECURITIES, TRADES};

#[derive(Clone, Copy)]
pub struct CurrencyFigures {
    pub long: [u64; CLASSES],   // remaining position, whole units
    pub short: [u64; CLASSES],  // remaining position, whole units
    pub margin: [u64; CLASSES], // whole units
    pub mark: i64,              // mark-to-market sum, cents
    pub initial: u64,           // whole units
    pub total: u64,             // cents
}

pub struct Figures {
    pub marks: [i64; TRADES],                      // mark-to-market of each margined trade, cents
    pub currencies: [CurrencyFigures; CURRENCIES], // in the tables' order
}

impl Figures {
    pub const ZERO: Figures = Figures {
        marks: [0; TRADES],
        currencies: [CurrencyFigures {
            long: [0; CLASSES],
            short: [0; CLASSES],
            margin: [0; CLASSES],
            mark: 0,
            initial: 0,
            total: 0,
        }; CURRENCIES],
    };
}

pub fn figures(tables: &Tables) -> Figures {
    let mut figures = Figures::ZERO;
    open(tables, &mut figures);
    for currency in &mut figures.currencies[..tables.currency_count] {
        offset_all(tables, currency, |_, _, _| {});
        close(currency, tables);
    }
    figures
}

/// The marks and the opening positions. Gives the revaluated amounts by sign of each security, cents.
#[inline(always)]
pub fn open(tables: &Tables, figures: &mut Figures) -> [i64; SECURITIES] {
    let mut nets = [0i64; SECURITIES]; // cents
    for (trade, mark) in tables.trades[..tables.trade_count].iter().zip(&mut figures.marks) {
        let security = &tables.securities[trade.security as usize];
        let revaluated = revaluated(trade.nominal, security.price, accrued(security, trade.accrual)) as i64;
        let gain = revaluated - trade.amount as i64 - 100 * interest(trade); // cents
        let signed = |cents: i64| if trade.long { cents } else { -cents };
        *mark = signed(gain);
        nets[trade.security as usize] += signed(revaluated);
        figures.currencies[security.currency as usize].mark += *mark;
    }
    for (security, &cents) in tables.securities[..tables.security_count].iter().zip(&nets) {
        let currency = &mut figures.currencies[security.currency as usize];
        let net = net(cents);
        let side = if net < 0 { &mut currency.short } else { &mut currency.long };
        side[security.class as usize] += net.unsigned_abs();
    }
    nets
}

/// The coupon run up to the accrual date, hundred-thousandths of a percent.
pub fn accrued(security: &Security, accrual: u32) -> u32 {
    let run = accrual - security.previous; // days
    let period = security.next - security.previous; // days
    let divisor = security.payments * period;
    (security.coupon * run + divisor / 2) / divisor
}

/// Cents, from whole units and hundred-thousandths of a percent.
pub fn revaluated(nominal: u32, price: u32, accrued: u32) -> u64 {
    (nominal as u64 * (price + accrued) as u64 + 50_000) / 100_000
}

/// Repo interest, whole units: days × cents × ten-thousandths of a percent.
pub fn interest(trade: &Trade) -> i64 {
    const DIVISOR: u64 = 36_000_000_000;
    let product = trade.interest_days as u64 * trade.amount * trade.rate.unsigned_abs() as u64;
    let size = ((product + DIVISOR / 2) / DIVISOR) as i64;
    if trade.rate < 0 {
        -size
    } else {
        size
    }
}

/// Cents to whole units.
pub fn net(cents: i64) -> i64 {
    let size = ((cents.unsigned_abs() + 50) / 100) as i64;
    if cents < 0 {
        -size
    } else {
        size
    }
}

/// That many ten-thousandths of whole units.
pub fn share(factor: u32, units: u64) -> u64 {
    (factor as u64 * units + 5_000) / 10_000
}

/// What a row of the priority list took, whole units.
pub struct Taken {
    pub there: u64, // off the first class's long and the second's short
    pub back: u64,  // off the second class's long and the first's short; 0 where both are one class
}

/// The rows of the priority list in their order. After each its place, itself and what it took are noted.
#[inline(always)]
pub fn offset_all(tables: &Tables, currency: &mut CurrencyFigures, mut note: impl FnMut(usize, &Offset, Taken)) {
    for (place, row) in tables.offsets[..tables.offset_count].iter().enumerate() {
        note(place, row, offset(currency, row));
    }
}

/// One row of the priority list, on what the rows before it left.
#[inline(always)]
fn offset(currency: &mut CurrencyFigures, row: &Offset) -> Taken {
    let (first, second) = (row.first as usize, row.second as usize);
    let there = take(row.factor, &mut currency.long[first], &mut currency.short[second]);
    let mut back = 0; // whole units
    if first != second {
        back = take(row.factor, &mut currency.long[second], &mut currency.short[first]);
    }
    Taken { there, back }
}

/// Takes the factor's share of the smaller side off both, and gives it, whole units.
#[inline(always)]
fn take(factor: u32, long: &mut u64, short: &mut u64) -> u64 {
    let taken = share(factor, (*long).min(*short));
    *long -= taken;
    *short -= taken;
    taken
}

/// The margins of the remaining positions, and the totals.
fn close(currency: &mut CurrencyFigures, tables: &Tables) {
    for (place, class) in tables.classes[..tables.class_count].iter().enumerate() {
        let margin = share(class.deposit, currency.long[place].max(currency.short[place]));
        currency.margin[place] = margin;
        currency.initial += margin;
    }
    currency.total = (100 * currency.initial as i64 - currency.mark).max(0) as u64;
}
