//! The kit as safe functions. Its entries ask nothing of their caller beyond good slices, and a slice of Rust is one,
//! the empty slice too; so this is the only place with unsafe code.

mod library {
    // A slice passes as its pointer and then its length in bytes.
    extern "C" {
        pub fn brm_margin(sheet: *const u8, sheet_len: usize, report: *mut u8, report_len: usize) -> u64;
        pub fn brm_margin_full(sheet: *const u8, sheet_len: usize, report: *mut u8, report_len: usize) -> u64;
        pub fn brm_explain(
            sheet: *const u8,
            sheet_len: usize,
            currency: *const u8,
            currency_len: usize,
            class: u64,
            report: *mut u8,
            report_len: usize,
        ) -> u64;
    }
}

/// The quiet report's length, with the report at the start of the buffer; or 65,536 × refusal + line. K lines of zeros
/// are left out.
pub fn brm_margin(sheet: &[u8], report: &mut [u8]) -> u64 {
    // SAFETY: both pointers are good for their lengths, and a shared and an exclusive slice do not overlap.
    unsafe { library::brm_margin(sheet.as_ptr(), sheet.len(), report.as_mut_ptr(), report.len()) }
}

/// The same with the full report, which has a K line for every class.
pub fn brm_margin_full(sheet: &[u8], report: &mut [u8]) -> u64 {
    // SAFETY: both pointers are good for their lengths, and a shared and an exclusive slice do not overlap.
    unsafe { library::brm_margin_full(sheet.as_ptr(), sheet.len(), report.as_mut_ptr(), report.len()) }
}

/// Why the margin of a class in a currency is what it is: the text's length, with the text at the start of the buffer;
/// or 65,536 × refusal + line. A currency is any bytes, a class any number.
pub fn brm_explain(sheet: &[u8], currency: &[u8], class: u64, report: &mut [u8]) -> u64 {
    // SAFETY: all pointers are good for their lengths, and an exclusive slice does not overlap with a shared one.
    unsafe {
        library::brm_explain(
            sheet.as_ptr(),
            sheet.len(),
            currency.as_ptr(),
            currency.len(),
            class,
            report.as_mut_ptr(),
            report.len(),
        )
    }
}
