//! The processor's name, to stand beside every time that is measured on it.

use std::env::consts::ARCH;
use std::fs;

/// What Linux says of the first processor: on x86-64 its model, on Arm the numbers of its maker and its part.
pub fn name() -> String {
    let text = fs::read_to_string("/proc/cpuinfo").unwrap_or_default();
    let value = |key: &str| {
        let line = text.lines().find(|line| line.split(':').next().is_some_and(|word| word.trim() == key))?;
        line.split(':').nth(1).map(str::trim)
    };
    match (value("model name"), value("CPU implementer"), value("CPU part")) {
        (Some(model), _, _) => format!("{model} ({ARCH})"),
        (None, Some(maker), Some(part)) => format!("Arm of maker {maker}, part {part} ({ARCH})"),
        _ => format!("an unnamed {ARCH} processor"),
    }
}
