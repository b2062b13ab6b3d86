//! What a program is asked for on its command line: SHEETS [SEED].

const USUAL_SEED: u64 = 1;

/// How many generated sheets, and from which seed.
pub struct Asked {
    pub sheets: u64,
    pub seed: u64,
}

impl Asked {
    /// None where the words are no such numbers.
    pub fn from_words() -> Option<Self> {
        let mut words = std::env::args().skip(1);
        let sheets = words.next()?.parse().ok()?;
        let seed = words.next().map_or(Ok(USUAL_SEED), |word| word.parse()).ok()?;
        words.next().is_none().then_some(Asked { sheets, seed })
    }
}
