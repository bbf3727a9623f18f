//! Times as they are said, in whole femtoseconds, and what a number of cycles comes to by them.

/// So many femtoseconds.
#[derive(Clone, Copy, Debug, PartialEq, Eq, PartialOrd, Ord)]
pub struct Time(u64);

/// The longest time of a text, 1,000 seconds: so no figure is too large for 128 bits.
const MOST: u64 = 1_000_000_000_000_000_000;

/// A microsecond has so many femtoseconds, as a power of ten.
pub const MICROSECOND: usize = 9;

impl Time {
    /// So many femtoseconds, if a text can say so long a time.
    pub fn of(femtoseconds: u64) -> Option<Time> {
        (femtoseconds <= MOST).then_some(Time(femtoseconds))
    }

    pub fn femtoseconds(self) -> u128 {
        self.0.into()
    }

    /// In microseconds, as the nearest number of binary64, and as the proved functions take it.
    pub fn binary64(self) -> f64 {
        let written = microseconds(self.femtoseconds());
        written.parse().expect("decimal digits are a number")
    }
}

/// So many femtoseconds in microseconds, all digits that there are.
pub fn microseconds(femtoseconds: u128) -> String {
    to_places(femtoseconds, places(femtoseconds))
}

/// Some of these in a column: with as many digits behind the point each as the one needs that needs most.
pub fn column(all: &[u128]) -> Vec<String> {
    let most = all.iter().map(|one| places(*one)).max().unwrap_or(0);
    all.iter().map(|one| to_places(*one, most)).collect()
}

/// How many digits behind the point are needed.
fn places(femtoseconds: u128) -> usize {
    let digits = format!("{femtoseconds:0MICROSECOND$}");
    MICROSECOND
        - digits
            .bytes()
            .rev()
            .take(MICROSECOND)
            .take_while(|digit| *digit == b'0')
            .count()
}

fn to_places(femtoseconds: u128, places: usize) -> String {
    let digits = format!("{femtoseconds:0width$}", width = MICROSECOND + 1);
    let (whole, behind) = digits.split_at(digits.len() - MICROSECOND);
    match places {
        0 => whole.to_string(),
        places => format!("{whole}.{}", &behind[..places]),
    }
}

/// What a number of cycles comes to, in femtoseconds: exactly, and so without a rounding.
pub fn figure(cycles: u64, period: Time, overhead: Time) -> u128 {
    u128::from(cycles) * period.femtoseconds() + overhead.femtoseconds()
}
