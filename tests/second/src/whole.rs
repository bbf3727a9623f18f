/// The words of 64 bits that are enough: the largest float has 2,098 binary digits where the smallest is 1, a total times that has 64 more, and
/// a neighbour or a double of it one more.
const WORDS: usize = 34;

/// A whole number. Its most significant word stands first, so that of two numbers the larger is the one whose list is.
#[derive(Clone, Copy, Debug, PartialEq, Eq, PartialOrd, Ord)]
pub struct Whole([u64; WORDS]);

impl Whole {
    pub const ZERO: Whole = Whole([0; WORDS]);

    /// These digits with so many binary zeros behind them.
    pub fn of(digits: u64, zeros: usize) -> Whole {
        let shifted = u128::from(digits) << (zeros % 64);
        let (upper, lower) = ((shifted >> 64) as u64, shifted as u64);
        let place = WORDS - 1 - zeros / 64;
        let mut whole = Whole::ZERO;
        whole.0[place] = lower;
        if upper > 0 {
            whole.0[place - 1] = upper;
        }
        whole
    }

    pub fn plus(self, other: Whole) -> Whole {
        self.each(|place, word| word + u128::from(other.0[place]))
    }

    pub fn times(self, factor: u64) -> Whole {
        self.each(|_, word| word * u128::from(factor))
    }

    /// Works on one word after another, from the least significant on, and carries what does not fit.
    fn each(self, work: impl Fn(usize, u128) -> u128) -> Whole {
        let (mut words, mut carried) = (self.0, 0);
        for (place, word) in words.iter_mut().enumerate().rev() {
            let wide = work(place, u128::from(*word)) + carried;
            *word = wide as u64;
            carried = wide >> 64;
        }
        assert_eq!(carried, 0, "there are words enough");
        Whole(words)
    }

    /// How many binary digits it has, without zeros in front; 0 has none.
    pub fn length(self) -> usize {
        let first = self.0.iter().position(|&word| word > 0);
        first.map_or(0, |place| 64 * (WORDS - place) - self.0[place].leading_zeros() as usize)
    }

    /// What is left where so many of the last binary digits are cut off. There have to be 64 digits or fewer.
    pub fn without(self, cut: usize) -> u64 {
        assert!(self.length() <= cut + 64, "what is left fits a word");
        let place = WORDS - 1 - cut / 64;
        let above = if place > 0 { self.0[place - 1] } else { 0 };
        let both = u128::from(above) << 64 | u128::from(self.0[place]);
        (both >> (cut % 64)) as u64
    }
}
