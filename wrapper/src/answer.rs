use crate::raw;
use crate::Refusal;

// The functions speak in 64 bits, of numbers and of lengths alike; so no number is cut below.
const _: () = assert!(usize::BITS == 64);

/// The numbers of an answer: a refusal's number and place, both 0 for none, and then what its function alone returns.
pub struct Answer<const LENGTH: usize>([u64; LENGTH]);

impl<const LENGTH: usize> Answer<LENGTH> {
    /// What a function tells in the list that it is handed, by pointer and length. The list has room for all of its answer: without, the
    /// function would return 11 and tell nothing, which is not to be taken for an answer of zeros.
    pub fn of(call: impl FnOnce(*mut u64, usize) -> u64) -> Self {
        let mut told = [0; LENGTH];
        let number = call(told.as_mut_ptr(), told.len());
        assert_eq!(number, told[raw::NUMBER], "what is returned is also told");
        Answer(told)
    }

    /// The answer, unless it is a refusal.
    pub fn accepted(self) -> Result<Self, Refusal> {
        match self.count(raw::NUMBER) {
            0 => Ok(self),
            number => Err(Refusal {
                number,
                place: self.count(raw::PLACE),
            }),
        }
    }

    pub fn number(&self, place: usize) -> u64 {
        self.0[place]
    }

    pub fn count(&self, place: usize) -> usize {
        self.number(place) as usize
    }
}
