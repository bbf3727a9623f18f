//! Costs, floors and ceilings, with and without faults.

use crate::ask::LentBounds;
use crate::guarded::{short, Guarded};
use charts::random::Random;
use veilbuzz::Costs;

/// Costs with a miss no cheaper than a hit, now and then the same, small or of any size.
pub fn costs(random: &mut Random) -> Costs {
    let most = if random.once_in(2) { 20 } else { 65_535 };
    let hit = random.within(0, most);
    let miss = match random.below(8) {
        0 => hit,
        1 => most,
        _ => random.within(hit, most),
    };
    Costs {
        hit: hit as u16,
        miss: miss as u16,
    }
}

/// What the totals are asked with, beside a table.
#[derive(Clone, Debug)]
pub struct Question {
    pub costs: Costs,
    pub floors: Vec<u16>,
    pub ceilings: Vec<u16>,
}

impl Question {
    /// One without a fault, for a table with such marks.
    pub fn sound(random: &mut Random, marks: &[u8]) -> Question {
        let most = [0, 3, 65_535][random.below(3) as usize];
        let ceilings: Vec<u16> = marks.iter().map(|_| random.within(0, most) as u16).collect();
        let floor = |(&ceiling, &mark): (&u16, &u8)| match mark {
            1 if random.once_in(3) => ceiling,
            1 => random.within(0, ceiling.into()) as u16,
            _ => 0,
        };
        Question {
            floors: ceilings.iter().zip(marks).map(floor).collect(),
            costs: costs(random),
            ceilings,
        }
    }

    /// Puts in what refusals 14 to 17 name, each with this chance: once in so many times. How many were put in.
    pub fn damage(&mut self, random: &mut Random, marks: &[u8], turns: u64) -> usize {
        let mut faults = 0;
        let node = |random: &mut Random| random.below(marks.len() as u64) as usize;
        if random.once_in(turns) && self.costs.miss > 0 {
            self.costs.hit = random.within(u64::from(self.costs.miss) + 1, 1 << 16).min(65_535) as u16;
            self.costs.miss = self.costs.miss.min(self.costs.hit - 1);
            faults += 1;
        }
        if random.once_in(turns) {
            for _ in 0..random.within(1, 3) {
                let node = node(random);
                self.ceilings[node] = self.ceilings[node].min(65_534);
                self.floors[node] = random.within(u64::from(self.ceilings[node]) + 1, 65_535) as u16;
            }
            faults += 1;
        }
        let unmarked: Vec<usize> = (0..marks.len()).filter(|&node| marks[node] != 1).collect();
        if random.once_in(turns) && !unmarked.is_empty() {
            let node = unmarked[random.below(unmarked.len() as u64) as usize];
            self.ceilings[node] = self.ceilings[node].max(1);
            self.floors[node] = self.floors[node].max(1);
            faults += 1;
        }
        for part in [&mut self.floors, &mut self.ceilings] {
            if random.once_in(turns) {
                let length = other_length(random, part.len());
                part.resize(length, 1);
                faults += 1;
            }
        }
        faults
    }

    pub fn lent(&self, random: &mut Random) -> LentBounds {
        LentBounds {
            floors: Guarded::holding(random, &self.floors, 0, short),
            ceilings: Guarded::holding(random, &self.ceilings, 0, short),
        }
    }
}

/// A length that is not this one, and is near it more often than not.
fn other_length(random: &mut Random, length: usize) -> usize {
    match random.below(4) {
        0 => 0,
        1 => length - 1,
        2 => length + 1,
        _ => length + random.within(2, 300) as usize,
    }
}
