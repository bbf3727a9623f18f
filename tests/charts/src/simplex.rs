//! Linear programs, solved exactly: the simplex method in two phases, with Bland's rule, so that it ends.

use crate::fraction::Fraction;

/// The most that numbers which are not below 0 and keep all equations can gain.
pub struct Program {
    /// Of each equation a factor for each number, and what the sum has to be.
    pub equations: Vec<(Vec<Fraction>, Fraction)>,
    /// What one of each number gains.
    pub gains: Vec<Fraction>,
}

/// What a program comes to.
#[derive(Clone, Debug, PartialEq)]
pub enum Solved {
    /// The most, and for each equation what one more in its sum would add to that.
    Most { gain: Fraction, prices: Vec<Fraction> },
    /// No numbers keep the equations.
    Impossible,
    /// There is no most.
    Boundless,
}

/// Rows of equations, each solved for one number: behind the program's own numbers stands one more for each equation, which is what is missing
/// in it. At the end of a row stands its sum.
struct Tableau {
    rows: Vec<Vec<Fraction>>,
    /// Which number each row is solved for.
    solved: Vec<usize>,
    own: usize,
}

impl Program {
    pub fn solve(&self) -> Solved {
        let (own, all) = (self.gains.len(), self.gains.len() + self.equations.len());
        let mut tableau = Tableau::of(self);
        // first as little as can be is missing
        let missing = |number| if number < own { Fraction::ZERO } else { -Fraction::ONE };
        let worth = tableau.improved(missing, all);
        let worth = worth.expect("there is no less to be missing than nothing");
        if worth[all].is_above_0() {
            return Solved::Impossible;
        }
        tableau.leave_nothing_missing();
        let gain = |number| self.gains.get(number).copied().unwrap_or(Fraction::ZERO);
        let Some(worth) = tableau.improved(gain, own) else {
            return Solved::Boundless;
        };
        let price = |equation: usize| turned(self.equations[equation].1, -worth[own + equation]);
        Solved::Most {
            gain: -worth[all],
            prices: (0..self.equations.len()).map(price).collect(),
        }
    }
}

/// A row with a sum below 0 is turned round.
fn turned(sum: Fraction, factor: Fraction) -> Fraction {
    if sum.is_below_0() {
        -factor
    } else {
        factor
    }
}

impl Tableau {
    /// All is missing.
    fn of(program: &Program) -> Tableau {
        let (own, count) = (program.gains.len(), program.equations.len());
        let row = |(number, (factors, sum)): (usize, &(Vec<Fraction>, Fraction))| {
            let mut row: Vec<Fraction> = factors.iter().map(|&factor| turned(*sum, factor)).collect();
            row.resize(own + count, Fraction::ZERO);
            row[own + number] = Fraction::ONE;
            row.push(turned(*sum, *sum));
            row
        };
        Tableau {
            rows: program.equations.iter().enumerate().map(row).collect(),
            solved: (own..own + count).collect(),
            own,
        }
    }

    /// Takes in one number after another that gains, always the first of those below an end, in the place of the first of those that come down to
    /// 0 (Bland). What one more of each would gain then, which is nothing, and behind them the whole gain below 0; or nothing if there is no end.
    fn improved(&mut self, gain: impl Fn(usize) -> Fraction, end: usize) -> Option<Vec<Fraction>> {
        let all = self.own + self.rows.len();
        let mut worth: Vec<Fraction> = (0..all).map(&gain).chain([Fraction::ZERO]).collect();
        for (row, &number) in self.rows.iter().zip(&self.solved) {
            take(&mut worth, row, gain(number));
        }
        while let Some(number) = (0..end).find(|&number| worth[number].is_above_0()) {
            let shrinks = |&row: &usize| self.rows[row][number].is_above_0();
            let room = |&row: &usize| (self.rows[row][all] / self.rows[row][number], self.solved[row]);
            let row = (0..self.rows.len()).filter(shrinks).min_by_key(room)?;
            self.solve_for(row, number);
            let times = worth[number];
            take(&mut worth, &self.rows[row], times);
        }
        Some(worth)
    }

    /// Solves rows in which nothing is missing for numbers of the program's own. One that has no such number says nothing.
    fn leave_nothing_missing(&mut self) {
        for row in (0..self.rows.len())
            .filter(|&row| self.solved[row] >= self.own)
            .collect::<Vec<usize>>()
        {
            if let Some(number) = (0..self.own).find(|&number| self.rows[row][number] != Fraction::ZERO) {
                self.solve_for(row, number);
            }
        }
    }

    fn solve_for(&mut self, row: usize, number: usize) {
        let by = self.rows[row][number];
        let solved: Vec<Fraction> = self.rows[row].iter().map(|&own| own / by).collect();
        for (_, other) in self.rows.iter_mut().enumerate().filter(|(other, _)| *other != row) {
            let times = other[number];
            take(other, &solved, times);
        }
        self.rows[row] = solved;
        self.solved[row] = number;
    }
}

/// Takes a row so many times from another.
fn take(from: &mut [Fraction], row: &[Fraction], times: Fraction) {
    if times != Fraction::ZERO {
        from.iter_mut()
            .zip(row)
            .for_each(|(own, &taken)| *own = *own - times * taken);
    }
}
