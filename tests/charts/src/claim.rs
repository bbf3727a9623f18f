use second::bound::bound_on;
use second::certificate::{Certificate, Side};
use second::facts::Facts;
use second::grounds::Grounds;
use second::refusal::Refusal;

/// What a bound is asked with beside a table and costs: a side by its number, facts and a certificate, all allowed or not.
#[derive(Clone, Debug, PartialEq)]
pub struct Claim {
    pub side: u64,
    pub coefficients: Vec<i64>,
    pub limits: Vec<i64>,
    pub multipliers: Vec<i64>,
    pub potentials: Vec<i64>,
    pub denominator: u64,
}

impl Claim {
    /// Without a fact, and with the same potential everywhere.
    pub fn of(side: u64, nodes: usize, potential: i64, denominator: u64) -> Claim {
        Claim {
            side,
            coefficients: Vec::new(),
            limits: Vec::new(),
            multipliers: Vec::new(),
            potentials: vec![potential; nodes],
            denominator,
        }
    }

    /// The same with one fact more.
    pub fn with(mut self, coefficients: &[i64], limit: i64, multiplier: i64) -> Claim {
        self.coefficients.extend(coefficients);
        self.limits.push(limit);
        self.multipliers.push(multiplier);
        self
    }

    pub fn side(&self) -> Option<Side> {
        Side::of(self.side)
    }

    pub fn facts(&self) -> Facts<'_> {
        Facts {
            coefficients: &self.coefficients,
            limits: &self.limits,
        }
    }

    pub fn certificate(&self) -> Certificate<'_> {
        Certificate {
            multipliers: &self.multipliers,
            potentials: &self.potentials,
            denominator: self.denominator,
        }
    }

    /// What the second program makes of it.
    pub fn bound(&self, grounds: &Grounds) -> Result<u64, Refusal> {
        bound_on(grounds, self.side(), self.facts(), self.certificate())
    }
}
