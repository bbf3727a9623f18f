use crate::guarded::{signed, Guarded};
use crate::same::Held;
use charts::random::Random;
use charts::Claim;
use veilbuzz::{Certificate, Facts};

/// The four lists of a claim as they are lent, and its denominator.
#[derive(Clone)]
pub struct LentClaim {
    coefficients: Guarded<i64>,
    limits: Guarded<i64>,
    multipliers: Guarded<i64>,
    potentials: Guarded<i64>,
    denominator: u64,
}

impl LentClaim {
    pub fn of(random: &mut Random, claim: &Claim) -> LentClaim {
        let mut lend = |list: &[i64]| Guarded::holding(random, list, 0, signed);
        LentClaim {
            coefficients: lend(&claim.coefficients),
            limits: lend(&claim.limits),
            multipliers: lend(&claim.multipliers),
            potentials: lend(&claim.potentials),
            denominator: claim.denominator,
        }
    }

    pub fn facts(&self) -> Facts<'_> {
        Facts {
            coefficients: self.coefficients.lent(),
            limits: self.limits.lent(),
        }
    }

    pub fn certificate(&self) -> Certificate<'_> {
        Certificate {
            multipliers: self.multipliers.lent(),
            potentials: self.potentials.lent(),
            denominator: self.denominator,
        }
    }

    /// Holds all four to what they were before, guards too.
    pub fn same(&self, before: &LentClaim) -> Held {
        self.coefficients
            .same("coefficients, which are only read,", &before.coefficients)?;
        self.limits.same("limits, which are only read,", &before.limits)?;
        self.multipliers
            .same("multipliers, which are only read,", &before.multipliers)?;
        self.potentials
            .same("potentials, which are only read,", &before.potentials)
    }
}
