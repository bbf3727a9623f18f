//! Facts about a walk (rule 18.1), and which nodes they rule out.

/// What is said of a walk's visits: of each fact a coefficient for each node, and a limit.
#[derive(Clone, Copy, Debug)]
pub struct Facts<'a> {
    /// Fact after fact, each fact's in the order of the nodes.
    pub coefficients: &'a [i64],
    pub limits: &'a [i64],
}

/// One of them.
#[derive(Clone, Copy, Debug)]
pub struct Fact<'a> {
    pub coefficients: &'a [i64],
    pub limit: i64,
}

impl<'a> Facts<'a> {
    /// One after another, with so many coefficients each.
    pub fn each(self, nodes: usize) -> impl Iterator<Item = Fact<'a>> {
        let each = self.coefficients.chunks_exact(nodes).zip(self.limits);
        each.map(|(coefficients, &limit)| Fact { coefficients, limit })
    }

    /// Whether a walk with these visits keeps them all.
    pub fn are_kept(self, visits: &[u64]) -> bool {
        self.each(visits.len()).all(|fact| fact.is_kept(visits))
    }
}

impl Fact<'_> {
    /// What a walk with these visits comes to, which is not to be above the limit.
    pub fn sum(self, visits: &[u64]) -> i128 {
        let terms = self.coefficients.iter().zip(visits);
        terms.map(|(&own, &visits)| i128::from(own) * i128::from(visits)).sum()
    }

    pub fn is_kept(self, visits: &[u64]) -> bool {
        self.sum(visits) <= self.limit.into()
    }

    /// Whether it rules a node out (rule 18.7): what it sums is nowhere below 0, may not be above 0, and at that node is.
    pub fn rules_out(self, node: usize) -> bool {
        self.limit <= 0 && self.coefficients[node] > 0 && self.coefficients.iter().all(|&own| own >= 0)
    }
}
