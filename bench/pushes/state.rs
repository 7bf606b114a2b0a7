//! Of bench/twin/src/state.rs what a log needs.

#[derive(Clone, Copy, Debug, PartialEq)]
pub struct Generation {
    pub epoch: u64,
    pub m: u8,
    pub k: u8,
    pub first: u64,
    pub seeded_to: u64,
}

#[derive(Debug, PartialEq)]
pub struct State(pub Vec<Generation>);

impl Generation {
    /// Whether a log holds a tag: tag t stands on the logs t, t + 1, .., t + k - 1 modulo m.
    pub fn holds(&self, index: u8, tag: u8) -> bool {
        (index + self.m - tag % self.m) % self.m < self.k
    }
}
