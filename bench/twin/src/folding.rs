//! Hashes of numbers, keyed anew in each process, so that no script can be made whose numbers fall together.

use std::hash::{BuildHasher, Hasher, RandomState};

/// Makes hashers of one key.
#[derive(Clone)]
pub struct Folding {
    start: u64,
    factor: u64,
}

impl Default for Folding {
    fn default() -> Self {
        let random = RandomState::new();
        Folding { start: random.hash_one(0), factor: random.hash_one(1) | 1 }
    }
}

impl BuildHasher for Folding {
    type Hasher = Folded;

    fn build_hasher(&self) -> Folded {
        Folded { state: self.start, factor: self.factor }
    }
}

/// Takes each number in by a product of 128 bits, whose halves it folds together.
pub struct Folded {
    state: u64,
    factor: u64,
}

impl Hasher for Folded {
    fn write(&mut self, bytes: &[u8]) {
        for chunk in bytes.chunks(8) {
            let mut number = [0; 8];
            number[..chunk.len()].copy_from_slice(chunk);
            self.write_u64(u64::from_le_bytes(number));
        }
        self.write_usize(bytes.len());
    }

    fn write_u64(&mut self, number: u64) {
        let product = u128::from(self.state ^ number) * u128::from(self.factor);
        self.state = product as u64 ^ (product >> 64) as u64;
    }

    fn write_u8(&mut self, number: u8) {
        self.write_u64(number.into());
    }

    fn write_usize(&mut self, number: usize) {
        self.write_u64(number as u64);
    }

    fn finish(&self) -> u64 {
        self.state
    }
}

#[cfg(test)]
mod tests {
    use super::Folding;
    use std::hash::BuildHasher;

    #[test]
    fn numbers_that_follow_one_another_are_spread() {
        let folding = Folding::default();
        let mut lowest = [0; 4096];
        let mut highest = [0; 128];
        for number in 0..4096_u64 {
            let hash = folding.hash_one((3_u8, number, 257_u64));
            lowest[(hash % 4096) as usize] += 1;
            highest[(hash >> 57) as usize] += 1;
        }
        assert!(lowest.iter().all(|places| *places <= 20), "{:?}", lowest.iter().max());
        assert!(highest.iter().all(|places| (4..=80).contains(places)), "{highest:?}");
    }
}
