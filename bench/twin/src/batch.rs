//! Mutations, batches and their limits, and what each shard has of a batch.

use crate::blob::Blob;
use std::cmp::Ordering;
use std::hash::{Hash, Hasher};
use std::sync::Arc;

const MOST_MUTATIONS: usize = 1_000;
const LONGEST_KEY: usize = 10_000;
const LONGEST_VALUE: usize = 100_000;

#[derive(Clone, Debug, PartialEq, Eq)]
pub enum Mutation {
    Set {
        key: Blob,
        value: Blob,
    },
    Clear {
        begin: Blob,
        end: Blob,
    },
    Combine {
        how: Combine,
        key: Blob,
        param: Blob,
    },
    /// The key loses its value where it is this one.
    CompareAndClear {
        key: Blob,
        value: Blob,
    },
}

/// How a parameter is put together with the value that stands.
#[derive(Clone, Copy, Debug, PartialEq, Eq)]
pub enum Combine {
    Add,
    And,
    Or,
    Xor,
    Max,
    Min,
}

/// Mutations within the limits, applied from first to last.
#[derive(Clone, Debug, PartialEq, Eq)]
pub struct Batch(Box<[Mutation]>);

/// The first limit that a list of mutations breaks.
#[derive(Clone, Copy, Debug, PartialEq)]
pub enum BatchFault {
    TooMany,
    KeyTooLong,
    ValueTooLong,
    Inverted,
}

impl BatchFault {
    pub fn name(self) -> &'static str {
        match self {
            BatchFault::TooMany => "TooMany",
            BatchFault::KeyTooLong => "KeyTooLong",
            BatchFault::ValueTooLong => "ValueTooLong",
            BatchFault::Inverted => "Inverted",
        }
    }
}

impl Batch {
    pub fn new(mutations: Vec<Mutation>) -> Result<Self, BatchFault> {
        Self::check(&mutations)?;
        Ok(Batch(mutations.into_boxed_slice()))
    }

    /// Whether mutations are within the limits.
    pub fn check(mutations: &[Mutation]) -> Result<(), BatchFault> {
        if mutations.len() > MOST_MUTATIONS {
            return Err(BatchFault::TooMany);
        }
        mutations.iter().try_for_each(Mutation::check)
    }

    pub fn into_mutations(self) -> Box<[Mutation]> {
        self.0
    }

    pub fn mutations(&self) -> &[Mutation] {
        &self.0
    }
}

// Batches are hashed beside their versions, which tell them apart nearly always.
impl Hash for Batch {
    fn hash<H: Hasher>(&self, hasher: &mut H) {
        self.0.len().hash(hasher);
    }
}

/// Where the shards begin, in rising order; the first one begins at the empty key.
#[derive(Debug)]
pub struct Shards(Vec<Blob>);

impl Shards {
    pub fn new(begins: Vec<Blob>) -> Option<Self> {
        let are_few = (1..=32).contains(&begins.len());
        let are_keys = begins.iter().all(|begin| begin.len() <= LONGEST_KEY);
        let are_rising = begins.windows(2).all(|pair| pair[0] < pair[1]);
        (are_few && are_keys && are_rising && begins[0].is_empty()).then_some(Shards(begins))
    }

    pub fn number(&self) -> u8 {
        self.0.len() as u8
    }

    /// The shard of a key.
    pub fn of(&self, key: &[u8]) -> usize {
        self.0.partition_point(|begin| begin.as_slice() <= key) - 1
    }

    /// What each shard has of a batch, by rising tags; one that has nothing is left out.
    pub fn bodies_of(&self, batch: &Arc<Batch>) -> Vec<(u8, Arc<Batch>)> {
        if self.0.len() == 1 && !batch.mutations().iter().any(Mutation::is_empty) {
            let body = (0, batch.clone());
            return if batch.mutations().is_empty() { Vec::new() } else { vec![body] };
        }
        if cfg!(feature = "by_hand") && !batch.mutations().iter().any(|it| matches!(it, Mutation::Clear { .. })) {
            return self.bodies_of_keys(batch);
        }
        let mut bodies: Vec<Vec<Mutation>> = vec![Vec::new(); self.0.len()];
        for mutation in batch.mutations() {
            match mutation {
                Mutation::Set { key, .. }
                | Mutation::Combine { key, .. }
                | Mutation::CompareAndClear { key, .. } => bodies[self.of(key)].push(mutation.clone()),
                Mutation::Clear { begin, end } if begin < end => {
                    for tag in self.of(begin)..self.0.len() {
                        if self.0[tag] >= *end {
                            break;
                        }
                        let begin = begin.max(&self.0[tag]).clone();
                        let end = self.0.get(tag + 1).map_or(end, |next| next.min(end)).clone();
                        bodies[tag].push(Mutation::Clear { begin, end });
                    }
                }
                Mutation::Clear { .. } => {}
            }
        }
        let bodies = bodies.into_iter().zip(0..).filter(|(body, _)| !body.is_empty());
        bodies.map(|(body, tag)| (tag, Arc::new(Batch(body.into_boxed_slice())))).collect()
    }
}

impl Shards {
    /// The same of a batch whose mutations have a key each: one look at each key, and room for what is there.
    fn bodies_of_keys(&self, batch: &Arc<Batch>) -> Vec<(u8, Arc<Batch>)> {
        let mut tags = [0; MOST_MUTATIONS];
        let mut counts = [0; 32];
        for (mutation, tag) in batch.mutations().iter().zip(&mut tags) {
            let its = self.of(mutation.key());
            *tag = its as u8;
            counts[its] += 1;
        }
        let mut bodies = Vec::with_capacity(batch.mutations().len().min(self.0.len()));
        for (tag, count) in (0..).zip(counts).filter(|(_, count)| *count > 0) {
            let own = batch.mutations().iter().zip(&tags).filter(|(_, its)| **its == tag);
            let mut body = Vec::with_capacity(count);
            body.extend(own.map(|(mutation, _)| mutation.clone()));
            bodies.push((tag, Arc::new(Batch(body.into_boxed_slice()))));
        }
        bodies
    }
}

impl Mutation {
    /// Its key; of a clear where it begins.
    fn key(&self) -> &[u8] {
        match self {
            Mutation::Set { key, .. } | Mutation::Combine { key, .. } | Mutation::CompareAndClear { key, .. } => key,
            Mutation::Clear { begin, .. } => begin,
        }
    }

    /// Whether it is a clear of no keys.
    fn is_empty(&self) -> bool {
        matches!(self, Mutation::Clear { begin, end } if begin == end)
    }

    fn check(&self) -> Result<(), BatchFault> {
        match self {
            Mutation::Set { key, value: text }
            | Mutation::CompareAndClear { key, value: text }
            | Mutation::Combine {
                key, param: text, ..
            } => {
                if key.len() > LONGEST_KEY {
                    return Err(BatchFault::KeyTooLong);
                }
                if text.len() > LONGEST_VALUE {
                    return Err(BatchFault::ValueTooLong);
                }
            }
            Mutation::Clear { begin, end } => {
                if begin.len() > LONGEST_KEY || end.len() > LONGEST_KEY {
                    return Err(BatchFault::KeyTooLong);
                }
                if begin > end {
                    return Err(BatchFault::Inverted);
                }
            }
        }
        Ok(())
    }
}

impl Combine {
    /// The new value, made in the parameter's own place. The old value counts as cut, or extended by
    /// zero bytes, to the parameter's length.
    pub fn apply(self, old: Option<&[u8]>, mut param: Blob) -> Blob {
        match (self, old) {
            (Combine::And | Combine::Max | Combine::Min, None) => {}
            (Combine::Add, old) => add(&mut param, old.unwrap_or_default()),
            (Combine::Or, old) => zip(&mut param, old.unwrap_or_default(), |p, o| p | o),
            (Combine::Xor, old) => zip(&mut param, old.unwrap_or_default(), |p, o| p ^ o),
            (Combine::And, Some(old)) => zip(&mut param, old, |p, o| p & o),
            (Combine::Max, Some(old)) => choose(&mut param, old, Ordering::Greater),
            (Combine::Min, Some(old)) => choose(&mut param, old, Ordering::Less),
        }
        param
    }
}

/// Joins each byte of the parameter with the old value's, which is zero past its end.
fn zip(param: &mut [u8], old: &[u8], join: impl Fn(u8, u8) -> u8) {
    let (front, rest) = param.split_at_mut(old.len().min(param.len()));
    for (p, o) in front.iter_mut().zip(old) {
        *p = join(*p, *o);
    }
    for p in rest {
        *p = join(*p, 0);
    }
}

/// The little-endian sum; what goes past the last byte is dropped.
fn add(param: &mut [u8], old: &[u8]) {
    let mut carry = false;
    let old = old.iter().copied().chain(std::iter::repeat(0));
    for (p, o) in param.iter_mut().zip(old) {
        let (sum, over) = p.overflowing_add(o);
        let (sum, over_again) = sum.overflowing_add(u8::from(carry));
        *p = sum;
        carry = over || over_again;
    }
}

/// Takes the old value where it stands to the parameter as wanted, both as little-endian numbers.
fn choose(param: &mut [u8], old: &[u8], wanted: Ordering) {
    let old_byte = |at: usize| old.get(at).copied().unwrap_or(0);
    let order = (0..param.len())
        .rev()
        .map(|at| old_byte(at).cmp(&param[at]))
        .find(|order| order.is_ne());
    if order == Some(wanted) {
        zip(param, old, |_, o| o);
    }
}
