//! The coordinated state: a list of generations.

use crate::forms::{object, Count, Epoch, Number, Version};
use serde::de::value::{MapAccessDeserializer, SeqAccessDeserializer};
use serde::de::{Deserialize, Deserializer, Error, MapAccess, SeqAccess, Visitor};
use std::fmt;

pub const LAST_VERSION: u64 = (1 << 62) - 1;
const MOST_GENERATIONS: usize = 64;

object! {
    /// The logs of an epoch: m of them, each tag on k.
    #[derive(Clone, Copy, Debug, PartialEq, Eq, Hash)]
    Generation {
        epoch: u64 as Epoch,
        m: u8 as Count,
        k: u8 as Count,
        first: u64 as Version,
        seeded_to: u64 as Version,
    }
}

/// How many logs a generation has, and on how many of them each tag stands.
#[derive(Clone, Copy, Debug, PartialEq)]
pub struct Shape {
    pub m: u8,
    pub k: u8,
}

impl Shape {
    /// The shape of a script's members `logs` and `degree`, of which both are there or neither; `None` where they are
    /// not right.
    pub fn of_members(logs: Option<u8>, degree: Option<u8>) -> Option<Option<Self>> {
        match (logs, degree) {
            (None, None) => Some(None),
            (Some(m), Some(k)) if 1 <= k && k <= m && m <= 16 => Some(Some(Shape { m, k })),
            _ => None,
        }
    }
}

/// Generations, the oldest first and the current one last; never none. Of older ones it is known how many were dropped.
#[derive(Clone, Debug, PartialEq, Eq, Hash)]
pub struct State {
    dropped: u64,
    generations: Vec<Generation>,
}

/// Why a state takes no further generation.
#[derive(Clone, Copy, Debug, PartialEq)]
pub enum ExtendFault {
    NotLater,
    TooMany,
}

impl Generation {
    fn is_within_limits(&self) -> bool {
        let is_small = self.epoch < 1 << 48 && self.first <= LAST_VERSION && self.seeded_to <= LAST_VERSION;
        let has_logs = 1 <= self.k && self.k <= self.m && self.m <= 16;
        is_small && self.epoch >= 256 && has_logs && 1 <= self.first && self.first <= self.seeded_to + 1
    }

    fn may_follow(&self, before: &Generation) -> bool {
        self.epoch > before.epoch && self.first >= before.first && self.seeded_to >= before.seeded_to
    }

    /// Whether a log holds a tag: tag t stands on the logs t, t + 1, .., t + k - 1 modulo m.
    pub fn holds(&self, index: u8, tag: u8) -> bool {
        (index + self.m - tag % self.m) % self.m < self.k
    }
}

impl State {
    pub fn new(dropped: u64, generations: Vec<Generation>) -> Option<Self> {
        let is_long = (1..=MOST_GENERATIONS).contains(&generations.len());
        let are_within = generations.iter().all(Generation::is_within_limits);
        let are_ordered = generations.windows(2).all(|pair| pair[1].may_follow(&pair[0]));
        let are_before = generations.first().is_some_and(|first| dropped < first.epoch);
        (is_long && are_within && are_ordered && are_before).then_some(State { dropped, generations })
    }

    pub fn last(&self) -> &Generation {
        &self.generations[self.generations.len() - 1]
    }

    pub fn generations(&self) -> &[Generation] {
        &self.generations
    }

    pub fn dropped(&self) -> u64 {
        self.dropped
    }

    /// Without the generations before the last one that begins at a version or below; all of it where none does.
    pub fn drop_before(&self, version: u64) -> State {
        let is_begun = |generation: &Generation| generation.first <= version;
        let out = self.generations.iter().rposition(is_begun).unwrap_or(0);
        State { dropped: self.dropped + out as u64, generations: self.generations[out..].to_vec() }
    }

    pub fn extended(&self, generation: Generation) -> Result<State, ExtendFault> {
        if !generation.may_follow(self.last()) {
            return Err(ExtendFault::NotLater);
        }
        if self.generations.len() == MOST_GENERATIONS {
            return Err(ExtendFault::TooMany);
        }
        let mut generations = self.generations.clone();
        generations.push(generation);
        Ok(State { dropped: self.dropped, generations })
    }

    /// The generation that is to be asked for a version: the last one that starts at it or below, or else the first one.
    pub fn source_of(&self, version: u64) -> &Generation {
        let source = self.generations.iter().rev().find(|generation| generation.first <= version);
        source.unwrap_or(&self.generations[0])
    }

    fn next_of(&self, epoch: u64) -> Option<&Generation> {
        let place = self.generations.iter().position(|generation| generation.epoch == epoch)?;
        self.generations.get(place + 1)
    }

    /// The last version of an epoch's own that counts, where a next one has been opened.
    pub fn end_of(&self, epoch: u64) -> Option<u64> {
        self.next_of(epoch).map(|next| next.first - 1)
    }

    /// The version through which the next epoch has copied this one.
    pub fn cut_of(&self, epoch: u64) -> Option<u64> {
        self.next_of(epoch).map(|next| next.seeded_to)
    }

    /// Whether it goes on from another state: it dropped as many generations or more, but not all, and begins with those
    /// of the other one that it did not drop.
    pub fn goes_on_from(&self, own: &State) -> bool {
        let left = self.dropped.checked_sub(own.dropped).and_then(|more| usize::try_from(more).ok());
        let left = left.and_then(|more| own.generations.get(more..)).unwrap_or_default();
        !left.is_empty() && self.generations.starts_with(left)
    }

    pub fn encode(&self) -> Vec<u8> {
        let mut bytes = vec![if self.dropped == 0 { 1 } else { 2 }];
        if self.dropped > 0 {
            bytes.extend(self.dropped.to_be_bytes());
        }
        bytes.push(self.generations.len() as u8);
        for each in &self.generations {
            bytes.extend(each.epoch.to_be_bytes());
            bytes.extend([each.m, each.k]);
            bytes.extend(each.first.to_be_bytes());
            bytes.extend(each.seeded_to.to_be_bytes());
        }
        bytes
    }

    pub fn decode(bytes: &[u8]) -> Option<State> {
        let (format, mut rest) = bytes.split_first()?;
        let mut dropped = 0;
        if *format == 2 {
            let (number, behind) = rest.split_first_chunk()?;
            (dropped, rest) = (u64::from_be_bytes(*number), behind);
        }
        let (number, mut rest) = rest.split_first()?;
        if !matches!((format, dropped), (1, 0) | (2, 1..)) || rest.len() != 26 * usize::from(*number) {
            return None;
        }
        let mut generations = Vec::with_capacity(usize::from(*number));
        while let Some((chunk, others)) = rest.split_first_chunk::<26>() {
            let number_at = |at: usize| u64::from_be_bytes(chunk[at..at + 8].try_into().expect("eight bytes"));
            generations.push(Generation {
                epoch: number_at(0),
                m: chunk[8],
                k: chunk[9],
                first: number_at(10),
                seeded_to: number_at(18),
            });
            rest = others;
        }
        State::new(dropped, generations)
    }
}

object! { DroppedForm { dropped: u64 as Number<u64, 1, { (1 << 48) - 1 }>, gens: Vec<Generation> as Vec<Generation> } }

/// A list of generations, or an object that says too how many were dropped.
struct Form;

impl<'de> Visitor<'de> for Form {
    type Value = State;

    fn expecting(&self, f: &mut fmt::Formatter) -> fmt::Result {
        f.write_str("a state")
    }

    fn visit_seq<A: SeqAccess<'de>>(self, items: A) -> Result<State, A::Error> {
        let generations = Vec::deserialize(SeqAccessDeserializer::new(items))?;
        State::new(0, generations).ok_or_else(|| A::Error::custom("no state"))
    }

    fn visit_map<A: MapAccess<'de>>(self, map: A) -> Result<State, A::Error> {
        let form = DroppedForm::deserialize(MapAccessDeserializer::new(map))?;
        State::new(form.dropped, form.gens).ok_or_else(|| A::Error::custom("no state"))
    }
}

impl<'de> Deserialize<'de> for State {
    fn deserialize<D: Deserializer<'de>>(deserializer: D) -> Result<Self, D::Error> {
        deserializer.deserialize_any(Form)
    }
}
