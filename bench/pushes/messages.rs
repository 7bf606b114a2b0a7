//! Of bench/twin/src/messages.rs what a log needs, without the forms of JSON.
use crate::batch::Batch;
use crate::state::State;
use std::sync::Arc;

pub struct LogId {
    pub epoch: u64,
    pub index: u8,
}

pub enum LogAsk {
    Seed { epoch: u64, seed: Arc<Seed> },
    Push(Arc<Push>),
    Lock { epoch: u64 },
    Peek(Peek),
    MarkAsked { epoch: u64 },
    Pop(Pop),
}

#[derive(Debug, PartialEq)]
pub enum LogTell {
    Seeded,
    Held { version: u64 },
    Locked { durable: u64, known: u64, popped: Vec<(u8, u64)> },
    Peeked(Arc<Peeked>),
    Marked { state: Arc<State> },
    Popped { through: u64 },
    Refused(LogRefusal),
}

#[derive(Debug, PartialEq)]
pub enum LogRefusal {
    WrongEpoch,
    Unseeded,
    Stopped,
    Stale,
    Gap { durable: u64 },
    NotMine,
    TooEarly { first: u64 },
    SeedDiffers,
    NoMark,
    Removed { through: u64 },
}

#[derive(PartialEq)]
pub struct SeedRecord {
    pub batch: Arc<Batch>,
    pub tag: u8,
    pub version: u64,
}

pub struct Seed {
    pub first: u64,
    pub seeded_to: u64,
    pub records: Vec<SeedRecord>,
}

pub struct Push {
    pub epoch: u64,
    pub prev: u64,
    pub version: u64,
    pub known: u64,
    pub bodies: Vec<(u8, Arc<Batch>)>,
    pub mark: Option<Arc<State>>,
}

pub struct Peek {
    pub after: u64,
    pub epoch: u64,
    pub most: u8,
    pub tag: u8,
}

pub struct Pop {
    pub epoch: u64,
    pub tag: u8,
    pub through: u64,
}

#[derive(Clone, Debug, PartialEq)]
pub struct Record {
    pub batch: Arc<Batch>,
    pub version: u64,
}

#[derive(Debug, PartialEq)]
pub struct Peeked {
    pub after: u64,
    pub known: u64,
    pub records: Vec<Record>,
    pub tag: u8,
    pub upto: u64,
}
