//! What nodes are called, what they ask and what they tell.

use crate::batch::Batch;
use crate::blob::Blob;
use crate::forms::{object, variants};
use crate::forms::{Ballot, CellPlace, Empty, Epoch, Most, Place, Request, Step, Tag, Version};
use crate::script::Bytes;
use crate::state::{State, LAST_VERSION};
use std::hash::{Hash, Hasher};
use std::sync::Arc;

const LONGEST_CELL_VALUE: usize = 4_096;
const MOST_RECORDS: usize = 100;

/// A node. The order is that of the lines of an audit.
#[derive(Clone, Copy, Debug, PartialEq, Eq, PartialOrd, Ord)]
#[cfg_attr(not(feature = "by_hand"), derive(Hash))]
pub enum NodeId {
    Cell(u8),
    Log(LogId),
    Sequencer(u64),
    Proxy(u64, u8),
    Recoverer(u64),
    Storage(u8),
}

/// A node's name is one number, which is hashed at once.
#[cfg(feature = "by_hand")]
impl Hash for NodeId {
    #[inline]
    fn hash<H: Hasher>(&self, hasher: &mut H) {
        let (kind, long, short) = match *self {
            NodeId::Cell(index) => (0, 0, index),
            NodeId::Log(id) => (1, id.epoch, id.index),
            NodeId::Sequencer(epoch) => (2, epoch, 0),
            NodeId::Proxy(epoch, number) => (3, epoch, number),
            NodeId::Recoverer(ballot) => (4, ballot, 0),
            NodeId::Storage(tag) => (5, 0, tag),
        };
        // (epochs and ballots are below 2^48)
        hasher.write_u64(long << 16 | u64::from(short) << 8 | kind);
    }
}

object! {
    #[derive(Clone, Copy, Debug, PartialEq, Eq, Hash, PartialOrd, Ord)]
    LogId { epoch: u64 as Epoch, index: u8 as Place }
}
object! { CellId { index: u8 as CellPlace } }
object! { EpochId { epoch: u64 as Epoch } }
object! { ProxyId { epoch: u64 as Epoch, number: u8 as Place } }
object! { BallotId { ballot: u64 as Ballot } }
object! { StorageId { tag: u8 as Tag } }

variants! {
    NodeId {
        "cell": CellId => |it| Some(NodeId::Cell(it.index)),
        "log": LogId => |it| Some(NodeId::Log(it)),
        "sequencer": EpochId => |it| Some(NodeId::Sequencer(it.epoch)),
        "proxy": ProxyId => |it| Some(NodeId::Proxy(it.epoch, it.number)),
        "recoverer": BallotId => |it| Some(NodeId::Recoverer(it.ballot)),
        "storage": StorageId => |it| Some(NodeId::Storage(it.tag)),
    }
}

#[derive(Clone, Debug, PartialEq, Eq, Hash)]
pub enum Ask {
    Cell(CellAsk),
    Log(LogAsk),
    Sequencer(Next),
}

#[derive(Clone, Debug, PartialEq, Eq, Hash)]
pub enum Tell {
    Cell(CellTell),
    Log(LogTell),
    Sequencer(SequencerTell),
}

variants! {
    Ask {
        "cell": CellAsk => |it| Some(Ask::Cell(it)),
        "log": LogAsk => |it| Some(Ask::Log(it)),
        "seq": SequencerAsk => |it| Some(Ask::Sequencer(it.0)),
    }
}

variants! {
    Tell {
        "cell": CellTell => |it| Some(Tell::Cell(it)),
        "log": LogTell => |it| Some(Tell::Log(it)),
        "seq": SequencerTell => |it| Some(Tell::Sequencer(it)),
    }
}

// ---- cells

#[derive(Clone, Debug, PartialEq, Eq, Hash)]
pub enum CellAsk {
    Read { ballot: u64 },
    Write { ballot: u64, value: Arc<[u8]> },
}

#[derive(Clone, Debug, PartialEq, Eq, Hash)]
pub enum CellTell {
    Promise { written: u64, value: Arc<[u8]> },
    Written { ballot: u64 },
    Refused { promised: u64 },
    TwoValues,
}

/// The value of a cell.
pub struct CellValue(Arc<[u8]>);

impl<'de> serde::Deserialize<'de> for CellValue {
    fn deserialize<D: serde::Deserializer<'de>>(deserializer: D) -> Result<Self, D::Error> {
        let Bytes(value) = Bytes::deserialize(deserializer)?;
        CellValue::new(value).ok_or_else(|| serde::de::Error::custom("a value that is too long for a cell"))
    }
}

impl CellValue {
    pub fn new(value: Blob) -> Option<Self> {
        (value.len() <= LONGEST_CELL_VALUE).then(|| CellValue(value.as_slice().into()))
    }
}

impl From<CellValue> for Arc<[u8]> {
    fn from(value: CellValue) -> Self {
        value.0
    }
}

object! { WriteForm { ballot: u64 as Ballot, value: Arc<[u8]> as CellValue } }
object! { PromiseForm { value: Arc<[u8]> as CellValue, written: u64 as Ballot } }
object! { RefusedForm { promised: u64 as Ballot } }

variants! {
    CellAsk {
        "read": BallotId => |it| Some(CellAsk::Read { ballot: it.ballot }),
        "write": WriteForm => |it| Some(CellAsk::Write { ballot: it.ballot, value: it.value }),
    }
}

variants! {
    CellTell {
        "promise": PromiseForm => |it| Some(CellTell::Promise { written: it.written, value: it.value }),
        "written": BallotId => |it| Some(CellTell::Written { ballot: it.ballot }),
        "refused": RefusedForm => |it| Some(CellTell::Refused { promised: it.promised }),
        "two_values": Empty => |_| Some(CellTell::TwoValues),
    }
}

// ---- logs

#[derive(Clone, Debug, PartialEq, Eq, Hash)]
pub enum LogAsk {
    Seed { epoch: u64, seed: Arc<Seed> },
    Push(Arc<Push>),
    Lock { epoch: u64 },
    Peek(Peek),
    MarkAsked { epoch: u64 },
    Pop(Pop),
}

#[derive(Clone, Debug, PartialEq, Eq, Hash)]
pub enum LogTell {
    Seeded,
    Held { version: u64 },
    /// With how far tags are popped, in rising tags.
    Locked { durable: u64, known: u64, popped: Vec<(u8, u64)> },
    Peeked(Arc<Peeked>),
    Marked { state: Arc<State> },
    Popped { through: u64 },
    Refused(LogRefusal),
}

#[derive(Clone, Copy, Debug, PartialEq, Eq, Hash)]
pub enum LogRefusal {
    WrongEpoch,
    Unseeded,
    Stopped,
    Stale,
    Gap { durable: u64 },
    NotMine,
    TooEarly { first: u64 },
    SeedDiffers,
    NoMark,
    Removed { through: u64 },
}

impl LogRefusal {
    pub fn name(self) -> &'static str {
        match self {
            LogRefusal::WrongEpoch => "WrongEpoch",
            LogRefusal::Unseeded => "Unseeded",
            LogRefusal::Stopped => "Stopped",
            LogRefusal::Stale => "Stale",
            LogRefusal::Gap { .. } => "Gap",
            LogRefusal::NotMine => "NotMine",
            LogRefusal::TooEarly { .. } => "TooEarly",
            LogRefusal::SeedDiffers => "SeedDiffers",
            LogRefusal::NoMark => "NoMark",
            LogRefusal::Removed { .. } => "Removed",
        }
    }
}

object! {
    /// A batch of a tag that a new log begins with.
    #[derive(Clone, Debug, PartialEq, Eq)]
    SeedRecord { batch: Arc<Batch> as Arc<Batch>, tag: u8 as Tag, version: u64 as Version }
}

/// What a log begins with: the records of its tags from `first` through `seeded_to`.
#[derive(Clone, Debug, PartialEq, Eq)]
pub struct Seed {
    pub first: u64,
    pub seeded_to: u64,
    pub records: Vec<SeedRecord>,
}

impl Seed {
    fn is_right(&self) -> bool {
        let are_inside = |record: &SeedRecord| (self.first..=self.seeded_to).contains(&record.version);
        1 <= self.first
            && self.first <= self.seeded_to + 1
            && self.records.iter().all(are_inside)
            && self.records.is_sorted_by(|one, next| (one.version, one.tag) < (next.version, next.tag))
    }
}

// The lists of a seed, a push and an answer follow from their numbers nearly always, so these alone are
// hashed.
impl Hash for Seed {
    fn hash<H: Hasher>(&self, hasher: &mut H) {
        (self.first, self.seeded_to).hash(hasher);
    }
}

#[derive(Clone, Debug, PartialEq, Eq)]
pub struct Push {
    pub epoch: u64,
    pub prev: u64,
    pub version: u64,
    pub known: u64,
    pub bodies: Vec<(u8, Arc<Batch>)>,
    pub mark: Option<Arc<State>>,
}

impl Push {
    /// Whether it is a push: a mark has no bodies, and the version after the one before it.
    pub fn is_right(&self) -> bool {
        let step = match self.mark {
            Some(_) => 1,
            None => 1_000_000,
        };
        let is_next = self.prev < self.version && self.version - self.prev <= step && self.version <= LAST_VERSION;
        let has_bodies = !self.bodies.is_empty();
        let are_rising = self.bodies.is_sorted_by(|one, next| one.0 < next.0);
        is_next && self.known <= self.prev && are_rising && !(has_bodies && self.mark.is_some())
    }
}

impl Hash for Push {
    fn hash<H: Hasher>(&self, hasher: &mut H) {
        (self.epoch, self.prev, self.version, self.known).hash(hasher);
    }
}

object! {
    /// What is asked for: the records of a tag above a version.
    #[derive(Clone, Copy, Debug, PartialEq, Eq, Hash)]
    Peek { after: u64 as Version, epoch: u64 as Epoch, most: u8 as Most, tag: u8 as Tag }
}

object! {
    /// A tag's records through a version are not needed any more.
    #[derive(Clone, Copy, Debug, PartialEq, Eq, Hash)]
    Pop { epoch: u64 as Epoch, tag: u8 as Tag, through: u64 as Version }
}

object! {
    #[derive(Clone, Debug, PartialEq, Eq)]
    Record { batch: Arc<Batch> as Arc<Batch>, version: u64 as Version }
}

object! {
    /// The records of a tag above `after`, complete through `upto`.
    #[derive(Clone, Debug, PartialEq, Eq)]
    Peeked {
        after: u64 as Version,
        known: u64 as Version,
        records: Vec<Record> as Vec<Record>,
        tag: u8 as Tag,
        upto: u64 as Version,
    }
}

impl Peeked {
    fn is_right(&self) -> bool {
        self.records.len() <= MOST_RECORDS
            && self.records.iter().all(|record| self.after < record.version && record.version <= self.upto)
            && self.records.is_sorted_by(|one, next| one.version < next.version)
    }
}

impl Hash for Peeked {
    fn hash<H: Hasher>(&self, hasher: &mut H) {
        (self.tag, self.after, self.upto, self.known).hash(hasher);
    }
}

object! {
    SeedForm {
        epoch: u64 as Epoch,
        first: u64 as Version,
        records: Vec<SeedRecord> as Vec<SeedRecord>,
        seeded_to: u64 as Version,
    }
}
object! {
    PushForm {
        bodies: Vec<(Tag, Arc<Batch>)> as Vec<(Tag, Arc<Batch>)>,
        epoch: u64 as Epoch,
        known: u64 as Version,
        mark: Option<State> as Option<State>,
        prev: u64 as Version,
        version: u64 as Version,
    }
}
object! { HeldForm { version: u64 as Version } }
object! {
    LockedForm { durable: u64 as Version, known: u64 as Version } maybe { popped: Vec<(u8, u64)> as PoppedForm }
}
object! { PoppedThroughForm { through: u64 as Version } }
object! { MarkedForm { state: State as State } }
object! { LogRefusedForm { why: LogRefusal as LogRefusal } }
/// How far tags are popped: in rising tags, and never none, since the member is left out then.
pub struct PoppedForm(Vec<(u8, u64)>);

impl<'de> serde::Deserialize<'de> for PoppedForm {
    fn deserialize<D: serde::Deserializer<'de>>(deserializer: D) -> Result<Self, D::Error> {
        let popped = PoppedForm::new(Vec::deserialize(deserializer)?);
        popped.ok_or_else(|| serde::de::Error::custom("popped tags that do not rise, or none"))
    }
}

impl PoppedForm {
    pub fn new(pairs: Vec<(Tag, Version)>) -> Option<Self> {
        let popped: Vec<(u8, u64)> = pairs.into_iter().map(|(tag, version)| (tag.0, version.0)).collect();
        let is_right = !popped.is_empty() && popped.is_sorted_by(|one, next| one.0 < next.0);
        is_right.then_some(PoppedForm(popped))
    }
}

impl From<PoppedForm> for Vec<(u8, u64)> {
    fn from(popped: PoppedForm) -> Self {
        popped.0
    }
}

object! { GapForm { durable: u64 as Version } }
object! { TooEarlyForm { first: u64 as Version } }

variants! {
    LogAsk {
        "seed": SeedForm => |it| {
            let seed = Seed { first: it.first, seeded_to: it.seeded_to, records: it.records };
            seed.is_right().then(|| LogAsk::Seed { epoch: it.epoch, seed: Arc::new(seed) })
        },
        "push": PushForm => |it| {
            let push = Push {
                epoch: it.epoch,
                prev: it.prev,
                version: it.version,
                known: it.known,
                bodies: it.bodies.into_iter().map(|(tag, batch)| (tag.0, batch)).collect(),
                mark: it.mark.map(Arc::new),
            };
            push.is_right().then(|| LogAsk::Push(Arc::new(push)))
        },
        "lock": EpochId => |it| Some(LogAsk::Lock { epoch: it.epoch }),
        "peek": Peek => |it| Some(LogAsk::Peek(it)),
        "mark_asked": EpochId => |it| Some(LogAsk::MarkAsked { epoch: it.epoch }),
        "pop": Pop => |it| Some(LogAsk::Pop(it)),
    }
}

variants! {
    LogTell {
        "seeded": Empty => |_| Some(LogTell::Seeded),
        "held": HeldForm => |it| Some(LogTell::Held { version: it.version }),
        "locked": LockedForm => |it| {
            let popped = it.popped.unwrap_or_default();
            Some(LogTell::Locked { durable: it.durable, known: it.known, popped })
        },
        "peeked": Peeked => |it| it.is_right().then(|| LogTell::Peeked(Arc::new(it))),
        "marked": MarkedForm => |it| Some(LogTell::Marked { state: Arc::new(it.state) }),
        "popped": PoppedThroughForm => |it| Some(LogTell::Popped { through: it.through }),
        "refused": LogRefusedForm => |it| Some(LogTell::Refused(it.why)),
    }
}

variants! {
    LogRefusal {
        "wrong_epoch": Empty => |_| Some(LogRefusal::WrongEpoch),
        "unseeded": Empty => |_| Some(LogRefusal::Unseeded),
        "stopped": Empty => |_| Some(LogRefusal::Stopped),
        "stale": Empty => |_| Some(LogRefusal::Stale),
        "gap": GapForm => |it| Some(LogRefusal::Gap { durable: it.durable }),
        "not_mine": Empty => |_| Some(LogRefusal::NotMine),
        "too_early": TooEarlyForm => |it| Some(LogRefusal::TooEarly { first: it.first }),
        "seed_differs": Empty => |_| Some(LogRefusal::SeedDiffers),
        "no_mark": Empty => |_| Some(LogRefusal::NoMark),
        "removed": PoppedThroughForm => |it| Some(LogRefusal::Removed { through: it.through }),
    }
}

// ---- sequencers

object! {
    /// A proxy asks for its next number.
    #[derive(Clone, Copy, Debug, PartialEq, Eq, Hash)]
    Next { proxy: u8 as Place, request: u64 as Request, step: u64 as Step }
}

#[derive(Clone, Copy, Debug, PartialEq, Eq, Hash)]
pub enum SequencerTell {
    Numbered { request: u64, prev: u64, version: u64 },
    Spent,
    OutOfTurn,
}

pub struct SequencerAsk(Next);

#[derive(Clone, Copy)]
pub enum SequencerRefusal {
    Spent,
    OutOfTurn,
}

object! { NumberedForm { prev: u64 as Version, request: u64 as Request, version: u64 as Version } }
object! { SequencerRefusedForm { why: SequencerRefusal as SequencerRefusal } }

variants! {
    SequencerAsk {
        "next": Next => |it| Some(SequencerAsk(it)),
    }
}

variants! {
    SequencerTell {
        "numbered": NumberedForm => |it| {
            Some(SequencerTell::Numbered { request: it.request, prev: it.prev, version: it.version })
        },
        "refused": SequencerRefusedForm => |it| Some(match it.why {
            SequencerRefusal::Spent => SequencerTell::Spent,
            SequencerRefusal::OutOfTurn => SequencerTell::OutOfTurn,
        }),
    }
}

variants! {
    SequencerRefusal {
        "spent": Empty => |_| Some(SequencerRefusal::Spent),
        "out_of_turn": Empty => |_| Some(SequencerRefusal::OutOfTurn),
    }
}
