//! All nodes of a world, and what each turn makes of them.

use crate::batch::{Batch, Shards};
use crate::cell::Cell;
use crate::forms::{object, Byte, Count};
use crate::log::Log;
use crate::messages::{Ask, LogId, LogTell, NodeId, Tell};
use crate::proxy::{Outcome, Proxy, Sequencer, SubmitFault};
use crate::recoverer::Recoverer;
use crate::script::Bytes;
use crate::state::{Generation, Shape, State};
use crate::storage::{Storage, StorageFault, Unheard};
use crate::store::StoreFault;
use std::collections::BTreeMap;
use std::sync::Arc;

pub const FIRST_EPOCH: u64 = 257;

/// What a world starts from.
pub struct Config {
    pub coordinators: u8,
    pub degree: u8,
    pub logs: u8,
    pub proxies: u8,
    pub shards: Arc<Shards>,
}

object! {
    ConfigForm {
        coordinators: u8 as Byte,
        degree: u8 as Count,
        logs: u8 as Count,
        proxies: u8 as Count,
        shards: Vec<Bytes> as Vec<Bytes>,
    }
}

impl ConfigForm {
    pub fn config(self) -> Option<Config> {
        let shards = Shards::new(self.shards.into_iter().map(|begin| begin.0).collect())?;
        let is_odd = matches!(self.coordinators, 1 | 3 | 5 | 7 | 9);
        (is_odd && self.degree <= self.logs).then(|| Config {
            coordinators: self.coordinators,
            degree: self.degree,
            logs: self.logs,
            proxies: self.proxies,
            shards: Arc::new(shards),
        })
    }
}

impl Config {
    /// The generation of the start.
    pub fn first_generation(&self) -> Generation {
        Generation { epoch: FIRST_EPOCH, m: self.logs, k: self.degree, first: 1, seeded_to: 0 }
    }

    /// The state of the start.
    pub fn first_state(&self) -> Arc<State> {
        Arc::new(State::new(0, vec![self.first_generation()]).expect("the start is a state"))
    }
}

/// Why a turn cannot happen.
#[derive(Clone, Copy, Debug, PartialEq)]
pub enum NotEnabled {
    NoSuchNode,
    Gone,
    NeverSent,
    BallotUsed,
    TwoOpen,
    Over,
}

impl NotEnabled {
    pub fn name(self) -> &'static str {
        match self {
            NotEnabled::NoSuchNode => "NoSuchNode",
            NotEnabled::Gone => "Gone",
            NotEnabled::NeverSent => "NeverSent",
            NotEnabled::BallotUsed => "BallotUsed",
            NotEnabled::TwoOpen => "TwoOpen",
            NotEnabled::Over => "Over",
        }
    }
}

/// What came of a hear.
#[derive(Clone, Copy, Debug, PartialEq)]
pub enum Heard {
    /// A proxy's; the flag says whether it has new asks.
    Proxy(Outcome, bool),
    /// A recoverer's, with the same flag.
    Recoverer(bool),
    Storage(Result<(), StorageFault>),
}

/// A node, and whether it is gone for good.
struct Node<T> {
    it: T,
    gone: bool,
}

impl<T> Node<T> {
    fn new(it: T) -> Self {
        Node { it, gone: false }
    }

    fn up(&mut self) -> Result<&mut T, NotEnabled> {
        if self.gone {
            return Err(NotEnabled::Gone);
        }
        Ok(&mut self.it)
    }

    fn go(&mut self) -> Result<(), NotEnabled> {
        self.up()?;
        self.gone = true;
        Ok(())
    }
}

pub struct World {
    config: Config,
    cells: Vec<Cell>,
    logs: BTreeMap<LogId, Node<Log>>,
    sequencers: BTreeMap<u64, Node<Sequencer>>,
    proxies: BTreeMap<(u64, u8), Node<Proxy>>,
    recoverers: BTreeMap<u64, Node<Recoverer>>,
    storages: Vec<Storage>,
}

fn there<T>(node: Option<&mut Node<T>>) -> Result<&mut Node<T>, NotEnabled> {
    node.ok_or(NotEnabled::NoSuchNode)
}

impl World {
    pub fn start(config: Config) -> Self {
        let (generation, state) = (config.first_generation(), config.first_state());
        let mut world = World {
            cells: vec![Cell::started(FIRST_EPOCH, &state); config.coordinators.into()],
            logs: BTreeMap::new(),
            sequencers: BTreeMap::new(),
            proxies: BTreeMap::new(),
            recoverers: BTreeMap::new(),
            storages: (0..config.shards.number()).map(|tag| Storage::new(tag, state.clone())).collect(),
            config,
        };
        for index in 0..generation.m {
            let log = Log::started(&generation, index, &state);
            world.logs.insert(LogId { epoch: FIRST_EPOCH, index }, Node::new(log));
        }
        world.open(&generation, 1);
        world
    }

    fn add_logs(&mut self, generation: &Generation) {
        for index in 0..generation.m {
            let id = LogId { epoch: generation.epoch, index };
            self.logs.entry(id).or_insert_with(|| Node::new(Log::new(generation, index)));
        }
    }

    /// The sequencer and the proxies of a generation come to be, once its mark has a version.
    fn open(&mut self, generation: &Generation, mark: u64) {
        self.sequencers.insert(generation.epoch, Node::new(Sequencer::new(mark)));
        for number in 0..self.config.proxies {
            let proxy = Proxy::new(*generation, number, self.config.shards.clone());
            self.proxies.insert((generation.epoch, number), Node::new(proxy));
        }
    }

    pub fn storages(&self) -> &[Storage] {
        &self.storages
    }

    pub fn log(&self, id: LogId) -> Option<&Log> {
        self.logs.get(&id).map(|node| &node.it)
    }

    /// Why a log takes no ask, where it takes none.
    pub fn why_not_up(&self, id: LogId) -> Option<NotEnabled> {
        match self.logs.get(&id) {
            None => Some(NotEnabled::NoSuchNode),
            Some(node) => node.gone.then_some(NotEnabled::Gone),
        }
    }

    pub fn cell(&self, index: u8) -> Option<&Cell> {
        self.cells.get(usize::from(index))
    }

    pub fn sequencer(&self, epoch: u64) -> Option<&Sequencer> {
        self.sequencers.get(&epoch).map(|node| &node.it)
    }

    pub fn proxy(&self, epoch: u64, number: u8) -> Option<&Proxy> {
        self.proxies.get(&(epoch, number)).map(|node| &node.it)
    }

    pub fn recoverer(&self, ballot: u64) -> Option<&Recoverer> {
        self.recoverers.get(&ballot).map(|node| &node.it)
    }

    pub fn storage(&self, tag: u8) -> Option<&Storage> {
        self.storages.get(usize::from(tag))
    }

    /// What the storage server of a tag answers a read of a key at a version: its value then, or why it does not say.
    pub fn read(&self, tag: u8, key: &[u8], version: u64) -> Result<Option<&[u8]>, &'static str> {
        let storage = self.storage(tag).ok_or(NotEnabled::NoSuchNode.name())?;
        if self.config.shards.of(key) != usize::from(tag) {
            return Err("NotMine");
        }
        storage.store.value_at(key, version).map_err(|fault| match fault {
            StoreFault::BelowFloor => "TooOld",
            _ => "FutureVersion",
        })
    }

    /// A recoverer begins, to open a generation of a shape. Ballot 0 is nobody's, and that of the first epoch was used
    /// before the start.
    pub fn begin(&mut self, ballot: u64, shape: Option<Shape>) -> Result<(), NotEnabled> {
        if ballot == 0 || ballot == FIRST_EPOCH || self.recoverers.contains_key(&ballot) {
            return Err(NotEnabled::BallotUsed);
        }
        let recoverer = Recoverer::new(ballot, self.config.coordinators, self.config.shards.number(), shape);
        self.recoverers.insert(ballot, Node::new(recoverer));
        Ok(())
    }

    pub fn submit(&mut self, epoch: u64, number: u8, step: u64, batch: Arc<Batch>) -> Result<Ask, NotEnabled> {
        let proxy = there(self.proxies.get_mut(&(epoch, number)))?.up()?;
        proxy.submit(step, batch).map(Ask::Sequencer).map_err(|fault| match fault {
            SubmitFault::TwoOpen => NotEnabled::TwoOpen,
            SubmitFault::Over => NotEnabled::Over,
        })
    }

    /// An ask comes to a node, which tells.
    pub fn deliver(&mut self, to: NodeId, ask: &Ask) -> Result<Tell, NotEnabled> {
        match to {
            NodeId::Cell(index) => {
                let cell = self.cells.get_mut(usize::from(index)).ok_or(NotEnabled::NoSuchNode)?;
                match ask {
                    Ask::Cell(ask) => Ok(Tell::Cell(cell.ask(ask))),
                    _ => Err(NotEnabled::NeverSent),
                }
            }
            NodeId::Log(id) => match (there(self.logs.get_mut(&id))?.up()?, ask) {
                (log, Ask::Log(ask)) => Ok(Tell::Log(log.ask(ask))),
                _ => Err(NotEnabled::NeverSent),
            },
            NodeId::Sequencer(epoch) => match (there(self.sequencers.get_mut(&epoch))?.up()?, ask) {
                (sequencer, Ask::Sequencer(next)) => Ok(Tell::Sequencer(sequencer.ask(next))),
                _ => Err(NotEnabled::NeverSent),
            },
            NodeId::Proxy(..) | NodeId::Recoverer(_) | NodeId::Storage(_) => Err(NotEnabled::NeverSent),
        }
    }

    /// A node hears a tell; a storage server may break its hear off at a version.
    pub fn hear(&mut self, by: NodeId, from: NodeId, tell: &Tell, taken: Option<u64>) -> Result<Heard, NotEnabled> {
        if taken.is_some() && !matches!(by, NodeId::Storage(_)) {
            return Err(NotEnabled::NeverSent);
        }
        match by {
            NodeId::Proxy(epoch, number) => {
                let proxy = there(self.proxies.get_mut(&(epoch, number)))?.up()?;
                let (outcome, has_new) = proxy.hear(from, tell);
                Ok(Heard::Proxy(outcome, has_new))
            }
            NodeId::Recoverer(ballot) => {
                let recoverer = there(self.recoverers.get_mut(&ballot))?.up()?;
                let has_new = recoverer.hear(from, tell);
                let (seeded, chosen) = (recoverer.seeded_generation(), recoverer.chosen_generation());
                if let (true, Some(generation)) = (has_new, seeded) {
                    self.add_logs(&generation);
                }
                if let (true, Some(generation)) = (has_new, chosen) {
                    self.open(&generation, generation.seeded_to + 1);
                }
                Ok(Heard::Recoverer(has_new))
            }
            NodeId::Storage(tag) => {
                let storage = self.storages.get_mut(usize::from(tag)).ok_or(NotEnabled::NoSuchNode)?;
                let heard = match (from, tell) {
                    (NodeId::Log(log), Tell::Log(LogTell::Peeked(peeked))) => {
                        storage.hear_peeked(log.epoch, peeked, taken)
                    }
                    (NodeId::Log(_), Tell::Log(LogTell::Marked { state })) => storage.hear_marked(state, taken),
                    (NodeId::Log(_), Tell::Log(LogTell::Refused(_) | LogTell::Popped { .. })) => {
                        storage.hear_nothing(taken)
                    }
                    _ => return Err(NotEnabled::NeverSent),
                };
                match heard {
                    Ok(()) => Ok(Heard::Storage(Ok(()))),
                    Err(Unheard::Refused(fault)) if taken.is_none() => Ok(Heard::Storage(Err(fault))),
                    Err(_) => Err(NotEnabled::NeverSent),
                }
            }
            NodeId::Cell(_) | NodeId::Log(_) | NodeId::Sequencer(_) => Err(NotEnabled::NeverSent),
        }
    }

    /// A crash is the end of a proxy, a sequencer or a recoverer; it changes no other node.
    pub fn crash(&mut self, node: NodeId) -> Result<(), NotEnabled> {
        match node {
            NodeId::Cell(index) => self.cell(index).map(|_| ()).ok_or(NotEnabled::NoSuchNode),
            NodeId::Storage(tag) => self.storage(tag).map(|_| ()).ok_or(NotEnabled::NoSuchNode),
            NodeId::Log(id) => there(self.logs.get_mut(&id))?.up().map(|_| ()),
            NodeId::Sequencer(epoch) => there(self.sequencers.get_mut(&epoch))?.go(),
            NodeId::Proxy(epoch, number) => there(self.proxies.get_mut(&(epoch, number)))?.go(),
            NodeId::Recoverer(ballot) => there(self.recoverers.get_mut(&ballot))?.go(),
        }
    }

    pub fn lose(&mut self, log: LogId) -> Result<(), NotEnabled> {
        there(self.logs.get_mut(&log))?.go()
    }

    /// The asks of a node whose tells it wants.
    pub fn pending(&self, node: NodeId) -> Vec<(NodeId, Ask)> {
        match node {
            NodeId::Proxy(epoch, number) => self.proxy(epoch, number).map_or_else(Vec::new, Proxy::pending),
            NodeId::Recoverer(ballot) => self.recoverer(ballot).map_or_else(Vec::new, Recoverer::pending),
            _ => Vec::new(),
        }
    }
}
