//! Sequencers and proxies.

use crate::batch::{Batch, Shards};
use crate::messages::{Ask, LogAsk, LogId, LogRefusal, LogTell, Next, NodeId, Push, SequencerTell, Tell};
use crate::state::{Generation, LAST_VERSION};
use std::collections::BTreeMap;
use std::sync::Arc;

const LAST_REQUEST: u64 = (1 << 62) - 1;

pub struct Sequencer {
    pub last: u64,
    /// Of each proxy its last request, with the version before and the version that it was given.
    given: BTreeMap<u8, (u64, u64, u64)>,
}

impl Sequencer {
    pub fn new(last: u64) -> Self {
        Sequencer { last, given: BTreeMap::new() }
    }

    pub fn ask(&mut self, ask: &Next) -> SequencerTell {
        let (request, prev, version) = self.given.get(&ask.proxy).copied().unwrap_or_default();
        if ask.request == request {
            return SequencerTell::Numbered { request, prev, version };
        }
        if ask.request != request + 1 {
            return SequencerTell::OutOfTurn;
        }
        if self.last + ask.step > LAST_VERSION {
            return SequencerTell::Spent;
        }
        let (request, prev, version) = (ask.request, self.last, self.last + ask.step);
        self.last = version;
        self.given.insert(ask.proxy, (request, prev, version));
        SequencerTell::Numbered { request, prev, version }
    }
}

/// A batch that is under way.
struct Open {
    batch: Arc<Batch>,
    request: Next,
    /// The pushes to the logs of the generation, once the batch has its number.
    pushes: Vec<Arc<Push>>,
    held: Vec<bool>,
}

pub struct Proxy {
    generation: Generation,
    number: u8,
    shards: Arc<Shards>,
    pub known: u64,
    requests: u64,
    open: Option<Open>,
    ended: bool,
}

#[derive(Clone, Copy, Debug, PartialEq, Eq)]
pub enum Outcome {
    Waiting,
    Committed(u64),
    Ended,
}

#[derive(Clone, Copy, Debug, PartialEq)]
pub enum SubmitFault {
    TwoOpen,
    Over,
}

impl Proxy {
    pub fn new(generation: Generation, number: u8, shards: Arc<Shards>) -> Self {
        let known = generation.first - 1;
        Proxy { generation, number, shards, known, requests: 0, open: None, ended: false }
    }

    /// The version of the batch under way, where it has its number.
    pub fn open_version(&self) -> Option<u64> {
        Some(self.open.as_ref()?.pushes.first()?.version)
    }

    /// Takes a batch, and asks the sequencer for its number.
    pub fn submit(&mut self, step: u64, batch: Arc<Batch>) -> Result<Next, SubmitFault> {
        if self.open.is_some() {
            return Err(SubmitFault::TwoOpen);
        }
        if self.ended || self.requests == LAST_REQUEST {
            return Err(SubmitFault::Over);
        }
        self.requests += 1;
        let request = Next { proxy: self.number, request: self.requests, step };
        let held = vec![false; self.generation.m.into()];
        self.open = Some(Open { batch, request, pushes: Vec::new(), held });
        Ok(request)
    }

    /// What becomes of the batch under way, and whether the proxy has new pushes.
    pub fn hear(&mut self, from: NodeId, tell: &Tell) -> (Outcome, bool) {
        let Some(open) = &mut self.open else {
            return (Outcome::Waiting, false);
        };
        let log = match from {
            NodeId::Log(id) if id.epoch == self.generation.epoch && id.index < self.generation.m => Some(id.index),
            _ => None,
        };
        let is_sequencer = from == NodeId::Sequencer(self.generation.epoch);
        match (tell, log) {
            (Tell::Sequencer(SequencerTell::Numbered { request, prev, version }), None) if is_sequencer => {
                if !open.pushes.is_empty() || *request != open.request.request {
                    return (Outcome::Waiting, false);
                }
                let pushes = pushes_of(&self.generation, &self.shards, self.known, open, *prev, *version);
                let is_numbered = pushes[0].is_right();
                if is_numbered {
                    open.pushes = pushes;
                }
                (Outcome::Waiting, is_numbered)
            }
            (Tell::Sequencer(SequencerTell::Spent), None) if is_sequencer => self.end(),
            (Tell::Log(LogTell::Refused(LogRefusal::Stopped)), Some(_)) => self.end(),
            (Tell::Log(LogTell::Held { version }), Some(index)) => {
                if open.pushes.first().is_none_or(|push| push.version != *version) {
                    return (Outcome::Waiting, false);
                }
                open.held[usize::from(index)] = true;
                if !open.held.iter().all(|held| *held) {
                    return (Outcome::Waiting, false);
                }
                self.known = *version;
                self.open = None;
                (Outcome::Committed(*version), false)
            }
            _ => (Outcome::Waiting, false),
        }
    }

    fn end(&mut self) -> (Outcome, bool) {
        self.open = None;
        self.ended = true;
        (Outcome::Ended, false)
    }

    /// The asks whose tells are wanted.
    pub fn pending(&self) -> Vec<(NodeId, Ask)> {
        let Some(open) = &self.open else {
            return Vec::new();
        };
        if open.pushes.is_empty() {
            let sequencer = NodeId::Sequencer(self.generation.epoch);
            return vec![(sequencer, Ask::Sequencer(open.request))];
        }
        let wanted = (0..self.generation.m).filter(|index| !open.held[usize::from(*index)]);
        wanted.filter_map(|index| self.push_to(index)).collect()
    }

    /// The push to a log of the generation, where that is wanted.
    pub fn push_to(&self, index: u8) -> Option<(NodeId, Ask)> {
        let open = self.open.as_ref()?;
        let push = open.pushes.get(usize::from(index))?;
        let log = NodeId::Log(LogId { epoch: self.generation.epoch, index });
        (!open.held[usize::from(index)]).then(|| (log, Ask::Log(LogAsk::Push(push.clone()))))
    }
}

/// A push to each log: it has the bodies of the tags that the log holds.
fn pushes_of(
    generation: &Generation,
    shards: &Shards,
    known: u64,
    open: &Open,
    prev: u64,
    version: u64,
) -> Vec<Arc<Push>> {
    let bodies: Vec<(u8, Arc<Batch>)> = shards.bodies_of(&open.batch);
    let push_to = |index: u8| {
        let bodies = bodies.iter().filter(|(tag, _)| generation.holds(index, *tag)).cloned().collect();
        Arc::new(Push { epoch: generation.epoch, prev, version, known, bodies, mark: None })
    };
    (0..generation.m).map(push_to).collect()
}
