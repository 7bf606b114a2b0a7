//! Recoverers.

use crate::cell::{Progress, Tally};
use crate::messages::{Ask, CellAsk, LogAsk, LogId, LogTell, NodeId, Peek, Peeked, Push, Seed, SeedRecord, Tell};
use crate::state::{ExtendFault, Generation, Shape, State, LAST_VERSION};
use std::collections::BTreeMap;
use std::fmt;
use std::sync::Arc;

/// Tries, under one ballot, to end the current epoch and to open the next one.
pub struct Recoverer {
    ballot: u64,
    tags: u8,
    /// That of the next generation; where there is none it has the shape of the one before.
    shape: Option<Shape>,
    pub phase: Phase,
    reads: Tally,
    writes: Tally,
    parent: Option<State>,
    /// What the logs of the parent's last generation replied: durable and known.
    replies: BTreeMap<u8, (u64, u64)>,
    /// Through which version these replies showed a tag popped, the greatest one of each.
    shown: BTreeMap<u8, u64>,
    plan: Option<Plan>,
}

#[derive(Clone, Copy, Debug, PartialEq)]
pub enum Phase {
    Reading,
    Locking,
    Copying,
    Writing,
    Chosen { pev: u64, rv: u64 },
    Lost(&'static str),
}

impl fmt::Display for Phase {
    fn fmt(&self, f: &mut fmt::Formatter) -> fmt::Result {
        match self {
            Phase::Reading => f.write_str("reading"),
            Phase::Locking => f.write_str("locking"),
            Phase::Copying => f.write_str("copying"),
            Phase::Writing => f.write_str("writing"),
            Phase::Chosen { pev, rv } => write!(f, "chosen pev {pev} rv {rv}"),
            Phase::Lost(why) => write!(f, "lost {why}"),
        }
    }
}

/// What a recoverer is going to write, from the moment that the replies cover.
struct Plan {
    old: Generation,
    new: Generation,
    state: Arc<State>,
    pev: u64,
    rv: u64,
    /// Of each tag, through which version it is copied, and its records.
    copies: Vec<(u64, Vec<SeedRecord>)>,
    /// The seeds of the new logs, once the copy is complete.
    seeds: Vec<Arc<Seed>>,
    seeded: Vec<bool>,
    marked: Vec<bool>,
}

impl Recoverer {
    pub fn new(ballot: u64, cells: u8, tags: u8, shape: Option<Shape>) -> Self {
        Recoverer {
            ballot,
            tags,
            shape,
            phase: Phase::Reading,
            reads: Tally::of_reads(cells, ballot),
            writes: Tally::of_writes(cells, ballot),
            parent: None,
            replies: BTreeMap::new(),
            shown: BTreeMap::new(),
            plan: None,
        }
    }

    /// The generation whose logs have been sent their seeds.
    pub fn seeded_generation(&self) -> Option<Generation> {
        self.plan.as_ref().filter(|plan| !plan.seeds.is_empty()).map(|plan| plan.new)
    }

    pub fn chosen_generation(&self) -> Option<Generation> {
        match self.phase {
            Phase::Chosen { .. } => self.plan.as_ref().map(|plan| plan.new),
            _ => None,
        }
    }

    /// Hears a tell. Whether it may want new asks.
    pub fn hear(&mut self, from: NodeId, tell: &Tell) -> bool {
        let before = self.phase;
        match (from, tell) {
            (NodeId::Cell(cell), Tell::Cell(tell)) => match self.phase {
                Phase::Reading => {
                    self.reads.hear(cell, tell);
                    self.go_on(self.reads.progress, Recoverer::read);
                }
                Phase::Writing => {
                    self.writes.hear(cell, tell);
                    self.go_on(self.writes.progress, Recoverer::written);
                }
                _ => {}
            },
            (NodeId::Log(log), Tell::Log(tell)) => return self.hear_log(log, tell) || self.phase != before,
            _ => {}
        }
        self.phase != before
    }

    fn go_on(&mut self, progress: Progress, at_majority: fn(&mut Self)) {
        match progress {
            Progress::Waiting => {}
            Progress::Majority => at_majority(self),
            Progress::Outballoted => self.phase = Phase::Lost("Outballoted"),
            Progress::TwoValues => self.phase = Phase::Lost("TwoValues"),
        }
    }

    fn read(&mut self) {
        self.parent = State::decode(self.reads.greatest_value());
        self.phase = if self.parent.is_some() { Phase::Locking } else { Phase::Lost("BadState") };
    }

    fn written(&mut self) {
        let plan = self.plan.as_ref().expect("who writes has a plan");
        self.phase = Phase::Chosen { pev: plan.pev, rv: plan.rv };
    }

    fn hear_log(&mut self, log: LogId, tell: &LogTell) -> bool {
        match (self.phase, tell) {
            (Phase::Locking, LogTell::Locked { durable, known, popped }) => {
                let generation = *self.parent.as_ref().expect("who locks has a parent").last();
                if log.epoch == generation.epoch && log.index < generation.m {
                    if !self.replies.contains_key(&log.index) {
                        self.replies.insert(log.index, (*durable, *known));
                        for (tag, version) in popped {
                            let shown = self.shown.entry(*tag).or_insert(*version);
                            *shown = (*shown).max(*version);
                        }
                    }
                    if self.replies.len() > usize::from(generation.m - generation.k) {
                        self.make_plan();
                    }
                }
                false
            }
            (Phase::Copying, LogTell::Peeked(peeked)) => {
                let plan = self.plan.as_mut().expect("who copies has a plan");
                let is_wanted = log.epoch == plan.old.epoch && self.replies.contains_key(&log.index);
                is_wanted && plan.seeds.is_empty() && plan.copy(log.index, peeked)
            }
            (Phase::Copying, LogTell::Seeded) => {
                let plan = self.plan.as_mut().expect("who copies has a plan");
                if log.epoch == self.ballot && log.index < plan.new.m && !plan.seeds.is_empty() {
                    plan.seeded[usize::from(log.index)] = true;
                    if plan.seeded.iter().all(|seeded| *seeded) {
                        self.phase = Phase::Writing;
                    }
                }
                false
            }
            (Phase::Chosen { rv, .. }, LogTell::Held { version }) => {
                let plan = self.plan.as_mut().expect("who is chosen has a plan");
                if log.epoch == self.ballot && log.index < plan.new.m && *version == rv + 1 {
                    plan.marked[usize::from(log.index)] = true;
                }
                false
            }
            _ => false,
        }
    }

    /// The replies cover: what is kept of the old epoch, and what the new one begins with.
    fn make_plan(&mut self) {
        let parent = self.parent.as_ref().expect("who locks has a parent");
        let old = *parent.last();
        let pev = self.replies.values().map(|(_, known)| *known).max().unwrap_or(0);
        let rv = self.replies.values().map(|(durable, _)| *durable).min().unwrap_or(0);
        let Shape { m, k } = self.shape.unwrap_or(Shape { m: old.m, k: old.k });
        let new = Generation { epoch: self.ballot, m, k, first: pev + 1, seeded_to: rv };
        if pev > rv {
            self.phase = Phase::Lost("Inconsistent");
            return;
        }
        if rv + 1 > LAST_VERSION {
            self.phase = Phase::Lost("Spent");
            return;
        }
        // What every storage server has for good needs no generation any more.
        let shown: Option<Vec<u64>> = (0..self.tags).map(|tag| self.shown.get(&tag).copied()).collect();
        let left = match shown.and_then(|versions| versions.into_iter().min()) {
            Some(version) => parent.drop_before(version + 1),
            None => parent.clone(),
        };
        let state = match left.extended(new) {
            Ok(state) => Arc::new(state),
            Err(fault) => {
                self.phase = Phase::Lost(match fault {
                    ExtendFault::NotLater => "NotLater",
                    ExtendFault::TooMany => "TooMany",
                });
                return;
            }
        };
        let copies = vec![(pev, Vec::new()); self.tags.into()];
        let (seeded, marked) = (vec![false; new.m.into()], vec![false; new.m.into()]);
        let mut plan = Plan { old, new, state, pev, rv, copies, seeds: Vec::new(), seeded, marked };
        plan.seed_where_complete();
        self.plan = Some(plan);
        self.phase = Phase::Copying;
    }

    /// The asks whose tells are wanted.
    pub fn pending(&self) -> Vec<(NodeId, Ask)> {
        match (self.phase, &self.plan) {
            (Phase::Reading, _) => self.cells_left(&self.reads, CellAsk::Read { ballot: self.ballot }),
            (Phase::Locking, _) => {
                let old = *self.parent.as_ref().expect("who locks has a parent").last();
                let left = (0..old.m).filter(|index| !self.replies.contains_key(index));
                left.map(|index| log_ask(old.epoch, index, LogAsk::Lock { epoch: old.epoch })).collect()
            }
            (Phase::Copying, Some(plan)) if plan.seeds.is_empty() => self.peeks(plan),
            (Phase::Copying, Some(plan)) => {
                let left = (0..plan.new.m).filter(|index| !plan.seeded[usize::from(*index)]);
                let seed = |index: u8| plan.seeds[usize::from(index)].clone();
                let ask = |index| LogAsk::Seed { epoch: self.ballot, seed: seed(index) };
                left.map(|index| log_ask(self.ballot, index, ask(index))).collect()
            }
            (Phase::Writing, Some(plan)) => {
                let value = plan.state.encode().into();
                self.cells_left(&self.writes, CellAsk::Write { ballot: self.ballot, value })
            }
            (Phase::Chosen { .. }, Some(plan)) => {
                let left = (0..plan.new.m).filter(|index| !plan.marked[usize::from(*index)]);
                let push = Push {
                    epoch: self.ballot,
                    prev: plan.rv,
                    version: plan.rv + 1,
                    known: plan.pev,
                    bodies: Vec::new(),
                    mark: Some(plan.state.clone()),
                };
                let push = Arc::new(push);
                left.map(|index| log_ask(self.ballot, index, LogAsk::Push(push.clone()))).collect()
            }
            _ => Vec::new(),
        }
    }

    fn cells_left(&self, tally: &Tally, ask: CellAsk) -> Vec<(NodeId, Ask)> {
        let left = (0..tally.cells()).filter(|cell| !tally.has_heard(*cell));
        left.map(|cell| (NodeId::Cell(cell as u8), Ask::Cell(ask.clone()))).collect()
    }

    /// Of each tag that is not copied whole, from each log that replied and holds it, by tag and log.
    fn peeks(&self, plan: &Plan) -> Vec<(NodeId, Ask)> {
        let mut asks = Vec::new();
        for (tag, (reached, _)) in (0..).zip(&plan.copies) {
            for index in self.replies.keys().filter(|index| *reached < plan.rv && plan.old.holds(**index, tag)) {
                let peek = Peek { after: *reached, epoch: plan.old.epoch, most: 100, tag };
                asks.push(log_ask(plan.old.epoch, *index, LogAsk::Peek(peek)));
            }
        }
        asks
    }
}

fn log_ask(epoch: u64, index: u8, ask: LogAsk) -> (NodeId, Ask) {
    (NodeId::Log(LogId { epoch, index }), Ask::Log(ask))
}

impl Plan {
    /// Takes what an answer brings of a tag. Whether it brings anything.
    fn copy(&mut self, index: u8, peeked: &Peeked) -> bool {
        let tag = peeked.tag;
        if usize::from(tag) >= self.copies.len() || !self.old.holds(index, tag) {
            return false;
        }
        let (reached, records) = &mut self.copies[usize::from(tag)];
        if *reached >= self.rv || peeked.after != *reached || peeked.upto <= peeked.after {
            return false;
        }
        for record in peeked.records.iter().filter(|record| record.version <= self.rv) {
            records.push(SeedRecord { batch: record.batch.clone(), tag, version: record.version });
        }
        *reached = peeked.upto.min(self.rv);
        self.seed_where_complete();
        true
    }

    /// Once all tags are copied the seeds of the new logs are made of the copies.
    fn seed_where_complete(&mut self) {
        if self.copies.iter().any(|(reached, _)| *reached < self.rv) {
            return;
        }
        let seed_of = |index: u8| {
            let held = (0..).zip(&self.copies).filter(|(tag, _)| self.new.holds(index, *tag));
            let mut records: Vec<SeedRecord> = held.flat_map(|(_, (_, records))| records.iter().cloned()).collect();
            records.sort_by_key(|record| (record.version, record.tag));
            Arc::new(Seed { first: self.new.first, seeded_to: self.rv, records })
        };
        self.seeds = (0..self.new.m).map(seed_of).collect();
    }
}
