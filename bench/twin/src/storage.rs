//! Storage servers.

use crate::messages::{Peek, Peeked};
use crate::state::{Generation, State};
use crate::store::Store;
use std::sync::Arc;

pub struct Storage {
    pub tag: u8,
    state: Arc<State>,
    pub store: Store,
}

#[derive(Clone, Copy, Debug, PartialEq)]
pub enum StorageFault {
    Older,
    Stranger,
    BelowFloor,
    NotMyGeneration,
    Hole,
}

impl StorageFault {
    pub fn name(self) -> &'static str {
        match self {
            StorageFault::Older => "Older",
            StorageFault::Stranger => "Stranger",
            StorageFault::BelowFloor => "BelowFloor",
            StorageFault::NotMyGeneration => "NotMyGeneration",
            StorageFault::Hole => "Hole",
        }
    }
}

/// Why a hear was not made.
#[derive(Clone, Copy, Debug, PartialEq)]
pub enum Unheard {
    Refused(StorageFault),
    /// It cannot break off at that version.
    NoStop,
}

impl Storage {
    pub fn new(tag: u8, state: Arc<State>) -> Self {
        Storage { tag, state, store: Store::default() }
    }

    pub fn epoch(&self) -> u64 {
        self.state.last().epoch
    }

    /// The generation of its epoch.
    pub fn own(&self) -> &Generation {
        self.state.last()
    }

    /// The generation that has the version after the one applied.
    pub fn source(&self) -> &Generation {
        self.state.source_of(self.store.applied() + 1)
    }

    /// The ask for the records after the version applied, of a log of any epoch.
    pub fn peek_of(&self, epoch: u64) -> Peek {
        Peek { after: self.store.applied(), epoch, most: 100, tag: self.tag }
    }

    /// Whether it may have the logs of an epoch let go of its tag's records through a version: it has the generation, and
    /// what was applied through that version for good.
    pub fn may_pop(&self, epoch: u64, through: u64) -> bool {
        self.state.generations().iter().any(|generation| generation.epoch == epoch) && through <= self.store.floor()
    }

    /// Goes over to the state of a later epoch, or breaks that off at a version.
    pub fn hear_marked(&mut self, state: &Arc<State>, taken: Option<u64>) -> Result<(), Unheard> {
        let own = self.epoch();
        if state.last().epoch < own {
            return Err(Unheard::Refused(StorageFault::Older));
        }
        if *state == self.state {
            return self.stop_here(taken);
        }
        if state.last().epoch == own || !state.goes_on_from(&self.state) {
            return Err(Unheard::Refused(StorageFault::Stranger));
        }
        let cut = state.cut_of(own).expect("a longer list has a generation after the own one");
        if cut < self.store.floor() {
            return Err(Unheard::Refused(StorageFault::BelowFloor));
        }
        match taken {
            Some(version) if version != cut || version >= self.store.applied() => self.stop_here(taken),
            _ => {
                self.store.undo_to(cut).expect("the cut is not below the floor");
                if taken.is_none() {
                    self.state = state.clone();
                }
                Ok(())
            }
        }
    }

    /// Where a hear changes nothing it can break off at the version applied alone.
    fn stop_here(&self, taken: Option<u64>) -> Result<(), Unheard> {
        match taken {
            Some(version) if version != self.store.applied() => Err(Unheard::NoStop),
            _ => Ok(()),
        }
    }

    /// What a log refused, or popped, changes nothing here.
    pub fn hear_nothing(&self, taken: Option<u64>) -> Result<(), Unheard> {
        self.stop_here(taken)
    }

    /// Takes records of an epoch, or some of them, where that breaks off at a version.
    pub fn hear_peeked(&mut self, epoch: u64, peeked: &Peeked, taken: Option<u64>) -> Result<(), Unheard> {
        let applied = self.store.applied();
        if self.source().epoch != epoch {
            return Err(Unheard::Refused(StorageFault::NotMyGeneration));
        }
        if peeked.after > applied {
            return Err(Unheard::Refused(StorageFault::Hole));
        }
        let end = self.state.end_of(epoch).unwrap_or(u64::MAX);
        let is_new = |version: u64| applied < version && version <= end;
        let upto = peeked.upto.min(end);
        if let Some(stop) = taken {
            let is_record = peeked.records.iter().any(|record| record.version == stop && is_new(stop));
            if stop != applied && !is_record && !(stop == upto && upto > applied) {
                return Err(Unheard::NoStop);
            }
        }
        let last = taken.unwrap_or(u64::MAX);
        for record in &peeked.records {
            if is_new(record.version) && record.version <= last {
                let applied = match cfg!(feature = "by_hand") {
                    true => self.store.apply_all(record.version, record.batch.mutations().iter().cloned()),
                    false => self.store.apply(record.version, (*record.batch).clone()),
                };
                applied.expect("records rise above the version applied");
            }
        }
        if upto > self.store.applied() && upto <= last {
            self.store.advance(upto).expect("it is above the version applied");
        }
        let known = peeked.known.min(self.store.applied());
        if taken.is_none() && known > self.store.floor() {
            self.store.forget_through(known).expect("it is not above the version applied");
        }
        Ok(())
    }
}
