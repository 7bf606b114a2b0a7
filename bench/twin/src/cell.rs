//! Coordinators: a cell, and what is made of the answers of several.

use crate::messages::{CellAsk, CellTell};
use crate::state::State;
use std::sync::Arc;

#[derive(Clone)]
pub struct Cell {
    pub promised: u64,
    pub written: u64,
    pub value: Arc<[u8]>,
}

impl Cell {
    /// A cell of the start, to which the first state was written.
    pub fn started(ballot: u64, state: &State) -> Self {
        Cell { promised: ballot, written: ballot, value: state.encode().into() }
    }

    pub fn ask(&mut self, ask: &CellAsk) -> CellTell {
        let (CellAsk::Read { ballot } | CellAsk::Write { ballot, .. }) = *ask;
        if ballot < self.promised {
            return CellTell::Refused { promised: self.promised };
        }
        match ask {
            CellAsk::Read { .. } => {
                self.promised = ballot;
                CellTell::Promise { written: self.written, value: self.value.clone() }
            }
            CellAsk::Write { value, .. } if self.written == ballot && self.value != *value => CellTell::TwoValues,
            CellAsk::Write { value, .. } => {
                self.promised = ballot;
                self.written = ballot;
                self.value = value.clone();
                CellTell::Written { ballot }
            }
        }
    }
}

/// The answers to one ballot's reads, or to its writes. The first refusal loses, unless a majority came
/// before.
pub struct Tally {
    ballot: u64,
    is_read: bool,
    heard: Vec<bool>,
    agreed: usize,
    /// Of the promises, the greatest ballot written with its value; of equal ones the first.
    greatest: Option<(u64, Arc<[u8]>)>,
    pub progress: Progress,
}

#[derive(Clone, Copy, Debug, PartialEq)]
pub enum Progress {
    Waiting,
    Majority,
    Outballoted,
    TwoValues,
}

impl Tally {
    pub fn of_reads(cells: u8, ballot: u64) -> Self {
        Tally::new(cells, ballot, true)
    }

    pub fn of_writes(cells: u8, ballot: u64) -> Self {
        Tally::new(cells, ballot, false)
    }

    fn new(cells: u8, ballot: u64, is_read: bool) -> Self {
        let heard = vec![false; cells.into()];
        Tally { ballot, is_read, heard, agreed: 0, greatest: None, progress: Progress::Waiting }
    }

    pub fn has_heard(&self, cell: usize) -> bool {
        self.heard[cell]
    }

    pub fn cells(&self) -> usize {
        self.heard.len()
    }

    pub fn greatest_value(&self) -> &[u8] {
        self.greatest.as_ref().map_or(&[], |(_, value)| value)
    }

    pub fn hear(&mut self, cell: u8, tell: &CellTell) {
        let cell = usize::from(cell);
        if cell >= self.heard.len() || self.heard[cell] || self.progress != Progress::Waiting {
            return;
        }
        match tell {
            CellTell::Promise { written, value } if self.is_read => {
                if self.greatest.as_ref().is_none_or(|(greatest, _)| greatest < written) {
                    self.greatest = Some((*written, value.clone()));
                }
                self.agreed += 1;
            }
            CellTell::Written { ballot } if !self.is_read && *ballot == self.ballot => self.agreed += 1,
            CellTell::Refused { .. } => self.progress = Progress::Outballoted,
            CellTell::TwoValues => self.progress = Progress::TwoValues,
            CellTell::Promise { .. } | CellTell::Written { .. } => return,
        }
        self.heard[cell] = true;
        if self.progress == Progress::Waiting && 2 * self.agreed > self.heard.len() {
            self.progress = Progress::Majority;
        }
    }
}
