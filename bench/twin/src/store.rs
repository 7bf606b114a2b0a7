//! A store with undo rows.

use crate::batch::{Batch, Mutation};
use crate::blob::Blob;
use std::collections::btree_map::{BTreeMap, Entry};
use std::collections::VecDeque;
use std::mem;

/// A key and the value that it had before, if any.
type Row = (Blob, Option<Blob>);

/// The undo rows of one version; never none.
struct Undo {
    version: u64,
    rows: Box<[Row]>,
}

/// Keys with their values, and for each version above the floor what its batch changed.
#[derive(Default)]
pub struct Store {
    values: BTreeMap<Blob, Blob>,
    undo: VecDeque<Undo>,
    undo_rows: usize,
    applied: u64,
    floor: u64,
    /// Room for the changes of a batch.
    #[cfg(feature = "by_hand")]
    room: Vec<Row>,
}

#[derive(Clone, Copy, Debug, PartialEq)]
pub enum StoreFault {
    NotAfter,
    BelowFloor,
    AboveApplied,
}

impl StoreFault {
    pub fn name(self) -> &'static str {
        match self {
            StoreFault::NotAfter => "NotAfter",
            StoreFault::BelowFloor => "BelowFloor",
            StoreFault::AboveApplied => "AboveApplied",
        }
    }
}

impl Store {
    pub fn applied(&self) -> u64 {
        self.applied
    }

    pub fn floor(&self) -> u64 {
        self.floor
    }

    pub fn undo_rows(&self) -> usize {
        self.undo_rows
    }

    /// The keys with their values, in order.
    pub fn values(&self) -> impl Iterator<Item = (&[u8], &[u8])> {
        self.values
            .iter()
            .map(|(k, v)| (k.as_slice(), v.as_slice()))
    }

    /// The value that a key had at a version: what the next version that changed it found there, and now's where none did.
    pub fn value_at(&self, key: &[u8], version: u64) -> Result<Option<&[u8]>, StoreFault> {
        if version < self.floor {
            return Err(StoreFault::BelowFloor);
        }
        if version > self.applied {
            return Err(StoreFault::AboveApplied);
        }
        let later = self.undo.iter().skip_while(|undo| undo.version <= version);
        let found = later.flat_map(|undo| undo.rows.iter()).find(|row| row.0.as_slice() == key);
        Ok(match found {
            Some((_, before)) => before.as_deref(),
            None => self.values.get(key).map(Blob::as_slice),
        })
    }

    pub fn apply(&mut self, version: u64, batch: Batch) -> Result<(), StoreFault> {
        self.apply_all(version, IntoIterator::into_iter(batch.into_mutations()))
    }

    /// Applies mutations that are within the limits of a batch.
    pub fn apply_all(
        &mut self,
        version: u64,
        mutations: impl ExactSizeIterator<Item = Mutation>,
    ) -> Result<(), StoreFault> {
        self.advance(version)?;
        let mut changes = self.room_for(mutations.len());
        for mutation in mutations {
            match mutation {
                Mutation::Set { key, value } => self.write(key, &mut changes, |_| value),
                Mutation::Combine { how, key, param } => {
                    self.write(key, &mut changes, |old| how.apply(old, param))
                }
                Mutation::CompareAndClear { key, value } => {
                    if self.values.get(&key) == Some(&value) {
                        self.values.remove(&key);
                        changes.push((key, Some(value)));
                    }
                }
                Mutation::Clear { begin, end } => {
                    let gone = self.values.extract_if(begin..end, |_, _| true);
                    changes.extend(gone.map(|(key, value)| (key, Some(value))));
                }
            }
        }
        let rows = self.rows_of(changes);
        if !rows.is_empty() {
            self.undo_rows += rows.len();
            self.undo.push_back(Undo { version, rows });
        }
        Ok(())
    }

    /// Writes a key, and notes the value before where that differs.
    fn write(
        &mut self,
        key: Blob,
        changes: &mut Vec<Row>,
        new: impl FnOnce(Option<&[u8]>) -> Blob,
    ) {
        match self.values.entry(key) {
            Entry::Occupied(mut entry) => {
                let value = new(Some(entry.get()));
                if value != *entry.get() {
                    let old = mem::replace(entry.get_mut(), value);
                    changes.push((entry.key().clone(), Some(old)));
                }
            }
            Entry::Vacant(entry) => {
                changes.push((entry.key().clone(), None));
                entry.insert(new(None));
            }
        }
    }

    #[cfg(not(feature = "by_hand"))]
    fn room_for(&self, changes: usize) -> Vec<Row> {
        Vec::with_capacity(changes)
    }

    /// The room that the batch before left.
    #[cfg(feature = "by_hand")]
    fn room_for(&mut self, _: usize) -> Vec<Row> {
        mem::take(&mut self.room)
    }

    /// The same with one allocation, and most often without a look at the store.
    #[cfg(feature = "by_hand")]
    fn rows_of(&mut self, mut changes: Vec<Row>) -> Box<[Row]> {
        if changes.len() > 1 {
            changes.sort_by(|one, other| one.0.cmp(&other.0));
            if changes.windows(2).any(|pair| pair[0].0 == pair[1].0) {
                let first_of_each = changes.chunk_by_mut(|one, next| one.0 == next.0);
                let is_row = |each: &&mut [Row]| each.len() == 1 || self.values.get(&each[0].0) != each[0].1.as_ref();
                let rows = first_of_each.filter(is_row).map(|each| mem::take(&mut each[0])).collect();
                changes.clear();
                self.room = changes;
                return rows;
            }
        }
        let rows = changes.drain(..).collect();
        self.room = changes;
        rows
    }

    /// The undo rows of a batch, from its single changes in their order. A key that was changed once
    /// has another value now; one that was changed again may be back at its first.
    #[cfg(not(feature = "by_hand"))]
    fn rows_of(&self, mut changes: Vec<Row>) -> Box<[Row]> {
        if changes.len() < 2 {
            return changes.into_boxed_slice();
        }
        changes.sort_by(|one, other| one.0.cmp(&other.0));
        let mut rows = Vec::with_capacity(changes.len());
        let mut changes = changes.into_iter().peekable();
        while let Some((key, before)) = changes.next() {
            let mut again = false;
            while changes.next_if(|next| next.0 == key).is_some() {
                again = true;
            }
            if !again || self.values.get(&key) != before.as_ref() {
                rows.push((key, before));
            }
        }
        rows.into_boxed_slice()
    }

    /// Goes back to the state at a version; later rows first, so that the earliest stands.
    pub fn undo_to(&mut self, version: u64) -> Result<(), StoreFault> {
        if version < self.floor {
            return Err(StoreFault::BelowFloor);
        }
        while let Some(undo) = self.undo.pop_back() {
            if undo.version <= version {
                self.undo.push_back(undo);
                break;
            }
            self.undo_rows -= undo.rows.len();
            for (key, before) in undo.rows {
                match before {
                    Some(value) => self.values.insert(key, value),
                    None => self.values.remove(&key),
                };
            }
        }
        self.applied = self.applied.min(version);
        Ok(())
    }

    pub fn forget_through(&mut self, version: u64) -> Result<(), StoreFault> {
        if version > self.applied {
            return Err(StoreFault::AboveApplied);
        }
        self.floor = self.floor.max(version);
        while let Some(undo) = self.undo.pop_front() {
            if undo.version > self.floor {
                self.undo.push_front(undo);
                break;
            }
            self.undo_rows -= undo.rows.len();
        }
        Ok(())
    }

    pub fn advance(&mut self, version: u64) -> Result<(), StoreFault> {
        if version <= self.applied {
            return Err(StoreFault::NotAfter);
        }
        self.applied = version;
        Ok(())
    }
}
