use crate::batch::Batch;
use crate::fault::{Fault, Result};
use crate::handle::{Handle, Room};
use fdbrec_sys as sys;

/// A store in memory: rows, and what undoes each version above its floor.
#[derive(Debug)]
pub struct Store(Handle);

impl Store {
    /// A store in which nothing was applied.
    pub fn new() -> Result<Self> {
        // SAFETY: the handle is new, and its own.
        Handle::new(|at| unsafe { sys::fdbrec_store_new(at) }).map(Store)
    }

    /// Applies a batch at a version, which is after the one applied; else it refuses.
    pub fn apply(&mut self, version: u64, batch: &Batch) -> Result<()> {
        let bytes = batch.as_bytes();
        // SAFETY: the handle is its own, and the bytes are another one's.
        self.0.call(|at| unsafe { sys::fdbrec_store_apply(at, version, bytes.as_ptr(), bytes.len()) })
    }

    /// Undoes all versions above one, which is not below the floor; else it refuses.
    pub fn undo_to(&mut self, version: u64) -> Result<()> {
        // SAFETY: the handle is its own.
        self.0.call(|at| unsafe { sys::fdbrec_store_undo(at, version) })
    }

    /// Forgets how to undo below a version, which is not above the one applied; else it refuses.
    pub fn forget_through(&mut self, version: u64) -> Result<()> {
        // SAFETY: the handle is its own.
        self.0.call(|at| unsafe { sys::fdbrec_store_forget(at, version) })
    }

    /// The value of a key, if it has one.
    pub fn get(&mut self, key: &[u8]) -> Result<Option<Vec<u8>>> {
        // SAFETY: the handle and its room are its own, and the key is another one's.
        let get = |at, room: &mut Room| unsafe {
            sys::fdbrec_store_get(at, key.as_ptr(), key.len(), room.at(), room.size(), room.used())
        };
        match self.0.bytes(get, get) {
            Ok(value) => Ok(Some(value.to_vec())),
            Err(sys::NONE) => Ok(None),
            Err(status) => Err(Fault::of(status)),
        }
    }
}
