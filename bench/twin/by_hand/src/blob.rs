//! Keys, values and parameters. Up to 15 bytes stand in place, as most keys do: to make, copy, compare or drop them
//! takes no call. More are on the heap.
//!
//! UNSAFE. A `Blob` is two words. The top byte of the second one is the tag. A tag of 1 to 16 says that there are so
//! many bytes but one, in place: they stand from the first byte on, and zeros behind them. A tag of 128 says that the
//! first word is the pointer of a `Box<[u8]>` and the rest of the second one its length. Every constructor makes one of
//! these two, and nothing else writes a word. Measured (`apply small 10,000`): the allocator took 23 million
//! instructions of 138 with `Vec<u8>`, and the trees, which called `memcmp` for each key, 13.

use std::borrow::Borrow;
use std::cmp::Ordering;
use std::fmt;
use std::num::NonZeroU64;
use std::ops::{Deref, DerefMut};
use std::slice;

const MOST_IN_PLACE: usize = 15;
const ON_HEAP: u64 = 1 << 63;
const LENGTH: u64 = (1 << 56) - 1;

#[derive(Clone, Copy)]
union Low {
    word: u64,
    pointer: *mut u8,
}

/// Bytes that are owned.
#[repr(C)]
pub struct Blob {
    low: Low,
    /// The tag is never 0, so that `Option<Blob>` takes no more room.
    high: NonZeroU64,
}

// SAFETY: a blob owns its bytes, as a `Box<[u8]>` does.
unsafe impl Send for Blob {}
// SAFETY: as above.
unsafe impl Sync for Blob {}

impl Blob {
    /// So many bytes, 15 at most: the first ones of two words. What stands behind them in the words is left out.
    #[inline]
    pub fn in_place(words: u128, length: usize) -> Self {
        debug_assert!(length <= MOST_IN_PLACE);
        let kept = words & ((1 << (8 * length as u32)) - 1);
        let high = (kept >> 64) as u64 | (length as u64 + 1) << 56;
        Blob { low: Low { word: kept as u64 }, high: NonZeroU64::new(high).expect("a tag is not 0") }
    }

    #[inline]
    fn on_heap(bytes: Box<[u8]>) -> Self {
        let high = ON_HEAP | bytes.len() as u64;
        let pointer = Box::into_raw(bytes).cast::<u8>();
        Blob { low: Low { pointer }, high: NonZeroU64::new(high).expect("a tag is not 0") }
    }

    #[inline]
    fn is_on_heap(&self) -> bool {
        self.high.get() & ON_HEAP != 0
    }

    #[inline]
    fn place(&self) -> (*const u8, usize) {
        let high = self.high.get();
        match self.is_on_heap() {
            // SAFETY: the tag says that the first word is a pointer.
            true => (unsafe { self.low.pointer }, (high & LENGTH) as usize),
            false => ((&raw const *self).cast(), (high >> 56) as usize - 1),
        }
    }

    #[inline]
    pub fn as_slice(&self) -> &[u8] {
        let (pointer, length) = self.place();
        // SAFETY: so many bytes stand there, in the blob itself or in its box, and live as long as it is lent.
        unsafe { slice::from_raw_parts(pointer, length) }
    }

    /// The first word of bytes in place.
    #[inline]
    fn word(&self) -> u64 {
        debug_assert!(!self.is_on_heap());
        // SAFETY: it is called of bytes in place alone, whose first word is a number.
        unsafe { self.low.word }
    }

    #[cold]
    fn cmp_on_heap(&self, other: &Self) -> Ordering {
        self.as_slice().cmp(other.as_slice())
    }
}

impl Default for Blob {
    #[inline]
    fn default() -> Self {
        Blob::in_place(0, 0)
    }
}

impl Drop for Blob {
    #[inline]
    fn drop(&mut self) {
        if self.is_on_heap() {
            let length = (self.high.get() & LENGTH) as usize;
            // SAFETY: these are the pointer and the length of a box that the blob owns, and it is not used again.
            drop(unsafe { Box::from_raw(std::ptr::slice_from_raw_parts_mut(self.low.pointer, length)) });
        }
    }
}

impl Clone for Blob {
    #[inline]
    fn clone(&self) -> Self {
        match self.is_on_heap() {
            true => Blob::on_heap(self.as_slice().into()),
            false => Blob { low: self.low, high: self.high },
        }
    }
}

impl From<&[u8]> for Blob {
    #[inline]
    fn from(bytes: &[u8]) -> Self {
        if bytes.len() > MOST_IN_PLACE {
            return Blob::on_heap(bytes.into());
        }
        let mut words = [0; 16];
        words[..bytes.len()].copy_from_slice(bytes);
        Blob::in_place(u128::from_le_bytes(words), bytes.len())
    }
}

impl From<Vec<u8>> for Blob {
    fn from(bytes: Vec<u8>) -> Self {
        match bytes.len() > MOST_IN_PLACE {
            true => Blob::on_heap(bytes.into_boxed_slice()),
            false => bytes.as_slice().into(),
        }
    }
}

impl Deref for Blob {
    type Target = [u8];

    #[inline]
    fn deref(&self) -> &[u8] {
        self.as_slice()
    }
}

impl DerefMut for Blob {
    #[inline]
    fn deref_mut(&mut self) -> &mut [u8] {
        let (pointer, length) = match self.is_on_heap() {
            // SAFETY: the tag says that the first word is a pointer.
            true => (unsafe { self.low.pointer }, (self.high.get() & LENGTH) as usize),
            false => ((&raw mut *self).cast(), (self.high.get() >> 56) as usize - 1),
        };
        // SAFETY: as in `as_slice`, and the blob is lent to be changed. Neither the tag nor what is behind the bytes is
        // among them.
        unsafe { slice::from_raw_parts_mut(pointer, length) }
    }
}

impl Borrow<[u8]> for Blob {
    fn borrow(&self) -> &[u8] {
        self
    }
}

impl AsRef<[u8]> for Blob {
    fn as_ref(&self) -> &[u8] {
        self
    }
}

impl PartialEq for Blob {
    #[inline]
    fn eq(&self, other: &Self) -> bool {
        // Of equal bytes both words but a pointer are equal.
        self.high == other.high
            && match self.is_on_heap() {
                true => self.as_slice() == other.as_slice(),
                false => self.word() == other.word(),
            }
    }
}

impl Eq for Blob {}

impl Ord for Blob {
    #[inline]
    fn cmp(&self, other: &Self) -> Ordering {
        let (high, other_high) = (self.high.get(), other.high.get());
        if (high | other_high) & ON_HEAP != 0 {
            return self.cmp_on_heap(other);
        }
        // Behind the bytes are zeros, and the tag, which is last, orders those that zeros make alike by their number.
        let (word, other_word) = (self.word(), other.word());
        match word == other_word {
            true => high.swap_bytes().cmp(&other_high.swap_bytes()),
            false => word.swap_bytes().cmp(&other_word.swap_bytes()),
        }
    }
}

impl PartialOrd for Blob {
    #[inline]
    fn partial_cmp(&self, other: &Self) -> Option<Ordering> {
        Some(self.cmp(other))
    }
}

impl fmt::Debug for Blob {
    fn fmt(&self, f: &mut fmt::Formatter) -> fmt::Result {
        self.as_slice().fmt(f)
    }
}

#[cfg(test)]
mod tests {
    use super::Blob;

    /// Of all lengths around those that change the form, with bytes that compare as they should not by their words.
    fn samples() -> Vec<Vec<u8>> {
        let mut found = vec![Vec::new()];
        for length in [1, 2, 7, 8, 9, 14, 15, 16, 17, 40] {
            for fill in [0, 1, 0x7f, 0x80, 0xff] {
                found.push(vec![fill; length]);
                let mut other = vec![fill; length];
                other[length - 1] = 0;
                found.push(other);
            }
        }
        found
    }

    #[test]
    fn a_blob_is_its_bytes() {
        assert_eq!(size_of::<Option<Blob>>(), 16);
        for bytes in samples() {
            let mut blob = Blob::from(bytes.as_slice());
            assert_eq!((blob.as_slice(), blob.clone().as_slice()), (&bytes[..], &bytes[..]));
            assert_eq!(blob, Blob::from(bytes.clone()));
            blob.iter_mut().for_each(|byte| *byte ^= 0x55);
            let turned: Vec<u8> = bytes.iter().map(|byte| byte ^ 0x55).collect();
            assert_eq!(blob, Blob::from(turned));
        }
    }

    #[test]
    fn blobs_compare_as_their_bytes() {
        for one in samples() {
            for other in samples() {
                let (a, b) = (Blob::from(one.as_slice()), Blob::from(other.as_slice()));
                assert_eq!((a.cmp(&b), a == b), (one.cmp(&other), one == other), "{one:?} {other:?}");
            }
        }
    }
}
