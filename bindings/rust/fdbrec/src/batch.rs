use std::iter::FusedIterator;

/// How a value and an operand, both little-endian, make the next value.
#[derive(Clone, Copy, Debug, PartialEq, Eq)]
pub enum Combine {
    Add = 3,
    And,
    Or,
    Xor,
    Max,
    Min,
}

/// A mutation of a batch.
#[derive(Clone, Copy, Debug, PartialEq, Eq)]
pub enum Mutation<'a> {
    Set { key: &'a [u8], value: &'a [u8] },
    Clear { begin: &'a [u8], end: &'a [u8] },
    Combine { how: Combine, key: &'a [u8], operand: &'a [u8] },
    CompareAndClear { key: &'a [u8], value: &'a [u8] },
}

const SET: u8 = 1;
const CLEAR: u8 = 2;
const COMPARE_AND_CLEAR: u8 = 9;

/// A batch of mutations, in the order in which they are added. It is kept as its bytes (docs/FORMATS.md, Batches); one
/// that is beyond its limits is refused by whoever takes it.
#[derive(Clone, Debug, PartialEq, Eq)]
pub struct Batch {
    spelled: Vec<u8>,
    count: u16,
}

impl Batch {
    /// No mutation.
    pub fn new() -> Self {
        Batch { spelled: vec![1, 0, 0], count: 0 }
    }

    /// The key has this value.
    pub fn set(self, key: &[u8], value: &[u8]) -> Self {
        self.keyed(SET, key, value)
    }

    /// The keys from `begin` up to, but not with, `end` have no value.
    pub fn clear(self, begin: &[u8], end: &[u8]) -> Self {
        let mut batch = self.next(CLEAR);
        batch.short(begin);
        batch.short(end);
        batch
    }

    /// The key's value is combined with an operand.
    pub fn combine(self, how: Combine, key: &[u8], operand: &[u8]) -> Self {
        self.keyed(how as u8, key, operand)
    }

    /// The key has no value if it had this one.
    pub fn compare_and_clear(self, key: &[u8], value: &[u8]) -> Self {
        let mut batch = self.keyed(COMPARE_AND_CLEAR, key, value);
        batch.spelled[0] = 2;
        batch
    }

    /// Its bytes.
    pub fn as_bytes(&self) -> &[u8] {
        &self.spelled
    }

    fn keyed(self, kind: u8, key: &[u8], value: &[u8]) -> Self {
        let mut batch = self.next(kind);
        batch.short(key);
        // (a length that does not fit its field is written as the greatest that does, which is beyond the limit too)
        batch.spelled.extend(u32::try_from(value.len()).unwrap_or(u32::MAX).to_be_bytes());
        batch.spelled.extend(value);
        batch
    }

    fn next(mut self, kind: u8) -> Self {
        self.count = self.count.saturating_add(1);
        self.spelled[1..3].copy_from_slice(&self.count.to_be_bytes());
        self.spelled.push(kind);
        self
    }

    fn short(&mut self, key: &[u8]) {
        self.spelled.extend(u16::try_from(key.len()).unwrap_or(u16::MAX).to_be_bytes());
        self.spelled.extend(key);
    }
}

impl Default for Batch {
    fn default() -> Self {
        Batch::new()
    }
}

/// The mutations of a batch, read from its bytes. It ends at the first that is none, so give it what the library wrote.
#[derive(Clone, Debug)]
pub struct Mutations<'a> {
    left: &'a [u8],
    count: u16,
}

impl<'a> Mutations<'a> {
    pub fn of(batch: &'a [u8]) -> Self {
        match batch {
            [_, high, low, left @ ..] => Mutations { left, count: u16::from_be_bytes([*high, *low]) },
            _ => Mutations { left: &[], count: 0 },
        }
    }

    fn read(&mut self) -> Option<Mutation<'a>> {
        let (kind, left) = self.left.split_first()?;
        self.left = left;
        let key = self.short()?;
        let keyed = |how, operand| Some(Mutation::Combine { how, key, operand });
        match *kind {
            CLEAR => Some(Mutation::Clear { begin: key, end: self.short()? }),
            SET => Some(Mutation::Set { key, value: self.long()? }),
            COMPARE_AND_CLEAR => Some(Mutation::CompareAndClear { key, value: self.long()? }),
            3 => keyed(Combine::Add, self.long()?),
            4 => keyed(Combine::And, self.long()?),
            5 => keyed(Combine::Or, self.long()?),
            6 => keyed(Combine::Xor, self.long()?),
            7 => keyed(Combine::Max, self.long()?),
            8 => keyed(Combine::Min, self.long()?),
            _ => None,
        }
    }

    fn short(&mut self) -> Option<&'a [u8]> {
        let (size, left) = self.left.split_first_chunk()?;
        self.take(left, u16::from_be_bytes(*size).into())
    }

    fn long(&mut self) -> Option<&'a [u8]> {
        let (size, left) = self.left.split_first_chunk()?;
        self.take(left, u32::from_be_bytes(*size) as usize)
    }

    fn take(&mut self, from: &'a [u8], size: usize) -> Option<&'a [u8]> {
        let (bytes, left) = from.split_at_checked(size)?;
        self.left = left;
        Some(bytes)
    }
}

impl<'a> Iterator for Mutations<'a> {
    type Item = Mutation<'a>;

    fn next(&mut self) -> Option<Mutation<'a>> {
        self.count = self.count.checked_sub(1)?;
        self.read()
    }
}

impl FusedIterator for Mutations<'_> {}

/// How many bytes the batch takes with which some bytes begin. No batch begins another one.
pub(crate) fn size_of_batch(bytes: &[u8]) -> Option<usize> {
    let mut mutations = Mutations::of(bytes);
    mutations.by_ref().for_each(drop);
    bytes.len().checked_sub(mutations.left.len()).filter(|size| *size > 0)
}

#[cfg(test)]
mod tests {
    use super::*;

    #[test]
    fn batches_are_spelled_as_the_page_on_formats_has_it() {
        let set = [1, 0, 1, 1, 0, 1, 0x61, 0, 0, 0, 1, 1];
        let clear = [1, 0, 1, 2, 0, 1, 0x61, 0, 1, 0x63];
        let compare = [2, 0, 1, 9, 0, 1, 0x61, 0, 0, 0, 1, 1];
        assert_eq!(Batch::new().as_bytes(), [1, 0, 0]);
        assert_eq!(Batch::new().set(b"a", &[1]).as_bytes(), set);
        assert_eq!(Batch::new().clear(b"a", b"c").as_bytes(), clear);
        assert_eq!(Batch::new().compare_and_clear(b"a", &[1]).as_bytes(), compare);
    }

    #[test]
    fn batches_are_read_back() {
        let batch = Batch::new().set(b"a", b"").combine(Combine::Min, b"b", b"2").clear(b"c", b"d");
        let read: Vec<_> = Mutations::of(batch.as_bytes()).collect();
        let min = Mutation::Combine { how: Combine::Min, key: b"b", operand: b"2" };
        let clear = Mutation::Clear { begin: b"c", end: b"d" };
        assert_eq!(read, [Mutation::Set { key: b"a", value: b"" }, min, clear]);
        let more = [batch.as_bytes(), &[7, 7]].concat();
        assert_eq!(size_of_batch(&more), Some(batch.as_bytes().len()));
    }
}
