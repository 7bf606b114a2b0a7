//! Reads a script: `{"ops":[..]}`.

use crate::batch::{Batch, BatchFault, Combine, Mutation};
use crate::blob::Blob;
use crate::quick::{self, Quick};
use serde::de::{self, Deserialize, DeserializeOwned, DeserializeSeed, Deserializer, IgnoredAny, MapAccess, Visitor};
use std::fmt;
use std::marker::PhantomData;

/// One operation. A batch beyond its limits is refused when its turn comes.
pub enum Operation {
    Apply {
        version: u64,
        batch: Result<Batch, BatchFault>,
    },
    Undo {
        to: u64,
    },
    Forget {
        through: u64,
    },
    Advance {
        version: u64,
    },
}

/// The operations of a script, or none where it is not one.
///
/// It is read straight into its types. An object that has two members of one name is refused there, so a
/// text that fails is read again through a tree, in which the last of them stands.
pub fn read(text: &[u8]) -> Option<Vec<Operation>> {
    read_form(text).map(|Script(operations)| operations)
}

/// What a script of this form says, or none where it is not one.
pub fn read_form<T: DeserializeOwned + Quick>(text: &[u8]) -> Option<T> {
    if let Some(form) = quick::read(text) {
        return Some(form);
    }
    // (its encoding is looked at once, and not again in each of its strings)
    let text = std::str::from_utf8(text).ok()?;
    let form = serde_json::from_str(text).or_else(|_| {
        let tree: serde_json::Value = serde_json::from_str(text)?;
        T::deserialize(tree)
    });
    form.ok()
}

pub(crate) struct Script(pub Vec<Operation>);

impl<'de> Deserialize<'de> for Script {
    fn deserialize<D: Deserializer<'de>>(deserializer: D) -> Result<Self, D::Error> {
        One::new(&["ops"]).deserialize(deserializer).map(Script)
    }
}

impl<'de> Deserialize<'de> for Operation {
    fn deserialize<D: Deserializer<'de>>(deserializer: D) -> Result<Self, D::Error> {
        deserializer.deserialize_map(OperationVisitor)
    }
}

struct OperationVisitor;

impl<'de> Visitor<'de> for OperationVisitor {
    type Value = Operation;

    fn expecting(&self, f: &mut fmt::Formatter) -> fmt::Result {
        f.write_str("an operation")
    }

    fn visit_map<A: MapAccess<'de>>(self, mut map: A) -> Result<Operation, A::Error> {
        let names = &["apply", "undo", "forget", "advance"];
        let operation = match map.next_key_seed(Name(names))? {
            Some(0) => {
                let fields = Pair::new(&["version", "batch"]);
                let (Version(version), Mutations(batch)) = map.next_value_seed(fields)?;
                let batch = Batch::new(batch);
                Operation::Apply { version, batch }
            }
            Some(1) => {
                let Version(to) = map.next_value_seed(One::new(&["to"]))?;
                Operation::Undo { to }
            }
            Some(2) => {
                let Version(through) = map.next_value_seed(One::new(&["through"]))?;
                Operation::Forget { through }
            }
            Some(_) => {
                let Version(version) = map.next_value_seed(One::new(&["version"]))?;
                Operation::Advance { version }
            }
            None => return Err(de::Error::custom("no operation")),
        };
        end(&mut map)?;
        Ok(operation)
    }
}

pub(crate) struct Mutations(pub Vec<Mutation>);

impl<'de> Deserialize<'de> for Mutations {
    fn deserialize<D: Deserializer<'de>>(deserializer: D) -> Result<Self, D::Error> {
        Vec::deserialize(deserializer).map(Mutations)
    }
}

impl<'de> Deserialize<'de> for Mutation {
    fn deserialize<D: Deserializer<'de>>(deserializer: D) -> Result<Self, D::Error> {
        deserializer.deserialize_map(MutationVisitor)
    }
}

struct MutationVisitor;

impl<'de> Visitor<'de> for MutationVisitor {
    type Value = Mutation;

    fn expecting(&self, f: &mut fmt::Formatter) -> fmt::Result {
        f.write_str("a mutation")
    }

    fn visit_map<A: MapAccess<'de>>(self, mut map: A) -> Result<Mutation, A::Error> {
        let names = &["set", "clear", "add", "and", "or", "xor", "max", "min", "compare_and_clear"];
        let how = match map.next_key_seed(Name(names))? {
            Some(0) => {
                let fields = Pair::new(&["key", "value"]);
                let (Bytes(key), Bytes(value)) = map.next_value_seed(fields)?;
                end(&mut map)?;
                return Ok(Mutation::Set { key, value });
            }
            Some(1) => {
                let fields = Pair::new(&["begin", "end"]);
                let (Bytes(begin), Bytes(end_key)) = map.next_value_seed(fields)?;
                end(&mut map)?;
                return Ok(Mutation::Clear {
                    begin,
                    end: end_key,
                });
            }
            Some(2) => Combine::Add,
            Some(3) => Combine::And,
            Some(4) => Combine::Or,
            Some(5) => Combine::Xor,
            Some(6) => Combine::Max,
            Some(7) => Combine::Min,
            Some(_) => {
                let fields = Pair::new(&["key", "value"]);
                let (Bytes(key), Bytes(value)) = map.next_value_seed(fields)?;
                end(&mut map)?;
                return Ok(Mutation::CompareAndClear { key, value });
            }
            None => return Err(de::Error::custom("no mutation")),
        };
        let (Bytes(key), Bytes(param)) = map.next_value_seed(Pair::new(&["key", "param"]))?;
        end(&mut map)?;
        Ok(Mutation::Combine { how, key, param })
    }
}

impl<'de> Deserialize<'de> for Batch {
    fn deserialize<D: Deserializer<'de>>(deserializer: D) -> Result<Self, D::Error> {
        let mutations = Vec::deserialize(deserializer)?;
        Batch::new(mutations).map_err(|fault| de::Error::custom(fault.name()))
    }
}

/// Refuses a further member.
pub(crate) fn end<'de, A: MapAccess<'de>>(map: &mut A) -> Result<(), A::Error> {
    match map.next_key::<IgnoredAny>()? {
        None => Ok(()),
        Some(_) => Err(de::Error::custom("a second member")),
    }
}

/// A number below 2^62, written in digits alone.
struct Version(u64);

impl<'de> Deserialize<'de> for Version {
    fn deserialize<D: Deserializer<'de>>(deserializer: D) -> Result<Self, D::Error> {
        let number = u64::deserialize(deserializer)?;
        if number >> 62 != 0 {
            return Err(de::Error::custom("a version beyond its limit"));
        }
        Ok(Version(number))
    }
}

/// Bytes as lower-case hex.
pub(crate) struct Bytes(pub Blob);

impl<'de> Deserialize<'de> for Bytes {
    fn deserialize<D: Deserializer<'de>>(deserializer: D) -> Result<Self, D::Error> {
        // As bytes, since digits need no test for UTF-8.
        deserializer.deserialize_bytes(BytesVisitor).map(Bytes)
    }
}

struct BytesVisitor;

impl Visitor<'_> for BytesVisitor {
    type Value = Blob;

    fn expecting(&self, f: &mut fmt::Formatter) -> fmt::Result {
        f.write_str("lower-case hex")
    }

    fn visit_str<E: de::Error>(self, text: &str) -> Result<Blob, E> {
        self.visit_bytes(text.as_bytes())
    }

    fn visit_bytes<E: de::Error>(self, text: &[u8]) -> Result<Blob, E> {
        if text.len() % 2 != 0 {
            return Err(E::custom("half a byte"));
        }
        let mut wrong = 0;
        let bytes = text.chunks_exact(2).map(|pair| {
            let (high, low) = (DIGITS[pair[0] as usize], DIGITS[pair[1] as usize]);
            wrong |= high | low;
            high << 4 | low & 0x0f
        });
        let bytes: Vec<u8> = bytes.collect();
        if wrong > 0x0f {
            return Err(E::custom("no lower-case hex"));
        }
        Ok(bytes.into())
    }
}

/// What each byte stands for as a lower-case digit; 255 where it is none.
const DIGITS: [u8; 256] = {
    let mut digits = [255; 256];
    let mut digit = 0;
    while digit < 16 {
        digits[b"0123456789abcdef"[digit] as usize] = digit as u8;
        digit += 1;
    }
    digits
};

/// A member's name, read as its place in a list of names.
pub(crate) struct Name(pub &'static [&'static str]);

impl<'de> DeserializeSeed<'de> for Name {
    type Value = usize;

    fn deserialize<D: Deserializer<'de>>(self, deserializer: D) -> Result<usize, D::Error> {
        deserializer.deserialize_identifier(self)
    }
}

impl Visitor<'_> for Name {
    type Value = usize;

    fn expecting(&self, f: &mut fmt::Formatter) -> fmt::Result {
        write!(f, "one of {:?}", self.0)
    }

    fn visit_str<E: de::Error>(self, name: &str) -> Result<usize, E> {
        let place = self.0.iter().position(|known| *known == name);
        place.ok_or_else(|| E::unknown_field(name, self.0))
    }
}

/// An object with exactly one member.
struct One<T>(&'static [&'static str; 1], PhantomData<T>);

impl<T> One<T> {
    fn new(names: &'static [&'static str; 1]) -> Self {
        One(names, PhantomData)
    }
}

impl<'de, T: Deserialize<'de>> DeserializeSeed<'de> for One<T> {
    type Value = T;

    fn deserialize<D: Deserializer<'de>>(self, deserializer: D) -> Result<T, D::Error> {
        deserializer.deserialize_map(self)
    }
}

impl<'de, T: Deserialize<'de>> Visitor<'de> for One<T> {
    type Value = T;

    fn expecting(&self, f: &mut fmt::Formatter) -> fmt::Result {
        write!(f, "an object with exactly {:?}", self.0)
    }

    fn visit_map<A: MapAccess<'de>>(self, mut map: A) -> Result<T, A::Error> {
        if map.next_key_seed(Name(self.0))?.is_none() {
            return Err(de::Error::missing_field(self.0[0]));
        }
        let value = map.next_value()?;
        end(&mut map)?;
        Ok(value)
    }
}

/// An object with exactly two members, in either order.
struct Pair<T, U>(&'static [&'static str; 2], PhantomData<(T, U)>);

impl<T, U> Pair<T, U> {
    fn new(names: &'static [&'static str; 2]) -> Self {
        Pair(names, PhantomData)
    }
}

impl<'de, T: Deserialize<'de>, U: Deserialize<'de>> DeserializeSeed<'de> for Pair<T, U> {
    type Value = (T, U);

    fn deserialize<D: Deserializer<'de>>(self, deserializer: D) -> Result<(T, U), D::Error> {
        deserializer.deserialize_map(self)
    }
}

impl<'de, T: Deserialize<'de>, U: Deserialize<'de>> Visitor<'de> for Pair<T, U> {
    type Value = (T, U);

    fn expecting(&self, f: &mut fmt::Formatter) -> fmt::Result {
        write!(f, "an object with exactly {:?}", self.0)
    }

    fn visit_map<A: MapAccess<'de>>(self, mut map: A) -> Result<(T, U), A::Error> {
        let mut one = None;
        let mut other = None;
        while let Some(place) = map.next_key_seed(Name(self.0))? {
            let is_new = match place {
                0 => one.replace(map.next_value()?).is_none(),
                _ => other.replace(map.next_value()?).is_none(),
            };
            if !is_new {
                return Err(de::Error::duplicate_field(self.0[place]));
            }
        }
        let one = one.ok_or_else(|| de::Error::missing_field(self.0[0]))?;
        let other = other.ok_or_else(|| de::Error::missing_field(self.0[1]))?;
        Ok((one, other))
    }
}
