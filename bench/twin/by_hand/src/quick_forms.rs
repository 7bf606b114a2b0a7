//! The forms that are no plain objects or variants, for the reader of `quick.rs`.

use crate::batch::{Batch, Combine, Mutation};
use crate::blob::Blob;
use crate::forms::Version;
use crate::messages::{CellValue, PoppedForm};
use crate::quick::{Quick, Reader};
use crate::script::{Bytes, Mutations, Operation, Script};
use crate::state::{DroppedForm, State};
use std::sync::Arc;

/// An object of exactly one member.
#[inline]
fn one<T: Quick>(from: &mut Reader, name: &[u8]) -> Option<T> {
    from.take(b'{')?;
    from.is_next(name).then_some(())?;
    let content = T::quick(from)?;
    from.take(b'}')?;
    Some(content)
}

/// An object of exactly two members, in this order.
#[inline]
fn pair<T: Quick, U: Quick>(from: &mut Reader, name: &[u8], next: &[u8]) -> Option<(T, U)> {
    from.take(b'{')?;
    from.is_next(name).then_some(())?;
    let one = T::quick(from)?;
    from.take(b',')?;
    from.is_next(next).then_some(())?;
    let other = U::quick(from)?;
    from.take(b'}')?;
    Some((one, other))
}

impl Quick for Blob {
    #[inline]
    fn quick(from: &mut Reader) -> Option<Self> {
        from.bytes()
    }
}

impl Quick for Bytes {
    #[inline]
    fn quick(from: &mut Reader) -> Option<Self> {
        from.bytes().map(Bytes)
    }
}

impl Quick for Mutation {
    #[inline]
    fn quick(from: &mut Reader) -> Option<Self> {
        from.take(b'{')?;
        let mutation = if from.is_next(b"\"set\":") {
            let (key, value) = pair(from, b"\"key\":", b"\"value\":")?;
            Mutation::Set { key, value }
        } else if from.is_next(b"\"clear\":") {
            let (begin, end) = pair(from, b"\"begin\":", b"\"end\":")?;
            Mutation::Clear { begin, end }
        } else if from.is_next(b"\"compare_and_clear\":") {
            let (key, value) = pair(from, b"\"key\":", b"\"value\":")?;
            Mutation::CompareAndClear { key, value }
        } else {
            let how = how(from)?;
            let (key, param) = pair(from, b"\"key\":", b"\"param\":")?;
            Mutation::Combine { how, key, param }
        };
        from.take(b'}')?;
        Some(mutation)
    }
}

#[inline]
fn how(from: &mut Reader) -> Option<Combine> {
    let names: [(&[u8], Combine); 6] = [
        (b"\"add\":", Combine::Add),
        (b"\"and\":", Combine::And),
        (b"\"or\":", Combine::Or),
        (b"\"xor\":", Combine::Xor),
        (b"\"max\":", Combine::Max),
        (b"\"min\":", Combine::Min),
    ];
    names.into_iter().find(|(name, _)| from.is_next(name)).map(|(_, how)| how)
}

/// Reads mutations into the reader's room for them.
fn read_mutations(from: &mut Reader) -> Option<()> {
    from.take(b'[')?;
    from.mutations.clear();
    let mut has_more = from.has_any(b']');
    while has_more {
        let mutation = Mutation::quick(from)?;
        from.mutations.push(mutation);
        has_more = from.has_more(b']')?;
    }
    Some(())
}

/// Mutations, in room for their number and no more.
fn mutations(from: &mut Reader) -> Option<Vec<Mutation>> {
    read_mutations(from)?;
    Some(from.mutations.drain(..).collect())
}

/// An operation, of which the mutations of a batch stay in the reader's room.
pub enum Next {
    Apply { version: u64 },
    Other(Operation),
}

impl Next {
    pub fn quick(from: &mut Reader) -> Option<Self> {
        from.take(b'{')?;
        if !from.is_next(b"\"apply\":") {
            return other(from).map(Next::Other);
        }
        from.take(b'{')?;
        from.is_next(b"\"version\":").then_some(())?;
        let version = Version::quick(from)?.0;
        from.take(b',')?;
        from.is_next(b"\"batch\":").then_some(())?;
        read_mutations(from)?;
        from.take(b'}')?;
        from.take(b'}')?;
        Some(Next::Apply { version })
    }
}

impl Quick for Mutations {
    #[inline]
    fn quick(from: &mut Reader) -> Option<Self> {
        mutations(from).map(Mutations)
    }
}

impl Quick for Batch {
    #[inline]
    fn quick(from: &mut Reader) -> Option<Self> {
        Batch::new(mutations(from)?).ok()
    }
}

impl Quick for Arc<Batch> {
    #[inline]
    fn quick(from: &mut Reader) -> Option<Self> {
        Batch::quick(from).map(Arc::new)
    }
}

impl Quick for serde_json::Value {
    /// Trees are read by serde.
    fn quick(_: &mut Reader) -> Option<Self> {
        None
    }
}

impl Quick for Script {
    fn quick(from: &mut Reader) -> Option<Self> {
        one(from, b"\"ops\":").map(Script)
    }
}

impl Quick for Operation {
    #[inline]
    fn quick(from: &mut Reader) -> Option<Self> {
        match Next::quick(from)? {
            Next::Apply { version } => Some(Operation::Apply { version, batch: Batch::new(from.mutations.drain(..).collect()) }),
            Next::Other(operation) => Some(operation),
        }
    }
}

/// Behind its brace, an operation that is no batch.
fn other(from: &mut Reader) -> Option<Operation> {
    let operation = if from.is_next(b"\"undo\":") {
        Operation::Undo { to: one::<Version>(from, b"\"to\":")?.0 }
    } else if from.is_next(b"\"forget\":") {
        Operation::Forget { through: one::<Version>(from, b"\"through\":")?.0 }
    } else {
        from.is_next(b"\"advance\":").then_some(())?;
        Operation::Advance { version: one::<Version>(from, b"\"version\":")?.0 }
    };
    from.take(b'}')?;
    Some(operation)
}

impl Quick for CellValue {
    fn quick(from: &mut Reader) -> Option<Self> {
        from.bytes().and_then(CellValue::new)
    }
}

impl Quick for PoppedForm {
    fn quick(from: &mut Reader) -> Option<Self> {
        Vec::quick(from).and_then(PoppedForm::new)
    }
}

impl Quick for State {
    fn quick(from: &mut Reader) -> Option<Self> {
        if from.peek() == b'[' {
            return State::new(0, Vec::quick(from)?);
        }
        let form = DroppedForm::quick(from)?;
        State::new(form.dropped, form.gens)
    }
}
