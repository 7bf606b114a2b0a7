use fdbrec_sys as sys;
use std::error::Error;
use std::fmt;

/// Why a call was not done. Where a variant says nothing else, all is as it was.
#[derive(Clone, Copy, Debug, PartialEq, Eq)]
pub enum Fault {
    /// Out of memory.
    Memory,
    /// Another kind of machine is asked that.
    Kind,
    /// The machine refuses. A cell or a log that was asked tells why: [`Machine::answer`](crate::Machine::answer).
    Refused,
    /// A number or a length is beyond its limit (docs/FORMATS.md, Limits).
    Limit,
    /// It is no line of that form, or these are no bytes of a batch.
    BadText,
    /// The turn is done, and there was no memory to say what came of it: [`Machine::answer`](crate::Machine::answer)
    /// gives it, and it need not be asked again.
    Untold,
    /// A storage server took the first part of what it heard, and then was out of memory. Hear the same again.
    Part,
    /// The cell holds another value under this ballot: two nodes wrote under one, so something is wrong.
    TwoValues,
    /// The key that is read is not of the shard.
    NotMine,
    /// The version that is read is below the floor of the storage server.
    TooOld,
    /// The version that is read is above the one that the storage server applied.
    FutureVersion,
    /// A status that this version of the crate does not know.
    Unknown(u32),
}

pub type Result<T> = std::result::Result<T, Fault>;

impl Fault {
    /// The fault of a status that is not OK.
    pub(crate) fn of(status: u32) -> Self {
        match status {
            sys::MEMORY => Fault::Memory,
            sys::KIND => Fault::Kind,
            sys::REFUSED => Fault::Refused,
            sys::LIMIT => Fault::Limit,
            sys::BAD_TEXT => Fault::BadText,
            sys::UNTOLD => Fault::Untold,
            sys::PART => Fault::Part,
            sys::TWO_VALUES => Fault::TwoValues,
            sys::NOT_MINE => Fault::NotMine,
            sys::TOO_OLD => Fault::TooOld,
            sys::FUTURE_VERSION => Fault::FutureVersion,
            other => Fault::Unknown(other),
        }
    }

    /// What a status says: done, or why not.
    pub(crate) fn check(status: u32) -> Result<()> {
        if status == sys::OK {
            Ok(())
        } else {
            Err(Fault::of(status))
        }
    }
}

impl fmt::Display for Fault {
    fn fmt(&self, f: &mut fmt::Formatter) -> fmt::Result {
        f.write_str(match self {
            Fault::Memory => "out of memory",
            Fault::Kind => "another kind of machine is asked that",
            Fault::Refused => "the machine refuses",
            Fault::Limit => "a number or a length is beyond its limit",
            Fault::BadText => "no line of that form, or no bytes of a batch",
            Fault::Untold => "out of memory for what came of a turn, which is done",
            Fault::Part => "out of memory amid what a storage server heard",
            Fault::TwoValues => "two values under one ballot",
            Fault::NotMine => "the key is not of the shard",
            Fault::TooOld => "the version is below the floor",
            Fault::FutureVersion => "the version is above the one applied",
            Fault::Unknown(status) => return write!(f, "unknown status {status}"),
        })
    }
}

impl Error for Fault {}
