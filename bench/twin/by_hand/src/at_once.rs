//! Runs each operation or step as soon as it is read. Its lines are kept until the whole text is known to be a script,
//! since a bad one prints none. So there is no list of all operations, which took more memory than the script.

use crate::batch::{Batch, BatchFault};
use crate::lines::{print_line, print_rows, run};
use crate::quick::{Quick, Reader};
use crate::quick_forms::Next;
use crate::simulate::{Play, StepForm};
use crate::store::{Store, StoreFault};
use crate::world::ConfigForm;
use std::io::{self, Write};

/// The lines of a script of `apply`; none where the reader does not know it.
pub fn apply(text: &[u8], output: &mut impl Write) -> Option<io::Result<()>> {
    let mut from = Reader::new(text);
    let (mut store, mut lines) = (Store::default(), Vec::new());
    from.take(b'{')?;
    from.is_next(b"\"ops\":").then_some(())?;
    each(&mut from, |from| {
        let done = match Next::quick(from)? {
            Next::Apply { version } => Batch::check(&from.mutations).map_err(BatchFault::name).and_then(|()| {
                let mutations = from.mutations.drain(..);
                store.apply_all(version, mutations).map_err(StoreFault::name)
            }),
            Next::Other(operation) => run(&mut store, operation),
        };
        Some(print_line(&store, done, &mut lines))
    })?;
    from.take(b'}')?;
    from.ends().then_some(())?;
    Some(output.write_all(&lines).and_then(|()| print_rows(store, output)))
}

/// The lines of a script of `simulate`; none where the reader does not know it.
pub fn simulate(text: &[u8], output: &mut impl Write) -> Option<io::Result<()>> {
    let mut from = Reader::new(text);
    let mut lines = Vec::new();
    from.take(b'{')?;
    from.is_next(b"\"config\":").then_some(())?;
    let config = ConfigForm::quick(&mut from)?.config()?;
    from.take(b',')?;
    from.is_next(b"\"steps\":").then_some(())?;
    let mut play = Play::start(config);
    each(&mut from, |from| Some(play.take_step(StepForm::quick(from)?, &mut lines)))?;
    from.take(b'}')?;
    from.ends().then_some(())?;
    Some(output.write_all(&lines).and_then(|()| play.print_storages(output)))
}

/// Reads and runs each item of a list.
fn each(from: &mut Reader, mut run: impl FnMut(&mut Reader) -> Option<io::Result<()>>) -> Option<()> {
    from.take(b'[')?;
    let mut has_more = from.has_any(b']');
    while has_more {
        run(from)?.expect("a vector takes all lines");
        has_more = from.has_more(b']')?;
    }
    Some(())
}
