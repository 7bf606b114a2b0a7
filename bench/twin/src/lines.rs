//! Runs operations on an empty store and prints a line for each, and the rows at the end.

use crate::said::{push_row, say};
use crate::script::Operation;
use crate::store::Store;
use std::io::{self, Write};
use std::mem;

pub fn print(operations: Vec<Operation>, output: &mut impl Write) -> io::Result<()> {
    let mut store = Store::default();
    for operation in operations {
        let done = run(&mut store, operation);
        print_line(&store, done, output)?;
    }
    print_rows(store, output)
}

/// Prints the line of an operation that was done or refused.
pub fn print_line(store: &Store, done: Result<(), &'static str>, output: &mut impl Write) -> io::Result<()> {
    match done {
        Ok(()) => say!(
            output,
            "ok ",
            store.applied(),
            " floor ",
            store.floor(),
            " undo ",
            store.undo_rows(),
            "\n"
        ),
        Err(name) => say!(output, "refused ", name, "\n"),
    }
}

pub fn print_rows(store: Store, output: &mut impl Write) -> io::Result<()> {
    let mut digits = Vec::new();
    for (key, value) in store.values() {
        digits.clear();
        push_row(&mut digits, key, value);
        output.write_all(&digits)?;
    }
    // The process is about to end, which gives the memory back sooner than row by row.
    mem::forget(store);
    Ok(())
}

/// Runs one operation, or answers the name of its refusal.
pub fn run(store: &mut Store, operation: Operation) -> Result<(), &'static str> {
    match operation {
        Operation::Apply { version, batch } => {
            let batch = batch.map_err(|fault| fault.name())?;
            store.apply(version, batch)
        }
        Operation::Undo { to } => store.undo_to(to),
        Operation::Forget { through } => store.forget_through(through),
        Operation::Advance { version } => store.advance(version),
    }
    .map_err(|fault| fault.name())
}
