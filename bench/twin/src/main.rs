//! `twin apply|end|simulate|audit < script` and `twin cluster`: what these commands of `fdbrec` do, as plain Rust
//! without proofs, written from the rules in docs/. With the feature `by_hand` this is `twin_by_hand`, in which modules of
//! by_hand/ stand in place of plain ones; bench/README.md says why there are two.
//!
//! A text is read straight into typed operations; only one that this refuses is read again as a tree. Keys and values are
//! decoded once and then moved, one look-up serves a write, and a clear takes a range out by one walk. Undo rows are in a
//! double-ended queue by version.

#![cfg_attr(not(feature = "by_hand"), forbid(unsafe_code))]

#[cfg_attr(feature = "by_hand", path = "../by_hand/src/at_once.rs")]
mod at_once;
mod audit;
mod batch;
#[cfg_attr(feature = "by_hand", path = "../by_hand/src/blob.rs")]
mod blob;
mod cell;
mod cluster;
#[cfg(feature = "by_hand")]
#[path = "../by_hand/src/digits.rs"]
mod digits;
#[cfg_attr(feature = "by_hand", path = "../by_hand/src/end.rs")]
mod end;
mod folding;
mod forms;
mod journal;
mod lines;
mod log;
mod messages;
mod proxy;
#[cfg_attr(feature = "by_hand", path = "../by_hand/src/quick.rs")]
mod quick;
#[cfg(feature = "by_hand")]
#[path = "../by_hand/src/quick_forms.rs"]
mod quick_forms;
mod recoverer;
#[cfg_attr(feature = "by_hand", path = "../by_hand/src/said.rs")]
mod said;
mod script;
mod simulate;
mod state;
mod station;
mod storage;
mod store;
mod turns;
mod world;

#[cfg(test)]
mod cluster_tests;
#[cfg(test)]
mod example_tests;
#[cfg(test)]
mod tests;

use std::env;
use std::ffi::OsString;
use std::fmt;
use std::io::{self, BufWriter, Read, Write};
use std::process::ExitCode;
use std::str::FromStr;

/// Why a run was broken off.
#[derive(Debug, PartialEq)]
enum Fault {
    BadWords,
    /// A word of `fdbrec` that the twin does not know.
    NotHere(&'static str),
    BadScript,
    /// A thread could not be made.
    Threads,
    Input,
    Output,
}

impl fmt::Display for Fault {
    fn fmt(&self, f: &mut fmt::Formatter) -> fmt::Result {
        f.write_str(match self {
            Fault::BadWords => {
                "usage: twin apply [--store map]|end --logs M --degree K|simulate|audit < SCRIPT|cluster [WORDS]"
            }
            Fault::NotHere(word) => return write!(f, "the twin has no {word}"),
            Fault::BadScript => "bad script",
            Fault::Threads => "a thread could not be made",
            Fault::Input => "input failed",
            Fault::Output => "output failed",
        })
    }
}

impl Fault {
    fn status(&self) -> u8 {
        match self {
            Fault::BadWords | Fault::NotHere(_) | Fault::BadScript => 2,
            Fault::Threads => 3,
            Fault::Input | Fault::Output => 4,
        }
    }
}

fn main() -> ExitCode {
    let words: Vec<OsString> = env::args_os().skip(1).collect();
    match run(&words, io::stdin().lock(), io::stdout().lock()) {
        Ok(status) => ExitCode::from(status),
        Err(fault) => {
            eprintln!("{fault}");
            ExitCode::from(fault.status())
        }
    }
}

/// A command with its words.
#[derive(Debug, PartialEq)]
enum Command {
    Apply,
    End(end::Options),
    Simulate,
    /// The script of an audit of what `simulate` would do; a word of the twin alone.
    Journal,
    Audit,
    Cluster(cluster::Options),
}

fn command_of(words: &[OsString]) -> Result<Command, Fault> {
    let words: Option<Vec<&str>> = words.iter().map(|word| word.to_str()).collect();
    let words = words.ok_or(Fault::BadWords)?;
    match words[..] {
        ["apply"] | ["apply", "--store", "map"] | ["apply", "--store=map"] => Ok(Command::Apply),
        ["simulate"] => Ok(Command::Simulate),
        ["simulate", "--journal"] => Ok(Command::Journal),
        ["audit"] => Ok(Command::Audit),
        ["end", "--logs", logs, "--degree", degree] | ["end", "--degree", degree, "--logs", logs] => {
            let (logs, degree) = (number(logs)?, number(degree)?);
            let is_within = 1 <= degree && degree <= logs && logs <= 16;
            is_within.then_some(Command::End(end::Options { logs, degree })).ok_or(Fault::BadWords)
        }
        ["cluster", ref rest @ ..] => cluster::Options::of_words(rest).map(Command::Cluster),
        _ => Err(Fault::BadWords),
    }
}

/// The number that a word is.
fn number<T: FromStr>(word: &str) -> Result<T, Fault> {
    word.parse().map_err(|_| Fault::BadWords)
}

/// Leaves a value that is used no more to the end of the process, which gives its memory back at once. The plain twin
/// lets it go part by part.
fn leave<T>(it: T) {
    if cfg!(feature = "by_hand") {
        std::mem::forget(it);
    }
}

/// Reads the whole script before the first line is written, as a bad one prints no line. A cluster reads nothing.
fn run(words: &[OsString], mut input: impl Read, output: impl Write) -> Result<u8, Fault> {
    let command = command_of(words)?;
    let mut text = Vec::new();
    if !matches!(command, Command::Cluster(_)) {
        input.read_to_end(&mut text).map_err(|_| Fault::Input)?;
    }
    let mut output = BufWriter::with_capacity(64 * 1024, output);
    let status = match command {
        Command::Cluster(options) => Ok(cluster::print(&options, &mut output)?),
        Command::Apply => match at_once::apply(&text, &mut output) {
            Some(done) => done.map(|()| 0),
            None => {
                let operations = script::read(&text).ok_or(Fault::BadScript)?;
                drop(text);
                lines::print(operations, &mut output).map(|()| 0)
            }
        },
        Command::End(options) => {
            let script = script::read_form(&text).ok_or(Fault::BadScript)?;
            end::print(script, options, &mut output).map(|()| 0)
        }
        Command::Simulate => match at_once::simulate(&text, &mut output) {
            Some(done) => done.map(|()| 0),
            None => {
                let simulate::Script { config, steps } = script::read_form(&text).ok_or(Fault::BadScript)?;
                drop(text);
                let config = config.config().ok_or(Fault::BadScript)?;
                simulate::print(config, steps, &mut output).map(|()| 0)
            }
        },
        Command::Journal => {
            let script: serde_json::Value = script::read_form(&text).ok_or(Fault::BadScript)?;
            let simulate::Script { config, steps } = script::read_form(&text).ok_or(Fault::BadScript)?;
            let config = config.config().ok_or(Fault::BadScript)?;
            simulate::print_journals(config, script["config"].clone(), steps, &mut output).map(|()| 0)
        }
        Command::Audit => {
            let script: audit::Script = script::read_form(&text).ok_or(Fault::BadScript)?;
            drop(text);
            let (config, journals) = script.parts().ok_or(Fault::BadScript)?;
            match audit::audit(config, journals) {
                Ok(()) => writeln!(output, "audit ok").map(|()| 0),
                Err(fault) => writeln!(output, "{fault}").map(|()| 1),
            }
        }
    };
    let status = status.map_err(|_| Fault::Output)?;
    output.flush().map_err(|_| Fault::Output)?;
    Ok(status)
}
