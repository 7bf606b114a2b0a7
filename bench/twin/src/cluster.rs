//! `cluster`: all nodes in threads, and the audit of what they did.

use crate::audit::{audit, Journal};
use crate::batch::Shards;
use crate::blob::Blob;
use crate::journal::write_script;
use crate::station::Directory;
use crate::storage::Storage;
use crate::turns::{pull, recover, serve, Site, Workload};
use crate::world::Config;
use crate::{number, Fault};
use serde_json::{json, Value};
use std::io::Write;
use std::sync::{Arc, Mutex};
use std::thread::{self, Builder};

/// What the words say.
#[derive(Clone, Debug, PartialEq)]
pub struct Options {
    pub coordinators: u8,
    pub logs: u8,
    pub degree: u8,
    pub storages: u8,
    pub proxies: u8,
    pub batches: u32,
    pub recoveries: u8,
    pub turns: u32,
    pub journal: bool,
}

impl Default for Options {
    fn default() -> Self {
        Options {
            coordinators: 3,
            logs: 4,
            degree: 2,
            storages: 2,
            proxies: 2,
            batches: 20,
            recoveries: 1,
            turns: 10_000,
            journal: false,
        }
    }
}

impl Options {
    /// What these words say, as those of `fdbrec cluster` do. A storm and a store in SQL are refused by name.
    pub fn of_words(words: &[&str]) -> Result<Self, Fault> {
        let mut options = Options::default();
        let mut seen = Vec::new();
        let mut words = words.iter();
        while let Some(word) = words.next() {
            let (name, joined) = word.split_once('=').map_or((*word, None), |(name, value)| (name, Some(value)));
            if seen.contains(&name) {
                return Err(Fault::BadWords);
            }
            seen.push(name);
            if *word == "--journal" {
                options.journal = true;
                continue;
            }
            let value = joined.or_else(|| words.next().copied()).ok_or(Fault::BadWords)?;
            match name {
                "--coordinators" => options.coordinators = number(value)?,
                "--logs" => options.logs = number(value)?,
                "--degree" => options.degree = number(value)?,
                "--storages" => options.storages = number(value)?,
                "--proxies" => options.proxies = number(value)?,
                "--batches" => options.batches = number(value)?,
                "--recoveries" => options.recoveries = number(value)?,
                "--turns" => options.turns = number(value)?,
                "--store" if value == "map" => {}
                "--store" if value == "sql" => return Err(Fault::NotHere("--store sql")),
                "--storm" if number::<u16>(value)? == 0 => {}
                "--storm" if number::<u16>(value)? <= 256 => return Err(Fault::NotHere("--storm")),
                // Without a storm nothing is drawn from it.
                "--seed" => drop(number::<u64>(value)?),
                _ => return Err(Fault::BadWords),
            }
        }
        options.is_within().then_some(options).ok_or(Fault::BadWords)
    }

    fn is_within(&self) -> bool {
        matches!(self.coordinators, 1 | 3 | 5 | 7 | 9)
            && (1..=16).contains(&self.logs)
            && (1..=self.logs).contains(&self.degree)
            && (1..=32).contains(&self.storages)
            && (1..=16).contains(&self.proxies)
            && self.batches <= 1_000_000
            && self.recoveries <= 100
            && (1..=1_000_000).contains(&self.turns)
    }

    /// Where the shards begin: the first at the empty key, shard i at the byte 8 i.
    fn begins(&self) -> Vec<Blob> {
        (0..self.storages).map(|shard| if shard == 0 { Blob::default() } else { Blob::from(&[8 * shard][..]) }).collect()
    }

    pub fn config(&self) -> Config {
        Config {
            coordinators: self.coordinators,
            degree: self.degree,
            logs: self.logs,
            proxies: self.proxies,
            shards: Arc::new(Shards::new(self.begins()).expect("the begins rise")),
        }
    }

    /// The config as scripts have it.
    fn form(&self) -> Value {
        let begins: Vec<String> = self.begins().iter().map(hex::encode).collect();
        json!({"coordinators": self.coordinators, "degree": self.degree, "logs": self.logs, "proxies": self.proxies,
            "shards": begins})
    }
}

/// The ballot of a recovery, counted from 1, whose round is one more.
fn ballot_of(recovery: u8) -> u64 {
    256 * (u64::from(recovery) + 1) + 1
}

/// What one thread does: it gives the journals of the nodes that it owned.
type Job<'a> = Box<dyn FnOnce() -> Vec<Journal> + Send + 'a>;

/// Does each job in a thread of its own. None begins before there is a thread for each.
fn in_threads(jobs: Vec<Job>) -> Result<Vec<Journal>, Fault> {
    let gate = Mutex::new(false);
    thread::scope(|scope| {
        let mut is_open = gate.lock().expect("no thread panics");
        let mut threads = Vec::with_capacity(jobs.len());
        for job in jobs {
            let gate = &gate;
            let work = move || {
                let is_open = *gate.lock().expect("no thread panics");
                if is_open {
                    job()
                } else {
                    Vec::new()
                }
            };
            threads.push(Builder::new().spawn_scoped(scope, work).map_err(|_| Fault::Threads)?);
        }
        *is_open = true;
        drop(is_open);
        Ok(threads.into_iter().flat_map(|thread| thread.join().expect("no thread panics")).collect())
    })
}

/// Runs a cluster to its end: the journals of all its nodes.
pub fn run(options: &Options, config: &Config) -> Result<Vec<Journal>, Fault> {
    let directory = Directory::start(config, (1..=options.recoveries).map(ballot_of));
    let site = Site { config, directory: &directory, turns: options.turns };
    let mut jobs: Vec<Job> = Vec::new();
    for number in 0..options.proxies {
        let work = Workload::new(number, options.storages, options.batches);
        jobs.push(Box::new(move || serve(site, work)));
    }
    for recovery in 1..=options.recoveries {
        let first_turn = 100 * u32::from(recovery);
        jobs.push(Box::new(move || recover(site, ballot_of(recovery), first_turn).into_iter().collect()));
    }
    let state = config.first_state();
    for tag in 0..options.storages {
        let storage = Storage::new(tag, state.clone());
        jobs.push(Box::new(move || vec![pull(site, storage)]));
    }
    let owned = in_threads(jobs)?;
    let mut journals = directory.close();
    journals.extend(owned);
    Ok(journals)
}

/// Runs a cluster and audits it: the line of the audit, or the script where that is wanted and the audit finds no
/// fault.
pub fn print(options: &Options, output: &mut impl Write) -> Result<u8, Fault> {
    let config = options.config();
    let journals = run(options, &config)?;
    // An audit takes the acts out, so that the script is written before.
    let mut script = Vec::new();
    if options.journal {
        write_script(&options.form(), &journals, &mut script).map_err(|_| Fault::Output)?;
    }
    let written = match audit(config, journals) {
        Ok(()) if options.journal => output.write_all(&script).map(|()| 0),
        Ok(()) => writeln!(output, "audit ok").map(|()| 0),
        Err(fault) => writeln!(output, "{fault}").map(|()| 1),
    };
    written.map_err(|_| Fault::Output)
}
