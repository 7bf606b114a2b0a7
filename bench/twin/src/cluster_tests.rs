//! Clusters in threads: their journals are a run, and what a proxy said to be committed is there.

use crate::audit::{audit, Act, AuditFault, Journal, Last, Script};
use crate::batch::{Batch, Mutation};
use crate::cluster::{run, Options};
use crate::messages::{Ask, LogAsk, LogTell, NodeId, Tell};
use crate::proxy::Outcome;
use crate::script::{read_form, Bytes};
use crate::Fault;
use std::collections::{BTreeMap, BTreeSet};
use std::ffi::OsString;
use std::io::{self, Read};

/// Nothing reads it: a cluster has no script.
struct Unread;

impl Read for Unread {
    fn read(&mut self, _: &mut [u8]) -> io::Result<usize> {
        Err(io::Error::other("a cluster reads nothing"))
    }
}

fn said(words: &str) -> Result<(u8, String), Fault> {
    let words: Vec<OsString> = words.split(' ').map(OsString::from).collect();
    let mut output = Vec::new();
    let status = crate::run(&words, Unread, &mut output)?;
    Ok((status, String::from_utf8(output).expect("lines are text")))
}

/// The key and the value of a batch of one set.
fn set_of(batch: &Batch) -> (Vec<u8>, u32) {
    match batch.mutations() {
        [Mutation::Set { key, value }] => (key.to_vec(), u32::from_be_bytes(value[..].try_into().expect("four bytes"))),
        other => panic!("no single set: {other:?}"),
    }
}

/// What journals say.
#[derive(Default)]
struct Seen {
    /// What each workload's proxies took, in order.
    taken: BTreeMap<u8, Vec<(Vec<u8>, u32)>>,
    /// The version, the key and the value of each batch that a proxy said to be committed.
    committed: Vec<(u64, Vec<u8>, u32)>,
    /// By the version of a push, and its epoch, the logs that hold it.
    holders: BTreeMap<(u64, u64), BTreeSet<u8>>,
    /// The epoch, the version applied and the rows of each storage server.
    storages: BTreeMap<u8, (u64, u64, BTreeMap<Vec<u8>, u32>)>,
    chosen: usize,
}

fn seen_in(journals: &[Journal]) -> Seen {
    let mut seen = Seen::default();
    for journal in journals {
        let mut open = None;
        for entry in &journal.entries {
            match (journal.node, &entry.act) {
                (NodeId::Proxy(_, number), Act::Submitted(it)) => {
                    let set = set_of(&it.batch);
                    seen.taken.entry(number).or_default().push(set.clone());
                    open = Some(set);
                }
                (NodeId::Proxy(epoch, _), Act::Heard(it)) => {
                    if let Some(Outcome::Committed(version)) = it.outcome {
                        let (key, value) = open.take().expect("what is committed was taken");
                        seen.committed.push((version, key, value));
                        let holders = seen.holders.get(&(epoch, version)).map_or(0, BTreeSet::len);
                        assert_eq!(holders, 4, "all logs of epoch {epoch} hold version {version}");
                    }
                }
                (NodeId::Log(id), Act::Asked(it)) => {
                    if let (Ask::Log(LogAsk::Push(push)), Tell::Log(LogTell::Held { .. })) = (&it.ask, &it.tell) {
                        seen.holders.entry((push.epoch, push.version)).or_default().insert(id.index);
                    }
                }
                _ => {}
            }
        }
        match (journal.node, &journal.last) {
            (NodeId::Recoverer(_), Some(Last::Recoverer(last))) => {
                seen.chosen += usize::from(last.phase.starts_with("chosen"));
            }
            (NodeId::Storage(tag), Some(Last::Storage(last))) => {
                let row = |(key, value): &(Bytes, Bytes)| {
                    (key.0.to_vec(), u32::from_be_bytes(value.0[..].try_into().expect("four bytes")))
                };
                seen.storages.insert(tag, (last.epoch, last.version, last.rows.iter().map(row).collect()));
            }
            _ => {}
        }
    }
    seen
}

/// Runs a cluster of 4 logs and 2 storage servers. What holds of every run of it: the journals are a run, proxies took
/// the numbered batches in order, and a storage server that came through a version has what was committed at it.
fn ran(options: &Options) -> Seen {
    let journals = run(options, &options.config()).expect("there are threads");
    let seen = seen_in(&journals);
    assert_eq!(audit(options.config(), journals), Ok(()));
    assert_eq!(seen.taken.len(), usize::from(options.proxies));
    for (number, taken) in &seen.taken {
        let numbered = (0..taken.len() as u32).map(|batch| (vec![8 * (batch % 2) as u8, *number], batch));
        assert!(taken.iter().cloned().eq(numbered), "the batches of workload {number}");
    }
    for (version, key, value) in &seen.committed {
        let (_, applied, rows) = &seen.storages[&(key[0] / 8)];
        // Values rise with versions, so that what stands there is this one or a later one.
        let is_there = rows.get(key).is_some_and(|row| row >= value);
        assert!(version > applied || is_there, "version {version} of key {key:?} is lost");
    }
    seen
}

/// Some run of these options in which the threads came so far: a thread may come late on a busy machine.
fn some_run(options: &Options, came_through: impl Fn(&Seen) -> bool) -> Seen {
    let mut runs = (0..20).map(|_| ran(options));
    runs.find(came_through).expect("one run of twenty comes through")
}

fn is_pulled(seen: &Seen) -> bool {
    let is_applied = |(version, key, _): &(u64, Vec<u8>, u32)| *version <= seen.storages[&(key[0] / 8)].1;
    seen.committed.iter().all(is_applied)
}

#[test]
fn each_batch_is_committed_and_stands_in_its_storage_server() {
    let options = Options { recoveries: 0, turns: 2_000, ..Options::default() };
    let seen = some_run(&options, |seen| seen.committed.len() == 40 && is_pulled(seen));
    for (tag, (_, applied, rows)) in &seen.storages {
        // 40 batches of two workloads behind the mark's version; the last ones are 18 and 19.
        let last = 18 + u32::from(*tag);
        assert_eq!((*applied, rows), (41, &BTreeMap::from([(vec![8 * tag, 0], last), (vec![8 * tag, 1], last)])));
    }
}

#[test]
fn what_is_committed_is_there_after_two_recoveries() {
    let options = Options { proxies: 3, recoveries: 2, batches: 60, turns: 2_000, ..Options::default() };
    let is_through = |seen: &Seen| seen.storages.values().all(|(epoch, ..)| *epoch == 769);
    let is_busy = |seen: &Seen| seen.committed.len() >= 20;
    some_run(&options, |seen| seen.chosen == 2 && is_busy(seen) && is_through(seen) && is_pulled(seen));
}

/// The first entry of a node of which this is so is left out.
fn without(mut journals: Vec<Journal>, is_it: impl Fn(NodeId, &Act) -> bool) -> Vec<Journal> {
    for journal in &mut journals {
        if let Some(place) = journal.entries.iter().position(|entry| is_it(journal.node, &entry.act)) {
            journal.entries.remove(place);
            return journals;
        }
    }
    panic!("there is no such entry");
}

#[test]
fn journals_in_which_something_is_left_out_are_no_run() {
    let options = Options { recoveries: 0, turns: 1_000, proxies: 1, ..Options::default() };
    let is_through = |seen: Seen| seen.committed.len() == 20 && is_pulled(&seen);
    let journals = || {
        let mut runs = (0..20).map(|_| run(&options, &options.config()).expect("there are threads"));
        runs.find(|journals| is_through(seen_in(journals))).expect("one run of twenty comes through")
    };
    let is_push = |_, act: &Act| matches!(act, Act::Asked(it) if matches!(it.ask, Ask::Log(LogAsk::Push(_))));
    let is_batch = |_, act: &Act| match act {
        Act::Heard(it) => matches!(&it.tell, Tell::Log(LogTell::Peeked(peeked)) if !peeked.records.is_empty()),
        _ => false,
    };
    let forgotten = audit(options.config(), without(journals(), is_push));
    assert!(matches!(forgotten, Err(AuditFault::NotARun { .. } | AuditFault::TellDiffers { .. })), "{forgotten:?}");
    let skipped = audit(options.config(), without(journals(), is_batch));
    assert!(matches!(skipped, Err(AuditFault::NotARun { .. } | AuditFault::StateDiffers { .. })), "{skipped:?}");
}

#[test]
fn the_script_of_its_journals_is_a_run() {
    let words = "cluster --coordinators 1 --logs 3 --degree=2 --storages 3 --proxies 3 --batches 30 --turns=400";
    let (status, script) = said(&format!("{words} --recoveries 2 --journal")).expect("there are threads");
    assert_eq!((status, script.lines().count()), (0, 1));
    let config = r#"{"config":{"coordinators":1,"degree":2,"logs":3,"proxies":3,"shards":["","08","10"]},"journals":["#;
    assert!(script.starts_with(config));
    let script: Script = read_form(script.as_bytes()).expect("a script of audit");
    let (config, journals) = script.parts().expect("within the limits");
    assert_eq!(audit(config, journals), Ok(()));
    assert_eq!(said(words), Ok((0, "audit ok\n".into())));
}

#[test]
fn words_of_clusters() {
    assert_eq!(said("cluster --turns 1 --batches 0 --storages 32 --recoveries 100"), Ok((0, "audit ok\n".into())));
    assert_eq!(said("cluster --turns 10 --store map --storm 0 --seed 7"), Ok((0, "audit ok\n".into())));
    assert_eq!(said("cluster --store sql"), Err(Fault::NotHere("--store sql")));
    assert_eq!(said("cluster --storm=32 --seed 7"), Err(Fault::NotHere("--storm")));
    assert_eq!(
        (Fault::NotHere("--storm").to_string(), Fault::NotHere("--storm").status()),
        ("the twin has no --storm".into(), 2)
    );
    for bad in [
        "--store tree",
        "--storm 257",
        "--storm -1",
        "--seed x",
        "--logs",
        "--logs 0",
        "--logs 17",
        "--logs 4 --logs 4",
        "--degree 0",
        "--degree 5",
        "--coordinators 2",
        "--coordinators 11",
        "--storages 33",
        "--proxies 17",
        "--batches 1000001",
        "--recoveries 101",
        "--turns 0",
        "--turns 1000001",
        "--journal=1",
        "--shape 3",
        "turns",
    ] {
        assert_eq!(said(&format!("cluster {bad}")), Err(Fault::BadWords), "{bad}");
    }
}
