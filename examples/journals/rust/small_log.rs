//! small_log FOLDER [forgets | skips]: a small replicated log whose journals are judged.
//!
//!     rustc -O --edition 2021 -o small_log examples/journals/rust/small_log.rs
//!     ./small_log run > run.json
//!
//! Two clients commit batches through proxies of their own to two logs, and a storage server pulls them, each as a
//! thread. One log is killed and comes back, and a recovery locks the logs. The journals are left in FOLDER, and the
//! script of them is printed. With `forgets` each log acknowledges version 5 and does not keep its record; with `skips`
//! the storage server does not apply version 5.
mod journal;
mod messages;

use journal::{script, Journal};
use messages::{list, Ask, Batch, Push, Tell};
use std::collections::BTreeMap;
use std::io::{self, Write};
use std::path::PathBuf;
use std::sync::{Mutex, MutexGuard, PoisonError};
use std::{env, fs, process, thread, time::Duration};

const CONFIG: &str = r#"{"coordinators":1,"degree":2,"logs":2,"proxies":2,"shards":[""]}"#;
/// The coordinated state at the start: one generation, epoch 257, of two logs, each tag on both, from version 1.
const STATE: &str = "01010000000000000101020200000000000000010000000000000000";
/// Commits of each client; after half of them the first one kills a log, the second one begins the recovery.
const COMMITS: usize = 20;
const WAITING: &str = r#"{"waiting":{}}"#;

/// A node that others ask. It acts under its lock, and enters the act there.
struct Node<M> {
    name: String,
    path: PathBuf,
    inside: Mutex<(M, Journal)>,
}

trait Machine {
    fn answer(&mut self, ask: &Ask) -> Tell;
    fn last(&self) -> String;
}

impl<M: Machine> Node<M> {
    fn inside(&self) -> MutexGuard<'_, (M, Journal)> {
        self.inside.lock().unwrap_or_else(PoisonError::into_inner)
    }

    fn ask(&self, from: &str, ask: &Ask, seen: u64) -> io::Result<(Tell, u64)> {
        let (machine, journal) = &mut *self.inside();
        let tell = machine.answer(ask);
        let stamp = journal.asked(from, ask, &tell, seen)?;
        Ok((tell, stamp))
    }

    /// A kill in the middle of a line of the journal, and a restart: what the node kept is on its disk.
    fn kill(&self) -> io::Result<()> {
        let (_, journal) = &mut *self.inside();
        fs::OpenOptions::new().append(true).open(&self.path)?.write_all(b"{\"stamp\":9")?;
        *journal = Journal::open(&self.path, &self.name, 0)?;
        journal.crashed().map(|_| ())
    }

    fn close(&self) -> io::Result<()> {
        let (machine, journal) = &*self.inside();
        journal.close(machine.last())
    }
}

struct Cell {
    promised: u64,
}

impl Machine for Cell {
    fn answer(&mut self, ask: &Ask) -> Tell {
        if let Ask::Read { ballot } = ask {
            self.promised = self.promised.max(*ballot);
        }
        Tell::Promise
    }

    fn last(&self) -> String {
        format!(r#"{{"cell":{{"promised":{},"value":"{STATE}","written":257}}}}"#, self.promised)
    }
}

struct Sequencer {
    version: u64,
}

impl Machine for Sequencer {
    fn answer(&mut self, ask: &Ask) -> Tell {
        let request = if let Ask::Next { request, .. } = ask { *request } else { 0 };
        self.version += 1;
        Tell::Numbered { prev: self.version - 1, request, version: self.version }
    }

    fn last(&self) -> String {
        format!(r#"{{"sequencer":{{"last":{}}}}}"#, self.version)
    }
}

/// A log. At the start it is seeded and holds the mark at version 1.
struct Log {
    bug: String,
    durable: u64,
    known: u64,
    popped: Option<u64>,
    is_stopped: bool,
    pushes: BTreeMap<u64, Push>,
    /// Those that are not popped.
    records: BTreeMap<u64, Batch>,
}

impl Machine for Log {
    fn answer(&mut self, ask: &Ask) -> Tell {
        match ask {
            Ask::Push(push) => self.push(push),
            Ask::Peek { after, most } => self.peek(*after, *most),
            Ask::Pop { through } => {
                let popped = self.popped.unwrap_or(0).max(self.known.min(*through));
                self.popped = Some(popped);
                self.records.retain(|version, _| *version > popped);
                Tell::Popped(popped)
            }
            _ => {
                self.is_stopped = true;
                Tell::Locked(self.shown())
            }
        }
    }

    fn last(&self) -> String {
        format!(r#"{{"log":{{"seeded":true,"stopped":{},{}}}}}"#, self.is_stopped, self.shown())
    }
}

impl Log {
    fn new(bug: &str) -> Log {
        let (pushes, records, bug) = (BTreeMap::new(), BTreeMap::new(), bug.to_string());
        Log { bug, durable: 1, known: 0, popped: None, is_stopped: false, pushes, records }
    }

    fn push(&mut self, push: &Push) -> Tell {
        let held = self.pushes.get(&push.version);
        if held.map_or(false, |held| held.prev == push.prev && held.batch == push.batch) {
            return Tell::Held(push.version);
        } else if self.is_stopped {
            return Tell::Stopped;
        } else if push.prev < self.durable {
            return Tell::Stale;
        } else if push.prev > self.durable {
            return Tell::Gap(self.durable);
        }
        self.pushes.insert(push.version, push.clone());
        (self.durable, self.known) = (push.version, self.known.max(push.known));
        if self.bug != "forgets" || push.version != 5 {
            self.records.insert(push.version, push.batch.clone());
        }
        Tell::Held(push.version)
    }

    fn peek(&self, after: u64, most: usize) -> Tell {
        if let Some(popped) = self.popped.filter(|popped| after < *popped) {
            return Tell::Removed(popped);
        }
        let above = || self.records.range(after + 1..).map(|(version, batch)| (*version, batch.clone()));
        let records: Vec<_> = above().take(most).collect();
        let upto = if above().count() > most { records[most - 1].0 } else { self.durable };
        Tell::Peeked { after, known: self.known, records, upto }
    }

    /// Its versions, and through which one the tag is popped, if it is.
    fn shown(&self) -> String {
        let popped = self.popped.map_or(String::new(), |popped| format!(r#","popped":[[0,{popped}]]"#));
        format!(r#""durable":{},"known":{}{popped}"#, self.durable, self.known)
    }
}

/// One client's proxy: it takes a batch, and repeats its pushes until both logs hold it or the epoch has ended.
struct Proxy {
    name: String,
    journal: Journal,
    number: u64,
    known: u64,
    request: u64,
    has_ended: bool,
}

impl Proxy {
    fn commit(&mut self, cluster: &Cluster, batch: Batch) -> io::Result<()> {
        self.request += 1;
        let stamp = self.journal.submitted(&batch, 1)?;
        let ask = Ask::Next { proxy: self.number, request: self.request };
        let (tell, seen) = cluster.sequencer.ask(&self.name, &ask, stamp)?;
        let mut stamp = self.journal.heard(&cluster.sequencer.name, &tell, WAITING, None, seen)?;
        let (prev, version) = match tell {
            Tell::Numbered { prev, version, .. } => (prev, version),
            _ => return Ok(()),
        };
        let push = Ask::Push(Push { batch, known: self.known, prev, version });
        let mut left: Vec<&Node<Log>> = cluster.logs.iter().collect();
        while !left.is_empty() && !self.has_ended {
            let log = left.remove(0);
            let (tell, seen) = log.ask(&self.name, &push, stamp)?;
            let mut outcome = WAITING.to_string();
            match tell {
                Tell::Held(_) if left.is_empty() => {
                    self.known = version;
                    outcome = format!(r#"{{"committed":{{"version":{version}}}}}"#);
                }
                Tell::Held(_) => {}
                Tell::Stopped => {
                    self.has_ended = true;
                    outcome = r#"{"ended":{}}"#.to_string();
                }
                _ => {
                    left.push(log); // a gap: the version before is another proxy's, and still in flight
                    thread::sleep(Duration::from_millis(1));
                }
            }
            stamp = self.journal.heard(&log.name, &tell, outcome, None, seen)?;
        }
        Ok(())
    }
}

struct Storage {
    name: String,
    journal: Journal,
    bug: String,
    version: u64,
    floor: u64,
    stamp: u64,
    rows: BTreeMap<String, String>,
}

impl Storage {
    /// Asks a log for records, applies them, and has the log let go of them once they are known to be committed.
    fn pull(&mut self, log: &Node<Log>) -> io::Result<()> {
        let (tell, seen) = log.ask(&self.name, &Ask::Peek { after: self.version, most: 100 }, self.stamp)?;
        if let Tell::Peeked { known, records, upto, .. } = &tell {
            for (_, batch) in records.iter().filter(|(version, _)| self.bug != "skips" || *version != 5) {
                self.rows.extend(batch.0.iter().cloned());
            }
            self.version = self.version.max(*upto);
            self.floor = self.floor.max(self.version.min(*known));
        }
        let stamp = self.journal.heard(&log.name, &tell, "null", None, seen)?;
        let (tell, seen) = log.ask(&self.name, &Ask::Pop { through: self.floor }, stamp)?;
        self.stamp = self.journal.heard(&log.name, &tell, "null", None, seen)?;
        Ok(())
    }

    fn last(&self) -> String {
        let rows: Vec<_> = self.rows.iter().collect();
        let rows = list(&rows, |(key, value)| format!(r#"["{key}","{value}"]"#));
        let its = format!(r#""floor":{},"rows":{rows},"version":{}"#, self.floor, self.version);
        format!(r#"{{"storage":{{"epoch":257,{its}}}}}"#)
    }
}

// ---- the cluster

struct Cluster {
    cell: Node<Cell>,
    logs: [Node<Log>; 2],
    sequencer: Node<Sequencer>,
}

/// The first half of a recovery: it reads the coordinated state, and locks the logs of its last generation.
fn recover(cluster: &Cluster, name: &str, journal: &Journal) -> io::Result<()> {
    let stamp = journal.enter(r#"{"begun":{}}"#, 0)?;
    let (tell, seen) = cluster.cell.ask(name, &Ask::Read { ballot: 513 }, stamp)?;
    let mut stamp = journal.heard(&cluster.cell.name, tell, "null", None, seen)?;
    for log in &cluster.logs {
        let (tell, seen) = log.ask(name, &Ask::Lock, stamp)?;
        stamp = journal.heard(&log.name, tell, "null", None, seen)?;
    }
    Ok(())
}

/// Commits batches, each of which sets a key of its own and one that all batches set.
fn client(cluster: &Cluster, proxy: &mut Proxy, recoverer: Option<&(String, Journal)>) -> io::Result<()> {
    for count in 0..COMMITS {
        match recoverer {
            _ if count != COMMITS / 2 => {}
            Some((name, journal)) => recover(cluster, name, journal)?,
            None => cluster.logs[1].kill()?,
        }
        if !proxy.has_ended {
            let own = format!("{:02x}{count:02x}", proxy.number);
            proxy.commit(cluster, Batch(vec![(own.clone(), "01".into()), ("ff".into(), own)]))?;
            thread::sleep(Duration::from_millis(1));
        }
    }
    Ok(())
}

fn run(folder: &str, bug: &str) -> io::Result<String> {
    fs::create_dir_all(folder)?;
    let mut paths: Vec<PathBuf> = Vec::new();
    let mut open = |file: &str, name: &str| {
        let path = PathBuf::from(folder).join(format!("{file}.journal"));
        let _ = fs::remove_file(&path); // of an earlier run
        paths.push(path.clone());
        Journal::open(&path, name, 0).map(|journal| (name.to_string(), path, journal))
    };
    let (name, path, journal) = open("cell-0", r#"{"cell":{"index":0}}"#)?;
    let cell = Node { name, path, inside: Mutex::new((Cell { promised: 257 }, journal)) };
    let (name, path, journal) = open("sequencer-257", r#"{"sequencer":{"epoch":257}}"#)?;
    let sequencer = Node { name, path, inside: Mutex::new((Sequencer { version: 1 }, journal)) };
    let mut log = |at| {
        let name = format!(r#"{{"log":{{"epoch":257,"index":{at}}}}}"#);
        let (name, path, journal) = open(&format!("log-257-{at}"), &name)?;
        io::Result::Ok(Node { name, path, inside: Mutex::new((Log::new(bug), journal)) })
    };
    let logs = [log(0)?, log(1)?];
    let mut proxy = |number| {
        let name = format!(r#"{{"proxy":{{"epoch":257,"number":{number}}}}}"#);
        let (name, _, journal) = open(&format!("proxy-257-{number}"), &name)?;
        io::Result::Ok(Proxy { name, journal, number, known: 0, request: 0, has_ended: false })
    };
    let proxies = [proxy(0)?, proxy(1)?];
    let (name, _, journal) = open("storage-0", r#"{"storage":{"tag":0}}"#)?;
    let (bug, rows) = (bug.to_string(), BTreeMap::new());
    let storage = Storage { name, journal, bug, version: 0, floor: 0, stamp: 0, rows };
    let (name, _, journal) = open("recoverer-513", r#"{"recoverer":{"ballot":513}}"#)?;
    play(&Cluster { cell, logs, sequencer }, proxies, storage, &(name, journal))?;
    script(CONFIG, &paths)
}

/// The run, and the last state of each node.
fn play(cluster: &Cluster, proxies: [Proxy; 2], mut storage: Storage, recoverer: &(String, Journal)) -> io::Result<()> {
    let [mut one, mut two] = proxies;
    let mut pull = || cluster.logs.iter().try_for_each(|log| storage.pull(log));
    thread::scope(|scope| {
        let one = scope.spawn(|| client(cluster, &mut one, None));
        let two = scope.spawn(|| client(cluster, &mut two, Some(recoverer)));
        while !one.is_finished() || !two.is_finished() {
            pull()?;
            thread::sleep(Duration::from_millis(1));
        }
        let failed = |_| io::Error::new(io::ErrorKind::Other, "a client failed");
        one.join().map_err(failed)?.and(two.join().map_err(failed)?)
    })?;
    pull()?;
    cluster.logs.iter().try_for_each(Node::close)?;
    cluster.cell.close()?;
    cluster.sequencer.close()?;
    for proxy in [one, two] {
        proxy.journal.close(format!(r#"{{"proxy":{{"known":{}}}}}"#, proxy.known))?;
    }
    storage.journal.close(storage.last())?;
    recoverer.1.close(r#"{"recoverer":{"phase":"copying"}}"#)
}

fn main() {
    let words: Vec<String> = env::args().skip(1).collect();
    let bug = words.get(1).map_or("", |word| word);
    if words.is_empty() || words.len() > 2 || !["", "forgets", "skips"].contains(&bug) {
        eprintln!("small_log FOLDER [forgets | skips]");
        process::exit(2);
    }
    if let Err(why) = run(&words[0], bug).and_then(|script| writeln!(io::stdout(), "{script}")) {
        eprintln!("small_log: {why}");
        process::exit(4);
    }
}
