//! A small replicated log over the proved machines: three logs, a proxy, a sequencer, three coordinators and a storage
//! server, a recovery, and a rollback. All that is here is the host: it carries what a machine asks to the others, and
//! what they tell back, and writes down who did what. These journals are then judged.
//!
//!     cargo run --example replicated_log [FILE]       FILE: where the journals go too, for ./fdbrec audit < FILE
use fdbrec::{audit, Asked, Asks, Batch, Cell, Hears, Log, Machine, Proxy, Recoverer, Sequencer, Storage};
use std::collections::{BTreeMap, BTreeSet};
use std::error::Error;
use std::{env, fs};

type Done = Result<(), Box<dyn Error>>;

const CONFIG: &str = r#"{"coordinators":3,"degree":2,"logs":3,"proxies":1,"shards":[""]}"#;
const SHARDS: &str = r#"[""]"#;
/// The state that the cluster starts from: epoch 257 alone, with three logs and each tag on two of them.
const FIRST: &str = r#"[{"epoch":257,"first":1,"k":2,"m":3,"seeded_to":0}]"#;
/// The same in bytes, as the coordinators' cells keep it.
const FIRST_BYTES: [u8; 28] = [1, 1, 0, 0, 0, 0, 0, 0, 1, 1, 3, 2, 0, 0, 0, 0, 0, 0, 0, 1, 0, 0, 0, 0, 0, 0, 0, 0];
const STORAGE: &str = r#"{"storage":{"tag":0}}"#;
const RECOVERER: &str = r#"{"recoverer":{"ballot":513}}"#;

fn cell(index: u8) -> String {
    format!(r#"{{"cell":{{"index":{index}}}}}"#)
}

fn log(epoch: u64, index: u8) -> String {
    format!(r#"{{"log":{{"epoch":{epoch},"index":{index}}}}}"#)
}

fn sequencer(epoch: u64) -> String {
    format!(r#"{{"sequencer":{{"epoch":{epoch}}}}}"#)
}

fn proxy(epoch: u64) -> String {
    format!(r#"{{"proxy":{{"epoch":{epoch},"number":0}}}}"#)
}

enum Kind {
    Asked(Box<dyn Asked>),
    Hears(Box<dyn Hears>),
    Proxy(Proxy),
}

/// A machine with its journal, and its clock.
struct Node {
    kind: Kind,
    clock: u64,
    entries: Vec<String>,
}

impl Node {
    /// Enters an act that takes a message sent at a stamp.
    fn enter(&mut self, act: &str, sent: u64) {
        self.clock = self.clock.max(sent) + 1;
        self.entries.push(format!(r#"{{"act":{act},"stamp":{}}}"#, self.clock));
    }

    fn hears(&mut self) -> &mut dyn Hears {
        match &mut self.kind {
            Kind::Hears(machine) => machine.as_mut(),
            Kind::Proxy(proxy) => proxy,
            Kind::Asked(_) => panic!("a node that only answers hears nothing"),
        }
    }

    fn last(&mut self) -> fdbrec::Result<String> {
        match &mut self.kind {
            Kind::Asked(machine) => machine.last(),
            Kind::Hears(machine) => machine.last(),
            Kind::Proxy(proxy) => proxy.last(),
        }
    }
}

/// The nodes by their names, and those that no message reaches.
#[derive(Default)]
struct Cluster {
    nodes: BTreeMap<String, Node>,
    cut_off: BTreeSet<String>,
}

impl Cluster {
    /// Adds a node that is there from a stamp on.
    fn add(&mut self, name: &str, kind: Kind, clock: u64) {
        self.nodes.insert(name.into(), Node { kind, clock, entries: Vec::new() });
    }

    fn node(&mut self, name: &str) -> &mut Node {
        self.nodes.get_mut(name).unwrap_or_else(|| panic!("no node {name}"))
    }

    /// Opens an epoch at its sequencer and its proxy: what was given last, and what is known to be committed.
    fn open(&mut self, epoch: u64, last: u64, known: u64, clock: u64) -> Done {
        self.add(&sequencer(epoch), Kind::Asked(Box::new(Sequencer::new(epoch, last)?)), clock);
        self.add(&proxy(epoch), Kind::Proxy(Proxy::new(epoch, 0, 3, 2, known, SHARDS)?), clock);
        Ok(())
    }

    /// Carries an ask to its node, and what that tells back, unless the node is cut off.
    fn carry(&mut self, by: &str, to: &str, ask: &str) -> Done {
        if self.cut_off.contains(to) {
            return Ok(());
        }
        let sent = self.node(by).clock;
        let node = self.node(to);
        let Kind::Asked(machine) = &mut node.kind else { panic!("{to} was asked") };
        let tell = machine.ask(ask)?;
        node.enter(&format!(r#"{{"asked":{{"ask":{ask},"from":{by},"tell":{tell}}}}}"#), sent);
        let sent = node.clock;
        let node = self.node(by);
        let heard = node.hears().hear(to, &tell)?;
        let outcome = heard.outcome();
        node.enter(&format!(r#"{{"heard":{{"from":{to},"outcome":{outcome},"taken":null,"tell":{tell}}}}}"#), sent);
        if outcome.contains("committed") || outcome.contains("ended") {
            println!("{by}: {outcome}");
        }
        Ok(())
    }

    /// Carries all that a node asks, until it asks nothing new.
    fn settle(&mut self, by: &str) -> Done {
        let mut before = String::new();
        loop {
            let asks = self.node(by).hears().next()?;
            if asks == before {
                return Ok(());
            }
            for (to, ask) in Asks::of(&asks) {
                self.carry(by, to, ask)?;
            }
            before = asks;
        }
    }

    /// A proxy takes a batch that sets a key, and has it numbered and logged.
    fn commit(&mut self, epoch: u64, key: &str, value: &str) -> Done {
        let node = self.node(&proxy(epoch));
        let Kind::Proxy(machine) = &mut node.kind else { panic!("no proxy of {epoch}") };
        machine.submit(1, &Batch::new().set(key.as_bytes(), value.as_bytes()))?;
        let set = format!(r#"[{{"set":{{"key":"{}","value":"{}"}}}}]"#, hex(key), hex(value));
        node.enter(&format!(r#"{{"submitted":{{"batch":{set},"step":1}}}}"#), 0);
        self.settle(&proxy(epoch))
    }

    /// The journals of all nodes, as a script of `audit`.
    fn script(&mut self) -> fdbrec::Result<String> {
        let mut journals = Vec::new();
        for (name, node) in &mut self.nodes {
            let (entries, last) = (node.entries.join(","), node.last()?);
            journals.push(format!(r#"{{"entries":[{entries}],"last":{last},"node":{name}}}"#));
        }
        Ok(format!(r#"{{"config":{CONFIG},"journals":[{}]}}"#, journals.join(",")))
    }
}

fn hex(text: &str) -> String {
    text.bytes().map(|byte| format!("{byte:02x}")).collect()
}

/// Where the cluster starts: epoch 257 is open, with its mark at version 1. Of this nothing is entered.
fn start() -> Result<Cluster, Box<dyn Error>> {
    let mut cluster = Cluster::default();
    for index in 0..3 {
        let mut machine = Cell::new()?;
        machine.write(257, &FIRST_BYTES)?;
        cluster.add(&cell(index), Kind::Asked(Box::new(machine)), 0);
        let mut machine = Log::new(257, index, 3, 2)?;
        machine.ask(r#"{"log":{"seed":{"epoch":257,"first":1,"records":[],"seeded_to":0}}}"#)?;
        let mark = format!(r#"{{"bodies":[],"epoch":257,"known":0,"mark":{FIRST},"prev":0,"version":1}}"#);
        machine.ask(&format!(r#"{{"log":{{"push":{mark}}}}}"#))?;
        cluster.add(&log(257, index), Kind::Asked(Box::new(machine)), 0);
    }
    cluster.open(257, 1, 0, 0)?;
    cluster.add(STORAGE, Kind::Hears(Box::new(Storage::new(0, FIRST)?)), 0);
    Ok(cluster)
}

/// The recoverer of ballot 513 ends epoch 257 and opens its own, with logs that wait for their seeds.
fn recover(cluster: &mut Cluster) -> Done {
    for index in 0..3 {
        cluster.add(&log(513, index), Kind::Asked(Box::new(Log::new(513, index, 3, 2)?)), 0);
    }
    cluster.add(RECOVERER, Kind::Hears(Box::new(Recoverer::new(513, 3, SHARDS, None)?)), 0);
    cluster.node(RECOVERER).enter(r#"{"begun":{}}"#, 0);
    cluster.settle(RECOVERER)?;
    let last = cluster.node(RECOVERER).last()?;
    println!("{last}");
    // {"recoverer":{"phase":"chosen pev P rv R"}}: through P all was committed, through R the epoch takes over
    let numbers: Vec<u64> = last.split(|it: char| !it.is_ascii_digit()).filter_map(|it| it.parse().ok()).collect();
    let [known, taken_over] = numbers[..] else { return Err("the recovery came to no end".into()) };
    let clock = cluster.node(RECOVERER).clock;
    cluster.open(513, taken_over + 1, known, clock)
}

fn main() -> Done {
    let mut cluster = start()?;
    cluster.commit(257, "a", "1")?;
    cluster.commit(257, "b", "2")?;
    // log 2 is cut off: the next batch comes to two logs alone, and the storage server applies it from there
    cluster.cut_off.insert(log(257, 2));
    cluster.commit(257, "a", "3")?;
    cluster.settle(STORAGE)?;
    println!("{}", cluster.node(STORAGE).last()?);
    // log 1 is lost for good, and log 2 is back: what it does not hold does not survive
    cluster.cut_off = BTreeSet::from([log(257, 1)]);
    cluster.node(&log(257, 1)).enter(r#"{"lost":{}}"#, 0);
    recover(&mut cluster)?;
    cluster.settle(&proxy(257))?;
    // the storage server hears of the new epoch, takes back what was cut off, and goes on there
    cluster.carry(STORAGE, &log(513, 0), r#"{"log":{"mark_asked":{"epoch":513}}}"#)?;
    cluster.commit(513, "c", "4")?;
    cluster.settle(STORAGE)?;
    println!("{}", cluster.node(STORAGE).last()?);
    let script = cluster.script()?;
    if let Some(file) = env::args().nth(1) {
        fs::write(file, &script)?;
    }
    println!("{}", audit(&script)?);
    Ok(())
}
