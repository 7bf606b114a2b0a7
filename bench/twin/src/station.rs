//! The nodes of a cluster that answer asks, each with its journal behind a lock, and where threads find them.

use crate::audit::{Act, Asked, Entry, Journal, Last};
use crate::cell::Cell;
use crate::log::Log;
use crate::messages::{Ask, LogId, LogTell, NodeId, Tell};
use crate::proxy::Sequencer;
use crate::state::Generation;
use crate::world::{Config, FIRST_EPOCH};
use std::sync::{Condvar, Mutex, OnceLock};
use std::time::Duration;

/// The stamp of what is there from the start.
pub const FIRST_STAMP: u64 = 0;

/// What a node did, and the greatest stamp that it, or the thread that it belongs to, has seen.
pub struct Notes {
    pub node: NodeId,
    pub seen: u64,
    entries: Vec<Entry>,
}

impl Notes {
    pub fn new(node: NodeId, seen: u64) -> Self {
        Notes { node, seen, entries: Vec::new() }
    }

    pub fn see(&mut self, stamp: u64) {
        self.seen = self.seen.max(stamp);
    }

    /// Enters an act, above all that was seen.
    pub fn enter(&mut self, act: Act) -> u64 {
        self.seen += 1;
        self.entries.push(Entry { act, stamp: self.seen });
        self.seen
    }

    pub fn close(self, last: Last) -> Journal {
        Journal { entries: self.entries, last: Some(last), node: self.node }
    }
}

/// A node that answers asks.
enum Answering {
    Cell(Cell),
    Log(Log),
    Sequencer(Sequencer),
}

impl Answering {
    /// What the node tells, where the ask is one of its kind.
    fn ask(&mut self, ask: &Ask) -> Option<Tell> {
        match (self, ask) {
            (Answering::Cell(cell), Ask::Cell(ask)) => Some(Tell::Cell(cell.ask(ask))),
            (Answering::Log(log), Ask::Log(ask)) => Some(Tell::Log(log.ask(ask))),
            (Answering::Sequencer(sequencer), Ask::Sequencer(next)) => Some(Tell::Sequencer(sequencer.ask(next))),
            _ => None,
        }
    }

    fn last(&self) -> Last {
        match self {
            Answering::Cell(cell) => Last::of_cell(cell),
            Answering::Log(log) => Last::of_log(log),
            Answering::Sequencer(sequencer) => Last::of_sequencer(sequencer),
        }
    }
}

/// How long a thread waits for a version at most.
const PATIENCE: Duration = Duration::from_secs(2);

/// What stands for a version where nobody is to wait any more.
const LET_GO: u64 = u64::MAX;

/// The greatest version of each remainder by 8 that a log told to hold, for threads to wait by.
#[derive(Default)]
struct Held([(Mutex<u64>, Condvar); 8]);

impl Held {
    fn raise((latest, risen): &(Mutex<u64>, Condvar), version: u64) {
        let mut latest = latest.lock().expect("no thread panics");
        if *latest < version {
            *latest = version;
            risen.notify_all();
        }
    }

    fn reach(&self, version: u64) {
        Self::raise(&self.0[(version % 8) as usize], version);
    }

    fn let_go(&self) {
        self.0.iter().for_each(|each| Self::raise(each, LET_GO));
    }

    /// Waits until the log told to hold a version; false where it did not in time, or nobody is to wait.
    fn wait_for(&self, version: u64) -> bool {
        let (latest, risen) = &self.0[(version % 8) as usize];
        let latest = latest.lock().expect("no thread panics");
        let waited = risen.wait_timeout_while(latest, PATIENCE, |latest| *latest < version);
        (version..LET_GO).contains(&*waited.expect("no thread panics").0)
    }
}

/// A node with its journal. Each ask is made and entered under the lock, so that the journal has them in their order.
pub struct Station {
    lock: Mutex<(Answering, Notes)>,
    held: Held,
}

impl Station {
    fn new(node: NodeId, answering: Answering) -> Self {
        Station { lock: Mutex::new((answering, Notes::new(node, FIRST_STAMP))), held: Held::default() }
    }

    /// What the node tells who has seen a stamp, and the stamp of that, which is above it.
    fn call(&self, seen: u64, from: NodeId, ask: Ask) -> Option<(u64, Tell)> {
        let mut held = self.lock.lock().expect("no thread panics");
        let (node, notes) = &mut *held;
        let tell = node.ask(&ask)?;
        notes.see(seen);
        let at = notes.enter(Act::Asked(Asked { ask, from, tell: tell.clone() }));
        drop(held);
        match &tell {
            Tell::Log(LogTell::Held { version }) => self.held.reach(*version),
            Tell::Log(LogTell::Locked { .. }) => self.held.let_go(),
            _ => {}
        }
        Some((at, tell))
    }

    fn close(self) -> Journal {
        let (node, notes) = self.lock.into_inner().expect("no thread panicked");
        notes.close(node.last())
    }
}

/// A generation whose state is chosen, and the stamp from which on it is.
#[derive(Clone, Copy)]
pub struct Chosen {
    pub generation: Generation,
    pub stamp: u64,
}

struct Logs {
    stations: Vec<Station>,
    stamp: u64,
}

struct Opened {
    sequencer: Station,
    chosen: Chosen,
}

/// The logs and the sequencer of an epoch. Each come once; from then on every thread finds them and waits for nobody.
struct EpochNodes {
    epoch: u64,
    logs: OnceLock<Logs>,
    opened: OnceLock<Opened>,
}

/// All nodes that answer asks.
pub struct Directory {
    cells: Vec<Station>,
    /// By rising epochs; that of the start is there, and of each that may come its number.
    epochs: Vec<EpochNodes>,
}

impl Directory {
    /// The nodes of the start, and room for those of the epochs that may come, which rise.
    pub fn start(config: &Config, epochs: impl Iterator<Item = u64>) -> Self {
        let (generation, state) = (config.first_generation(), config.first_state());
        let cell = |index| Station::new(NodeId::Cell(index), Answering::Cell(Cell::started(FIRST_EPOCH, &state)));
        let to_come = |epoch| EpochNodes { epoch, logs: OnceLock::new(), opened: OnceLock::new() };
        let all = std::iter::once(FIRST_EPOCH).chain(epochs).map(to_come).collect();
        let directory = Directory { cells: (0..config.coordinators).map(cell).collect(), epochs: all };
        directory.put_logs(&generation, FIRST_STAMP, |index| Log::started(&generation, index, &state));
        directory.put_sequencer(Chosen { generation, stamp: FIRST_STAMP }, 1);
        directory
    }

    fn nodes_of(&self, epoch: u64) -> Option<&EpochNodes> {
        let place = self.epochs.binary_search_by_key(&epoch, |nodes| nodes.epoch).ok()?;
        Some(&self.epochs[place])
    }

    /// The logs of a generation are there from a stamp on.
    fn put_logs(&self, generation: &Generation, stamp: u64, log: impl Fn(u8) -> Log) {
        let station = |index| {
            let id = LogId { epoch: generation.epoch, index };
            Station::new(NodeId::Log(id), Answering::Log(log(index)))
        };
        if let Some(nodes) = self.nodes_of(generation.epoch) {
            nodes.logs.get_or_init(|| Logs { stations: (0..generation.m).map(station).collect(), stamp });
        }
    }

    /// The sequencer of a chosen generation is there, from the stamp on at which it was found to be chosen.
    fn put_sequencer(&self, chosen: Chosen, mark: u64) {
        let epoch = chosen.generation.epoch;
        let sequencer = || Station::new(NodeId::Sequencer(epoch), Answering::Sequencer(Sequencer::new(mark)));
        if let Some(nodes) = self.nodes_of(epoch) {
            nodes.opened.get_or_init(|| Opened { sequencer: sequencer(), chosen });
        }
    }

    /// The logs of a generation come, which its recoverer is about to seed.
    pub fn publish_logs(&self, generation: &Generation, stamp: u64) {
        self.put_logs(generation, stamp, |index| Log::new(generation, index));
    }

    /// The state of a generation is chosen: its sequencer comes, which goes on from the mark.
    pub fn publish_epoch(&self, chosen: Chosen) {
        self.put_sequencer(chosen, chosen.generation.seeded_to + 1);
    }

    /// The chosen generation of the greatest epoch.
    pub fn newest(&self) -> Chosen {
        let mut opened = self.epochs.iter().rev().filter_map(|nodes| nodes.opened.get());
        opened.next().expect("the first epoch is there").chosen
    }

    /// What a node tells who has seen a stamp, and the stamp of that, where the node is there. It is above the caller's
    /// and above the one from which on the node is there.
    pub fn call(&self, seen: u64, from: NodeId, to: NodeId, ask: Ask) -> Option<(u64, Tell)> {
        let (station, there) = match to {
            NodeId::Cell(index) => (self.cells.get(usize::from(index))?, FIRST_STAMP),
            NodeId::Log(id) => {
                let logs = self.nodes_of(id.epoch)?.logs.get()?;
                (logs.stations.get(usize::from(id.index))?, logs.stamp)
            }
            NodeId::Sequencer(epoch) => {
                let opened = self.nodes_of(epoch)?.opened.get()?;
                (&opened.sequencer, opened.chosen.stamp)
            }
            NodeId::Proxy(..) | NodeId::Recoverer(_) | NodeId::Storage(_) => return None,
        };
        station.call(seen.max(there), from, ask)
    }

    /// The logs of an epoch, where they are there.
    fn logs_of(&self, epoch: u64) -> &[Station] {
        let logs = self.nodes_of(epoch).and_then(|nodes| nodes.logs.get());
        logs.map_or(&[], |logs| &logs.stations)
    }

    /// Waits until a log told to hold a version; false where it did not in time, or nobody is to wait for it.
    pub fn wait_for(&self, log: LogId, version: u64) -> bool {
        let station = self.logs_of(log.epoch).get(usize::from(log.index));
        station.is_some_and(|station| station.held.wait_for(version))
    }

    /// Nobody is to wait for the logs of an epoch any more, since a version of it is pushed no more.
    pub fn let_go(&self, epoch: u64) {
        self.logs_of(epoch).iter().for_each(|log| log.held.let_go());
    }

    /// The journals of the nodes of the start, and of those later ones in which something was entered.
    pub fn close(self) -> Vec<Journal> {
        let mut journals: Vec<Journal> = self.cells.into_iter().map(Station::close).collect();
        for nodes in self.epochs {
            let logs = nodes.logs.into_inner().into_iter().flat_map(|logs| logs.stations);
            let sequencer = nodes.opened.into_inner().map(|opened| opened.sequencer);
            let closed = logs.chain(sequencer).map(Station::close);
            journals.extend(closed.filter(|it| nodes.epoch == FIRST_EPOCH || !it.entries.is_empty()));
        }
        journals
    }
}
