//! What each thread of a cluster does, turn by turn.

use crate::audit::{Act, HeardForm, Journal, Last, Submitted};
use crate::batch::{Batch, Mutation};
use crate::blob::Blob;
use crate::messages::{Ask, LogAsk, LogId, LogRefusal, LogTell, NodeId, Pop, Tell};
use crate::proxy::{Outcome, Proxy};
use crate::recoverer::{Phase, Recoverer};
use crate::state::Generation;
use crate::station::{Chosen, Directory, Notes, FIRST_STAMP};
use crate::storage::Storage;
use crate::world::Config;
use std::sync::Arc;
use std::thread::yield_now;

/// What the threads share.
#[derive(Clone, Copy)]
pub struct Site<'a> {
    pub config: &'a Config,
    pub directory: &'a Directory,
    /// How many each thread takes.
    pub turns: u32,
}

/// A node that one thread owns, which sends asks and hears what it is told.
trait Hearer {
    fn notes(&mut self) -> &mut Notes;

    fn hear(&mut self, from: NodeId, tell: Tell);
}

/// Sends an ask, and has its sender hear what it is told.
fn send(site: Site, hearer: &mut impl Hearer, to: NodeId, ask: Ask) {
    let notes = hearer.notes();
    if let Some((at, tell)) = site.directory.call(notes.seen, notes.node, to, ask) {
        notes.see(at);
        hearer.hear(to, tell);
    }
}

fn heard(from: NodeId, tell: Tell, outcome: Option<Outcome>) -> Act {
    Act::Heard(HeardForm { from, outcome, taken: None, tell })
}

// ---- workloads

/// Batches of one set each: batch j sets the key of two bytes, 8 (j mod the number of shards) and the workload's
/// number, to j as four bytes.
pub struct Workload {
    number: u8,
    shards: u8,
    batches: u32,
    next: u32,
}

/// How far above the version before it each batch is to stand.
const STEP: u64 = 1;

impl Workload {
    pub fn new(number: u8, shards: u8, batches: u32) -> Self {
        Workload { number, shards, batches, next: 0 }
    }

    fn next(&mut self) -> Option<Arc<Batch>> {
        if self.next == self.batches {
            return None;
        }
        let shard = (self.next % u32::from(self.shards)) as u8;
        let set = Mutation::Set { key: Blob::from(&[8 * shard, self.number][..]), value: Blob::from(&self.next.to_be_bytes()[..]) };
        self.next += 1;
        Some(Arc::new(Batch::new(vec![set]).expect("one short set is within the limits")))
    }
}

/// A proxy of a workload's number.
struct Door {
    epoch: u64,
    proxy: Proxy,
    notes: Notes,
    /// Whether a batch is under way.
    is_open: bool,
    is_over: bool,
    /// Whether the last tell was that a log lacks the version before that of a push.
    is_early: bool,
    /// Whether the logs' tells of this batch are waited for.
    waits: bool,
}

impl Door {
    fn new(site: Site, generation: Generation, number: u8, seen: u64) -> Self {
        let (epoch, shards) = (generation.epoch, site.config.shards.clone());
        let notes = Notes::new(NodeId::Proxy(epoch, number), seen);
        let proxy = Proxy::new(generation, number, shards);
        Door { epoch, proxy, notes, is_open: false, is_over: false, is_early: false, waits: true }
    }

    fn close(self) -> Journal {
        let last = Last::of_proxy(&self.proxy);
        self.notes.close(last)
    }
}

impl Hearer for Door {
    fn notes(&mut self) -> &mut Notes {
        &mut self.notes
    }

    fn hear(&mut self, from: NodeId, tell: Tell) {
        self.is_early = matches!(tell, Tell::Log(LogTell::Refused(LogRefusal::Gap { .. })));
        let (outcome, _) = self.proxy.hear(from, &tell);
        self.notes.enter(heard(from, tell, Some(outcome)));
        self.is_open &= outcome == Outcome::Waiting;
        self.is_over |= outcome == Outcome::Ended;
    }
}

/// Sends a pending ask. Where a log lacks the version before a push the thread waits for that one, and sends the push
/// again; false where the log still lacks it.
fn send_in_turn(site: Site, door: &mut Door, to: NodeId, ask: Ask) -> bool {
    let before = match (&to, &ask) {
        (NodeId::Log(log), Ask::Log(LogAsk::Push(push))) => Some((*log, push.prev)),
        _ => None,
    };
    door.is_early = false;
    send(site, door, to, ask.clone());
    if door.is_early && door.waits {
        door.waits = before.is_some_and(|(log, version)| site.directory.wait_for(log, version));
        if door.waits {
            door.is_early = false;
            send(site, door, to, ask);
        }
    }
    !door.is_early
}

/// The turns of a workload: its batches go to the proxy of its number in the epoch where it last was and, once that
/// takes no more, in the newest one. The journals of these proxies.
pub fn serve(site: Site, mut work: Workload) -> Vec<Journal> {
    let mut door = Door::new(site, site.config.first_generation(), work.number, FIRST_STAMP);
    let mut earlier = Vec::new();
    let mut kept = None;
    for _ in 0..site.turns {
        if !door.is_open {
            let newest = site.directory.newest();
            if door.is_over && newest.generation.epoch > door.epoch {
                let seen = door.notes.seen.max(newest.stamp);
                let next = Door::new(site, newest.generation, work.number, seen);
                earlier.push(std::mem::replace(&mut door, next).close());
            }
            let Some(batch) = kept.take().or_else(|| work.next()) else {
                break;
            };
            if door.is_over || door.proxy.submit(STEP, batch.clone()).is_err() {
                door.is_over = true;
                kept = Some(batch);
                yield_now();
                continue;
            }
            door.notes.enter(Act::Submitted(Submitted { batch, step: STEP }));
            door.is_open = true;
            door.waits = true;
        }
        for (to, ask) in door.proxy.pending() {
            if !send_in_turn(site, &mut door, to, ask) {
                break;
            }
        }
        if door.is_over {
            site.directory.let_go(door.epoch);
        }
        if door.is_open {
            yield_now();
        }
    }
    if door.is_open {
        site.directory.let_go(door.epoch);
    }
    earlier.push(door.close());
    earlier
}

// ---- storage servers

struct Puller {
    storage: Storage,
    notes: Notes,
}

impl Hearer for Puller {
    fn notes(&mut self) -> &mut Notes {
        &mut self.notes
    }

    fn hear(&mut self, from: NodeId, tell: Tell) {
        // What the server refuses changes nothing.
        match (from, &tell) {
            (NodeId::Log(log), Tell::Log(LogTell::Peeked(peeked))) => {
                let _ = self.storage.hear_peeked(log.epoch, peeked, None);
            }
            (NodeId::Log(_), Tell::Log(LogTell::Marked { state })) => {
                let _ = self.storage.hear_marked(state, None);
            }
            _ => {}
        }
        self.notes.enter(heard(from, tell, None));
    }
}

/// The log of a generation that is asked of a tag at a turn: one of those on which the tag stands, by turns.
fn holder_at(generation: &Generation, tag: u8, turn: u32) -> NodeId {
    let place = u32::from(tag) + turn % u32::from(generation.k);
    log_at(generation, place)
}

/// The log of a generation that is asked for its mark at a turn.
fn log_at(generation: &Generation, turn: u32) -> NodeId {
    NodeId::Log(LogId { epoch: generation.epoch, index: (turn % u32::from(generation.m)) as u8 })
}

/// The turns of a storage server, at each of which it pulls from a holder of its tag, asks a log of the newest epoch
/// for its mark, and has a holder of its own epoch let go of what it has for good.
pub fn pull(site: Site, storage: Storage) -> Journal {
    let tag = storage.tag;
    let mut puller = Puller { storage, notes: Notes::new(NodeId::Storage(tag), FIRST_STAMP) };
    for turn in 1..=site.turns {
        let before = (puller.storage.epoch(), puller.storage.store.applied());
        let source = *puller.storage.source();
        let peek = LogAsk::Peek(puller.storage.peek_of(source.epoch));
        send(site, &mut puller, holder_at(&source, tag, turn), Ask::Log(peek));
        let newest = site.directory.newest().generation;
        let mark = LogAsk::MarkAsked { epoch: newest.epoch };
        send(site, &mut puller, log_at(&newest, turn), Ask::Log(mark));
        let own = *puller.storage.own();
        let pop = LogAsk::Pop(Pop { epoch: own.epoch, tag, through: puller.storage.store.floor() });
        send(site, &mut puller, holder_at(&own, tag, turn), Ask::Log(pop));
        if (puller.storage.epoch(), puller.storage.store.applied()) == before {
            yield_now();
        }
    }
    let last = Last::of_storage(&puller.storage);
    puller.notes.close(last)
}

// ---- recoverers

struct Recovery {
    recoverer: Recoverer,
    notes: Notes,
}

impl Hearer for Recovery {
    fn notes(&mut self) -> &mut Notes {
        &mut self.notes
    }

    fn hear(&mut self, from: NodeId, tell: Tell) {
        self.recoverer.hear(from, &tell);
        self.notes.enter(heard(from, tell, None));
    }
}

impl Recovery {
    /// Whether nothing is left to do.
    fn is_done(&self) -> bool {
        match self.recoverer.phase {
            Phase::Lost(_) => true,
            Phase::Chosen { .. } => self.recoverer.pending().is_empty(),
            _ => false,
        }
    }

    /// Publishes what the recoverer has come to: its logs once all is copied, its epoch once its state is chosen.
    fn show(&self, directory: &Directory, is_seeded: &mut bool, is_chosen: &mut bool) {
        let stamp = self.notes.seen;
        if let (false, Some(generation)) = (*is_seeded, self.recoverer.seeded_generation()) {
            directory.publish_logs(&generation, stamp);
            *is_seeded = true;
        }
        if let (false, Some(generation)) = (*is_chosen, self.recoverer.chosen_generation()) {
            directory.publish_epoch(Chosen { generation, stamp });
            *is_chosen = true;
        }
    }
}

/// The turns of a ballot, whose recoverer begins at one of them, and its journal, where it began.
pub fn recover(site: Site, ballot: u64, first_turn: u32) -> Option<Journal> {
    for _ in 1..first_turn.min(site.turns + 1) {
        yield_now();
    }
    if first_turn > site.turns {
        return None;
    }
    let recoverer = Recoverer::new(ballot, site.config.coordinators, site.config.shards.number(), None);
    let mut recovery = Recovery { recoverer, notes: Notes::new(NodeId::Recoverer(ballot), FIRST_STAMP) };
    recovery.notes.enter(Act::Begun(None));
    let (mut is_seeded, mut is_chosen) = (false, false);
    for _ in first_turn..=site.turns {
        for (to, ask) in recovery.recoverer.pending() {
            send(site, &mut recovery, to, ask);
            recovery.show(site.directory, &mut is_seeded, &mut is_chosen);
        }
        if recovery.is_done() {
            break;
        }
    }
    let last = Last::of_recoverer(&recovery.recoverer);
    Some(recovery.notes.close(last))
}
