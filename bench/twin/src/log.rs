//! Logs.

use crate::batch::Batch;
use crate::messages::{LogAsk, LogId, LogRefusal, LogTell, Peek, Peeked, Pop, Push, Record, Seed, SeedRecord};
use crate::state::{Generation, State};
use std::collections::BTreeMap;
use std::sync::Arc;

/// A log holds pushes in one chain, the first of which is the mark of its generation.
pub struct Log {
    id: LogId,
    m: u8,
    k: u8,
    seed: Option<Arc<Seed>>,
    pushes: Vec<Arc<Push>>,
    /// What a tag has, the records of the seed and those of the pushes, in rising versions, but for those popped.
    records: BTreeMap<u8, Vec<Record>>,
    /// Through which version a tag was popped.
    pub popped: BTreeMap<u8, u64>,
    pub durable: u64,
    pub known: u64,
    pub stopped: bool,
}

impl Log {
    /// The log of a number in a generation.
    pub fn new(generation: &Generation, index: u8) -> Self {
        let (id, m, k) = (LogId { epoch: generation.epoch, index }, generation.m, generation.k);
        let (pushes, records, popped) = (Vec::new(), BTreeMap::new(), BTreeMap::new());
        Log { id, m, k, seed: None, pushes, records, popped, durable: 0, known: 0, stopped: false }
    }

    /// A log of the first generation, seeded with nothing, with its mark at version 1.
    pub fn started(generation: &Generation, index: u8, state: &Arc<State>) -> Self {
        let (epoch, bodies, mark) = (generation.epoch, Vec::new(), Some(state.clone()));
        let mut log = Log::new(generation, index);
        log.ask(&LogAsk::Seed { epoch, seed: Arc::new(Seed { first: 1, seeded_to: 0, records: Vec::new() }) });
        log.ask(&LogAsk::Push(Arc::new(Push { epoch, prev: 0, version: 1, known: 0, bodies, mark })));
        log
    }

    pub fn is_seeded(&self) -> bool {
        self.seed.is_some()
    }

    fn holds(&self, tag: u8) -> bool {
        Generation { epoch: self.id.epoch, m: self.m, k: self.k, first: 1, seeded_to: 0 }.holds(self.id.index, tag)
    }

    pub fn ask(&mut self, ask: &LogAsk) -> LogTell {
        let (epoch, is_seed) = match ask {
            LogAsk::Seed { epoch, .. } => (*epoch, true),
            LogAsk::Push(push) => (push.epoch, false),
            LogAsk::Peek(peek) => (peek.epoch, false),
            LogAsk::Pop(pop) => (pop.epoch, false),
            LogAsk::Lock { epoch } | LogAsk::MarkAsked { epoch } => (*epoch, false),
        };
        if epoch != self.id.epoch {
            return LogTell::Refused(LogRefusal::WrongEpoch);
        }
        if !is_seed && self.seed.is_none() {
            return LogTell::Refused(LogRefusal::Unseeded);
        }
        match ask {
            LogAsk::Seed { seed, .. } => self.take_seed(seed),
            LogAsk::Push(push) => self.take_push(push),
            LogAsk::Lock { .. } => {
                self.stopped = true;
                let popped = self.popped.iter().map(|(tag, version)| (*tag, *version)).collect();
                Ok(LogTell::Locked { durable: self.durable, known: self.known, popped })
            }
            LogAsk::Peek(peek) => self.peek(peek),
            LogAsk::MarkAsked { .. } => self.mark(),
            LogAsk::Pop(pop) => self.pop(pop),
        }
        .unwrap_or_else(LogTell::Refused)
    }

    fn take_seed(&mut self, seed: &Arc<Seed>) -> Result<LogTell, LogRefusal> {
        if !seed.records.iter().all(|record| self.holds(record.tag)) {
            return Err(LogRefusal::NotMine);
        }
        if let Some(held) = &self.seed {
            let is_left = |record: &&SeedRecord| self.popped_of(record.tag) < record.version;
            let is_first = (held.first, held.seeded_to) == (seed.first, seed.seeded_to);
            let is_same = held.records.iter().filter(is_left).eq(seed.records.iter().filter(is_left));
            return if is_first && is_same { Ok(LogTell::Seeded) } else { Err(LogRefusal::SeedDiffers) };
        }
        for record in &seed.records {
            let batch = record.batch.clone();
            self.records.entry(record.tag).or_default().push(Record { batch, version: record.version });
        }
        self.durable = seed.seeded_to;
        self.known = seed.first - 1;
        self.seed = Some(seed.clone());
        Ok(LogTell::Seeded)
    }

    fn take_push(&mut self, push: &Arc<Push>) -> Result<LogTell, LogRefusal> {
        let held = LogTell::Held { version: push.version };
        let seeded_to = self.seed.as_ref().map_or(0, |seed| seed.seeded_to);
        if let Ok(place) = self.pushes.binary_search_by_key(&push.version, |held| held.version) {
            if self.is_again(push, &self.pushes[place]) {
                return Ok(held);
            }
        }
        if self.stopped {
            return Err(LogRefusal::Stopped);
        }
        if push.prev < self.durable || push.mark.is_some() && push.prev != seeded_to {
            return Err(LogRefusal::Stale);
        }
        if push.prev > self.durable {
            return Err(LogRefusal::Gap { durable: self.durable });
        }
        if !push.bodies.iter().all(|(tag, _)| self.holds(*tag)) {
            return Err(LogRefusal::NotMine);
        }
        if push.mark.is_none() && self.durable == seeded_to {
            return Err(LogRefusal::NoMark);
        }
        for (tag, batch) in &push.bodies {
            let record = Record { batch: batch.clone(), version: push.version };
            self.records.entry(*tag).or_default().push(record);
        }
        self.durable = push.version;
        self.known = self.known.max(push.known);
        self.pushes.push(push.clone());
        Ok(held)
    }

    /// Whether it is the same push, what was known and what is popped aside.
    fn is_again(&self, push: &Push, held: &Push) -> bool {
        let is_left = |body: &&(u8, Arc<Batch>)| self.popped_of(body.0) < push.version;
        (push.prev, push.version) == (held.prev, held.version)
            && push.mark == held.mark
            && push.bodies.iter().filter(is_left).eq(held.bodies.iter().filter(is_left))
    }

    fn popped_of(&self, tag: u8) -> u64 {
        self.popped.get(&tag).copied().unwrap_or(0)
    }

    /// Lets go of a tag's records through a version, which is known to be committed.
    fn pop(&mut self, pop: &Pop) -> Result<LogTell, LogRefusal> {
        if !self.holds(pop.tag) {
            return Err(LogRefusal::NotMine);
        }
        let through = self.popped_of(pop.tag).max(pop.through.min(self.known));
        self.popped.insert(pop.tag, through);
        if let Some(records) = self.records.get_mut(&pop.tag) {
            records.drain(..records.partition_point(|record| record.version <= through));
        }
        Ok(LogTell::Popped { through })
    }

    fn peek(&self, peek: &Peek) -> Result<LogTell, LogRefusal> {
        if !self.holds(peek.tag) {
            return Err(LogRefusal::NotMine);
        }
        let first = self.seed.as_ref().map_or(0, |seed| seed.first);
        if peek.after + 1 < first {
            return Err(LogRefusal::TooEarly { first });
        }
        let through = self.popped_of(peek.tag);
        if peek.after < through {
            return Err(LogRefusal::Removed { through });
        }
        let all = self.records.get(&peek.tag).map_or(&[][..], Vec::as_slice);
        let above = &all[all.partition_point(|record| record.version <= peek.after)..];
        let given = &above[..above.len().min(peek.most.into())];
        let upto = match given.last() {
            Some(last) if given.len() < above.len() => last.version,
            _ => self.durable,
        };
        let (after, known, records, tag) = (peek.after, self.known, given.to_vec(), peek.tag);
        Ok(LogTell::Peeked(Arc::new(Peeked { after, known, records, tag, upto })))
    }

    fn mark(&self) -> Result<LogTell, LogRefusal> {
        let mark = self.pushes.first().and_then(|push| push.mark.clone());
        mark.map(|state| LogTell::Marked { state }).ok_or(LogRefusal::NoMark)
    }
}
