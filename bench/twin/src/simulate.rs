//! `simulate`: steps in a world of all nodes.

use crate::batch::{Batch, BatchFault};
use crate::journal::{write_script, Journals};
use crate::forms::{object, variants, Ballot, CellPlace, Count, Epoch, Place, Step, Tag, Version};
use crate::leave;
use crate::messages::{Ask, CellAsk, LogAsk, LogId, LogTell, NodeId, Pop, Tell};
use crate::proxy::Outcome;
use crate::said::{push_row, push_text, say};
use crate::script::{Bytes, Mutations};
use crate::state::Shape;
use crate::world::{ConfigForm, Heard, NotEnabled, World};
use serde_json::Value;
use std::io::{self, Write};
use std::sync::Arc;

object! { Script { config: ConfigForm as ConfigForm, steps: Vec<StepForm> as Vec<StepForm> } }

object! {
    CommitForm {
        epoch: u64 as Epoch,
        proxy: u8 as Place,
        step: u64 as Step,
        batch: Mutations as Mutations,
        logs: Vec<Place> as Vec<Place>,
    }
}
object! { PushForm { epoch: u64 as Epoch, proxy: u8 as Place, logs: Vec<Place> as Vec<Place> } }
object! { StorageForm { storage: u8 as Tag, epoch: u64 as Epoch, log: u8 as Place } }
object! { LoseForm { epoch: u64 as Epoch, log: u8 as Place } }
object! { ReadForm { storage: u8 as Tag, key: Bytes as Bytes, version: u64 as Version } }
object! {
    RecoverForm {
        ballot: u64 as Ballot,
        read: Vec<CellPlace> as Vec<CellPlace>,
        lock: Vec<Place> as Vec<Place>,
        write: Vec<CellPlace> as Vec<CellPlace>,
        mark: Vec<Place> as Vec<Place>,
    } maybe {
        logs: u8 as Count,
        degree: u8 as Count,
    }
}

pub enum StepForm {
    Commit { epoch: u64, proxy: u8, step: u64, batch: Result<Arc<Batch>, BatchFault>, logs: Vec<Place> },
    Push(PushForm),
    Pull(StorageForm),
    Mark(StorageForm),
    Pop(StorageForm),
    Recover(RecoverForm, Option<Shape>),
    Lose(LogId),
    Read(ReadForm),
}

variants! {
    StepForm {
        "commit": CommitForm => |it| Some(StepForm::Commit {
            epoch: it.epoch,
            proxy: it.proxy,
            step: it.step,
            batch: Batch::new(it.batch.0).map(Arc::new),
            logs: it.logs,
        }),
        "push": PushForm => |it| Some(StepForm::Push(it)),
        "pull": StorageForm => |it| Some(StepForm::Pull(it)),
        "mark": StorageForm => |it| Some(StepForm::Mark(it)),
        "pop": StorageForm => |it| Some(StepForm::Pop(it)),
        "recover": RecoverForm => |it| {
            let shape = Shape::of_members(it.logs, it.degree)?;
            Some(StepForm::Recover(it, shape))
        },
        "lose": LoseForm => |it| Some(StepForm::Lose(LogId { epoch: it.epoch, index: it.log })),
        "read": ReadForm => |it| Some(StepForm::Read(it)),
    }
}

/// A world, and what is entered of it where journals are wanted.
pub struct Play {
    world: World,
    journals: Option<Journals>,
}

/// Prints a line for each step, and then what each storage server has.
pub fn print(config: crate::world::Config, steps: Vec<StepForm>, output: &mut impl Write) -> io::Result<()> {
    let mut play = Play::start(config);
    steps.into_iter().try_for_each(|step| play.take_step(step, output))?;
    play.print_storages(output)
}

/// Prints the journals of these steps as a script of `audit`. The config is given in its own form too.
pub fn print_journals(
    config: crate::world::Config,
    form: Value,
    steps: Vec<StepForm>,
    output: &mut impl Write,
) -> io::Result<()> {
    let mut play = Play { world: World::start(config), journals: Some(Journals::default()) };
    steps.into_iter().try_for_each(|step| play.take_step(step, &mut io::sink()))?;
    let journals = play.journals.take().unwrap_or_default();
    write_script(&form, &journals.close(&play.world), output)
}

fn write_storage(
    name: &str,
    tag: u8,
    stands: Result<(u64, u64), &'static str>,
    output: &mut impl Write,
) -> io::Result<()> {
    match stands {
        Ok((epoch, version)) => say!(output, name, " ", tag, " ", epoch, " ", version, "\n"),
        Err(fault) => say!(output, name, " ", tag, " refused ", fault, "\n"),
    }
}

impl Play {
    pub fn start(config: crate::world::Config) -> Self {
        Play { world: World::start(config), journals: None }
    }

    /// Takes a step and prints its line.
    pub fn take_step(&mut self, step: StepForm, output: &mut impl Write) -> io::Result<()> {
        match step {
            StepForm::Commit { epoch, proxy, step, batch, logs } => {
                say!(output, "commit ", epoch, " ", proxy, " ")?;
                match self.commit((epoch, proxy), step, batch, &logs) {
                    Ok(Some((version, outcome))) => say!(output, version, " ", outcome, "\n")?,
                    Ok(None) => say!(output, "ended\n")?,
                    Err(name) => say!(output, "refused ", name, "\n")?,
                }
            }
            StepForm::Push(PushForm { epoch, proxy, logs }) => {
                say!(output, "push ", epoch, " ", proxy, " ")?;
                match self.world.proxy(epoch, proxy).and_then(|proxy| proxy.open_version()) {
                    Some(version) => {
                        let outcome = self.push((epoch, proxy), &logs);
                        say!(output, version, " ", outcome, "\n")?
                    }
                    None => say!(output, "refused NotOpen\n")?,
                }
            }
            StepForm::Pull(StorageForm { storage, epoch, log }) => {
                let ask = self.world.storage(storage).map(|storage| LogAsk::Peek(storage.peek_of(epoch)));
                write_storage("pull", storage, self.ask_log(storage, LogId { epoch, index: log }, ask), output)?;
            }
            StepForm::Mark(StorageForm { storage, epoch, log }) => {
                let ask = Some(LogAsk::MarkAsked { epoch });
                write_storage("mark", storage, self.ask_log(storage, LogId { epoch, index: log }, ask), output)?;
            }
            StepForm::Pop(StorageForm { storage, epoch, log }) => match self.pop(storage, LogId { epoch, index: log }) {
                Ok(through) => say!(output, "pop ", storage, " ", epoch, " ", through, "\n")?,
                Err(fault) => say!(output, "pop ", storage, " refused ", fault, "\n")?,
            },
            StepForm::Recover(step, shape) => match self.recover(&step, shape) {
                Ok(()) => {
                    let phase = self.world.recoverer(step.ballot).expect("it has begun").phase;
                    say!(output, "recover ", step.ballot, " ", phase, "\n")?;
                }
                Err(name) => say!(output, "recover ", step.ballot, " refused ", name.name(), "\n")?,
            },
            StepForm::Lose(log) => match self.lose(log) {
                Ok(()) => say!(output, "lose ", log.epoch, " ", log.index, "\n")?,
                Err(name) => say!(output, "lose refused ", name.name(), "\n")?,
            },
            StepForm::Read(ReadForm { storage, key, version }) => {
                say!(output, "read ", storage, " ", version, " ")?;
                match self.world.read(storage, &key.0, version) {
                    Ok(Some(value)) => {
                        let mut line = Vec::new();
                        push_text(&mut line, value);
                        line.push(b'\n');
                        output.write_all(&line)?;
                    }
                    Ok(None) => say!(output, "none\n")?,
                    Err(name) => say!(output, "refused ", name, "\n")?,
                }
            }
        }
        Ok(())
    }

    /// Prints what each storage server has.
    pub fn print_storages(self, output: &mut impl Write) -> io::Result<()> {
        let mut line = Vec::new();
        for storage in self.world.storages() {
            let store = &storage.store;
            let rows = store.values().count();
            let (epoch, version, floor) = (storage.epoch(), store.applied(), store.floor());
            say!(output, "storage ", storage.tag, " ", epoch, " ", version, " floor ", floor, " rows ", rows, "\n")?;
            for (key, value) in store.values() {
                line.clear();
                push_row(&mut line, key, value);
                output.write_all(&line)?;
            }
        }
        leave(self);
        Ok(())
    }

    /// An ask comes to a node, which tells.
    fn deliver(&mut self, by: NodeId, to: NodeId, ask: &Ask) -> Result<Tell, NotEnabled> {
        let tell = self.world.deliver(to, ask)?;
        if let Some(journals) = &mut self.journals {
            journals.asked(to, by, ask, &tell);
        }
        Ok(tell)
    }

    fn hear(&mut self, by: NodeId, from: NodeId, tell: &Tell) -> Result<Heard, NotEnabled> {
        let heard = self.world.hear(by, from, tell, None)?;
        if let Some(journals) = &mut self.journals {
            journals.heard(by, from, tell, &heard);
        }
        Ok(heard)
    }

    /// An ask comes to its node, and what is told is heard at once by who asked. None where it cannot come.
    fn exchange(&mut self, by: NodeId, to: NodeId, ask: &Ask) -> Option<Heard> {
        let tell = self.deliver(by, to, ask).ok()?;
        self.hear(by, to, &tell).ok()
    }

    fn lose(&mut self, log: LogId) -> Result<(), NotEnabled> {
        self.world.lose(log)?;
        if let Some(journals) = &mut self.journals {
            journals.lost(NodeId::Log(log));
        }
        Ok(())
    }

    /// The version of a batch with what became of it, or none where it was given no version.
    fn commit(
        &mut self,
        (epoch, number): (u64, u8),
        step: u64,
        batch: Result<Arc<Batch>, BatchFault>,
        logs: &[Place],
    ) -> Result<Option<(u64, &'static str)>, &'static str> {
        let batch = batch.map_err(BatchFault::name)?;
        let proxy = NodeId::Proxy(epoch, number);
        let ask = self.world.submit(epoch, number, step, batch.clone()).map_err(NotEnabled::name)?;
        if let Some(journals) = &mut self.journals {
            journals.submitted(proxy, step, &batch);
        }
        self.exchange(proxy, NodeId::Sequencer(epoch), &ask);
        let version = self.world.proxy(epoch, number).and_then(|proxy| proxy.open_version());
        Ok(version.map(|version| (version, self.push((epoch, number), logs))))
    }

    fn push(&mut self, (epoch, number): (u64, u8), logs: &[Place]) -> &'static str {
        let mut said = "waiting";
        for log in logs {
            let ask = self.world.proxy(epoch, number).and_then(|proxy| proxy.push_to(log.0));
            let heard = ask.and_then(|(to, ask)| self.exchange(NodeId::Proxy(epoch, number), to, &ask));
            match heard {
                Some(Heard::Proxy(Outcome::Committed(_), _)) => said = "committed",
                Some(Heard::Proxy(Outcome::Ended, _)) if said == "waiting" => said = "ended",
                _ => {}
            }
        }
        said
    }

    /// A storage server asks a log and hears what it tells. Where it then stands.
    fn ask_log(&mut self, tag: u8, log: LogId, ask: Option<LogAsk>) -> Result<(u64, u64), &'static str> {
        self.world.storage(tag).ok_or("NoSuchNode")?;
        self.tell_of(tag, log, ask.ok_or("NoSuchNode")?)?;
        let storage = self.world.storage(tag).expect("it was there before");
        Ok((storage.epoch(), storage.store.applied()))
    }

    /// A storage server has a log let go of its tag's records through its floor. The version through which that is done.
    fn pop(&mut self, tag: u8, log: LogId) -> Result<u64, &'static str> {
        let storage = self.world.storage(tag).ok_or("NoSuchNode")?;
        let through = storage.store.floor();
        if !storage.may_pop(log.epoch, through) {
            return Err(self.world.why_not_up(log).unwrap_or(NotEnabled::NeverSent).name());
        }
        match self.tell_of(tag, log, LogAsk::Pop(Pop { epoch: log.epoch, tag, through }))? {
            Tell::Log(LogTell::Popped { through }) => Ok(through),
            tell => unreachable!("a Pop is told {tell:?}"),
        }
    }

    /// What a log tells a storage server, which hears it, unless that or the ask is refused.
    fn tell_of(&mut self, tag: u8, log: LogId, ask: LogAsk) -> Result<Tell, &'static str> {
        let (by, to) = (NodeId::Storage(tag), NodeId::Log(log));
        let tell = self.deliver(by, to, &Ask::Log(ask)).map_err(NotEnabled::name)?;
        let heard = self.hear(by, to, &tell).map_err(NotEnabled::name)?;
        if let Tell::Log(LogTell::Refused(why)) = tell {
            return Err(why.name());
        }
        if let Heard::Storage(Err(fault)) = heard {
            return Err(fault.name());
        }
        Ok(tell)
    }

    /// A shape counts where the recoverer begins with this step.
    fn recover(&mut self, step: &RecoverForm, shape: Option<Shape>) -> Result<(), NotEnabled> {
        let by = NodeId::Recoverer(step.ballot);
        if self.world.recoverer(step.ballot).is_none() {
            self.world.begin(step.ballot, shape)?;
            if let Some(journals) = &mut self.journals {
                journals.begun(by, shape);
            }
        }
        let is_read = |ask: &Ask| matches!(ask, Ask::Cell(CellAsk::Read { .. }));
        let is_write = |ask: &Ask| matches!(ask, Ask::Cell(CellAsk::Write { .. }));
        let is_lock = |ask: &Ask| matches!(ask, Ask::Log(LogAsk::Lock { .. }));
        let is_peek = |ask: &Ask| matches!(ask, Ask::Log(LogAsk::Peek(_)));
        let is_seed = |ask: &Ask| matches!(ask, Ask::Log(LogAsk::Seed { .. }));
        let is_mark = |ask: &Ask| matches!(ask, Ask::Log(LogAsk::Push(_)));
        let is_cell = |to: NodeId, index: u8| to == NodeId::Cell(index);
        let is_log = |to: NodeId, index: u8| matches!(to, NodeId::Log(id) if id.index == index);
        for cell in &step.read {
            self.send(by, |to, ask| is_read(ask) && is_cell(to, cell.0));
        }
        for log in &step.lock {
            self.send(by, |to, ask| is_lock(ask) && is_log(to, log.0));
        }
        while self.send(by, |_, ask| is_peek(ask)) {}
        self.send(by, |_, ask| is_seed(ask));
        for cell in &step.write {
            self.send(by, |to, ask| is_write(ask) && is_cell(to, cell.0));
        }
        for log in &step.mark {
            self.send(by, |to, ask| is_mark(ask) && is_log(to, log.0));
        }
        Ok(())
    }

    /// Sends those asks of a node that are pending and wanted; one that is no longer pending when its turn
    /// comes is passed over. Whether any of them brought something new.
    fn send(&mut self, by: NodeId, wanted: impl Fn(NodeId, &Ask) -> bool) -> bool {
        let mut has_new = false;
        for message in self.world.pending(by) {
            if wanted(message.0, &message.1) && (!has_new || self.world.pending(by).contains(&message)) {
                let heard = self.exchange(by, message.0, &message.1);
                has_new |= heard == Some(Heard::Recoverer(true));
            }
        }
        has_new
    }
}
