//! Plays the scenarios of the machines that this crate wraps, and compares every tell. A row that the library does not
//! have is left out if it changes nothing, as `made`; else the scenario is played up to it. tests/bindings compares how
//! many were played with how many the texts have.
mod files;
mod json;

use fdbrec::{Asked, Asks, Batch, Cell, Combine, Fault, Heard, Hears, Log, Machine, Proxy, Recoverer, Result};
use fdbrec::{Sequencer, Storage, Store};
use json::Json;
use std::fs;
use std::path::Path;

/// A scenario tells which refusal it is, the library that it is one.
const REFUSALS: [&str; 9] =
    ["TwoOpen", "Over", "Older", "Stranger", "BelowFloor", "NotMyGeneration", "Hole", "NotAfter", "AboveApplied"];

/// Rows that change nothing, and that the library does not have of each machine.
const LEFT_OUT: [&str; 15] = [
    "made",
    "generation",
    "generations",
    "copied",
    "take_back",
    "failed",
    "state",
    "rows",
    "kept",
    "undone",
    "get_at",
    "range",
    "lent",
    "lent_rows",
    "lent_bytes",
];

enum Made {
    Cell(Cell),
    Log(Log),
    Sequencer(Sequencer),
    Proxy(Proxy),
    Recoverer(Recoverer),
    Storage(Storage),
    Store(Store),
}

impl Made {
    /// The machine that the first row of a scenario makes, if the library has it.
    fn of(word: &str, given: &str) -> Option<Made> {
        let it = if given.is_empty() { Json::Null } else { Json::of(given) };
        let shards = || it.at("shards").to_string();
        let made = match word {
            "cell" => Cell::new().map(Made::Cell),
            "log" => Log::new(it.number("epoch"), it.byte("index"), it.byte("m"), it.byte("k")).map(Made::Log),
            "sequencer" => Sequencer::new(it.number("epoch"), it.number("last")).map(Made::Sequencer),
            "proxy" => {
                let (m, k, known) = (it.byte("m"), it.byte("k"), it.number("known"));
                Proxy::new(it.number("epoch"), it.byte("number"), m, k, known, &shards()).map(Made::Proxy)
            }
            "recoverer" => {
                let shape = it.get("logs").map(|_| (it.byte("logs"), it.byte("degree")));
                Recoverer::new(it.number("ballot"), it.byte("coordinators"), &shards(), shape).map(Made::Recoverer)
            }
            "storage" => Storage::new(it.byte("tag"), &it.at("state").to_string()).map(Made::Storage),
            "store" => Store::new().map(Made::Store),
            _ => return None,
        };
        Some(made.unwrap())
    }

    /// What it tells in a row, in the form of a scenario, if the library has such a call.
    fn tell(&mut self, word: &str, given: &str) -> Option<Result<Json>> {
        let it = if given.is_empty() { Json::Null } else { Json::of(given) };
        Some(match (self, word) {
            (Made::Cell(cell), "ask") => ask(cell, "cell", it),
            (Made::Log(log), "ask") => ask(log, "log", it),
            (Made::Sequencer(sequencer), "ask") => ask(sequencer, "seq", it),
            (Made::Cell(cell), "state") => last(cell),
            (Made::Log(log), "state") => last(log),
            (Made::Sequencer(sequencer), "state") => last(sequencer),
            (Made::Proxy(proxy), "state") => last(proxy),
            (Made::Recoverer(recoverer), "state") => last(recoverer),
            (Made::Proxy(proxy), "submit") => proxy.submit(it.number("step"), &batch(it.at("batch"))).map(only_ask),
            (Made::Proxy(proxy), "hear") => hear(proxy, &it).map(|heard| Json::of(heard.line())),
            (Made::Recoverer(recoverer), "hear") => hear(recoverer, &it).map(|heard| asks(heard.asks())),
            (Made::Proxy(proxy), "pending") => proxy.next().map(|list| asks(Asks::of(&list))),
            (Made::Recoverer(recoverer), "pending") => recoverer.next().map(|list| asks(Asks::of(&list))),
            (Made::Storage(storage), "hear" | "follow") => follow(storage, &it),
            (Made::Storage(storage), "next") => storage.next().map(|list| Json::of(Asks::of(&list).next().unwrap().1)),
            (Made::Storage(storage), "read") => read(storage, &it),
            (Made::Storage(storage), "position") => last(storage).map(|it| without(it, "rows")),
            (Made::Storage(storage), "rows") => last(storage).map(|it| it.at("rows").clone()),
            (Made::Store(store), "apply") => {
                store.apply(it.number("version"), &batch(it.at("batch"))).map(|()| Json::Null)
            }
            (Made::Store(store), "undo") => store.undo_to(version(&it)).map(|()| Json::Null),
            (Made::Store(store), "forget") => store.forget_through(version(&it)).map(|()| Json::Null),
            (Made::Store(store), "get") => store.get(&it.bytes()).map(value),
            _ => return None,
        })
    }
}

fn ask(machine: &mut impl Asked, kind: &str, it: Json) -> Result<Json> {
    let tell = machine.ask(&Json::object([(kind, it)]).to_string())?;
    Ok(Json::of(&tell).at(kind).clone())
}

fn last(machine: &mut impl Machine) -> Result<Json> {
    Ok(Json::of(&machine.last()?).variant().1.clone())
}

fn without(it: Json, name: &str) -> Json {
    match it {
        Json::Object(mut members) => {
            members.remove(name);
            Json::Object(members)
        }
        other => other,
    }
}

fn hear(machine: &mut impl Hears, it: &Json) -> Result<Heard> {
    machine.hear(&it.at("from").to_string(), &it.at("tell").to_string())
}

fn follow(storage: &mut Storage, it: &Json) -> Result<Json> {
    let node = format!(r#"{{"log":{{"epoch":{},"index":0}}}}"#, it.number("epoch"));
    let heard = storage.hear(&node, &it.at("tell").to_string())?;
    assert_eq!(heard.line(), r#"{"asks":[],"outcome":null}"#);
    Ok(Json::Null)
}

fn read(storage: &mut Storage, it: &Json) -> Result<Json> {
    let (begin, end) = (it.at("shard").at("begin").bytes(), it.at("shard").at("end"));
    let end = if *end == Json::Null { None } else { Some(end.bytes()) };
    storage.read((&begin, end.as_deref()), &it.at("key").bytes(), it.number("version")).map(value)
}

fn asks(pairs: Asks) -> Json {
    Json::List(pairs.map(|(node, ask)| Json::List(vec![Json::of(node), Json::of(ask)])).collect())
}

fn only_ask(heard: Heard) -> Json {
    let asked: Vec<_> = heard.asks().collect();
    assert_eq!((asked.len(), heard.outcome()), (1, "null"));
    Json::of(asked[0].1)
}

fn version(it: &Json) -> u64 {
    it.to_string().parse().unwrap()
}

fn value(found: Option<Vec<u8>>) -> Json {
    found.map_or(Json::Null, |bytes| Json::Text(bytes.iter().map(|byte| format!("{byte:02x}")).collect()))
}

fn batch(mutations: &Json) -> Batch {
    mutations.list().iter().fold(Batch::new(), |batch, mutation| {
        let (name, it) = mutation.variant();
        let bytes = |name| it.at(name).bytes();
        let combined = |how| batch.clone().combine(how, &bytes("key"), &bytes("param"));
        match name {
            "set" => batch.set(&bytes("key"), &bytes("value")),
            "clear" => batch.clear(&bytes("begin"), &bytes("end")),
            "compare_and_clear" => batch.compare_and_clear(&bytes("key"), &bytes("value")),
            "add" => combined(Combine::Add),
            "and" => combined(Combine::And),
            "or" => combined(Combine::Or),
            "xor" => combined(Combine::Xor),
            "max" => combined(Combine::Max),
            "min" => combined(Combine::Min),
            other => panic!("no mutation {other}"),
        }
    })
}

/// Plays a scenario, and gives how many rows were played, and what differs in the first that does.
fn play(scenario: &files::Scenario) -> (usize, Option<String>) {
    let Some(mut made) = scenario.rows.first().and_then(|row| Made::of(&row.word, &row.given)) else {
        return (0, None);
    };
    let mut count = 0;
    for row in &scenario.rows[1..] {
        let told = match made.tell(&row.word, &row.given) {
            None if LEFT_OUT.contains(&row.word.as_str()) => continue,
            None => break,
            Some(Ok(told)) => told,
            Some(Err(Fault::Refused)) => Json::Text("refused".into()),
            Some(Err(fault)) => Json::Text(format!("{fault:?}")),
        };
        let wanted = match Json::of(&row.wanted) {
            Json::Text(name) if REFUSALS.contains(&name.as_str()) => Json::Text("refused".into()),
            wanted => wanted,
        };
        if told != wanted {
            return (count, Some(format!("{}: {}: told {told}\n    wanted {wanted}", row.line, scenario.name)));
        }
        count += 1;
    }
    (count, None)
}

#[test]
fn machines_tell_what_scenarios_want() {
    let folder = Path::new(env!("CARGO_MANIFEST_DIR")).join("../../../scenarios");
    let mut paths: Vec<_> = fs::read_dir(folder).unwrap().map(|it| it.unwrap().path()).collect();
    paths.retain(|path| path.extension().is_some_and(|it| it == "md") && !path.ends_with("README.md"));
    paths.sort();
    let (mut played, mut rows, mut bad) = (0, 0, Vec::new());
    for path in paths {
        for scenario in files::read(&path) {
            let (count, differs) = play(&scenario);
            played += usize::from(count > 0);
            rows += count;
            bad.extend(differs.map(|it| format!("{}:{it}", path.file_name().unwrap().to_string_lossy())));
        }
    }
    println!("{played} scenarios, {rows} rows played");
    assert!(bad.is_empty(), "{} differ:\n{}", bad.len(), bad.join("\n"));
    assert!(rows > 0, "nothing was played");
}
