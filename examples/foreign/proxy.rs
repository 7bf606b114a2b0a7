//! A proxy as a process, written from docs/NODES.md, docs/FORMATS.md and docs/PROTOCOL.md alone.
//!
//!     rustc -O --edition 2021 -o proxy examples/foreign/proxy.rs
//!     tools/router --node proxy=./proxy
use std::collections::HashMap;
use std::io::{self, BufRead, Write};

// ---- JSON

#[derive(Clone, Debug, PartialEq)]
enum Json {
    Null,
    Bool(bool),
    Number(u64),
    Text(String),
    List(Vec<Json>),
    Object(Vec<(String, Json)>),
}

/// Reads JSON whose numbers are digits alone.
struct Reader<'a> {
    text: &'a [u8],
    at: usize,
}

impl Reader<'_> {
    fn whole(text: &[u8]) -> Option<Json> {
        let mut reader = Reader { text, at: 0 };
        let value = reader.value(0)?;
        (reader.peek() == 0).then_some(value)
    }

    /// The next byte that is no space, or 0.
    fn peek(&mut self) -> u8 {
        while self.at < self.text.len() && self.text[self.at].is_ascii_whitespace() {
            self.at += 1;
        }
        *self.text.get(self.at).unwrap_or(&0)
    }

    fn eats(&mut self, byte: u8) -> bool {
        let is_so = self.peek() == byte;
        self.at += is_so as usize;
        is_so
    }

    fn value(&mut self, depth: usize) -> Option<Json> {
        match self.peek() {
            _ if depth > 100 => None,
            b'{' => self.object(depth),
            b'[' => self.list(depth),
            b'"' => self.text().map(Json::Text),
            b'0'..=b'9' => self.number(),
            _ => [("null", Json::Null), ("true", Json::Bool(true)), ("false", Json::Bool(false))]
                .into_iter()
                .find(|(word, _)| self.text[self.at..].starts_with(word.as_bytes()))
                .map(|(word, value)| {
                    self.at += word.len();
                    value
                }),
        }
    }

    fn object(&mut self, depth: usize) -> Option<Json> {
        let mut found = Vec::new();
        self.at += 1;
        while !self.eats(b'}') {
            if !found.is_empty() && !self.eats(b',') || self.peek() != b'"' {
                return None;
            }
            let name = self.text()?;
            if !self.eats(b':') {
                return None;
            }
            found.push((name, self.value(depth + 1)?));
        }
        Some(Json::Object(found))
    }

    fn list(&mut self, depth: usize) -> Option<Json> {
        let mut found = Vec::new();
        self.at += 1;
        while !self.eats(b']') {
            if !found.is_empty() && !self.eats(b',') {
                return None;
            }
            found.push(self.value(depth + 1)?);
        }
        Some(Json::List(found))
    }

    /// A text. No text of a line needs an escape, so one that has any is refused.
    fn text(&mut self) -> Option<String> {
        let rest = &self.text[self.at + 1..];
        let end = rest.iter().position(|byte| matches!(byte, b'"' | b'\\' | 0..=31))?;
        if rest[end] != b'"' {
            return None;
        }
        self.at += end + 2;
        String::from_utf8(rest[..end].to_vec()).ok()
    }

    fn number(&mut self) -> Option<Json> {
        let rest = &self.text[self.at..];
        let end = rest.iter().position(|byte| !byte.is_ascii_digit()).unwrap_or(rest.len());
        self.at += end;
        std::str::from_utf8(&rest[..end]).ok()?.parse().ok().map(Json::Number)
    }
}

impl Json {
    fn get(&self, name: &str) -> Option<&Json> {
        match self {
            Json::Object(its) => its.iter().rev().find(|it| it.0 == name).map(|it| &it.1),
            _ => None,
        }
    }

    fn number(&self, name: &str) -> Option<u64> {
        match self.get(name) {
            Some(Json::Number(number)) => Some(*number),
            _ => None,
        }
    }

    fn text(&self, name: &str) -> Option<&str> {
        match self.get(name) {
            Some(Json::Text(text)) => Some(text),
            _ => None,
        }
    }

    fn list(&self, name: &str) -> Option<&[Json]> {
        match self.get(name) {
            Some(Json::List(its)) => Some(its),
            _ => None,
        }
    }

    /// A variant: an object of one member.
    fn only(&self) -> Option<(&str, &Json)> {
        match self {
            Json::Object(its) if its.len() == 1 => Some((&its[0].0, &its[0].1)),
            _ => None,
        }
    }

    fn write(&self, out: &mut String) {
        let mut put = |ends: [char; 2], its: &mut dyn Iterator<Item = (Option<&String>, &Json)>| {
            out.push(ends[0]);
            for (at, (name, value)) in its.enumerate() {
                out.push_str(if at > 0 { "," } else { "" });
                if let Some(name) = name {
                    *out += &format!("\"{name}\":");
                }
                value.write(out);
            }
            out.push(ends[1]);
        };
        match self {
            Json::Null => out.push_str("null"),
            Json::Bool(value) => *out += &value.to_string(),
            Json::Number(number) => *out += &number.to_string(),
            Json::Text(text) => *out += &format!("\"{text}\""),
            Json::List(its) => put(['[', ']'], &mut its.iter().map(|it| (None, it))),
            Json::Object(its) => put(['{', '}'], &mut its.iter().map(|it| (Some(&it.0), &it.1))),
        }
    }
}

fn object<const N: usize>(its: [(&str, Json); N]) -> Json {
    Json::Object(its.into_iter().map(|(name, value)| (name.to_string(), value)).collect())
}

fn variant(name: &str, value: Json) -> Json {
    object([(name, value)])
}

fn text(text: &str) -> Json {
    Json::Text(text.to_string())
}

use Json::{List, Number};

// ---- the proxy

/// The batch under way.
struct Open {
    batch: Vec<Json>,
    step: u64,
    /// Its version and the one before, once it has them.
    place: Option<(u64, u64)>,
    held: Vec<bool>,
}

struct Proxy {
    epoch: u64,
    number: u64,
    logs: u64,
    degree: u64,
    shards: Vec<String>,
    known: u64,
    request: u64,
    open: Option<Open>,
    is_over: bool,
    clock: u64,
}

/// Why a line is not done: a code, and a text.
type Refusal = (u64, String);

fn missing(name: &str) -> Refusal {
    (12, name.to_string())
}

impl Proxy {
    fn last(&self) -> Json {
        variant("proxy", object([("known", Number(self.known))]))
    }

    fn entered(&mut self, at: u64, act: Json) -> Json {
        self.clock = self.clock.max(at) + 1;
        object([("act", act), ("stamp", Number(self.clock))])
    }

    /// The asks whose tells are wanted.
    fn wants(&self) -> Json {
        let Some(open) = &self.open else {
            return List(Vec::new());
        };
        let Some((prev, version)) = open.place else {
            let its = [("proxy", Number(self.number)), ("request", Number(self.request)), ("step", Number(open.step))];
            let to = variant("sequencer", object([("epoch", Number(self.epoch))]));
            return List(vec![List(vec![to, variant("seq", variant("next", object(its)))])]);
        };
        let waiting = (0..self.logs).filter(|at| !open.held[*at as usize]);
        List(waiting.map(|at| self.push(open, at, prev, version)).collect())
    }

    fn push(&self, open: &Open, at: u64, prev: u64, version: u64) -> Json {
        let tags = 0..self.shards.len() as u64;
        let mine = tags.filter(|tag| (at + self.logs * 32 - tag) % self.logs < self.degree);
        let bodies = mine.map(|tag| (tag, self.clipped(&open.batch, tag as usize)));
        let bodies = bodies.filter(|(_, part)| !part.is_empty());
        let bodies = bodies.map(|(tag, part)| List(vec![Number(tag), List(part)])).collect();
        let push = [
            ("bodies", List(bodies)),
            ("epoch", Number(self.epoch)),
            ("known", Number(self.known)),
            ("mark", Json::Null),
            ("prev", Number(prev)),
            ("version", Number(version)),
        ];
        let to = variant("log", object([("epoch", Number(self.epoch)), ("index", Number(at))]));
        List(vec![to, variant("log", variant("push", object(push)))])
    }

    /// The part of a batch inside a shard. Lower case hex compares as its bytes do.
    fn clipped(&self, batch: &[Json], tag: usize) -> Vec<Json> {
        let (low, high) = (self.shards[tag].as_str(), self.shards.get(tag + 1).map(String::as_str));
        let part = |mutation: &Json| {
            let (name, it) = mutation.only()?;
            if name != "clear" {
                let key = it.text("key")?;
                return (low <= key && high.is_none_or(|high| key < high)).then(|| mutation.clone());
            }
            let begin = it.text("begin")?.max(low);
            let end = high.map_or(it.text("end")?, |high| it.text("end").unwrap_or("").min(high));
            let cut = object([("begin", text(begin)), ("end", text(end))]);
            (begin < end).then(|| variant("clear", cut))
        };
        batch.iter().filter_map(part).collect()
    }

    /// Takes a tell, and says what it then says of its batch.
    fn heard(&mut self, from: &Json, tell: &Json) -> Option<Json> {
        let waiting = variant("waiting", object([]));
        let (place, its) = from.only()?;
        let (name, said) = tell.only()?.1.only()?;
        let why = said.get("why").and_then(Json::only).map_or("", |why| why.0);
        let is_mine = its.number("epoch") == Some(self.epoch);
        let (epochs_logs, known) = (self.logs, self.known);
        let Some(open) = self.open.as_mut().filter(|_| is_mine) else {
            return Some(waiting);
        };
        let log = its.number("index").filter(|at| place == "log" && *at < epochs_logs);
        if place == "sequencer" && name == "numbered" && open.place.is_none() {
            let (prev, version) = (said.number("prev")?, said.number("version")?);
            let is_fit = known <= prev && prev < version && version <= prev + 1_000_000;
            if said.number("request")? == self.request && is_fit {
                open.place = Some((prev, version));
            }
        } else if place == "sequencer" && why == "spent" || log.is_some() && why == "stopped" {
            (self.open, self.is_over) = (None, true);
            return Some(variant("ended", object([])));
        } else if let (Some(at), "held", Some((_, version))) = (log, name, open.place) {
            open.held[at as usize] |= said.number("version")? == version;
            if open.held.iter().all(|it| *it) {
                (self.open, self.known) = (None, version);
                return Some(variant("committed", object([("version", Number(version))])));
            }
        }
        Some(waiting)
    }

    // ---- lines

    fn hear(&mut self, at: u64, body: &Json) -> Result<Json, Refusal> {
        let from = body.get("from").ok_or(missing("from"))?;
        let tell = body.get("tell").ok_or(missing("tell"))?;
        let outcome = self.heard(from, tell).ok_or(missing("tell"))?;
        let heard = object([("from", from.clone()), ("outcome", outcome), ("taken", Json::Null), ("tell", tell.clone())]);
        Ok(self.entered(at, variant("heard", heard)))
    }

    fn submit(&mut self, at: u64, body: &Json) -> Result<Json, Refusal> {
        let batch = body.list("batch").ok_or(missing("batch"))?.to_vec();
        let step = body.number("step").filter(|step| (1..=1_000_000).contains(step)).ok_or(missing("step"))?;
        if self.open.is_some() || self.is_over {
            return Err((14, if self.open.is_some() { "TwoOpen" } else { "Over" }.to_string()));
        }
        self.request += 1;
        self.open = Some(Open { batch: batch.clone(), step, place: None, held: vec![false; self.logs as usize] });
        let submitted = object([("batch", List(batch)), ("step", Number(step))]);
        Ok(self.entered(at, variant("submitted", submitted)))
    }

    /// The members of the answer to a body.
    fn answer(&mut self, body: &Json, name: &Json) -> Result<Vec<(String, Json)>, Refusal> {
        let word = body.text("type").ok_or(missing("type"))?;
        let at = || body.number("at").ok_or(missing("at"));
        let mut its = vec![("type".to_string(), Json::Text(format!("{word}_ok")))];
        let mut put = |name: &str, value| its.push((name.to_string(), value));
        match word {
            "init" => put("node", name.clone()),
            "hear" => put("entry", self.hear(at()?, body)?),
            "submit" => put("entry", self.submit(at()?, body)?),
            "last" | "wants" => {}
            _ => return Err((10, word.to_string())),
        }
        if word != "wants" {
            put("last", self.last());
        }
        if matches!(word, "hear" | "submit" | "wants") {
            put("wants", self.wants());
        }
        Ok(its)
    }
}

fn replied(proxy: &mut Proxy, line: &[u8]) -> String {
    let line = Reader::whole(line).unwrap_or(Json::Null);
    let body = line.get("body").cloned().unwrap_or(Json::Null);
    let name = variant("proxy", object([("epoch", Number(proxy.epoch)), ("number", Number(proxy.number))]));
    let number = body.number("msg_id");
    let answer = match number {
        Some(_) => proxy.answer(&body, &name),
        None => Err(missing("msg_id")),
    };
    let mut its = answer.unwrap_or_else(|(code, why)| {
        let its = [("type", text("error")), ("code", Number(code)), ("text", text(&why))];
        its.into_iter().map(|(name, value)| (name.to_string(), value)).collect()
    });
    its.extend(number.map(|number| ("in_reply_to".to_string(), Number(number))));
    let dest = line.get("src").cloned().unwrap_or(Json::Null);
    let src = Json::Text(format!("proxy {} {}", proxy.epoch, proxy.number));
    let mut out = String::new();
    object([("src", src), ("dest", dest), ("body", Json::Object(its))]).write(&mut out);
    out
}

/// The proxy that the words name, `proxy --epoch E --number P --known V --config FILE`.
fn named(words: &[String]) -> Option<Proxy> {
    let its: HashMap<&str, &String> = words[1..].chunks_exact(2).map(|it| (it[0].as_str(), &it[1])).collect();
    let number = |name: &str| its.get(name)?.parse::<u64>().ok();
    let config = Reader::whole(&std::fs::read(its.get("--config")?).ok()?)?;
    let shards = config.list("shards")?.iter().map(|it| match it {
        Json::Text(text) => Some(text.clone()),
        _ => None,
    });
    Some(Proxy {
        epoch: number("--epoch")?,
        number: number("--number")?,
        logs: config.number("logs")?,
        degree: config.number("degree")?,
        shards: shards.collect::<Option<_>>()?,
        known: number("--known")?,
        request: 0,
        open: None,
        is_over: false,
        clock: 0,
    })
}

fn main() -> io::Result<()> {
    let words: Vec<String> = std::env::args().skip(1).collect();
    let proxy = words.first().filter(|word| *word == "proxy").and_then(|_| named(&words));
    let Some(mut proxy) = proxy else {
        eprintln!("proxy --epoch E --number P --known V --config FILE");
        std::process::exit(2);
    };
    for line in io::stdin().lock().split(b'\n') {
        let mut out = io::stdout().lock();
        writeln!(out, "{}", replied(&mut proxy, &line?))?;
        out.flush()?;
    }
    Ok(())
}
