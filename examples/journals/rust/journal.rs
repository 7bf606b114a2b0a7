//! A journal for an audit: each node appends its acts to a file of its own, and `script` joins the files.
//!
//! Copy this file. Enter an act inside the lock under which the node acts, and before its reply leaves the node.
use std::fmt::Display;
use std::fs::{self, File, OpenOptions};
use std::io::{self, Read, Write};
use std::path::Path;
use std::sync::{Mutex, PoisonError};

/// The journal of one node. A call writes one line and returns its stamp, which the node's next messages carry. What is
/// entered is JSON by its `Display`: a text, a type of yours, or a `serde_json::Value`.
pub struct Journal {
    file_and_clock: Mutex<(File, u64)>,
}

impl Journal {
    /// A file that is there goes on, after a restart. `clock`: the stamp of the act from which the node exists.
    pub fn open(path: impl AsRef<Path>, node: impl Display, clock: u64) -> io::Result<Journal> {
        let mut file = OpenOptions::new().read(true).append(true).create(true).open(path)?;
        let mut text = String::new();
        file.read_to_string(&mut text)?;
        let whole = text.rfind('\n').map_or(0, |at| at + 1); // a kill may have cut off the last line
        file.set_len(whole as u64)?;
        let stamp = |line: &str| line.strip_prefix("{\"stamp\":")?.split(',').next()?.parse().ok();
        let clock = text[..whole].lines().filter_map(stamp).fold(clock, u64::max);
        if whole == 0 {
            file.write_all(format!("{{\"node\":{node}}}\n").as_bytes())?;
        }
        Ok(Journal { file_and_clock: Mutex::new((file, clock)) })
    }

    /// An act that took in a message with the stamp `seen`.
    pub fn enter(&self, act: impl Display, seen: u64) -> io::Result<u64> {
        let mut inside = self.file_and_clock.lock().unwrap_or_else(PoisonError::into_inner);
        inside.1 = inside.1.max(seen) + 1;
        let line = format!("{{\"stamp\":{},\"act\":{act}}}\n", inside.1);
        inside.0.write_all(line.as_bytes())?;
        Ok(inside.1)
    }

    pub fn asked(&self, from: impl Display, ask: impl Display, tell: impl Display, seen: u64) -> io::Result<u64> {
        self.enter(format!("{{\"asked\":{{\"from\":{from},\"ask\":{ask},\"tell\":{tell}}}}}"), seen)
    }

    /// `outcome` is `null` but at a proxy, `taken` but for an answer that a storage server applied in part.
    pub fn heard(
        &self,
        from: impl Display,
        tell: impl Display,
        outcome: impl Display,
        taken: Option<u64>,
        seen: u64,
    ) -> io::Result<u64> {
        let taken = taken.map_or("null".to_string(), |version| version.to_string());
        let its = format!("\"from\":{from},\"tell\":{tell},\"outcome\":{outcome},\"taken\":{taken}");
        self.enter(format!("{{\"heard\":{{{its}}}}}"), seen)
    }

    pub fn submitted(&self, batch: impl Display, step: u64) -> io::Result<u64> {
        self.enter(format!("{{\"submitted\":{{\"batch\":{batch},\"step\":{step}}}}}"), 0)
    }

    pub fn crashed(&self) -> io::Result<u64> {
        self.enter("{\"crashed\":{}}", 0)
    }

    /// The node's last state: without it the audit says `state differs`.
    pub fn close(&self, last: impl Display) -> io::Result<()> {
        let mut inside = self.file_and_clock.lock().unwrap_or_else(PoisonError::into_inner);
        inside.0.write_all(format!("{{\"last\":{last}}}\n").as_bytes())
    }
}

/// The script that bench/judge takes, of the journals in these files.
pub fn script(config: impl Display, paths: &[impl AsRef<Path>]) -> io::Result<String> {
    let mut journals = Vec::new();
    for path in paths {
        let text = fs::read_to_string(path)?;
        let (mut node, mut entries, mut last) = ("", Vec::new(), "null");
        for line in text.split_inclusive('\n').filter_map(|line| line.strip_suffix("}\n")) {
            if let Some(it) = line.strip_prefix("{\"node\":") {
                node = it;
            } else if let Some(it) = line.strip_prefix("{\"last\":") {
                last = it;
            } else {
                entries.push(format!("{line}}}"));
                last = "null";
            }
        }
        if !entries.is_empty() {
            let entries = entries.join(",");
            journals.push(format!("{{\"node\":{node},\"entries\":[{entries}],\"last\":{last}}}"));
        }
    }
    Ok(format!("{{\"config\":{config},\"journals\":[{}]}}", journals.join(",")))
}
