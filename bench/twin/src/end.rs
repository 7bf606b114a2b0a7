//! `end`: what the replies of locked logs say of the end of their epoch.

use crate::forms::{object, Byte, Version};
use crate::said::say;
use std::collections::BTreeMap;
use std::io::{self, Write};

type Reply = (Byte, Version, Version);

object! { Script { replies: Vec<Reply> as Vec<Reply> } }

/// The logs of the generation, and on how many of them each tag stands.
#[derive(Clone, Copy, Debug, PartialEq)]
pub struct Options {
    pub logs: u8,
    pub degree: u8,
}

pub fn print(script: Script, options: Options, output: &mut impl Write) -> io::Result<()> {
    let mut replies: BTreeMap<u8, (u64, u64)> = BTreeMap::new();
    for (index, durable, known) in script.replies {
        let reply = (durable.0, known.0);
        if index.0 >= options.logs {
            say!(output, "refused Stranger\n")?;
        } else if *replies.entry(index.0).or_insert(reply) != reply {
            say!(output, "refused Differs\n")?;
        } else if replies.len() <= usize::from(options.logs - options.degree) {
            say!(output, "none\n")?;
        } else {
            let pev = replies.values().map(|(_, known)| *known).max().unwrap_or(0);
            let rv = replies.values().map(|(durable, _)| *durable).min().unwrap_or(0);
            match pev <= rv {
                true => say!(output, "pev ", pev, " rv ", rv, "\n")?,
                false => say!(output, "inconsistent\n")?,
            }
        }
    }
    Ok(())
}
