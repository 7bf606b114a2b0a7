//! `end`: what the replies of locked logs say of the end of their epoch.

use crate::forms::{object, Byte, Version};
use crate::said::say;
use std::io::{self, Write};

type Reply = (Byte, Version, Version);

object! { Script { replies: Vec<Reply> as Vec<Reply> } }

/// The logs of the generation, and on how many of them each tag stands.
#[derive(Clone, Copy, Debug, PartialEq)]
pub struct Options {
    pub logs: u8,
    pub degree: u8,
}

/// The replies so far are in an array, and what they come to is kept as they come.
pub fn print(script: Script, options: Options, output: &mut impl Write) -> io::Result<()> {
    let mut replies = [None; 16];
    let (mut number, mut pev, mut rv) = (0, 0, u64::MAX);
    for (index, durable, known) in script.replies {
        let reply = (durable.0, known.0);
        if index.0 >= options.logs {
            say!(output, "refused Stranger\n")?;
            continue;
        }
        match replies[usize::from(index.0)] {
            Some(held) if held != reply => {
                say!(output, "refused Differs\n")?;
                continue;
            }
            Some(_) => {}
            None => {
                replies[usize::from(index.0)] = Some(reply);
                (number, pev, rv) = (number + 1, known.0.max(pev), durable.0.min(rv));
            }
        }
        if number <= options.logs - options.degree {
            say!(output, "none\n")?;
        } else if pev <= rv {
            say!(output, "pev ", pev, " rv ", rv, "\n")?;
        } else {
            say!(output, "inconsistent\n")?;
        }
    }
    Ok(())
}
