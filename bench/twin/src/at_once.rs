//! Where the twin by hand runs a script while it reads it: this one reads all of it first.

use std::io::{self, Write};

pub fn apply(_text: &[u8], _output: &mut impl Write) -> Option<io::Result<()>> {
    None
}

pub fn simulate(_text: &[u8], _output: &mut impl Write) -> Option<io::Result<()>> {
    None
}
