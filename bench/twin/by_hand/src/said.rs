//! Lines of output, and bytes as text.

use crate::digits;
use crate::recoverer::Phase;
use std::io::{self, Write};

/// Writes texts and numbers one behind the other, without the machinery of `format_args!`: it took 5 million
/// instructions of `apply small 10,000`.
macro_rules! say {
    ($output:expr, $($part:expr),* $(,)?) => {{
        $($crate::said::Part::say(&$part, $output)?;)*
        std::io::Result::Ok(())
    }};
}

pub(crate) use say;

pub trait Part {
    fn say(&self, output: &mut impl Write) -> io::Result<()>;
}

impl Part for &str {
    #[inline]
    fn say(&self, output: &mut impl Write) -> io::Result<()> {
        output.write_all(self.as_bytes())
    }
}

impl Part for u64 {
    #[inline]
    fn say(&self, output: &mut impl Write) -> io::Result<()> {
        let mut digits = [0; 20];
        let (mut at, mut left) = (20, *self);
        while left >= 100 {
            at -= 2;
            digits[at..at + 2].copy_from_slice(&TWO_DIGITS[(left % 100) as usize]);
            left /= 100;
        }
        at -= 2;
        digits[at..at + 2].copy_from_slice(&TWO_DIGITS[left as usize]);
        output.write_all(&digits[at + usize::from(left < 10)..])
    }
}

impl Part for u8 {
    #[inline]
    fn say(&self, output: &mut impl Write) -> io::Result<()> {
        u64::from(*self).say(output)
    }
}

impl Part for usize {
    #[inline]
    fn say(&self, output: &mut impl Write) -> io::Result<()> {
        (*self as u64).say(output)
    }
}

impl Part for Phase {
    fn say(&self, output: &mut impl Write) -> io::Result<()> {
        write!(output, "{self}")
    }
}

/// The digits of the numbers below 100.
const TWO_DIGITS: [[u8; 2]; 100] = {
    let mut all = [[0; 2]; 100];
    let mut number = 0;
    while number < 100 {
        all[number] = [b'0' + number as u8 / 10, b'0' + number as u8 % 10];
        number += 1;
    }
    all
};

/// The line of a key and its value.
pub fn push_row(line: &mut Vec<u8>, key: &[u8], value: &[u8]) {
    push_text(line, key);
    line.push(b' ');
    push_text(line, value);
    line.push(b'\n');
}

/// Lower-case hex, or `-` for no bytes.
pub fn push_text(text: &mut Vec<u8>, bytes: &[u8]) {
    if bytes.is_empty() {
        text.push(b'-');
        return;
    }
    digits::encode(bytes, text);
}

#[cfg(test)]
mod tests {
    #[test]
    fn numbers_are_in_decimal() {
        for number in [0, 1, 9, 10, 11, 99, 100, 101, 999, 1000, 10_000, 99_999, 1 << 40, u64::MAX] {
            let mut text = Vec::new();
            super::Part::say(&number, &mut text).expect("a vector takes all");
            assert_eq!(text, number.to_string().as_bytes());
        }
    }
}
