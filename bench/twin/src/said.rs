//! Lines of output, and bytes as text.

/// Writes texts and numbers one behind the other.
macro_rules! say {
    ($output:expr, $($part:expr),* $(,)?) => {
        write!($output, $crate::said::marks!($($part),*), $($part),*)
    };
}

/// A mark for each part.
macro_rules! marks {
    ($($part:expr),*) => { concat!($($crate::said::mark!($part)),*) };
}

macro_rules! mark {
    ($part:expr) => { "{}" };
}

pub(crate) use {mark, marks, say};

/// The line of a key and its value.
pub fn push_row(line: &mut Vec<u8>, key: &[u8], value: &[u8]) {
    push_text(line, key);
    line.push(b' ');
    push_text(line, value);
    line.push(b'\n');
}

/// Lower-case hex, or `-` for no bytes.
pub fn push_text(text: &mut Vec<u8>, bytes: &[u8]) {
    if bytes.is_empty() {
        text.push(b'-');
        return;
    }
    let start = text.len();
    text.resize(start + 2 * bytes.len(), 0);
    for (pair, byte) in text[start..].chunks_exact_mut(2).zip(bytes) {
        pair.copy_from_slice(&PAIRS[*byte as usize]);
    }
}

/// The two digits of each byte.
const PAIRS: [[u8; 2]; 256] = {
    let mut pairs = [[0; 2]; 256];
    let mut byte = 0;
    while byte < 256 {
        let digits = b"0123456789abcdef";
        pairs[byte] = [digits[byte >> 4], digits[byte & 15]];
        byte += 1;
    }
    pairs
};
