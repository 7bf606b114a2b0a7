//! Lower-case hex, 16 digits at a time, and the end of a text.
//!
//! UNSAFE. It calls instructions that the whole program is compiled for, and loads 16 bytes from an array of 16. Measured
//! (`apply small 10,000`): texts and hex, byte by byte, took 35 million instructions more of 138.

/// What 16 bytes stand for as digits: the bytes of the first ones that are digits, as a number whose lowest byte comes
/// first, and how many of them are. What is behind them in the number says nothing.
#[inline]
fn decode_16(digits: &[u8; 16]) -> (u64, usize) {
    #[cfg(all(target_arch = "x86_64", target_feature = "ssse3"))]
    // SAFETY: the whole program is compiled for processors that have SSSE3.
    return unsafe { sse::decode_16(digits) };
    #[cfg(not(all(target_arch = "x86_64", target_feature = "ssse3")))]
    return plain::decode_16(digits);
}

/// Where the next quote stands among 16 bytes; 16 where there is none.
#[inline]
fn find_quote_16(bytes: &[u8; 16]) -> usize {
    #[cfg(all(target_arch = "x86_64", target_feature = "ssse3"))]
    // SAFETY: as above.
    return unsafe { sse::find_quote_16(bytes) };
    #[cfg(not(all(target_arch = "x86_64", target_feature = "ssse3")))]
    return plain::find_quote_16(bytes);
}

/// The number of eight decimal digits, if so many are there.
#[inline]
pub fn eight(digits: &[u8]) -> Option<u64> {
    const ALL: u64 = 0x0101_0101_0101_0101;
    let bytes = u64::from_le_bytes(*digits.first_chunk()?);
    // Both a digit and a digit with 6 added have a 3 in their upper half.
    let is_digits = (bytes | bytes.wrapping_add(6 * ALL)) & (0xf0 * ALL) == 0x30 * ALL && bytes & (0xf0 * ALL) == 0x30 * ALL;
    if !is_digits {
        return None;
    }
    // Of each two, each four, and all eight: the first part counts 10, 100, 10,000 times.
    let halves = bytes & (0x0f * ALL);
    let pairs = halves.wrapping_mul(10 << 8 | 1) >> 8 & 0x00ff_00ff_00ff_00ff;
    let fours = pairs.wrapping_mul(100 << 16 | 1) >> 16 & 0x0000_ffff_0000_ffff;
    Some(fours.wrapping_mul(10_000 << 32 | 1) >> 32)
}

/// The first 16 bytes, or all there are and zeros behind them.
#[inline]
fn front(bytes: &[u8]) -> [u8; 16] {
    match bytes.first_chunk() {
        Some(chunk) => *chunk,
        None => short_front(bytes),
    }
}

#[cold]
fn short_front(bytes: &[u8]) -> [u8; 16] {
    let mut chunk = [0; 16];
    chunk[..bytes.len()].copy_from_slice(bytes);
    chunk
}

/// The bytes of the first 16 digits at most, as `decode_16` gives them.
#[inline]
pub fn decode_front(digits: &[u8]) -> (u64, usize) {
    decode_16(&front(digits))
}

/// Where the next quote stands.
#[inline]
pub fn find_quote(bytes: &[u8]) -> Option<usize> {
    let mut at = 0;
    while at < bytes.len() {
        let place = find_quote_16(&front(&bytes[at..]));
        if place < 16 {
            return Some(at + place);
        }
        at += 16;
    }
    None
}

/// The bytes of a text of hex, of 16 digits at least.
#[inline]
pub fn decode(digits: &[u8]) -> Option<Vec<u8>> {
    if digits.len() % 2 != 0 {
        return None;
    }
    let last = decode_16(digits.last_chunk()?);
    let mut is_hex = last.1 == 16;
    let mut bytes = Vec::with_capacity(digits.len() / 2);
    for chunk in digits.as_chunks::<16>().0 {
        let (decoded, count) = decode_16(chunk);
        is_hex &= count == 16;
        bytes.extend_from_slice(&decoded.to_le_bytes());
    }
    // What is left is less than 16 digits, and the last ones of the last 16.
    let left = digits.len() / 2 - bytes.len();
    bytes.extend_from_slice(&last.0.to_le_bytes()[8 - left..]);
    is_hex.then_some(bytes)
}

/// The digits of 16 bytes.
#[inline]
fn encode_16(bytes: &[u8; 16]) -> [u8; 32] {
    #[cfg(all(target_arch = "x86_64", target_feature = "ssse3"))]
    // SAFETY: as above.
    return unsafe { sse::encode_16(bytes) };
    #[cfg(not(all(target_arch = "x86_64", target_feature = "ssse3")))]
    return plain::encode_16(bytes);
}

/// Puts the digits of bytes behind a text.
pub fn encode(bytes: &[u8], text: &mut Vec<u8>) {
    text.reserve(2 * bytes.len());
    let (chunks, rest) = bytes.as_chunks();
    for chunk in chunks {
        text.extend_from_slice(&encode_16(chunk));
    }
    if !rest.is_empty() {
        text.extend_from_slice(&encode_16(&front(rest))[..2 * rest.len()]);
    }
}

#[cfg(all(target_arch = "x86_64", target_feature = "ssse3"))]
mod sse {
    use std::arch::x86_64::*;

    #[inline]
    #[target_feature(enable = "sse2")]
    fn load(bytes: &[u8; 16]) -> __m128i {
        // SAFETY: 16 bytes are read, which are there; the load wants no alignment.
        unsafe { _mm_loadu_si128(bytes.as_ptr().cast()) }
    }

    /// Where bytes are from `least` on by at most `more`, all ones; and by how much they are.
    #[inline]
    #[target_feature(enable = "sse2")]
    fn within(bytes: __m128i, least: u8, more: i8) -> (__m128i, __m128i) {
        let above = _mm_sub_epi8(bytes, _mm_set1_epi8(least as i8));
        (_mm_cmpeq_epi8(_mm_min_epu8(above, _mm_set1_epi8(more)), above), above)
    }

    #[inline]
    #[target_feature(enable = "ssse3")]
    pub fn decode_16(digits: &[u8; 16]) -> (u64, usize) {
        let bytes = load(digits);
        let (is_digit, digit) = within(bytes, b'0', 9);
        let (is_letter, letter) = within(bytes, b'a', 5);
        let letter = _mm_add_epi8(letter, _mm_set1_epi8(10));
        let halves = _mm_or_si128(_mm_and_si128(is_digit, digit), _mm_and_si128(is_letter, letter));
        // Of each two the first one counts 16 times.
        let pairs = _mm_maddubs_epi16(halves, _mm_set1_epi16(0x0110));
        let decoded = _mm_cvtsi128_si64(_mm_packus_epi16(pairs, pairs)) as u64;
        let is_hex = _mm_movemask_epi8(_mm_or_si128(is_digit, is_letter)) as u32;
        (decoded, (!is_hex).trailing_zeros() as usize)
    }

    #[inline]
    #[target_feature(enable = "ssse3")]
    pub fn encode_16(bytes: &[u8; 16]) -> [u8; 32] {
        let (bytes, names, half) = (load(bytes), load(b"0123456789abcdef"), _mm_set1_epi8(15));
        let low = _mm_shuffle_epi8(names, _mm_and_si128(bytes, half));
        let high = _mm_shuffle_epi8(names, _mm_and_si128(_mm_srli_epi16(bytes, 4), half));
        let mut digits = [0; 32];
        let place: *mut __m128i = digits.as_mut_ptr().cast();
        // SAFETY: both stores are within the 32 bytes, and want no alignment.
        unsafe {
            _mm_storeu_si128(place, _mm_unpacklo_epi8(high, low));
            _mm_storeu_si128(place.add(1), _mm_unpackhi_epi8(high, low));
        }
        digits
    }

    #[inline]
    #[target_feature(enable = "sse2")]
    pub fn find_quote_16(bytes: &[u8; 16]) -> usize {
        let is_quote = _mm_cmpeq_epi8(load(bytes), _mm_set1_epi8(b'"' as i8));
        (_mm_movemask_epi8(is_quote) as u32 | 1 << 16).trailing_zeros() as usize
    }
}

/// The same without SSSE3.
#[cfg(any(test, not(all(target_arch = "x86_64", target_feature = "ssse3"))))]
mod plain {
    pub fn decode_16(digits: &[u8; 16]) -> (u64, usize) {
        let mut decoded = [0; 8];
        for (place, digit) in digits.iter().enumerate() {
            let half = match digit {
                b'0'..=b'9' => digit - b'0',
                b'a'..=b'f' => digit - b'a' + 10,
                _ => return (u64::from_le_bytes(decoded), place),
            };
            decoded[place / 2] |= half << (4 * (1 - place % 2));
        }
        (u64::from_le_bytes(decoded), 16)
    }

    pub fn encode_16(bytes: &[u8; 16]) -> [u8; 32] {
        std::array::from_fn(|place| b"0123456789abcdef"[usize::from(bytes[place / 2] >> (4 * (1 - place % 2)) & 15)])
    }

    pub fn find_quote_16(bytes: &[u8; 16]) -> usize {
        bytes.iter().position(|byte| *byte == b'"').unwrap_or(16)
    }
}

#[cfg(test)]
mod tests {
    use super::{decode, decode_16, eight, encode, encode_16, find_quote, find_quote_16, plain};

    #[test]
    fn sixteen_at_once_are_as_one_by_one() {
        let mut chunk = *b"0123456789abcdef";
        for place in 0..16 {
            for byte in 0..=255 {
                assert_eq!(encode_16(&[byte; 16]), plain::encode_16(&[byte; 16]));
                let kept = std::mem::replace(&mut chunk[place], byte);
                let (ours, plain) = (decode_16(&chunk), plain::decode_16(&chunk));
                let mask = (1_u128 << (8 * (ours.1 / 2))) as u64;
                assert_eq!(ours.1, plain.1);
                assert_eq!(ours.0 & mask.wrapping_sub(1), plain.0 & mask.wrapping_sub(1), "{chunk:?}");
                assert_eq!(find_quote_16(&chunk), plain::find_quote_16(&chunk));
                chunk[place] = kept;
            }
        }
    }

    #[test]
    fn eight_digits_are_a_number() {
        for number in [0, 1, 9, 10, 12_345_678, 87_654_321, 99_999_999, 10_000_000] {
            assert_eq!(eight(format!("{number:08}").as_bytes()), Some(number));
        }
        for place in 0..8 {
            for byte in 0..=255_u8 {
                let mut digits = *b"12345678 ";
                digits[place] = byte;
                assert_eq!(eight(&digits).is_some(), byte.is_ascii_digit(), "{digits:?}");
            }
        }
        assert_eq!(eight(b"1234567"), None);
    }

    #[test]
    fn texts_of_all_lengths() {
        for length in 8..80 {
            let bytes: Vec<u8> = (0..length).map(|place| (place * 37 + length) as u8).collect();
            let mut text = Vec::new();
            encode(&bytes, &mut text);
            assert_eq!(text, hex::encode(&bytes).into_bytes());
            assert_eq!(decode(&text), Some(bytes));
            for place in 0..text.len() {
                for wrong in [b'G', b'F', b'"', b'/', b':', b'`', b'g', 0x80, 0xff] {
                    let mut text = text.clone();
                    text[place] = wrong;
                    assert_eq!(decode(&text), None);
                    assert_eq!(find_quote(&text), (wrong == b'"').then_some(place));
                }
            }
            assert_eq!(decode(&text[1..]), None);
        }
    }
}
