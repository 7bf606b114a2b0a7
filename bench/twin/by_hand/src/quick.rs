//! Reads a script straight into its types, in one walk over its bytes.
//!
//! It knows what programs write: names without escapes and each once, texts of ASCII. Whatever else it meets, a mistake
//! among them, it answers with none, and the text is read again by serde. So it need not name a mistake, and what it
//! takes is what serde would take.

use crate::batch::Mutation;
use crate::blob::Blob;
use crate::digits;
use crate::forms::{Ballot, Number};

/// A form that the reader knows.
pub trait Quick: Sized {
    fn quick(from: &mut Reader) -> Option<Self>;
}

/// What a text says of a form, or none.
pub fn read<T: Quick>(text: &[u8]) -> Option<T> {
    let mut from = Reader::new(text);
    let form = T::quick(&mut from)?;
    from.ends().then_some(form)
}

pub struct Reader<'a> {
    text: &'a [u8],
    at: usize,
    /// Room for the mutations of a batch, whose number is known at its end.
    pub mutations: Vec<Mutation>,
}

/// How many times 16 digits are decoded before it is known how many there are.
const ROOM: usize = 16;

/// What stands for a byte behind the end, or one that is no JSON.
const END: u8 = 0;

impl<'a> Reader<'a> {
    pub fn new(text: &'a [u8]) -> Self {
        Reader { text, at: 0, mutations: Vec::new() }
    }

    /// Whether nothing more stands there.
    pub fn ends(&mut self) -> bool {
        self.peek() == END && self.at == self.text.len()
    }

    /// The next byte that is not between tokens.
    #[inline]
    pub fn peek(&mut self) -> u8 {
        match self.text.get(self.at) {
            Some(byte) if *byte > b' ' => *byte,
            _ => self.peek_behind_blanks(),
        }
    }

    #[cold]
    fn peek_behind_blanks(&mut self) -> u8 {
        loop {
            match self.text.get(self.at) {
                Some(b' ' | b'\n' | b'\r' | b'\t') => self.at += 1,
                Some(byte) if *byte > b' ' => return *byte,
                _ => return END,
            }
        }
    }

    #[inline]
    pub fn take(&mut self, token: u8) -> Option<()> {
        if self.peek() != token {
            return None;
        }
        self.at += 1;
        Some(())
    }

    /// Behind an opening bracket: whether anything is in it.
    #[inline]
    pub fn has_any(&mut self, close: u8) -> bool {
        let is_closed = self.peek() == close;
        self.at += usize::from(is_closed);
        !is_closed
    }

    /// Behind a value: whether another one follows in its brackets.
    #[inline]
    pub fn has_more(&mut self, close: u8) -> Option<bool> {
        let token = self.peek();
        if token != b',' && token != close {
            return None;
        }
        self.at += 1;
        Some(token == b',')
    }

    /// Takes these bytes, if they come next: a name in quotes with its colon, or a word.
    #[inline]
    pub fn is_next(&mut self, bytes: &[u8]) -> bool {
        self.peek();
        let is_next = self.text[self.at..].starts_with(bytes);
        if is_next {
            self.at += bytes.len();
        }
        is_next
    }

    /// A number in digits alone.
    #[inline]
    pub fn number(&mut self) -> Option<u64> {
        self.peek();
        let mut number: u64 = 0;
        let digits = &self.text[self.at..];
        let mut length = 0;
        while let Some(byte) = digits.get(length) {
            let digit = byte.wrapping_sub(b'0');
            if digit > 9 {
                break;
            }
            // (beyond 19 digits it is refused)
            number = number.wrapping_mul(10).wrapping_add(digit.into());
            length += 1;
            if length == 3 {
                // It may be a long one.
                while let Some(eight) = digits::eight(&digits[length..]) {
                    number = number.wrapping_mul(100_000_000).wrapping_add(eight);
                    length += 8;
                }
            }
        }
        self.at += length;
        let is_right = matches!(length, 1..=19) && (length == 1 || digits[0] != b'0');
        is_right.then_some(number)
    }

    /// Bytes in hex.
    #[inline]
    pub fn bytes(&mut self) -> Option<Blob> {
        self.take(b'"')?;
        let digits = &self.text[self.at..];
        let (low, count) = digits::decode_front(digits);
        if count < 16 {
            self.at += count + 1;
            return (digits.get(count) == Some(&b'"') && count % 2 == 0).then(|| Blob::in_place(low.into(), count / 2));
        }
        let (high, more) = digits::decode_front(&digits[16..]);
        if more < 15 {
            let count = 16 + more;
            self.at += count + 1;
            let words = u128::from(high) << 64 | u128::from(low);
            return (digits.get(count) == Some(&b'"') && count % 2 == 0).then(|| Blob::in_place(words, count / 2));
        }
        self.long_bytes()
    }

    /// Bytes in hex that do not stand in place: 31 digits or more.
    fn long_bytes(&mut self) -> Option<Blob> {
        let digits = &self.text[self.at..];
        let mut room = [0; 8 * ROOM];
        for (number, place) in room.as_chunks_mut().0.iter_mut().enumerate() {
            let (bytes, count) = digits::decode_front(digits.get(16 * number..)?);
            *place = bytes.to_le_bytes();
            if count < 16 {
                let count = 16 * number + count;
                self.at += count + 1;
                let is_right = digits.get(count) == Some(&b'"') && count % 2 == 0;
                return is_right.then(|| room[..count / 2].into());
            }
        }
        self.longer_bytes()
    }

    #[cold]
    fn longer_bytes(&mut self) -> Option<Blob> {
        let digits = &self.text[self.at..];
        let digits = &digits[..digits::find_quote(digits)?];
        self.at += digits.len() + 1;
        digits::decode(digits).map(Blob::from)
    }

    /// A text of ASCII without escapes.
    fn text(&mut self) -> Option<&str> {
        self.take(b'"')?;
        let text = &self.text[self.at..];
        let text = &text[..digits::find_quote(text)?];
        self.at += text.len() + 1;
        let is_plain = text.iter().all(|byte| (b' '..0x7f).contains(byte) && *byte != b'\\');
        std::str::from_utf8(text).ok().filter(|_| is_plain)
    }
}

impl<const LEAST: u64, const MOST: u64> Quick for Number<u64, LEAST, MOST> {
    #[inline]
    fn quick(from: &mut Reader) -> Option<Self> {
        from.number().filter(|number| (LEAST..=MOST).contains(number)).map(Number)
    }
}

impl<const LEAST: u64, const MOST: u64> Quick for Number<u8, LEAST, MOST> {
    #[inline]
    fn quick(from: &mut Reader) -> Option<Self> {
        from.number().filter(|number| (LEAST..=MOST).contains(number)).map(|number| Number(number as u8))
    }
}

impl Quick for Ballot {
    #[inline]
    fn quick(from: &mut Reader) -> Option<Self> {
        from.number().and_then(Ballot::new)
    }
}

impl Quick for bool {
    #[inline]
    fn quick(from: &mut Reader) -> Option<Self> {
        if from.is_next(b"true") {
            return Some(true);
        }
        from.is_next(b"false").then_some(false)
    }
}

impl Quick for String {
    fn quick(from: &mut Reader) -> Option<Self> {
        from.text().map(str::to_string)
    }
}

impl<T: Quick> Quick for Option<T> {
    #[inline]
    fn quick(from: &mut Reader) -> Option<Self> {
        if from.peek() == b'n' {
            return from.is_next(b"null").then_some(None);
        }
        T::quick(from).map(Some)
    }
}

impl<T: Quick> Quick for Vec<T> {
    #[inline]
    fn quick(from: &mut Reader) -> Option<Self> {
        from.take(b'[')?;
        let mut items = Vec::new();
        let mut has_more = from.has_any(b']');
        while has_more {
            items.push(T::quick(from)?);
            has_more = from.has_more(b']')?;
        }
        Some(items)
    }
}

impl<T: Quick, U: Quick> Quick for (T, U) {
    #[inline]
    fn quick(from: &mut Reader) -> Option<Self> {
        from.take(b'[')?;
        let one = T::quick(from)?;
        from.take(b',')?;
        let other = U::quick(from)?;
        from.take(b']')?;
        Some((one, other))
    }
}

impl<T: Quick, U: Quick, V: Quick> Quick for (T, U, V) {
    #[inline]
    fn quick(from: &mut Reader) -> Option<Self> {
        from.take(b'[')?;
        let one = T::quick(from)?;
        from.take(b',')?;
        let other = U::quick(from)?;
        from.take(b',')?;
        let third = V::quick(from)?;
        from.take(b']')?;
        Some((one, other, third))
    }
}

/// Reads an object with exactly some members. Each name is looked for where it stands in a script that a program wrote,
/// so that one walk over the names finds all of them.
macro_rules! quick_object {
    ($Name:ident { $($field:ident: $Form:ty),* } { $($option:ident: $OptionForm:ty),* }) => {
        impl $crate::quick::Quick for $Name {
            // (an object without members uses neither)
            #[allow(unused_mut, unused_variables, unused_assignments)]
            fn quick(from: &mut $crate::quick::Reader) -> Option<Self> {
                from.take(b'{')?;
                $(let mut $field: Option<$Form> = None;)*
                $(let mut $option: Option<$OptionForm> = None;)*
                let mut has_more = from.has_any(b'}');
                while has_more {
                    let mut is_known = false;
                    $(if has_more && from.is_next(concat!("\"", stringify!($field), "\":").as_bytes()) {
                        let form = <$Form as $crate::quick::Quick>::quick(from)?;
                        if $field.replace(form).is_some() {
                            return None;
                        }
                        (is_known, has_more) = (true, from.has_more(b'}')?);
                    })*
                    $(if has_more && from.is_next(concat!("\"", stringify!($option), "\":").as_bytes()) {
                        let form = <$OptionForm as $crate::quick::Quick>::quick(from)?;
                        if $option.replace(form).is_some() {
                            return None;
                        }
                        (is_known, has_more) = (true, from.has_more(b'}')?);
                    })*
                    if !is_known {
                        return None;
                    }
                }
                Some($Name {
                    $($field: $field?.into(),)*
                    $($option: $option.map(|form| form.into()),)*
                })
            }
        }
    };
}

/// Reads an object of one member, which names the variant.
macro_rules! quick_variants {
    ($Name:ident { $($name:literal: $Form:ty => $make:expr),* }) => {
        impl $crate::quick::Quick for $Name {
            fn quick(from: &mut $crate::quick::Reader) -> Option<Self> {
                from.take(b'{')?;
                $(if from.is_next(concat!("\"", $name, "\":").as_bytes()) {
                    let make: fn($Form) -> Option<$Name> = $make;
                    let made = make(<$Form as $crate::quick::Quick>::quick(from)?)?;
                    from.take(b'}')?;
                    return Some(made);
                })*
                None
            }
        }
    };
}

pub(crate) use {quick_object, quick_variants};
