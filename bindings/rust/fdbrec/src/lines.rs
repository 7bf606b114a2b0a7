use std::iter::FusedIterator;

/// What a machine does at a tell that it hears, or at a batch that it takes.
#[derive(Clone, Debug)]
pub struct Heard {
    line: String,
}

impl Heard {
    pub(crate) fn new(line: String) -> Self {
        Heard { line }
    }

    /// The line of the library: `{"asks":[[NODE,ASK],..],"outcome":OUTCOME}`.
    pub fn line(&self) -> &str {
        &self.line
    }

    /// What it then asks. These asks are new; asks whose tells it still wants are in [`Hears::next`](crate::Hears).
    pub fn asks(&self) -> Asks<'_> {
        Asks::of(self.member("asks"))
    }

    /// What a proxy says of its batch; `null` at any other machine, and of a batch that was just taken.
    pub fn outcome(&self) -> &str {
        self.member("outcome")
    }

    fn member(&self, name: &str) -> &str {
        let own = members(&self.line).find_map(|it| it.strip_prefix('"')?.strip_prefix(name)?.strip_prefix("\":"));
        own.unwrap_or("null")
    }
}

/// Asks, each behind the node that is asked: an iterator over the pairs of a list `[[NODE,ASK],..]`.
#[derive(Clone, Debug)]
pub struct Asks<'a> {
    pairs: Members<'a>,
}

impl<'a> Asks<'a> {
    pub fn of(list: &'a str) -> Self {
        Asks { pairs: members(list) }
    }
}

impl<'a> Iterator for Asks<'a> {
    type Item = (&'a str, &'a str);

    fn next(&mut self) -> Option<Self::Item> {
        let mut pair = members(self.pairs.next()?);
        Some((pair.next()?, pair.next()?))
    }
}

impl FusedIterator for Asks<'_> {}

/// The members of a list or an object that the library wrote, as they are written: a name stands before its value.
fn members(text: &str) -> Members<'_> {
    Members { left: text.get(1..text.len().saturating_sub(1)).unwrap_or("") }
}

#[derive(Clone, Debug)]
struct Members<'a> {
    left: &'a str,
}

impl<'a> Iterator for Members<'a> {
    type Item = &'a str;

    fn next(&mut self) -> Option<&'a str> {
        if self.left.is_empty() {
            return None;
        }
        let (mut depth, mut is_text, mut is_escape) = (0, false, false);
        let end = self.left.bytes().position(|byte| {
            match byte {
                _ if is_escape => is_escape = false,
                b'\\' => is_escape = true,
                b'"' => is_text = !is_text,
                _ if is_text => {}
                b'[' | b'{' => depth += 1,
                b']' | b'}' => depth -= 1,
                b',' => return depth == 0,
                _ => {}
            }
            false
        });
        let (member, left) = match end {
            Some(at) => (&self.left[..at], &self.left[at + 1..]),
            None => (self.left, ""),
        };
        self.left = left;
        Some(member)
    }
}

impl FusedIterator for Members<'_> {}

#[cfg(test)]
mod tests {
    use super::*;

    #[test]
    fn asks_are_told_apart() {
        let line = r#"{"asks":[[{"log":{"epoch":257,"index":0}},{"log":{"lock":{"epoch":257}}}],[{"a":",]"},{}]],"outcome":{"ended":{}}}"#;
        let heard = Heard::new(line.into());
        let asks: Vec<_> = heard.asks().collect();
        let lock = (r#"{"log":{"epoch":257,"index":0}}"#, r#"{"log":{"lock":{"epoch":257}}}"#);
        assert_eq!(asks, [lock, (r#"{"a":",]"}"#, "{}")]);
        assert_eq!(heard.outcome(), r#"{"ended":{}}"#);
        assert_eq!(Heard::new(r#"{"asks":[],"outcome":null}"#.into()).asks().count(), 0);
    }
}
