//! Lines of `key=value` words, one space between.

/// The longest line, its line feed included.
const MAX_LINE: usize = 32_768;

/// Splits an input into lines; `None` for one over the length or without a
/// line feed.
pub(crate) fn lines(input: &[u8]) -> impl Iterator<Item = Option<&[u8]>> {
    input.split_inclusive(|byte| *byte == b'\n').map(|line| {
        let text = line.strip_suffix(b"\n")?;
        (line.len() <= MAX_LINE).then_some(text)
    })
}

/// What is left of a line.
pub(crate) struct Words<'a> {
    rest: Option<&'a [u8]>,
}

impl<'a> Words<'a> {
    pub(crate) fn new(line: &'a [u8]) -> Self {
        Self { rest: Some(line) }
    }

    /// The value of the next word, which must have this key.
    pub(crate) fn word(&mut self, key: &str) -> Option<&'a [u8]> {
        let rest = self.rest.take()?;
        let rest = rest.strip_prefix(key.as_bytes())?.strip_prefix(b"=")?;
        match rest.iter().position(|byte| *byte == b' ') {
            Some(space) => {
                self.rest = Some(&rest[space + 1..]);
                Some(&rest[..space])
            }
            None => Some(rest),
        }
    }

    pub(crate) fn number(&mut self, key: &str) -> Option<u64> {
        number(self.word(key)?)
    }

    pub(crate) fn flag(&mut self, key: &str) -> Option<bool> {
        match self.word(key)? {
            b"0" => Some(false),
            b"1" => Some(true),
            _ => None,
        }
    }

    pub(crate) fn bytes(&mut self, key: &str) -> Option<Vec<u8>> {
        unhex(self.word(key)?)
    }

    /// `value`, if nothing is left.
    pub(crate) fn end<T>(self, value: T) -> Option<T> {
        self.rest.is_none().then_some(value)
    }
}

/// Decimal without leading zeros, below 2^64.
pub(crate) fn number(text: &[u8]) -> Option<u64> {
    if text.is_empty() || (text.len() > 1 && text[0] == b'0') {
        return None;
    }
    text.iter().try_fold(0u64, |value, digit| {
        let digit = digit.checked_sub(b'0').filter(|digit| *digit < 10)?;
        value.checked_mul(10)?.checked_add(u64::from(digit))
    })
}

/// Lower-case hexadecimal; `-` for no bytes.
pub(crate) fn unhex(text: &[u8]) -> Option<Vec<u8>> {
    if text == b"-" {
        return Some(Vec::new());
    }
    if text.is_empty() || text.len() % 2 == 1 {
        return None;
    }
    text.chunks(2)
        .map(|pair| Some(nibble(pair[0])? << 4 | nibble(pair[1])?))
        .collect()
}

fn nibble(digit: u8) -> Option<u8> {
    match digit {
        b'0'..=b'9' => Some(digit - b'0'),
        b'a'..=b'f' => Some(digit - b'a' + 10),
        _ => None,
    }
}

pub(crate) fn hex(bytes: &[u8]) -> String {
    const DIGITS: &[u8; 16] = b"0123456789abcdef";
    if bytes.is_empty() {
        return "-".to_string();
    }
    let mut out = String::with_capacity(2 * bytes.len());
    for byte in bytes {
        out.push(DIGITS[usize::from(byte >> 4)] as char);
        out.push(DIGITS[usize::from(byte & 15)] as char);
    }
    out
}

/// The entries of an address list: each after a two-byte big-endian length.
/// `None` when it ends inside a length or an address.
pub(crate) fn entries(mut list: &[u8]) -> Option<Vec<&[u8]>> {
    let mut found = Vec::new();
    while !list.is_empty() {
        let (len, rest) = list.split_first_chunk::<2>()?;
        let (entry, rest) = rest.split_at_checked(usize::from(u16::from_be_bytes(*len)))?;
        found.push(entry);
        list = rest;
    }
    Some(found)
}

pub(crate) fn list<'a>(entries: impl IntoIterator<Item = &'a [u8]>) -> Vec<u8> {
    let mut out = Vec::new();
    for entry in entries {
        let len = u16::try_from(entry.len()).expect("an entry fits its length");
        out.extend_from_slice(&len.to_be_bytes());
        out.extend_from_slice(entry);
    }
    out
}
