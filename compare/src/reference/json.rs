//! JSON by RFC 8259, strictly, as a tree; whole numbers; names that an object has twice.

use std::borrow::Cow;

/// At most this many lists and objects stand one in another
pub const MOST_OPEN: usize = 32;

/// A value; a number as it is written, a string's characters in UTF-8, an object's members in their order
pub enum Json<'a> {
    Null,
    Truth,
    Number(&'a [u8]),
    Text(Quoted<'a>),
    List(Vec<Json<'a>>),
    Object(Vec<Member<'a>>),
}

pub type Member<'a> = (Cow<'a, [u8]>, Json<'a>);

/// A string: where its content starts and how long it is as it stands, and its characters in UTF-8
pub struct Quoted<'a> {
    pub place: (usize, usize),
    pub content: Cow<'a, [u8]>,
}

/// The value that a text is, blanks around it; none where it isn't JSON or too many lists and objects are open at once
pub fn document(text: &[u8]) -> Option<Json<'_>> {
    let mut reader = Reader { text, at: 0 };
    reader.blanks();
    let value = reader.value(0)?;
    reader.blanks();
    (reader.at == text.len()).then_some(value)
}

/// The string whose opening quotation mark stands at an offset; none where no whole string stands there
pub fn string_at(text: &[u8], at: u64) -> Option<Quoted<'_>> {
    let at = usize::try_from(at).ok()?;
    if text.get(at) != Some(&b'"') { return None; }
    Reader { text, at }.string()
}

struct Reader<'a> {
    text: &'a [u8],
    at: usize,
}

impl<'a> Reader<'a> {
    fn peek(&self) -> Option<u8> { self.text.get(self.at).copied() }

    /// Whether these bytes come next; they are passed over where they do
    fn takes(&mut self, bytes: &[u8]) -> bool {
        let there = self.text[self.at..].starts_with(bytes);
        if there { self.at += bytes.len(); }
        there
    }

    /// Section 2: space, tab, line feed, carriage return
    fn blanks(&mut self) {
        while matches!(self.peek(), Some(0x20 | 0x09 | 0x0a | 0x0d)) { self.at += 1; }
    }

    /// Section 3: a value, inside so many open lists and objects
    fn value(&mut self, open: usize) -> Option<Json<'a>> {
        match self.peek()? {
            b'n' => self.takes(b"null").then_some(Json::Null),
            b't' => self.takes(b"true").then_some(Json::Truth),
            b'f' => self.takes(b"false").then_some(Json::Truth),
            b'"' => self.string().map(Json::Text),
            b'[' | b'{' if open == MOST_OPEN => None,
            b'[' => self.list(open + 1),
            b'{' => self.object(open + 1),
            _ => self.number(),
        }
    }

    /// Section 5
    fn list(&mut self, open: usize) -> Option<Json<'a>> {
        let mut items = Vec::new();
        self.at += 1;
        self.blanks();
        if self.takes(b"]") { return Some(Json::List(items)); }
        loop {
            self.blanks();
            items.push(self.value(open)?);
            self.blanks();
            if self.takes(b"]") { return Some(Json::List(items)); }
            if !self.takes(b",") { return None; }
        }
    }

    /// Section 4
    fn object(&mut self, open: usize) -> Option<Json<'a>> {
        let mut members = Vec::new();
        self.at += 1;
        self.blanks();
        if self.takes(b"}") { return Some(Json::Object(members)); }
        loop {
            self.blanks();
            if self.peek() != Some(b'"') { return None; }
            let name = self.string()?.content;
            self.blanks();
            if !self.takes(b":") { return None; }
            self.blanks();
            members.push((name, self.value(open)?));
            self.blanks();
            if self.takes(b"}") { return Some(Json::Object(members)); }
            if !self.takes(b",") { return None; }
        }
    }

    /// Section 6: a minus, an int without leading zeros, a fraction, an exponent
    fn number(&mut self) -> Option<Json<'a>> {
        let start = self.at;
        self.takes(b"-");
        if !self.takes(b"0") { self.digits()?; }
        if self.takes(b".") { self.digits()?; }
        if self.takes(b"e") || self.takes(b"E") {
            let _ = self.takes(b"+") || self.takes(b"-");
            self.digits()?;
        }
        Some(Json::Number(&self.text[start..self.at]))
    }

    /// One digit or more
    fn digits(&mut self) -> Option<()> {
        let start = self.at;
        while self.peek().is_some_and(|c| c.is_ascii_digit()) { self.at += 1; }
        (self.at > start).then_some(())
    }

    /// Section 7, and UTF-8 (section 8.1): characters of one's own memory only where one is escaped
    fn string(&mut self) -> Option<Quoted<'a>> {
        self.at += 1;
        let start = self.at;
        let mut resolved: Option<Vec<u8>> = None;
        loop {
            let from = self.at;
            match self.peek()? {
                b'"' => break,
                b'\\' => {
                    let so_far = resolved.get_or_insert_with(|| self.text[start..from].to_vec());
                    let mut utf8 = [0; 4];
                    self.at += 1;
                    let character = self.escaped()?;
                    so_far.extend(character.encode_utf8(&mut utf8).as_bytes());
                }
                0x00..=0x1f => return None,
                _ => {
                    self.at += character_len(&self.text[from..])?;
                    if let Some(so_far) = &mut resolved { so_far.extend(&self.text[from..self.at]); }
                }
            }
        }
        let end = self.at;
        self.at += 1;
        Some(Quoted { place: (start, end - start), content: resolved.map_or(Cow::Borrowed(&self.text[start..end]), Cow::Owned) })
    }

    /// What follows a backslash. A character past U+FFFF is two escapes, a high surrogate and a low one; neither stands alone
    fn escaped(&mut self) -> Option<char> {
        let letter = self.peek()?;
        self.at += 1;
        let plain = match letter {
            b'"' | b'\\' | b'/' => letter,
            b'b' => 0x08,
            b'f' => 0x0c,
            b'n' => 0x0a,
            b'r' => 0x0d,
            b't' => 0x09,
            b'u' => {
                let unit = self.four_digits()?;
                if !(0xd800..0xdc00).contains(&unit) { return char::from_u32(unit); }
                if !self.takes(b"\\u") { return None; }
                let low = self.four_digits()?;
                if !(0xdc00..0xe000).contains(&low) { return None; }
                return char::from_u32(0x10000 + (unit - 0xd800) * 0x400 + (low - 0xdc00));
            }
            _ => return None,
        };
        Some(plain as char)
    }

    fn four_digits(&mut self) -> Option<u32> {
        let digits = self.text.get(self.at..self.at + 4)?;
        self.at += 4;
        digits.iter().try_fold(0, |unit, digit| Some(unit * 16 + (*digit as char).to_digit(16)?))
    }
}

/// How many bytes the UTF-8 character at the start of these has (RFC 3629, section 4); none where there is none
fn character_len(bytes: &[u8]) -> Option<usize> {
    let (second, len) = match bytes.first()? {
        0x00..=0x7f => return Some(1),
        0xc2..=0xdf => (0x80..=0xbf, 2),
        0xe0 => (0xa0..=0xbf, 3),
        0xe1..=0xec | 0xee | 0xef => (0x80..=0xbf, 3),
        0xed => (0x80..=0x9f, 3),
        0xf0 => (0x90..=0xbf, 4),
        0xf1..=0xf3 => (0x80..=0xbf, 4),
        0xf4 => (0x80..=0x8f, 4),
        _ => return None,
    };
    let rest = bytes.get(2..len)?;
    (second.contains(&bytes[1]) && rest.iter().all(|b| (0x80..=0xbf).contains(b))).then_some(len)
}

impl<'a> Json<'a> {
    /// Whether an object in it has a name twice, names compared by their characters
    pub fn repeats_a_name(&self) -> bool {
        match self {
            Json::List(items) => items.iter().any(Json::repeats_a_name),
            Json::Object(members) => {
                let mut names: Vec<&[u8]> = members.iter().map(|(name, _)| &**name).collect();
                names.sort_unstable();
                names.windows(2).any(|two| two[0] == two[1]) || members.iter().any(|(_, value)| value.repeats_a_name())
            }
            _ => false,
        }
    }

    /// An object's member of a name
    pub fn member(&self, name: &str) -> Option<&Json<'a>> {
        let Json::Object(members) = self else { return None };
        members.iter().find(|(own, _)| **own == *name.as_bytes()).map(|(_, value)| value)
    }

    pub fn is_null(&self) -> bool { matches!(self, Json::Null) }
    pub fn is_object(&self) -> bool { matches!(self, Json::Object(_)) }
    pub fn list(&self) -> Option<&[Json<'a>]> { if let Json::List(items) = self { Some(items) } else { None } }
    pub fn quoted(&self) -> Option<&Quoted<'a>> { if let Json::Text(text) = self { Some(text) } else { None } }
    pub fn text(&self) -> Option<&[u8]> { self.quoted().map(|text| &*text.content) }

    /// Digits alone, 0 to 2^64 - 1
    pub fn word(&self) -> Option<u64> {
        match self { Json::Number(number) => digits(number).and_then(|n| u64::try_from(n).ok()), _ => None }
    }

    /// Digits with or without a minus, -2^63 to 2^63 - 1; -0 is none
    pub fn long(&self) -> Option<i64> {
        let Json::Number(number) = self else { return None };
        match number.strip_prefix(b"-") {
            Some(b"0") => None,
            Some(number) => i64::try_from(-(digits(number)? as i128)).ok(),
            None => i64::try_from(digits(number)?).ok(),
        }
    }
}

/// The number that digits alone write, up to 2^64
fn digits(number: &[u8]) -> Option<u128> {
    number.iter().try_fold(0, |n: u128, c| if c.is_ascii_digit() { Some((n * 10 + (c - b'0') as u128).min(1 << 64)) } else { None })
}
