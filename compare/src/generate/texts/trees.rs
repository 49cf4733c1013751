//! Values of JSON as trees, whose nodes can be changed, and how they are written: plainly, or with blanks and escapes anywhere.

use crate::random::Random;

/// A value. Numbers and what is broken on purpose are bytes; a name is a text, or bytes
#[derive(Clone)]
pub enum Tree {
    Raw(Vec<u8>),
    Text(String),
    List(Vec<Tree>),
    Object(Vec<(Tree, Tree)>),
}

/// How often a blank stands where one may, and a character is escaped: once in so many places, 0 for never
#[derive(Clone, Copy)]
pub struct Style {
    pub blanks: u64,
    pub escapes: u64,
}

pub const PLAIN: Style = Style { blanks: 0, escapes: 0 };

pub fn raw(bytes: impl ToString) -> Tree { Tree::Raw(bytes.to_string().into_bytes()) }
pub fn text(content: &str) -> Tree { Tree::Text(content.into()) }
pub fn object<const N: usize>(members: [(&str, Tree); N]) -> Tree { Tree::Object(members.map(|(name, value)| (text(name), value)).into()) }

impl Tree {
    /// The value as it is written plainly
    pub fn plainly(&self) -> Vec<u8> { self.written(PLAIN, &mut Random::new(0)) }

    pub fn written(&self, style: Style, r: &mut Random) -> Vec<u8> {
        let mut bytes = Vec::new();
        blanks(&mut bytes, style, r);
        self.write(&mut bytes, style, r);
        blanks(&mut bytes, style, r);
        bytes
    }

    fn write(&self, bytes: &mut Vec<u8>, style: Style, r: &mut Random) {
        match self {
            Tree::Raw(raw) => bytes.extend(raw),
            Tree::Text(content) => quoted(content, bytes, style, r),
            Tree::List(items) => between(b"[]", items, bytes, style, r, |item, bytes, r| item.write(bytes, style, r)),
            Tree::Object(members) => between(b"{}", members, bytes, style, r, |(name, value), bytes, r| {
                name.write(bytes, style, r);
                blanks(bytes, style, r);
                bytes.push(b':');
                blanks(bytes, style, r);
                value.write(bytes, style, r);
            }),
        }
    }

    /// How many values there are in it, itself with them
    pub fn nodes(&self) -> usize {
        1 + match self {
            Tree::List(items) => items.iter().map(Tree::nodes).sum(),
            Tree::Object(members) => members.iter().map(|(_, value)| value.nodes()).sum(),
            _ => 0,
        }
    }

    /// The k-th of them, each before what is in it
    pub fn node(&mut self, mut k: usize) -> &mut Tree {
        if k == 0 { return self; }
        k -= 1;
        let mut inner: Vec<&mut Tree> = match self {
            Tree::List(items) => items.iter_mut().collect(),
            Tree::Object(members) => members.iter_mut().map(|(_, value)| value).collect(),
            _ => unreachable!("there are fewer nodes"),
        };
        let mut at = 0;
        while k >= inner[at].nodes() { k -= inner[at].nodes(); at += 1; }
        inner.swap_remove(at).node(k)
    }

    /// The members of an object
    pub fn members(&mut self) -> Option<&mut Vec<(Tree, Tree)>> { if let Tree::Object(members) = self { Some(members) } else { None } }

    /// The value of a member, or nothing that there is
    pub fn member(&mut self, name: &str) -> &mut Tree {
        let found = self.members().and_then(|members| members.iter_mut().find(|(own, _)| matches!(own, Tree::Text(own) if own == name)));
        found.map(|(_, value)| value).unwrap_or_else(|| panic!("no member {name}"))
    }

    /// The items of a list
    pub fn items(&mut self) -> &mut Vec<Tree> { if let Tree::List(items) = self { items } else { panic!("no list") } }

    /// The members of every object in it in any order
    pub fn shuffle(&mut self, r: &mut Random) {
        match self {
            Tree::List(items) => for item in items { item.shuffle(r); },
            Tree::Object(members) => {
                for k in (1..members.len()).rev() { members.swap(k, r.size(k + 1)); }
                for (_, value) in members { value.shuffle(r); }
            }
            _ => {}
        }
    }
}

/// Items within their brackets
fn between<T>(brackets: &[u8; 2], items: &[T], bytes: &mut Vec<u8>, style: Style, r: &mut Random, mut write: impl FnMut(&T, &mut Vec<u8>, &mut Random)) {
    bytes.push(brackets[0]);
    blanks(bytes, style, r);
    for (k, item) in items.iter().enumerate() {
        if k > 0 { bytes.push(b','); blanks(bytes, style, r); }
        write(item, bytes, r);
        blanks(bytes, style, r);
    }
    bytes.push(brackets[1]);
}

fn blanks(bytes: &mut Vec<u8>, style: Style, r: &mut Random) {
    if style.blanks > 0 && r.one_in(style.blanks) { for _ in 0..r.range(1, 3) { bytes.push(r.pick(b" \t\n\r")); } }
}

fn quoted(content: &str, bytes: &mut Vec<u8>, style: Style, r: &mut Random) {
    bytes.push(b'"');
    for c in content.chars() {
        if style.escapes > 0 && r.one_in(style.escapes) { escape(c, bytes, r); }
        else if matches!(c, '"' | '\\' | '\0'..='\x1f') { escape_shortly(c, bytes) }
        else { bytes.extend(c.encode_utf8(&mut [0; 4]).as_bytes()); }
    }
    bytes.push(b'"');
}

/// A character that can't stand as it is
fn escape_shortly(c: char, bytes: &mut Vec<u8>) {
    match SHORT.iter().find(|(own, _)| *own == c) {
        Some((_, letter)) => bytes.extend([b'\\', *letter]),
        None => bytes.extend(format!("\\u{:04x}", c as u32).bytes()),
    }
}

/// Characters with an escape of two
const SHORT: [(char, u8); 8] = [('"', b'"'), ('\\', b'\\'), ('/', b'/'), ('\x08', b'b'), ('\x0c', b'f'), ('\n', b'n'), ('\r', b'r'), ('\t', b't')];

/// A character in one of the ways in which it can be escaped
pub fn escape(c: char, bytes: &mut Vec<u8>, r: &mut Random) {
    if SHORT.iter().any(|(own, _)| *own == c) && r.one_in(2) { return escape_shortly(c, bytes); }
    for unit in c.encode_utf16(&mut [0; 2]) {
        let digits = if r.one_in(2) { format!("{unit:04x}") } else { format!("{unit:04X}") };
        bytes.extend(format!("\\u{digits}").bytes());
    }
}

/// Contents of strings: short ones, with characters of every length in UTF-8, and some that have to be escaped
pub fn content(r: &mut Random) -> String {
    let any = ['a', 'b', '0', ' ', '/', '"', '\\', '\0', '\x1f', '\x7f', '\n', 'é', '\u{80}', '\u{7ff}', '\u{800}', '\u{d7ff}', '\u{e000}', '\u{fffd}', '\u{ffff}', '\u{10000}', '\u{10ffff}'];
    (0..r.below(4)).map(|_| if r.one_in(2) { 'a' } else { r.pick(&any) }).collect()
}

/// Any value that is JSON, numbers at limits among them, at most `depth` lists and objects deep; few objects have a name twice
pub fn value(r: &mut Random, depth: usize) -> Tree {
    match r.below(if depth == 0 { 6 } else { 10 }) {
        0 => raw(r.pick(&["null", "true", "false"])),
        1 => text(&content(r)),
        2 | 3 => raw(r.pick(&NUMBERS)),
        4 => raw(r.word()),
        5 => raw(r.long()),
        6 | 7 => Tree::List((0..r.below(4)).map(|_| value(r, depth - 1)).collect()),
        _ => Tree::Object((0..r.below(4)).map(|_| (Tree::Text(content(r)), value(r, depth - 1))).collect()),
    }
}

/// Numbers as they may be written, at the limits of words, and too large for an f64
pub const NUMBERS: [&str; 38] = [
    "0", "-0", "1", "-1", "2", "10", "0.0", "1.0", "-0.0", "1.5", "0e0", "1e0", "1E0", "1e1", "1e+1", "1E-1", "-1e+01", "0e-00", "1.0e0", "4294967295", "4294967296",
    "9223372036854775807", "9223372036854775808", "-9223372036854775807", "-9223372036854775808", "-9223372036854775809",
    "18446744073709551615", "18446744073709551616", "18446744073709551625", "-18446744073709551616", "100000000000000000000", "340282366920938463463374607431768211456",
    "18446744073709551616.0", "18446744073709551616e0", "1e308", "1e309", "-1e400", "1e-400",
];
