//! Cases and answers as lines of text: numbers in decimal, bytes in hex, a length before each list.

use crate::case::{ Answer, Call, Case, Lent, Map, Part, Table };

/// A case as one line: the call's name, then its arguments
pub fn case_line(case: &Case) -> String {
    let mut words = vec![case.call().name().to_string()];
    for part in case.clone().parts() {
        match part {
            Part::Word(word) => words.push(word.to_string()),
            Part::Kind(kind) => words.push(kind.to_string()),
            Part::Long(long) => words.push(long.to_string()),
            Part::Room(room) => words.push(room.to_string()),
            Part::Flag(flag) => words.push((*flag as u8).to_string()),
            Part::Bytes(bytes) => push_bytes(&mut words, bytes),
            Part::Words(list) => push_list(&mut words, list),
            Part::Longs(longs) => push_list(&mut words, longs),
            Part::Map(map) => { push_list(&mut words, &map.words); push_list(&mut words, &map.shifts); }
            Part::Table(lent) => push_table(&mut words, &lent.table),
        }
    }
    words.join(" ")
}

fn push_list<T: ToString>(words: &mut Vec<String>, list: &[T]) {
    words.push(list.len().to_string());
    words.extend(list.iter().map(T::to_string));
}

fn push_bytes(words: &mut Vec<String>, bytes: &[u8]) {
    words.push(bytes.len().to_string());
    words.extend(hex(bytes));
}

/// Bytes as one word of hex digits; none where there are no bytes
fn hex(bytes: &[u8]) -> Option<String> { (!bytes.is_empty()).then(|| bytes.iter().map(|b| format!("{b:02x}")).collect()) }

fn push_table(words: &mut Vec<String>, table: &Table) {
    push_list(words, &table.sources);
    push_list(words, &table.segments);
    push_list(words, &table.times);
    words.push((table.log as u8).to_string());
    push_bytes(words, &table.text);
}

/// An answer as one line: number and index, then where accepted the values and what is written
pub fn answer_line(call: Call, answer: &Answer) -> String {
    let mut words: Vec<String> = Vec::new();
    if call.refuses() { words.extend([answer.number.to_string(), answer.index.to_string()]); }
    if answer.number == 0 {
        words.extend(answer.values[..call.values()].iter().map(i128::to_string));
        words.extend(answer.words.iter().map(u64::to_string));
        words.extend(answer.longs.iter().map(i64::to_string));
        words.extend(answer.counts.iter().map(u64::to_string));
        words.extend(hex(&answer.dates));
    }
    words.join(" ")
}

/// The case of a line; none where the line isn't one
pub fn read_case(line: &str) -> Option<Case> {
    let mut words = line.split_whitespace();
    let mut case = Case::blank(Call::named(words.next()?)?);
    for part in case.parts() {
        match part {
            Part::Word(word) => *word = words.next()?.parse().ok()?,
            Part::Kind(kind) => *kind = words.next()?.parse().ok()?,
            Part::Long(long) => *long = words.next()?.parse().ok()?,
            Part::Room(room) => *room = words.next()?.parse().ok()?,
            Part::Flag(flag) => *flag = words.next()? == "1",
            Part::Bytes(bytes) => *bytes = read_bytes(&mut words)?,
            Part::Words(list) => *list = read_list(&mut words)?,
            Part::Longs(longs) => *longs = read_list(&mut words)?,
            Part::Map(map) => *map = Map { words: read_list(&mut words)?, shifts: read_list(&mut words)? },
            Part::Table(lent) => *lent = Lent::new(read_table(&mut words)?),
        }
    }
    words.next().is_none().then_some(case)
}

type Words<'a> = std::str::SplitWhitespace<'a>;

fn read_list<T: std::str::FromStr>(words: &mut Words) -> Option<Vec<T>> {
    let len: usize = words.next()?.parse().ok()?;
    (0..len).map(|_| words.next()?.parse().ok()).collect()
}

fn read_bytes(words: &mut Words) -> Option<Vec<u8>> {
    let len: usize = words.next()?.parse().ok()?;
    if len == 0 { return Some(vec![]); }
    let hex = words.next()?;
    if !hex.is_ascii() || hex.len() != len * 2 { return None; }
    (0..len).map(|k| u8::from_str_radix(&hex[2 * k..2 * k + 2], 16).ok()).collect()
}

fn read_table(words: &mut Words) -> Option<Table> {
    Some(Table {
        sources: read_list(words)?,
        segments: read_list(words)?,
        times: read_list(words)?,
        log: words.next()? == "1",
        text: read_bytes(words)?,
    })
}
