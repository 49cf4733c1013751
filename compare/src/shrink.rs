//! Makes a case that differs smaller, as long as it still differs.

use std::{ ops::Range, time::{ Duration, Instant } };
use crate::{ case::{ Call, Case, Lent, Map, Part, SOURCE_WORDS, Table }, reference::boxes::{ number, walk } };

/// How long a smaller case is looked for
const TIME: Duration = Duration::from_secs(20);
/// Lists longer than this are only cut, not changed place by place
const LONG: usize = 4096;

type Smaller<'a, T> = Box<dyn Iterator<Item = T> + 'a>;

/// The smallest case found that still `differs`
pub fn smallest(mut case: Case, differs: impl Fn(&Case) -> bool) -> Case {
    let began = Instant::now();
    loop {
        let next = cases(&case).take_while(|_| began.elapsed() < TIME).find(|smaller| differs(smaller));
        match next { Some(smaller) => case = smaller, None => return case }
    }
}

/// The cases that are one step smaller
fn cases(case: &Case) -> impl Iterator<Item = Case> + '_ {
    let parts = case.clone().parts().len();
    from_offset(case).into_iter().chain(from_mark(case)).chain((0..parts).flat_map(move |k| of_part(case, k)))
}

/// The boxes before an offset taken out, and the offset moved with them
fn from_offset(case: &Case) -> Option<Case> {
    let Case::Children { payload, at } = case else { return None };
    let rest = payload.get(usize::try_from(*at).ok()?..)?;
    (*at > 0).then(|| Case::Children { payload: rest.to_vec(), at: 0 })
}

/// The text before a string's quotation mark taken out, or its first byte, and the offset moved with it
fn from_mark(case: &Case) -> impl Iterator<Item = Case> + '_ {
    let Case::JsonString { text, at, room } = case else { return None.into_iter().flatten() };
    let shorter = move |by: u64| text.get(usize::try_from(by).ok()?..).map(|rest| Case::JsonString { text: rest.to_vec(), at: at - by, room: *room });
    Some([*at, 1].into_iter().filter(move |by| 0 < *by && *by <= *at).filter_map(shorter)).into_iter().flatten()
}

/// The case with its part `k` set
fn with(case: &Case, k: usize, set: impl FnOnce(Part)) -> Case {
    let mut copy = case.clone();
    if let Some(part) = copy.parts().into_iter().nth(k) { set(part); }
    copy
}

/// The cases whose part `k` is one step smaller
fn of_part(case: &Case, k: usize) -> Smaller<'_, Case> {
    match case.clone().parts().swap_remove(k) {
        Part::Word(word) => Box::new(words(*word).into_iter().map(move |v| with(case, k, |p| if let Part::Word(p) = p { *p = v }))),
        Part::Room(room) => Box::new(words(*room as u64).into_iter().map(move |v| with(case, k, |p| if let Part::Room(p) = p { *p = v as usize }))),
        Part::Long(long) => Box::new(longs(*long).into_iter().map(move |v| with(case, k, |p| if let Part::Long(p) = p { *p = v }))),
        Part::Flag(flag) => Box::new(flag.then(|| with(case, k, |p| if let Part::Flag(p) = p { *p = false })).into_iter()),
        Part::Kind(_) => Box::new(std::iter::empty()),
        Part::Bytes(bytes) if matches!(case.call(), Call::ReadTable | Call::SourceNames | Call::JsonString) => Box::new(texts(bytes.clone()).map(move |v| with(case, k, |p| if let Part::Bytes(p) = p { *p = v }))),
        Part::Bytes(bytes) => Box::new(byte_strings(bytes.clone()).map(move |v| with(case, k, |p| if let Part::Bytes(p) = p { *p = v }))),
        Part::Words(list) => Box::new(lists(list.clone(), words).map(move |v| with(case, k, |p| if let Part::Words(p) = p { *p = v }))),
        Part::Longs(list) => Box::new(lists(list.clone(), longs).map(move |v| with(case, k, |p| if let Part::Longs(p) = p { *p = v }))),
        Part::Map(map) => Box::new(maps(map.clone()).map(move |v| with(case, k, |p| if let Part::Map(p) = p { *p = v }))),
        Part::Table(lent) => Box::new(tables(lent.table.clone()).map(move |v| with(case, k, |p| if let Part::Table(p) = p { *p = Lent::new(v) }))),
    }
}

fn words(word: u64) -> Vec<u64> { [0, word / 2, word.wrapping_sub(1)].into_iter().filter(|w| *w < word).collect() }

fn longs(long: i64) -> Vec<i64> {
    [0, long / 2, long - long.signum()].into_iter().filter(|l| l.unsigned_abs() < long.unsigned_abs()).collect()
}

/// A list with a part taken out, halves first, single elements last; then with each element smaller
fn lists<'a, T: Copy + 'a>(list: Vec<T>, element: impl Fn(T) -> Vec<T> + Copy + 'a) -> Smaller<'a, Vec<T>> {
    let len = list.len();
    let sizes = std::iter::successors(Some(len.div_ceil(2)), |size| (*size > 1).then(|| size.div_ceil(2)));
    let parts = sizes.filter(move |size| *size > 0 && len / size <= LONG).flat_map(move |size| (0..len.div_ceil(size)).map(move |k| k * size..(k * size + size).min(len)));
    let places = if len > LONG { 0 } else { len };
    let (cut, changed) = (list.clone(), list);
    let cut = parts.map(move |part| without(&cut, part));
    let changed = (0..places).flat_map(move |k| {
        let list = changed.clone();
        element(list[k]).into_iter().map(move |v| { let mut list = list.clone(); list[k] = v; list })
    });
    Box::new(cut.chain(changed))
}

fn without<T: Copy>(list: &[T], part: Range<usize>) -> Vec<T> { [&list[..part.start], &list[part.end..]].concat() }

/// Bytes: first whole boxes and ends of payloads taken out, the sizes of the boxes around them made to fit
fn byte_strings(bytes: Vec<u8>) -> Smaller<'static, Vec<u8>> {
    let mut removals = Vec::new();
    if bytes.len() <= LONG { box_parts(&bytes, 0..bytes.len(), &mut Vec::new(), &mut removals); }
    let whole = bytes.clone();
    let boxes = removals.into_iter().map(move |(part, around)| without_part(&whole, part, &around));
    Box::new(boxes.chain(lists(bytes, |byte| words(byte as u64).into_iter().map(|w| w as u8).collect())))
}

/// Texts: first whole items and members taken out, the comma with them; then any bytes taken out, or made plain ones
fn texts(text: Vec<u8>) -> Smaller<'static, Vec<u8>> {
    let parts = items(&text);
    let whole = text.clone();
    let plainer = |byte: u8| [b' ', b'0', b'a'].into_iter().take_while(|plain| *plain != byte).collect();
    Box::new(parts.into_iter().map(move |part| without(&whole, part)).chain(lists(text, plainer)))
}

/// Where the items of lists and the members of objects lie, the longest first: each with the comma after it, else the one before it
fn items(text: &[u8]) -> Vec<Range<usize>> {
    let (mut open, mut parts, mut quoted, mut k) = (Vec::new(), Vec::new(), false, 0);
    while k < text.len() {
        match text[k] {
            b'\\' if quoted => k += 1,
            b'"' => quoted = !quoted,
            b'[' | b'{' if !quoted => open.push(k + 1),
            b',' if !quoted => if let Some(from) = open.last_mut() { parts.push(*from..k + 1); *from = k + 1; },
            b']' | b'}' if !quoted => if let Some(from) = open.pop() { parts.push(if text[from - 1] == b',' { from - 1..k } else { from..k }); },
            _ => {}
        }
        k += 1;
    }
    parts.retain(|part| !part.is_empty());
    parts.sort_by_key(|part| part.start.wrapping_sub(part.end));
    parts
}

/// The parts of boxes in a range that can be taken out, each with where the headers of the boxes around it are
fn box_parts(bytes: &[u8], range: Range<usize>, around: &mut Vec<usize>, parts: &mut Vec<(Range<usize>, Vec<usize>)>) {
    let mut header = range.start;
    for found in walk(bytes, range.start, range.end) {
        parts.push((header..found.end, around.clone()));
        around.push(header);
        let middle = found.start + (found.end - found.start) / 2;
        for from in [middle, found.end.saturating_sub(8).max(found.start), found.end - 1] {
            if found.start <= from && from < found.end { parts.push((from..found.end, around.clone())); }
        }
        if around.len() < 8 { box_parts(bytes, found.start..found.end, around, parts); }
        around.pop();
        header = found.end;
    }
}

fn without_part(bytes: &[u8], part: Range<usize>, around: &[usize]) -> Vec<u8> {
    let mut bytes = bytes.to_vec();
    for header in around {
        let size = number(&bytes, *header, 4).unwrap_or(0);
        let (at, width) = if size == 1 { (header + 8, 8) } else { (*header, 4) };
        if size == 0 { continue; }
        let smaller = number(&bytes, at, width).unwrap_or(0).wrapping_sub(part.len() as u64).to_be_bytes();
        bytes[at..at + width].copy_from_slice(&smaller[8 - width..]);
    }
    bytes.drain(part);
    bytes
}

/// Maps: a row taken out, or its count made smaller, and the rows after it moved; then any word alone
fn maps(map: Map) -> Smaller<'static, Map> {
    let rows = map.shifts.len().min(map.words.len() / 5);
    let (whole, counted, alone) = (map.clone(), map.clone(), map.clone());
    let removed = (0..rows).rev().map(move |k| {
        let mut map = moved(&whole, k, whole.words[k * 5 + 2]);
        map.words.drain(k * 5..k * 5 + 5);
        map.shifts.remove(k);
        map
    });
    let counted = (0..rows).flat_map(move |k| {
        let map = counted.clone();
        let count = map.words[k * 5 + 2];
        words(count).into_iter().map(move |v| { let mut map = moved(&map, k, count - v); map.words[k * 5 + 2] = v; map })
    });
    let shifts = alone.shifts.clone();
    let by_word = lists(alone.words.clone(), words).map(move |words| Map { words, shifts: alone.shifts.clone() });
    let by_shift = lists(shifts, longs).map(move |shifts| Map { words: map.words.clone(), shifts });
    Box::new(removed.chain(counted).chain(by_word).chain(by_shift))
}

/// The map with the rows after row `k` moved back by some frames
fn moved(map: &Map, k: usize, frames: u64) -> Map {
    let mut map = map.clone();
    for row in map.words.chunks_exact_mut(5).skip(k + 1) { row[3] = row[3].wrapping_sub(frames); }
    map
}

/// Tables: a segment taken out and those after it moved, a source taken out, the text; then any word alone
fn tables(table: Table) -> Smaller<'static, Table> {
    let segments = if table.has_records() { table.segments.len() / 5 } else { 0 };
    let sources = table.sources.len() / SOURCE_WORDS;
    let (a, b, c, d, e) = (table.clone(), table.clone(), table.clone(), table.clone(), table.clone());
    let by_segment = (0..segments).rev().map(move |k| without_segment(&a, k));
    let by_source = (0..sources).rev().map(move |k| without_source(&b, k));
    let plain = [Table { log: false, ..table.clone() }, Table { text: vec![], ..table.clone() }].into_iter().filter(move |t| *t != table);
    let by_word = lists(c.sources.clone(), words).map(move |sources| Table { sources, ..c.clone() });
    let more = lists(d.segments.clone(), words).map(move |segments| Table { segments, ..d.clone() });
    let by_time = lists(e.times.clone(), longs).map(move |times| Table { times, ..e.clone() });
    Box::new(by_segment.chain(by_source).chain(plain).chain(by_word).chain(more).chain(by_time))
}

fn without_segment(table: &Table, k: usize) -> Table {
    let mut t = table.clone();
    let frames = t.segments[k * 5 + 2];
    let (duration, capture) = (t.times[k * 7 + 2], t.times[k * 7 + 5]);
    for words in t.segments.chunks_exact_mut(5).skip(k + 1) { words[3] = words[3].wrapping_sub(frames); }
    for times in t.times.chunks_exact_mut(7).skip(k + 1) {
        times[1] = times[1].wrapping_sub(duration);
        times[4] = times[4].wrapping_sub(capture);
    }
    t.segments.drain(k * 5..k * 5 + 5);
    t.times.drain(k * 7..k * 7 + 7);
    t
}

fn without_source(table: &Table, k: usize) -> Table {
    let mut t = table.clone();
    t.sources.drain(k * SOURCE_WORDS..(k + 1) * SOURCE_WORDS);
    for words in t.segments.chunks_exact_mut(5).filter(|w| w[0] > k as u64) { words[0] -= 1; }
    t
}
