//! Frame maps as one writes them in plain Rust: what the library is timed against. Rows are structs of six
//! numbers (RULES 10.1); they are tested first, as the library does, and results go into a vector that is used again.

use crate::case::Row;

/// The most rows of a map
const MOST: usize = 1024;

/// Why a call is refused
#[derive(Debug, PartialEq)]
pub enum Refused { Rows, TooMany, Range, Wraps }

/// How many frames a map has, where its rows are well formed
fn frames(rows: &[Row]) -> Result<u64, Refused> {
    let mut next = 0u64;
    for row in rows {
        let (Some(end), Some(_)) = (next.checked_add(row.count), row.source_first.checked_add(row.count)) else { return Err(Refused::Rows) };
        if row.count == 0 || row.out_first != next || row.flag > 1 || (row.flag == 0 && row.shift != 0) { return Err(Refused::Rows); }
        next = end;
    }
    if rows.is_empty() { return Err(Refused::Rows); }
    if rows.len() > MOST { return Err(Refused::TooMany); }
    Ok(next)
}

/// The first row that ends past a frame
fn row_of(rows: &[Row], frame: u64) -> usize { rows.partition_point(|row| row.out_first + row.count <= frame) }

pub fn cut(rows: &[Row], a: u64, b: u64, out: &mut Vec<Row>) -> Result<usize, Refused> {
    let frames = frames(rows)?;
    if a >= b || b > frames { return Err(Refused::Range); }
    out.clear();
    append(rows, a, b, out);
    Ok(out.len())
}

/// Each row's overlap with a..b, counted from a
fn append(rows: &[Row], a: u64, b: u64, out: &mut Vec<Row>) {
    for row in &rows[row_of(rows, a)..] {
        if row.out_first >= b { break; }
        let (from, to) = (row.out_first.max(a), (row.out_first + row.count).min(b));
        out.push(Row { source_first: row.source_first + (from - row.out_first), count: to - from, out_first: from - a, ..*row });
    }
}

/// The cut of each range, one after the other; how many rows each has goes into `counts`. The rows are tested once
pub fn cuts(rows: &[Row], ranges: &[[u64; 2]], out: &mut Vec<Row>, counts: &mut Vec<usize>) -> Result<usize, Refused> {
    let frames = frames(rows)?;
    out.clear();
    counts.clear();
    for &[a, b] in ranges {
        if a >= b || b > frames { return Err(Refused::Range); }
        let before = out.len();
        append(rows, a, b, out);
        counts.push(out.len() - before);
    }
    Ok(out.len())
}

pub fn join(first: &[Row], second: &[Row], out: &mut Vec<Row>) -> Result<usize, Refused> {
    let (by, more) = (frames(first)?, frames(second)?);
    if by.checked_add(more).is_none() { return Err(Refused::Wraps); }
    if first.len() + second.len() > MOST { return Err(Refused::TooMany); }
    out.clear();
    out.extend_from_slice(first);
    out.extend(second.iter().map(|row| Row { out_first: row.out_first + by, ..*row }));
    Ok(out.len())
}

pub fn merge(rows: &[Row], out: &mut Vec<Row>) -> Result<usize, Refused> {
    frames(rows)?;
    out.clear();
    for row in rows {
        match out.last_mut() {
            Some(last) if last.source == row.source && last.source_first + last.count == row.source_first && last.flag == row.flag && last.shift == row.shift => last.count += row.count,
            _ => out.push(*row),
        }
    }
    Ok(out.len())
}

/// The source, the frame there, and the shift's flag and the shift of a frame
type Origin = (u64, u64, u64, i64);

pub fn origin(rows: &[Row], frame: u64) -> Result<Origin, Refused> {
    if frame >= frames(rows)? { return Err(Refused::Range); }
    Ok(origin_in(rows, frame))
}

fn origin_in(rows: &[Row], frame: u64) -> Origin {
    let row = &rows[row_of(rows, frame)];
    (row.source, row.source_first + (frame - row.out_first), row.flag, row.shift)
}

/// The origin of each frame of a list. The rows are tested once
pub fn origins(rows: &[Row], list: &[u64], out: &mut Vec<Origin>) -> Result<usize, Refused> {
    let end = frames(rows)?;
    if list.iter().any(|frame| *frame >= end) { return Err(Refused::Range); }
    out.clear();
    out.extend(list.iter().map(|frame| origin_in(rows, *frame)));
    Ok(out.len())
}
