//! Frame maps: cut, cuts, join, merge, origin and origins, with their refusals.

use super::Refusal;
use crate::case::{ Answer, Map, Row };

const MOST_ROWS: usize = 1024;

/// The rows of a lent map: 51 with the row's index, 0 for lengths or no rows
fn lent(map: &Map) -> Result<Vec<Row>, Refusal> {
    let (words, shifts) = (&map.words, &map.shifts);
    if words.len() % 5 != 0 || words.len() / 5 != shifts.len() || shifts.is_empty() { return Err((51, 0)); }
    let rows = map.rows();
    let mut next = 0u64;
    for (k, row) in rows.iter().enumerate() {
        next = row.end_from(next).ok_or((51, k as u64))?;
    }
    Ok(rows)
}

impl Row {
    /// The row's end where it is well formed and starts at `next`
    fn end_from(&self, next: u64) -> Option<u64> {
        let shift_fits = self.flag == 1 || (self.flag == 0 && self.shift == 0);
        self.source_first.checked_add(self.count)?;
        let end = self.out_first.checked_add(self.count)?;
        (self.count > 0 && self.out_first == next && shift_fits).then_some(end)
    }

    fn end(&self) -> u64 { self.out_first + self.count }
}

/// The rows of a map and how many frames it has, where it has at most 1,024 rows
fn taken(map: &Map) -> Result<(Vec<Row>, u64), Refusal> {
    let rows = lent(map)?;
    if rows.len() > MOST_ROWS { return Err((52, 0)); }
    let frames = rows[rows.len() - 1].end();
    Ok((rows, frames))
}

/// The rows as written into lent room, or `number` where it is too small
pub fn write(rows: Vec<Row>, room: &[usize; 2], number: u64) -> Result<Answer, Refusal> {
    if rows.len() * 5 > room[0] || rows.len() > room[1] { return Err((number, 0)); }
    let words = rows.iter().flat_map(|r| [r.source, r.source_first, r.count, r.out_first, r.flag]).collect();
    let longs = rows.iter().map(|r| r.shift).collect();
    Ok(Answer { words, longs, ..Answer::of(&[rows.len() as i128]) })
}

/// The rows of a cut, join or merge: over 1,024 rows, or too little room, is 52
fn out(rows: Vec<Row>, room: &[usize; 2]) -> Result<Answer, Refusal> {
    if rows.len() > MOST_ROWS { return Err((52, 0)); }
    write(rows, room, 52)
}

/// Keeps each row's overlap with a..b, drops empty ones, subtracts a
pub fn cut(map: &Map, a: u64, b: u64, room: &[usize; 2]) -> Result<Answer, Refusal> {
    let (rows, frames) = taken(map)?;
    if a >= b || b > frames { return Err((50, 0)); }
    out(cut_rows(&rows, a, b), room)
}

/// The cut of each range, given as two words, one after the other, and how many rows each has. The ranges are tested before any
/// room: 50 with the number of the first that is no cut, or of the half one at the end. Together they may have over 1,024 rows
pub fn cuts(map: &Map, ranges: &[u64], room: &[usize; 3]) -> Result<Answer, Refusal> {
    let (rows, frames) = taken(map)?;
    let (ranges, half) = ranges.as_chunks::<2>();
    if !half.is_empty() { return Err((50, ranges.len() as u64)); }
    if let Some(k) = ranges.iter().position(|[a, b]| a >= b || *b > frames) { return Err((50, k as u64)); }
    if ranges.len() > room[2] { return Err((52, 0)); }
    let each: Vec<Vec<Row>> = ranges.iter().map(|[a, b]| cut_rows(&rows, *a, *b)).collect();
    let counts = each.iter().map(|cut| cut.len() as u64).collect();
    Ok(Answer { counts, ..write(each.concat(), &[room[0], room[1]], 52)? })
}

pub fn cut_rows(rows: &[Row], a: u64, b: u64) -> Vec<Row> {
    let overlap = |row: &Row| {
        let (from, to) = (row.out_first.max(a), row.end().min(b));
        (from < to).then(|| Row { source_first: row.source_first + (from - row.out_first), count: to - from, out_first: from - a, ..*row })
    };
    rows.iter().filter_map(overlap).collect()
}

/// Appends, and moves the second map's out firsts
pub fn join(first: &Map, second: &Map, room: &[usize; 2]) -> Result<Answer, Refusal> {
    let (a, b) = (lent(first)?, lent(second)?);
    if a.len() > MOST_ROWS || b.len() > MOST_ROWS { return Err((52, 0)); }
    let (frames, more) = (a[a.len() - 1].end(), b[b.len() - 1].end());
    if frames.checked_add(more).is_none() { return Err((53, 0)); }
    out(join_rows(a, b, frames), room)
}

pub fn join_rows(first: Vec<Row>, second: Vec<Row>, frames: u64) -> Vec<Row> {
    let moved = second.into_iter().map(|row| Row { out_first: row.out_first + frames, ..row });
    first.into_iter().chain(moved).collect()
}

/// Makes one row of neighbours that continue, flag and shift both equal
pub fn merge(map: &Map, room: &[usize; 2]) -> Result<Answer, Refusal> {
    let (rows, _) = taken(map)?;
    out(merge_rows(rows), room)
}

pub fn merge_rows(rows: Vec<Row>) -> Vec<Row> {
    let mut merged: Vec<Row> = Vec::new();
    for row in rows {
        match merged.last_mut() {
            Some(last) if last.source == row.source && last.source_first + last.count == row.source_first && last.flag == row.flag && last.shift == row.shift => last.count += row.count,
            _ => merged.push(row),
        }
    }
    merged
}

/// The source, source first + frame - out first, shift flag and shift of the row that holds the frame
pub fn origin(map: &Map, frame: u64) -> Result<Answer, Refusal> {
    let (rows, frames) = taken(map)?;
    if frame >= frames { return Err((54, 0)); }
    let ([source, source_frame, flag], shift) = origin_in(&rows, frame);
    Ok(Answer::of(&[source as i128, source_frame as i128, flag as i128, shift as i128]))
}

/// The origin of a frame that the rows have: the source, the frame there and the flag, and the shift
fn origin_in(rows: &[Row], frame: u64) -> ([u64; 3], i64) {
    let row = rows.iter().find(|r| r.out_first <= frame && frame < r.end()).unwrap();
    ([row.source, row.source_first + (frame - row.out_first), row.flag], row.shift)
}

/// The origin of each frame. The frames are tested before the room: 54 with the number of the first past the map, then 32
pub fn origins(map: &Map, frames: &[u64], room: usize) -> Result<Answer, Refusal> {
    let (rows, end) = taken(map)?;
    if let Some(k) = frames.iter().position(|frame| *frame >= end) { return Err((54, k as u64)); }
    if frames.len() > room { return Err((32, 0)); }
    let (words, longs): (Vec<[u64; 3]>, Vec<i64>) = frames.iter().map(|frame| origin_in(&rows, *frame)).unzip();
    Ok(Answer { words: words.concat(), longs, ..Answer::of(&[frames.len() as i128]) })
}
