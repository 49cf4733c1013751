//! Frame maps: which source and frame lies behind each output frame.
use crate::{answer, ffi, Refusal};
use std::ops::Range;

/// The rows that a map may have.
const MOST_ROWS: usize = 1024;

/// A run of frames of one source.
#[derive(Clone, Copy, Debug, PartialEq, Eq, Hash)]
pub struct Row {
    /// The source's number.
    pub source: u64,
    /// The source's frame behind the first one.
    pub source_first: u64,
    /// How many frames there are, one at least.
    pub count: u64,
    /// The first one's number in the map.
    pub out_first: u64,
    /// The shift, in ticks of the source's clock.
    pub shift: Option<i64>,
}

/// Where a frame comes from.
#[derive(Clone, Copy, Debug, PartialEq, Eq, Hash)]
pub struct Origin {
    /// The source's number.
    pub source: u64,
    /// The frame's number there.
    pub frame: u64,
    /// The shift of the row that it lies in.
    pub shift: Option<i64>,
}

/// A well-formed map of one row or more, 1,024 at most.
///
/// ```
/// use segment_table::{FrameMap, Row};
///
/// let row = Row { source: 0, source_first: 100, count: 50, out_first: 0, shift: Some(7) };
/// let map = FrameMap::new(&[row])?;
/// assert_eq!(map.frames(), 50);
/// assert_eq!(map.origin(49)?.frame, 149);
/// assert_eq!(map.origin(50).unwrap_err().number, 54);
///
/// let halves = map.cut(0..25)?.join(&map.cut(25..50)?)?;
/// assert_eq!(halves.rows().len(), 2);
/// assert_eq!(halves.merge(), map);
/// # Ok::<(), segment_table::Refusal>(())
/// ```
#[derive(Clone, Debug, PartialEq, Eq, Hash)]
pub struct FrameMap {
    words: Vec<u64>,
    shifts: Vec<i64>,
}

impl FrameMap {
    /// A map of rows. Refuses 51 (index: the row), 52.
    pub fn new(rows: &[Row]) -> Result<FrameMap, Refusal> {
        let rows = &rows[..rows.len().min(MOST_ROWS + 1)]; // one too many is refused as all of them are
        let words = rows.iter().flat_map(|r| [r.source, r.source_first, r.count, r.out_first, r.shift.is_some() as u64]).collect();
        let shifts = rows.iter().map(|r| r.shift.unwrap_or(0)).collect();
        FrameMap::from_words(words, shifts)
    }

    /// A map as it is lent: five words and one shift a row. Refuses 51 (index: the row), 52.
    ///
    /// ```
    /// let refusal = segment_table::FrameMap::from_words(vec![0, 0, 5, 0, 0, 0, 5, 5, 6, 0], vec![0, 0]).unwrap_err();
    /// assert_eq!((refusal.number, refusal.index), (51, 1));
    /// ```
    pub fn from_words(words: Vec<u64>, shifts: Vec<i64>) -> Result<FrameMap, Refusal> {
        let map = FrameMap { words, shifts };
        map.origin(0).map(|_| map) // refuses what no call takes; every map has a frame 0
    }

    /// Room for so many rows, that a call fills.
    pub(crate) fn filled(rows: usize, call: impl FnOnce(&mut [u64], &mut [i64], &mut u64, &mut u64) -> u64) -> Result<FrameMap, Refusal> {
        let (mut words, mut shifts) = (vec![0; 5 * rows], vec![0; rows]);
        let (mut count, mut index) = (0, 0);
        let number = call(&mut words, &mut shifts, &mut count, &mut index);
        answer(number, index, ())?;
        words.truncate(5 * count as usize);
        shifts.truncate(count as usize);
        words.shrink_to_fit();
        shifts.shrink_to_fit();
        Ok(FrameMap { words, shifts })
    }

    /// How many frames it has.
    #[must_use]
    pub fn frames(&self) -> u64 {
        let last = self.rows().last().expect("a map has a row");
        last.out_first + last.count
    }

    /// The rows in order.
    pub fn rows(&self) -> Rows<'_> {
        Rows { words: &self.words, shifts: &self.shifts }
    }

    /// The rows as they are lent: five words a row, one shift a row.
    #[must_use]
    pub fn as_words(&self) -> (&[u64], &[i64]) {
        (&self.words, &self.shifts)
    }

    /// The frames of a range as a map: each row's overlap, counted from the range's start. Refuses 50.
    ///
    /// ```
    /// # use segment_table::{FrameMap, Row};
    /// # let map = FrameMap::new(&[Row { source: 0, source_first: 0, count: 9, out_first: 0, shift: None }])?;
    /// assert_eq!(map.cut(2..5)?.origin(0)?.frame, 2);
    /// assert_eq!(map.cut(5..10).unwrap_err().number, 50);
    /// # Ok::<(), segment_table::Refusal>(())
    /// ```
    pub fn cut(&self, range: Range<u64>) -> Result<FrameMap, Refusal> {
        FrameMap::filled(self.shifts.len(), |ou, os, rows, index| unsafe {
            ffi::st_cut(
                self.words.as_ptr(), self.words.len(), self.shifts.as_ptr(), self.shifts.len(), range.start, range.end,
                ou.as_mut_ptr(), ou.len(), os.as_mut_ptr(), os.len(), rows, index,
            )
        })
    }

    /// The cut of each range of a list, in any order: what [`FrameMap::cut`] gives of it. The rows are tested once, and together
    /// the cuts may have more than 1,024. Refuses 50 (index: the first range that is no cut).
    ///
    /// ```
    /// # use segment_table::{FrameMap, Row};
    /// # let first = Row { source: 0, source_first: 10, count: 30, out_first: 0, shift: None };
    /// # let map = FrameMap::new(&[first, Row { source: 1, source_first: 5, count: 20, out_first: 30, shift: None }])?;
    /// // an episode's shots in a recording of two clips that join at frame 30
    /// let shots = [28..33, 0..30, 45..50];
    /// let cuts = map.cuts(&shots)?;
    /// assert_eq!(cuts.iter().map(|cut| cut.rows().len()).collect::<Vec<_>>(), [2, 1, 1]);
    /// assert_eq!(cuts[0], map.cut(28..33)?);
    ///
    /// let refusal = map.cuts(&[0..30, 45..51]).unwrap_err();
    /// assert_eq!((refusal.number, refusal.index), (50, 1));
    /// # Ok::<(), segment_table::Refusal>(())
    /// ```
    pub fn cuts(&self, ranges: &[Range<u64>]) -> Result<Vec<FrameMap>, Refusal> {
        let (firsts, end): (Vec<u64>, u64) = (self.rows().map(|row| row.out_first).collect(), self.frames());
        // Of a list with a range that is no cut the call sees no more than is refused, and gets no room: it looks at the ranges first.
        let refused = ranges.iter().position(|range| range.end <= range.start || end < range.end);
        let ranges = refused.map_or(ranges, |k| &ranges[..=k]);
        let room = if refused.is_some() { 0 } else { ranges.iter().map(|range| rows_of(&firsts, range)).sum() };
        let words: Vec<u64> = ranges.iter().flat_map(|range| [range.start, range.end]).collect();
        let mut counts: Vec<u64> = vec![0; ranges.len()];
        let all = FrameMap::filled(room, |ou, os, rows, index| unsafe {
            ffi::st_cuts(
                self.words.as_ptr(), self.words.len(), self.shifts.as_ptr(), self.shifts.len(), words.as_ptr(), words.len(),
                ou.as_mut_ptr(), ou.len(), os.as_mut_ptr(), os.len(), counts.as_mut_ptr(), counts.len(), rows, index,
            )
        })?;
        let (mut words, mut shifts) = (&all.words[..], &all.shifts[..]);
        let next = |count: u64| {
            let (own, own_shifts);
            (own, words) = words.split_at(5 * count as usize);
            (own_shifts, shifts) = shifts.split_at(count as usize);
            FrameMap { words: own.to_vec(), shifts: own_shifts.to_vec() }
        };
        Ok(counts.into_iter().map(next).collect())
    }

    /// This map, then another. Refuses 53, and 52 over 1,024 rows.
    pub fn join(&self, other: &FrameMap) -> Result<FrameMap, Refusal> {
        FrameMap::filled((self.shifts.len() + other.shifts.len()).min(MOST_ROWS), |ou, os, rows, index| unsafe {
            ffi::st_join(
                self.words.as_ptr(), self.words.len(), self.shifts.as_ptr(), self.shifts.len(),
                other.words.as_ptr(), other.words.len(), other.shifts.as_ptr(), other.shifts.len(),
                ou.as_mut_ptr(), ou.len(), os.as_mut_ptr(), os.len(), rows, index,
            )
        })
    }

    /// The map with one row of neighbours that continue. Every frame keeps its origin.
    #[must_use]
    pub fn merge(&self) -> FrameMap {
        FrameMap::filled(self.shifts.len(), |ou, os, rows, index| unsafe {
            ffi::st_merge(
                self.words.as_ptr(), self.words.len(), self.shifts.as_ptr(), self.shifts.len(),
                ou.as_mut_ptr(), ou.len(), os.as_mut_ptr(), os.len(), rows, index,
            )
        })
        .expect("a merge has no more rows than its map")
    }

    /// Where a frame comes from. Refuses 54.
    pub fn origin(&self, frame: u64) -> Result<Origin, Refusal> {
        let (mut source, mut at, mut flag, mut shift, mut index) = (0, 0, 0, 0, 0);
        let number = unsafe {
            ffi::st_origin(
                self.words.as_ptr(), self.words.len(), self.shifts.as_ptr(), self.shifts.len(), frame,
                &mut source, &mut at, &mut flag, &mut shift, &mut index,
            )
        };
        answer(number, index, Origin { source, frame: at, shift: (flag == 1).then_some(shift) })
    }

    /// Where each frame of a list comes from, in any order: what [`FrameMap::origin`] gives of it. The rows are tested once, and a
    /// frame in the row of the one before it, or in the next one, isn't searched for. Refuses 54 (index: the first frame past the
    /// map, by its number in the list).
    ///
    /// ```
    /// # use segment_table::{FrameMap, Row};
    /// # let first = Row { source: 0, source_first: 10, count: 30, out_first: 0, shift: None };
    /// # let map = FrameMap::new(&[first, Row { source: 1, source_first: 5, count: 20, out_first: 30, shift: None }])?;
    /// // the frames around the join of two clips
    /// let origins = map.origins(&[28, 29, 30, 31])?;
    /// assert_eq!(origins.iter().map(|origin| (origin.source, origin.frame)).collect::<Vec<_>>(), [(0, 38), (0, 39), (1, 5), (1, 6)]);
    /// assert_eq!(origins[2], map.origin(30)?);
    ///
    /// let refusal = map.origins(&[0, 49, 50, 51]).unwrap_err();
    /// assert_eq!((refusal.number, refusal.index), (54, 2));
    /// # Ok::<(), segment_table::Refusal>(())
    /// ```
    pub fn origins(&self, frames: &[u64]) -> Result<Vec<Origin>, Refusal> {
        let mut found = vec![ffi::Origin::default(); frames.len()];
        let (mut written, mut index) = (0, 0);
        let number = unsafe {
            ffi::st_origins(
                self.words.as_ptr(), self.words.len(), self.shifts.as_ptr(), self.shifts.len(), frames.as_ptr(), frames.len(),
                found.as_mut_ptr(), found.len(), &mut written, &mut index,
            )
        };
        answer(number, index, ())?;
        Ok(found.into_iter().map(Origin::from).collect())
    }
}

impl From<ffi::Origin> for Origin {
    fn from(found: ffi::Origin) -> Origin {
        Origin { source: found.source, frame: found.frame, shift: (found.flag == 1).then_some(found.shift) }
    }
}

/// How many rows have frames of a range that is a cut, by the first frame of each row: those that start before the range's end, but
/// of those that start no later than the range only the last.
fn rows_of(firsts: &[u64], range: &Range<u64>) -> usize {
    let started = firsts.partition_point(|first| *first <= range.start);
    (firsts.partition_point(|first| *first < range.end) + 1).saturating_sub(started)
}

impl<'a> IntoIterator for &'a FrameMap {
    type Item = Row;
    type IntoIter = Rows<'a>;

    fn into_iter(self) -> Rows<'a> {
        self.rows()
    }
}

/// The rows of a map, in order.
#[derive(Clone, Debug)]
#[must_use]
pub struct Rows<'a> {
    words: &'a [u64],
    shifts: &'a [i64],
}

impl Iterator for Rows<'_> {
    type Item = Row;

    fn next(&mut self) -> Option<Row> {
        let (&shift, shifts) = self.shifts.split_first()?;
        let (w, words) = self.words.split_at(5);
        (self.words, self.shifts) = (words, shifts);
        Some(Row { source: w[0], source_first: w[1], count: w[2], out_first: w[3], shift: (w[4] == 1).then_some(shift) })
    }

    fn size_hint(&self) -> (usize, Option<usize>) {
        (self.shifts.len(), Some(self.shifts.len()))
    }
}

impl ExactSizeIterator for Rows<'_> {}
