//! The boxes of an ISO base media file.
use crate::{answer, ffi, Refusal};
use std::{iter::FusedIterator, ops::Range};

/// A box's size and its header's.
#[derive(Clone, Copy, Debug, PartialEq, Eq, Hash)]
pub struct BoxSize {
    /// The whole box's, its header's bytes among them.
    pub size: u64,
    /// The header's: 8, or 16 where the size is written in 64 bits.
    pub header: u64,
}

/// The size of the box at the start of `data`, where `remaining` bytes are left of what it is in. Refuses 30, 31.
///
/// ```
/// let size = segment_table::box_size(b"\0\0\0\x08free", 8)?;
/// assert_eq!((size.size, size.header), (8, 8));
/// # Ok::<(), segment_table::Refusal>(())
/// ```
pub fn box_size(data: &[u8], remaining: u64) -> Result<BoxSize, Refusal> {
    let (mut size, mut header, mut index) = (0, 0, 0);
    let number = unsafe { ffi::st_box_size(data.as_ptr(), data.len(), remaining, &mut size, &mut header, &mut index) };
    answer(number, index, BoxSize { size, header })
}

/// The part of the bytes that a call found: it writes start, length and index.
fn part(bytes: &[u8], call: impl FnOnce(&mut u64, &mut u64, &mut u64) -> u64) -> Result<&[u8], Refusal> {
    let (mut start, mut length, mut index) = (0, 0, 0);
    let number = call(&mut start, &mut length, &mut index);
    answer(number, index, ())?;
    Ok(&bytes[start as usize..][..length as usize])
}

/// The child boxes of a box's payload, type and payload of each, in order, up to their end or to a broken header;
/// [`Children::end`] says which. Refuses 30.
///
/// ```
/// let payload = b"\0\0\0\x0aname42\0\0\0\x08free\0\0\0\x09torn";
/// let boxes: Vec<_> = segment_table::children(payload)?.collect();
/// assert_eq!(boxes, [(*b"name", &b"42"[..]), (*b"free", &b""[..])]);
/// # Ok::<(), segment_table::Refusal>(())
/// ```
pub fn children(payload: &[u8]) -> Result<Children<'_>, Refusal> {
    match box_at(payload, 0) {
        Err(refusal) if refusal.number == TOO_LONG => Err(refusal),
        _ => Ok(Children { payload, at: 0 }),
    }
}

/// The refusal of more bytes than a call takes.
const TOO_LONG: u64 = 30;

/// The refusal where the boxes have ended: fewer than 8 bytes are left.
const NO_BOX: u64 = 31;

/// The box at an offset: its type, its payload, and the offset of the next one.
fn box_at(payload: &[u8], at: u64) -> Result<([u8; 4], &[u8], u64), Refusal> {
    let (mut kind, mut next) = (0, 0);
    let found = part(payload, |start, length, index| unsafe {
        ffi::st_children(payload.as_ptr(), payload.len(), at, &mut kind, start, length, &mut next, index)
    })?;
    Ok((kind.to_be_bytes(), found, next))
}

/// The child boxes of a payload, which [`children`] gives. After the last one it gives none, however the boxes end.
#[derive(Clone, Debug)]
#[must_use]
pub struct Children<'a> {
    payload: &'a [u8],
    at: u64,
}

impl Children<'_> {
    /// How the boxes end, past those that weren't asked for yet: `Ok` where fewer than 8 bytes are left, else 36 with the broken
    /// header's offset in the payload.
    ///
    /// ```
    /// let mut boxes = segment_table::children(b"\0\0\0\x0aname42\0\0\0\x09torn")?;
    /// for (kind, payload) in boxes.by_ref() {
    ///     assert_eq!((kind, payload), (*b"name", &b"42"[..]));
    /// }
    /// let refusal = boxes.end().unwrap_err();
    /// assert_eq!((refusal.number, refusal.index), (36, 10));
    /// # Ok::<(), segment_table::Refusal>(())
    /// ```
    pub fn end(mut self) -> Result<(), Refusal> {
        self.by_ref().for_each(drop);
        match box_at(self.payload, self.at) {
            Err(refusal) if refusal.number != NO_BOX => Err(refusal),
            _ => Ok(()),
        }
    }
}

impl<'a> Iterator for Children<'a> {
    type Item = ([u8; 4], &'a [u8]);

    fn next(&mut self) -> Option<Self::Item> {
        let (kind, found, next) = box_at(self.payload, self.at).ok()?;
        self.at = next;
        Some((kind, found))
    }
}

impl FusedIterator for Children<'_> {}

/// The payload of the first child of a type. Refuses 30; 31 where the boxes end without it, or 36 where a broken header ends
/// them before, with its offset in the payload.
///
/// ```
/// assert_eq!(segment_table::child(b"\0\0\0\x0aname42", *b"name"), Ok(&b"42"[..]));
/// assert_eq!(segment_table::child(b"\0\0\0\x08free", *b"name").unwrap_err().number, 31);
/// let refusal = segment_table::child(b"\0\0\0\x08free\0\0\0\x0bname42", *b"name").unwrap_err();
/// assert_eq!((refusal.number, refusal.index), (36, 8));
/// ```
pub fn child(payload: &[u8], kind: [u8; 4]) -> Result<&[u8], Refusal> {
    part(payload, |start, length, index| unsafe {
        ffi::st_child(payload.as_ptr(), payload.len(), u32::from_be_bytes(kind), start, length, index)
    })
}

/// The payload of the first box of a type in a range of the bytes. Refuses 30, 42; 31 where the boxes end without it, or 36
/// where a broken header ends them before, with its offset in the whole of the bytes. With `text_types` a type with a byte outside
/// 20..7E hex makes a header broken.
///
/// ```
/// let file = b"\0\0\0\x08free\0\0\0\x0amoov42";
/// assert_eq!(segment_table::find_box(file, 0..18, *b"moov", true), Ok(&b"42"[..]));
/// assert_eq!(segment_table::find_box(file, 0..19, *b"moov", true).unwrap_err().number, 42);
/// let refusal = segment_table::find_box(file, 8..17, *b"moov", true).unwrap_err();
/// assert_eq!((refusal.number, refusal.index), (36, 8));
/// ```
pub fn find_box(bytes: &[u8], range: Range<u64>, kind: [u8; 4], text_types: bool) -> Result<&[u8], Refusal> {
    part(bytes, |start, length, index| unsafe {
        let kind = u32::from_be_bytes(kind);
        ffi::st_find_box(bytes.as_ptr(), bytes.len(), range.start, range.end, kind, text_types, start, length, index)
    })
}

/// The text of a file's segment table, the payload of the only moov/udta/MTRM box. Refuses 30, 40 (also where a broken header
/// hides the box), 41.
///
/// ```
/// let file = b"\0\0\0\x1amoov\0\0\0\x12udta\0\0\0\x0aMTRM{}";
/// assert_eq!(segment_table::table_text(file), Ok(&b"{}"[..]));
/// assert_eq!(segment_table::table_text(&file[..20]).unwrap_err().number, 40);
/// ```
pub fn table_text(file: &[u8]) -> Result<&[u8], Refusal> {
    part(file, |start, length, index| unsafe { ffi::st_table_text(file.as_ptr(), file.len(), start, length, index) })
}
