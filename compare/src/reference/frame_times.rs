//! The frame times of a moov's first video track.

use super::{ MOST_BYTES, Refusal, Times, boxes::{ Payload, Stop, full_box, number } };

/// The video track's boxes, and both timescales
struct Track<'a> {
    trak: Payload<'a>,
    stbl: Payload<'a>,
    movie_scale: u64,
    scale: u64,
}

/// The edit: where the kept media starts and ends, and how long nothing is shown before it, in ticks of the track
struct Edit {
    edited: bool,
    time: i64,
    end: Option<i64>,
    empty_ticks: i64,
}

/// A frame in decode order
struct Frame {
    dts: i128,
    cts: i128,
    duration: i64,
}

/// In the crate's mode, or by the standard, which differs in the offsets alone
pub fn of_moov(moov: &[u8], standard: bool, room: &[usize; 3]) -> Result<Times, Refusal> {
    if moov.len() > MOST_BYTES { return Err((30, 0)); }
    let track = track(Payload::whole(moov))?;
    let durations = durations(track.stbl.child(b"stts")?.bytes(), moov.len()).ok_or((31, 0))?;
    if room.iter().any(|r| durations.len() > *r) { return Err((32, 0)); }
    let offsets = offsets(track.stbl, standard, durations.len()).ok_or((31, 0))?;
    let edit = edit(&track).ok_or((31, 0))?;
    let nominal = most_frequent(&durations).filter(|n| *n > 0).ok_or((31, 0))?;
    let mut dts = 0;
    let frames = durations.iter().zip(offsets).map(|(duration, offset)| {
        let frame = Frame { dts, cts: dts + offset as i128, duration: *duration };
        dts += *duration as i128;
        frame
    }).collect();
    presented(frames, &edit).ok_or((31, 0))?.in_range(track.scale, nominal).ok_or((33, 0))
}

/// The starts and the end before they are held to i64
struct Presented {
    starts: Vec<i128>,
    end: i128,
}

/// The kept frames ascending, of equal times the later in decode order last; none where none is kept
fn presented(frames: Vec<Frame>, edit: &Edit) -> Option<Presented> {
    let inside = |f: &Frame| edit.time as i128 <= f.cts && edit.end.is_none_or(|end| f.cts < end as i128);
    let mut kept: Vec<Frame> = frames.into_iter().filter(inside).collect();
    let first_decoded = kept.first()?.dts;
    let least = kept.iter().map(|f| f.cts).min()?;
    let origin = if edit.edited { least.max(first_decoded) } else { 0 };
    let moved = |time: i128| time - origin + edit.empty_ticks as i128;
    kept.sort_by_key(|f| f.cts);
    let last = kept.last()?;
    let whole = last.cts + last.duration as i128;
    let end = moved(edit.end.map_or(whole, |end| whole.min(end as i128)));
    Some(Presented { starts: kept.iter().map(|f| moved(f.cts)).collect(), end })
}

impl Presented {
    fn in_range(self, scale: u64, nominal: i64) -> Option<Times> {
        let starts: Option<Vec<i64>> = self.starts.into_iter().map(|t| i64::try_from(t).ok()).collect();
        Some(Times { scale, starts: starts?, end: i64::try_from(self.end).ok()?, nominal })
    }
}

/// Both timescales and the boxes on the way to the sample tables, each of which is required; neither timescale may be 0
fn track(moov: Payload) -> Result<Track, Refusal> {
    let movie_scale = timescale(moov.child(b"mvhd")?).ok_or((31, 0))?;
    let trak = video_track(moov)?;
    let mdia = trak.child(b"mdia")?;
    let scale = timescale(mdia.child(b"mdhd")?).ok_or((31, 0))?;
    if movie_scale == 0 || scale == 0 { return Err((31, 0)); }
    let stbl = mdia.child(b"minf")?.child(b"stbl")?;
    Ok(Track { trak, stbl, movie_scale, scale })
}

/// The first trak whose first mdia's first hdlr payload has `vide` at 8..12. Where there is none, how the moov's own walk
/// stopped: a trak that is broken inside is no video track
fn video_track(moov: Payload) -> Result<Payload, Stop> {
    let (traks, stop) = moov.children(b"trak");
    traks.into_iter().find(is_video).ok_or(stop)
}

pub fn is_video(trak: &Payload) -> bool {
    trak.child(b"mdia").and_then(|mdia| mdia.child(b"hdlr")).is_ok_and(|hdlr| hdlr.bytes().get(8..12) == Some(b"vide"))
}

/// The timescale of mvhd or mdhd: at 16 for version 1, else at 8, after the skip
fn timescale(head: Payload) -> Option<u64> {
    let (version, rest) = full_box(head.bytes())?;
    number(rest, if version == 1 { 16 } else { 8 }, 4)
}

/// The entries of a table of two 32-bit numbers each, after its count
fn entries(rest: &[u8]) -> impl Iterator<Item = Option<(u64, u64)>> {
    let count = number(rest, 0, 4);
    let entry = |e: u64| {
        let at = 4 + e as usize * 8;
        Some((number(rest, at, 4)?, number(rest, at + 4, 4)?))
    };
    let missing = count.is_none().then_some(None);
    (0..count.unwrap_or(0)).map(entry).chain(missing)
}

/// stts: the frames' durations; a running total above the moov's byte count is none
fn durations(stts: &[u8], most: usize) -> Option<Vec<i64>> {
    let (_, rest) = full_box(stts)?;
    let mut durations = Vec::new();
    for entry in entries(rest) {
        let (count, delta) = entry?;
        if durations.len() as u64 + count > most as u64 { return None; }
        durations.resize(durations.len() + count as usize, delta as i64);
    }
    Some(durations)
}

/// ctts: 32-bit offsets, signed; but by the standard (RULES 8.4) unsigned in version 0, and signed in every other. Entries past
/// the frames are read and ignored, missing frames get 0. Under 4 bytes, and behind a broken header, it counts as absent
fn offsets(stbl: Payload, standard: bool, frames: usize) -> Option<Vec<i64>> {
    let mut offsets = Vec::with_capacity(frames);
    if let Some((version, rest)) = stbl.child(b"ctts").ok().and_then(|ctts| full_box(ctts.bytes())) {
        let unsigned = standard && version == 0;
        for entry in entries(rest) {
            let (count, bits) = entry?;
            let offset = if unsigned { bits as i64 } else { bits as u32 as i32 as i64 };
            let room = (frames - offsets.len()) as u64;
            offsets.resize(offsets.len() + count.min(room) as usize, offset);
        }
    }
    offsets.resize(frames, 0);
    Some(offsets)
}

/// elst: none or 0 entries, one, or two of which the first is empty. Behind a broken header it counts as absent
fn edit(track: &Track) -> Option<Edit> {
    let open = Edit { edited: false, time: 0, end: None, empty_ticks: 0 };
    let Ok(elst) = track.trak.child(b"edts").and_then(|edts| edts.child(b"elst")) else { return Some(open) };
    let (version, rest) = full_box(elst.bytes())?;
    let count = number(rest, 0, 4)?;
    if count == 0 { return Some(open); }
    let mut empty_ticks = 0;
    if count >= 2 {
        let (duration, time, _) = edit_entry(rest, version, 0)?;
        if time != -1 || count > 2 { return None; }
        i64::try_from(duration).ok()?;
        empty_ticks = media_ticks(duration, track)?;
    }
    let (duration, time, rate) = edit_entry(rest, version, count as usize - 1)?;
    if time < 0 || rate != 0x10000 { return None; }
    let end = if duration == 0 { None } else { Some(time.checked_add(media_ticks(duration, track)?)?) };
    Some(Edit { edited: true, time, end, empty_ticks })
}

/// Duration, media time and rate of an edit: 20 bytes for version 1, else 12
fn edit_entry(rest: &[u8], version: u8, e: usize) -> Option<(u64, i64, u64)> {
    if version == 1 {
        let at = 4 + e * 20;
        Some((number(rest, at, 8)?, number(rest, at + 8, 8)? as i64, number(rest, at + 16, 4)?))
    } else {
        let at = 4 + e * 12;
        Some((number(rest, at, 4)?, number(rest, at + 4, 4)? as u32 as i32 as i64, number(rest, at + 8, 4)?))
    }
}

/// floor((duration × timescale + floor(movie/2)) / movie); none outside i64
fn media_ticks(duration: u64, track: &Track) -> Option<i64> {
    let movie = track.movie_scale as u128;
    i64::try_from((duration as u128 * track.scale as u128 + movie / 2) / movie).ok()
}

/// The most frequent duration; equally frequent, the smallest
fn most_frequent(durations: &[i64]) -> Option<i64> {
    let mut counts = std::collections::BTreeMap::<i64, usize>::new();
    for duration in durations { *counts.entry(*duration).or_default() += 1; }
    let most = counts.values().max()?;
    counts.iter().find(|(_, count)| *count == most).map(|(duration, _)| *duration)
}
