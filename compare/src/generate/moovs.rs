//! Moovs with a video track: both versions, edit lists of every shape, tables of every length; in the crate's mode and the standard's.

use super::{ Emit, boxes::{ Form, any_box, boxed }, damaged, offsets::{ self, Offsets }, room };
use super::levels::{ self, Level, Piece, among_others, around, backwards, every_way, everywhere, few_ways, in_every_form, leaf, with_payload, written };
use crate::{ case::Case, random::Random };

/// What a moov is made of
#[derive(Clone)]
pub struct Moov {
    pub movie: Head,
    pub media: Head,
    pub handler: [u8; 4],
    /// Count and delta
    pub stts: Vec<(u32, u32)>,
    pub ctts: Option<Offsets>,
    pub elst: Option<Edits>,
}

/// The version and timescale of mvhd or mdhd
#[derive(Clone)]
pub struct Head {
    pub version: u8,
    pub scale: u32,
}

#[derive(Clone)]
pub struct Edits {
    pub version: u8,
    /// Duration, media time and rate
    pub list: Vec<(u64, i64, u32)>,
}

/// The box that a moov ends in
#[derive(Clone, Copy, PartialEq)]
enum Last { Stts, Ctts, Elst, Mvhd, Mdhd, Hdlr }

impl Head {
    fn payload(&self) -> Vec<u8> {
        let mut bytes = vec![self.version, 0, 0, 0];
        bytes.extend(vec![0x11; if self.version == 1 { 16 } else { 8 }]);
        bytes.extend(self.scale.to_be_bytes());
        bytes
    }
}

impl Edits {
    fn payload(&self) -> Vec<u8> {
        let mut bytes = vec![self.version, 0, 0, 0];
        bytes.extend((self.list.len() as u32).to_be_bytes());
        for (duration, time, rate) in &self.list {
            if self.version == 1 {
                bytes.extend([duration.to_be_bytes(), time.to_be_bytes()].concat());
            } else {
                bytes.extend([(*duration as u32).to_be_bytes(), (*time as i32).to_be_bytes()].concat());
            }
            bytes.extend(rate.to_be_bytes());
        }
        bytes
    }
}

/// The payload of stts or ctts
fn table(version: u8, entries: &[(u32, u32)]) -> Vec<u8> {
    let mut bytes = vec![version, 0, 0, 0];
    bytes.extend((entries.len() as u32).to_be_bytes());
    for (count, value) in entries { bytes.extend([count.to_be_bytes(), value.to_be_bytes()].concat()); }
    bytes
}

impl Moov {
    fn stts(&self) -> Vec<u8> { table(0, &self.stts) }
    fn ctts(&self) -> Option<Vec<u8>> { self.ctts.as_ref().map(|ctts| table(ctts.version, &ctts.list)) }
    fn hdlr(&self) -> Vec<u8> { [&[0; 8][..], &self.handler, &[0; 5]].concat() }
    fn total(&self) -> usize { self.stts.iter().fold(0usize, |n, e| n.saturating_add(e.0 as usize)) }

    /// The moov's payload, which ends in one box; that box and those around it go to the end in size 0
    fn ending_in(&self, last: Last) -> Vec<u8> {
        let put = |kind: &[u8; 4], payload: &[u8], is_last: bool| boxed(if is_last { Form::ToTheEnd } else { Form::Short }, kind, payload);
        let in_stbl = matches!(last, Last::Stts | Last::Ctts);
        let stts = put(b"stts", &self.stts(), last == Last::Stts);
        let ctts = self.ctts().map_or(vec![], |c| put(b"ctts", &c, last == Last::Ctts));
        let stbl = if last == Last::Stts { [ctts, stts] } else { [stts, ctts] }.concat();
        let minf = put(b"minf", &put(b"stbl", &stbl, in_stbl), in_stbl);
        let mdhd = put(b"mdhd", &self.media.payload(), last == Last::Mdhd);
        let hdlr = put(b"hdlr", &self.hdlr(), last == Last::Hdlr);
        let mdia = match last {
            Last::Mdhd => [hdlr, minf, mdhd],
            Last::Hdlr => [mdhd, minf, hdlr],
            _ => [mdhd, hdlr, minf],
        }.concat();
        let mdia = put(b"mdia", &mdia, in_stbl || matches!(last, Last::Mdhd | Last::Hdlr));
        let elst = self.elst.as_ref().map_or(vec![], |e| put(b"elst", &e.payload(), last == Last::Elst));
        let edts = if elst.is_empty() { vec![] } else { put(b"edts", &elst, last == Last::Elst) };
        let trak = if last == Last::Elst { [mdia, edts] } else { [edts, mdia] }.concat();
        let trak = put(b"trak", &trak, last != Last::Mvhd);
        let mvhd = put(b"mvhd", &self.movie.payload(), last == Last::Mvhd);
        if last == Last::Mvhd { [trak, mvhd] } else { [mvhd, trak] }.concat()
    }

    /// The moov's payload, which ends in the offsets
    pub fn to_the_end(&self) -> Vec<u8> { self.ending_in(Last::Ctts) }

    /// The moov's payload in the usual order, with these bytes before the sample tables
    pub fn in_order(&self, before: &[u8]) -> Vec<u8> { [self.mvhd(), self.track(&[], before)].concat() }

    /// The moov's payload with these boxes between its header and its track
    pub fn after(&self, boxes: &[u8]) -> Vec<u8> { [&self.mvhd(), boxes, &self.track(&[], &[])].concat() }

    pub fn mvhd(&self) -> Vec<u8> { written(&[self.head()]) }

    /// The track in the usual order, with these bytes before its mdia, and before the sample tables
    pub fn track(&self, before_mdia: &[u8], before_tables: &[u8]) -> Vec<u8> { written(&[self.trak(before_mdia, before_tables)]) }

    fn head(&self) -> Piece { leaf(b"mvhd", &self.movie.payload()) }

    fn trak(&self, before_mdia: &[u8], before_tables: &[u8]) -> Piece {
        let mut tables = vec![Piece::Bytes(before_tables.to_vec()), leaf(b"stts", &self.stts())];
        tables.extend(self.ctts().map(|ctts| leaf(b"ctts", &ctts)));
        let mdia = vec![leaf(b"mdhd", &self.media.payload()), leaf(b"hdlr", &self.hdlr()), around(b"minf", vec![around(b"stbl", tables)])];
        let edts = self.elst.iter().map(|edits| around(b"edts", vec![leaf(b"elst", &edits.payload())]));
        around(b"trak", edts.chain([Piece::Bytes(before_mdia.to_vec()), around(b"mdia", mdia)]).collect())
    }

    /// The moov's payload with boxes in any form and order, others among them, and parts that aren't whole now and then
    pub fn in_any_form(&self, r: &mut Random) -> Vec<u8> {
        let stbl = self.stbl_in_any_form(r);
        let stbl = any_box(r, b"stbl", &stbl, true);
        let minf = any_box(r, b"minf", &stbl, false);
        let (media, handler) = (cut_or_lengthened(r, self.media.payload()), cut_or_lengthened(r, self.hdlr()));
        let mdia = in_any_order(r, vec![(*b"mdhd", media), (*b"hdlr", handler)], minf);
        let mut parts = vec![];
        if let Some(edits) = &self.elst {
            let mut payload = edits.payload();
            if r.one_in(20) { payload[7] = payload[7].wrapping_add(1); }
            let payload = cut_or_lengthened(r, payload);
            parts.push((*b"edts", any_box(r, b"elst", &payload, true)));
        }
        if r.one_in(6) { parts.push((*b"tkhd", vec![7; r.size(9)])); }
        let mdia = any_box(r, b"mdia", &mdia, false);
        let trak = in_any_order(r, parts, mdia);
        let movie = cut_or_lengthened(r, self.movie.payload());
        let mut parts = vec![(*b"mvhd", movie)];
        if r.one_in(4) { parts.push((*b"trak", other_track(r))); }
        if r.one_in(8) { parts.push((*b"free", vec![0; r.size(400)])); }
        let trak = any_box(r, b"trak", &trak, false);
        in_any_order(r, parts, trak)
    }

    fn stbl_in_any_form(&self, r: &mut Random) -> Vec<u8> {
        let mut stts = self.stts();
        if r.one_in(40) { stts[7] = stts[7].wrapping_add(1); }
        if r.one_in(20) { stts[0] = r.bits() as u8; }
        let mut parts = vec![(*b"stts", cut_or_lengthened(r, stts))];
        if let Some(mut ctts) = self.ctts() {
            if r.one_in(40) { ctts[7] = ctts[7].wrapping_add(1); }
            parts.push((*b"ctts", cut_or_lengthened(r, ctts)));
        }
        if r.one_in(40) { parts.remove(0); }
        if r.one_in(20) { parts.push((*b"stts", vec![0; 8])); }
        let stsd = any_box(r, b"stsd", &[0; 4], false);
        in_any_order(r, parts, stsd)
    }
}

/// The payload cut short or lengthened now and then
fn cut_or_lengthened(r: &mut Random, mut payload: Vec<u8>) -> Vec<u8> {
    match r.below(100) {
        0 => payload.truncate(r.size(payload.len() + 1)),
        1..=5 => payload.extend(vec![3; r.size(9)]),
        _ => {}
    }
    payload
}

/// Boxes of these payloads before and after one that is made already
fn in_any_order(r: &mut Random, parts: Vec<([u8; 4], Vec<u8>)>, made: Vec<u8>) -> Vec<u8> {
    let (mut before, mut after) = (vec![], vec![]);
    for (kind, payload) in parts {
        if r.one_in(3) { after.extend(any_box(r, &kind, &payload, false)); } else { before.extend(any_box(r, &kind, &payload, false)); }
    }
    [before, made, after].concat()
}

/// A track that isn't the video's
fn other_track(r: &mut Random) -> Vec<u8> {
    let handler = r.pick(&[b"soun", b"vidf", b"text", b"VIDE"]);
    let hdlr = boxed(Form::Short, b"hdlr", &[&[0; 8][..], handler].concat());
    match r.below(4) { 0 => vec![0; 9], 1 => boxed(Form::Short, b"mdia", &[]), _ => boxed(Form::Short, b"mdia", &hdlr) }
}

fn scale(r: &mut Random) -> u32 {
    match r.below(24) { 0 => 0, 1 => r.bits() as u32, 2 => 1, 3 => u32::MAX, 4 => 1 + r.below(7) as u32, _ => r.pick(&[100, 1000, 600, 30000, 90000, 12800]) }
}

fn head(r: &mut Random) -> Head { Head { version: r.pick(&[0, 0, 0, 1, 1, 2, 255]), scale: scale(r) } }

/// A table of durations: constant mostly, ties, zero counts, zero and huge deltas
fn durations(r: &mut Random) -> Vec<(u32, u32)> {
    let delta = r.pick(&[1, 10, 512, 1001]);
    if r.one_in(3) { return vec![(1 + r.below(12) as u32, delta)]; }
    (0..r.below(7)).map(|_| {
        let count = match r.below(40) { 0 => r.bits() as u32, 1 => 300 + r.below(300) as u32, 2..=5 => 0, _ => 1 + r.below(4) as u32 };
        let value = match r.below(16) { 0 => 0, 1 => r.bits() as u32, 2 => u32::MAX, 3..=9 => delta, _ => r.below(20) as u32 };
        (count, value)
    }).collect()
}

/// An edit list of any shape
fn edits(r: &mut Random, delta: i64) -> Option<Edits> {
    if r.one_in(4) { return None; }
    let version = r.pick(&[0, 0, 1, 1, 2]);
    let n = match r.below(16) { 0 => 0, 1 => 3, 2 => 4, 3..=8 => 2, _ => 1 };
    let list = (0..n).map(|e| {
        let empty = e == 0 && n > 1 && !r.one_in(12);
        let duration = match r.below(10) {
            0 => 0,
            1 => r.word(),
            2 => i64::MAX as u64 - r.below(90),
            3 => (i64::MAX as u64).wrapping_add(r.below(3)),
            4 => r.below(1 << 40),
            _ => r.below(8 * delta as u64 + 60),
        };
        let time = if empty { -1 } else {
            match r.below(16) { 0 => r.long(), 1 => -1, 2 => i64::MAX - r.below(90) as i64, 3..=6 => delta * r.below(6) as i64, 7..=9 => r.below(5 * delta as u64) as i64, _ => 0 }
        };
        let rate = if r.one_in(16) { r.pick(&[0, 0x20000, 0x10001, 0xffff0000]) } else { 0x10000 };
        (duration, time, rate)
    }).collect();
    Some(Edits { version, list })
}

/// A moov that gives times: the tables and edits of a file as cameras and tools write it
pub fn sound(r: &mut Random) -> Moov {
    let delta = r.pick(&[1, 10, 512, 1001]);
    let scale = r.pick(&[100, 1000, 30000, 90000, 12800, u32::MAX]);
    let movie = Head { version: r.pick(&[0, 1]), scale: r.pick(&[scale, 1000, 600, 1, u32::MAX]) };
    let mut stts = vec![(r.range(1, 12) as u32, delta)];
    while r.one_in(2) { stts.push((r.below(4) as u32, r.pick(&[delta, 2 * delta, delta + 1, 1]))); }
    let mut list = match r.below(6) {
        0 => return Moov { movie, media: Head { version: 0, scale }, handler: *b"vide", ctts: offsets::any(r, delta), stts, elst: None },
        1 | 2 => vec![(if r.one_in(2) { 0 } else { r.range(1, 1 << 20) }, delta as i64 * r.below(4) as i64, 0x10000)],
        3 => vec![(0, r.below(2 * delta as u64) as i64, 0x10000)],
        4 => vec![(latest_empty(r, movie.scale, scale, delta), -1, 0x10000), (0, 0, 0x10000)],
        _ => vec![(r.below(1 << 20), -1, r.bits() as u32), (if r.one_in(2) { 0 } else { r.range(1, 1 << 20) }, delta as i64 * r.below(3) as i64, 0x10000)],
    };
    let ctts = offsets::any(r, delta);
    // Among times whose offsets have the top bit
    if r.one_in(6) && let Some(kept) = list.last_mut() { kept.1 += 1 << 31; }
    let fits = list.iter().all(|e| e.0 <= u32::MAX as u64 && e.1 <= i32::MAX as i64);
    let version = if fits { r.pick(&[0, 1, 7]) } else { 1 };
    Moov { movie, media: Head { version: r.pick(&[0, 1]), scale }, handler: *b"vide", stts, ctts, elst: Some(Edits { version, list }) }
}

/// An empty time after which the frames lie about 2^63 - 1
fn latest_empty(r: &mut Random, movie: u32, scale: u32, delta: u32) -> u64 {
    let last = (i64::MAX as u128 * movie as u128 / scale as u128).min(i64::MAX as u128) as u64;
    let frames = 20 * delta as u64 * movie as u64 / scale as u64;
    last - r.below(frames + 2).min(last)
}

/// A moov of any numbers
pub fn any(r: &mut Random) -> Moov {
    let stts = durations(r);
    let delta = stts.first().map_or(10, |e| e.1).min(5000);
    let ctts = offsets::any(r, delta);
    let (movie, mut media) = (head(r), head(r));
    if r.one_in(3) { media.scale = movie.scale; }
    let handler = if r.one_in(40) { *b"soun" } else { *b"vide" };
    Moov { movie, media, handler, stts, ctts, elst: edits(r, delta as i64 + 1) }
}

fn emit_moov(r: &mut Random, moov: Vec<u8>, total: usize, emit: Emit) {
    let total = total.min(4096);
    let room = if r.one_in(2) { [total + r.size(4); 3] } else { [room(r, total), room(r, total), room(r, total)] };
    emit(Case::VideoFrameTimesOfMoov { moov, standard: r.one_in(2), room });
}

pub fn in_both_modes(moov: Vec<u8>, room: [usize; 3], emit: Emit) {
    for standard in [false, true] { emit(Case::VideoFrameTimesOfMoov { moov: moov.clone(), standard, room }); }
}

/// A moov as it is, two copies that are damaged or torn; now and then one whose frames come to its byte count, or each of its beginnings
pub fn cases(r: &mut Random, emit: Emit) {
    let mut plan = if r.one_in(3) { any(r) } else { sound(r) };
    let moov = plan.in_any_form(r);
    emit_moov(r, moov.clone(), plan.total(), emit);
    for _ in 0..r.below(3) {
        let copy = if r.one_in(2) { levels::torn(r, moov.clone()) } else { damaged(r, moov.clone()) };
        emit_moov(r, copy, plan.total(), emit);
    }
    if r.one_in(60) {
        plan.stts = vec![(1, 7), (0, 10)];
        let last = r.pick(&[Last::Ctts, Last::Elst, Last::Mvhd]);
        let bytes = plan.ending_in(last).len() as u64;
        plan.stts[1].0 = (bytes + r.below(4) - 3) as u32;
        emit_moov(r, plan.ending_in(last), plan.total(), emit);
    }
    if r.one_in(400) {
        let last = r.pick(&[Last::Stts, Last::Ctts, Last::Elst, Last::Mvhd, Last::Mdhd, Last::Hdlr]);
        let bytes = plan.ending_in(last);
        for len in 0..=bytes.len() { emit_moov(r, bytes[..len].to_vec(), plan.total(), emit); }
    }
}

/// M1 of RULES 8.10, or M2 where it has an edit
pub fn in_the_document(edited: bool) -> Moov {
    let head = Head { version: 0, scale: 100 };
    let elst = edited.then(|| Edits { version: 0, list: vec![(0, 10, 0x10000)] });
    Moov { movie: head.clone(), media: head, handler: *b"vide", stts: vec![(3, 10)], ctts: Some(Offsets { version: 0, list: vec![(1, 10), (1, 30), (1, 0)] }), elst }
}

/// A time-lapse of three frames of half a second, each shown 2.4 seconds after it is decoded, so that its offsets pass 2^31; it
/// may have an edit, which starts at the first
pub fn time_lapse(edited: bool) -> Moov {
    let head = Head { version: 0, scale: 1_000_000_000 };
    let elst = edited.then(|| Edits { version: 1, list: vec![(0, 2_400_000_000, 0x10000)] });
    let ctts = Some(Offsets { version: 0, list: vec![(3, 2_400_000_000)] });
    Moov { movie: head.clone(), media: head, handler: *b"vide", stts: vec![(3, 500_000_000)], ctts, elst }
}

/// M1 and M2; every beginning of M2 in every order, and every value of every byte of it; those of the time-lapse in two orders; every
/// room of both
pub fn fixed(emit: Emit) {
    let m2 = in_the_document(true);
    in_both_modes(in_the_document(false).ending_in(Last::Ctts), [3; 3], emit);
    for last in [Last::Stts, Last::Ctts, Last::Elst, Last::Mvhd, Last::Mdhd, Last::Hdlr] { every_byte(&m2.ending_in(last), emit); }
    for (edited, last) in [(false, Last::Stts), (false, Last::Ctts), (true, Last::Stts), (true, Last::Ctts)] { every_byte(&time_lapse(edited).ending_in(last), emit); }
    for k in 0..125 {
        let room = [k % 5, k / 5 % 5, k / 25];
        for moov in [&m2, &time_lapse(false)] { in_both_modes(moov.ending_in(Last::Elst), room, emit); }
    }
    every_edit(emit);
    offsets::every_one(emit);
    every_tear(emit);
}

/// Every beginning of a moov of three frames, and every value of every byte
fn every_byte(bytes: &[u8], emit: Emit) {
    for len in 0..=bytes.len() { in_both_modes(bytes[..len].to_vec(), [3; 3], emit); }
    for (at, byte) in (0..bytes.len()).flat_map(|at| (0..=255).map(move |byte| (at, byte))) {
        let mut moov = bytes.to_vec();
        moov[at] = byte;
        in_both_modes(moov, [3, 4, 5], emit);
    }
}

/// Moovs of one track, forwards, backwards and among other boxes; of sound first, sound alone, two videos, and no track
fn tracks() -> [Level; 7] {
    let (m2, m1) = (in_the_document(true), in_the_document(false));
    let sound = Moov { handler: *b"soun", ..m1.clone() }.trak(&[], &[]);
    let (video, other, head) = (m2.trak(&[], &[]), m1.trak(&[], &[]), m2.head());
    let one = vec![head.clone(), video.clone()];
    [
        backwards(&one), among_others(&one), one, vec![head.clone(), sound.clone(), video.clone()], vec![sound.clone(), head.clone()],
        vec![video, head.clone(), other, sound], vec![head],
    ]
}

/// Moovs of one track with an mvhd or an mdhd that is empty, a byte short, or of timescale 0; in both orders
fn bad_heads() -> Vec<Level> {
    let m2 = in_the_document(true);
    let [head, long] = [0, 1].map(|version| Head { version, scale: 0 }.payload());
    let mut all = Vec::new();
    for payload in [&[][..], &head[..15], &long[..23], &head, &long] {
        for kind in [b"mvhd", b"mdhd"] {
            let level = with_payload(&[m2.head(), m2.trak(&[], &[])], kind, payload);
            all.extend([backwards(&level), level]);
        }
    }
    all
}

/// One header torn in every way at every place, in boxes of every form; two headers torn in a few ways; with room and without
fn every_tear(emit: Emit) {
    let mut take = |level: &Level| for room in [[3; 3], [2; 3]] { in_both_modes(written(level), room, emit) };
    for level in tracks().iter().flat_map(|level| in_every_form(level)).chain(bad_heads()) {
        everywhere(&level, every_way).iter().for_each(&mut take);
        for once in everywhere(&level, few_ways) { everywhere(&once, few_ways).iter().for_each(&mut take); }
    }
}

/// Edit lists of these numbers, in both versions, with these timescales
fn every_edit(emit: Emit) {
    let mut moov = in_the_document(true);
    let durations = [0, 1, 10, 25, u32::MAX as u64, i64::MAX as u64 - 20, i64::MAX as u64, i64::MAX as u64 + 1, u64::MAX];
    for (movie, media) in [(1, 1), (100, 100), (1, u32::MAX), (u32::MAX, 1), (3, 2), (2, 3)] {
        (moov.movie.scale, moov.media.scale) = (movie, media);
        for (version, duration, empty) in [0, 1, 2].into_iter().flat_map(|v| durations.into_iter().flat_map(move |d| durations.map(|e| (v, d, e)))) {
            for time in [-2, -1, 0, 5, 10, 20, 40, i64::MAX - 15, i64::MAX] {
                let kept = (duration, time, 0x10000);
                for list in [vec![kept], vec![(empty, -1, 7), kept], vec![(empty, -1, 7), kept, kept]] {
                    moov.elst = Some(Edits { version, list });
                    in_both_modes(moov.ending_in(Last::Ctts), [3; 3], emit);
                }
            }
        }
    }
}
