//! The cases of each call: a fixed part (exhaustive short inputs, edges, limits), and as many more as asked for from a
//! seed (good inputs, damaged ones, random ones).

pub mod boxes;
mod cuts;
mod levels;
mod limit;
mod lists;
pub mod maps;
pub mod moovs;
pub mod numbers;
pub mod offsets;
mod origins;
pub mod recordings;
pub mod tables;
pub mod texts;
pub mod videos;

use crate::{ case::{ Call, Case }, random::Random };

pub type Emit<'a> = &'a mut dyn FnMut(Case);

/// The cases that are the same in every run
pub fn fixed(call: Call, emit: Emit) {
    match call {
        Call::IsUtcSecond => numbers::every_time(emit),
        Call::TicksToUs => numbers::every_edge(emit),
        Call::BoxSize => boxes::every_size(emit),
        Call::Children => boxes::every_offset(emit),
        Call::Child => boxes::every_child(emit),
        Call::FindBox => boxes::every_range(emit),
        Call::TableText => boxes::every_file(emit),
        Call::VideoFrameTimesOfMoov => moovs::fixed(emit),
        Call::McrawTimes => recordings::fixed(emit),
        Call::Check | Call::SegmentOfFrame | Call::SegmentOfFrameRecords | Call::SegmentOfTimeUs | Call::Continues
            | Call::RowsOfTable | Call::ValidateNoVideo | Call::SegmentsOfFrames => tables::fixed(call, emit),
        Call::ValidateConstant => videos::near_in_the_document(emit),
        Call::Cut | Call::Join | Call::Merge | Call::Origin => maps::fixed(call, emit),
        Call::Cuts => cuts::fixed(emit),
        Call::Origins => { maps::fixed(call, emit); origins::fixed(emit) }
        Call::ReadTable => texts::fixed(emit),
        Call::SourceNames => texts::strings::fixed_names(emit),
        Call::JsonString => texts::strings::fixed_strings(emit),
        Call::ValidateTimes | Call::CheckMcraw => {}
    }
    limit::cases(call, emit);
}

/// One case, or a few that belong together, from the numbers of `r`
pub fn random(call: Call, r: &mut Random, emit: Emit) {
    match call {
        Call::IsUtcSecond => numbers::time(r, emit),
        Call::TicksToUs => numbers::ticks(r, emit),
        Call::BoxSize => boxes::size(r, emit),
        Call::Children => boxes::offsets(r, emit),
        Call::Child => boxes::child(r, emit),
        Call::FindBox => boxes::range(r, emit),
        Call::TableText => boxes::file(r, emit),
        Call::VideoFrameTimesOfMoov => moovs::cases(r, emit),
        Call::McrawTimes => recordings::times(r, emit),
        Call::CheckMcraw => recordings::judged(r, emit),
        Call::ValidateConstant => videos::constant(r, emit),
        Call::ValidateTimes => videos::times(r, emit),
        Call::Check | Call::SegmentOfFrame | Call::SegmentOfFrameRecords | Call::SegmentOfTimeUs | Call::Continues
            | Call::RowsOfTable | Call::ValidateNoVideo | Call::SegmentsOfFrames => tables::cases(call, r, emit),
        Call::Cut | Call::Join | Call::Merge | Call::Origin => maps::cases(call, r, emit),
        Call::Cuts => cuts::cases(r, emit),
        Call::Origins => origins::cases(r, emit),
        Call::ReadTable => texts::cases(r, emit),
        Call::SourceNames => texts::strings::random_names(r, emit),
        Call::JsonString => texts::strings::random_string(r, emit),
    }
}

/// A length of lent room around what is needed: exact, one short, more, none, or any
pub fn room(r: &mut Random, needed: usize) -> usize {
    match r.below(16) {
        0 => needed.saturating_sub(1),
        1 => r.size(needed + 2),
        2 => 0,
        3..=8 => needed,
        9 => needed + 1,
        _ => needed + r.size(8),
    }
}

/// The bytes with one to three places changed, cut short, or lengthened
pub fn damaged(r: &mut Random, mut bytes: Vec<u8>) -> Vec<u8> {
    for _ in 0..r.range(1, 3) {
        if bytes.is_empty() { break; }
        let at = r.size(bytes.len());
        match r.below(8) {
            0 => bytes.truncate(at),
            1 => { bytes.remove(at); }
            2 => bytes.insert(at, r.pick(&[0, 1, 8, 16, 0xff])),
            3 => bytes[at] ^= 1 << r.below(8),
            4 => bytes[at] = r.pick(&[0, 1, 2, 7, 8, 9, 15, 16, 17, 0x7f, 0x80, 0xff]),
            5 => bytes[at] = bytes[at].wrapping_add(1),
            6 => bytes[at] = bytes[at].wrapping_sub(1),
            _ => bytes[at] = r.bits() as u8,
        }
    }
    bytes
}
