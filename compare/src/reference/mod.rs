//! A plain reading of the rules (docs/RULES.md), call by call, for every input. It follows their words alone, so that where it
//! and the unchanged Rust agree, they say what the Rust does.

pub mod boxes;
pub mod frame_times;
pub mod json;
pub mod maps;
pub mod mcraw;
pub mod numbers;
pub mod table;
pub mod texts;
pub mod validate;

use crate::case::{ Answer, Case };
use table::Table;

/// At most this many bytes or timestamps (30), and starts (20)
pub const MOST_BYTES: usize = 16_777_216;
/// The greatest rate number or timescale (20)
pub const GREATEST_SCALE: u64 = 4_294_967_295;

/// A refusal: its number and index
pub type Refusal = (u64, u64);

/// What the rules say of a case
pub fn answer(case: &Case) -> Answer {
    answered(case).unwrap_or_else(Answer::refused)
}

fn answered(case: &Case) -> Result<Answer, Refusal> {
    let one = |value: u64| Answer::of(&[value as i128]);
    let two = |(a, b): (u64, u64)| Answer::of(&[a as i128, b as i128]);
    Ok(match case {
        Case::IsUtcSecond { bytes } => one(numbers::is_utc_second(bytes) as u64),
        Case::TicksToUs { ticks, scale } => Answer::of(&[numbers::ticks_to_us(*ticks, *scale)? as i128]),
        Case::Check { table } => one(Table::checked(&table.table)?.frames),
        Case::SegmentOfFrame { table, frame } | Case::SegmentOfFrameRecords { table, frame } => one(Table::checked(&table.table)?.segment_of_frame(*frame)),
        Case::SegmentsOfFrames { table, frames, room } => Table::checked(&table.table)?.segments_of_frames(frames, *room)?,
        Case::SegmentOfTimeUs { table, time } => one(Table::checked(&table.table)?.segment_of_time_us(*time)),
        Case::Continues { table, segment } => one(Table::checked(&table.table)?.continues(*segment) as u64),
        Case::RowsOfTable { table, room } => maps::write(Table::checked(&table.table)?.rows(), room, 32)?,
        Case::ValidateNoVideo { table } => { Table::checked(&table.table)?; return Err((21, 0)) }
        Case::ValidateConstant { table, frames, num, den } => {
            one(validate::constant(&Table::checked(&table.table)?, *frames, *num, *den)?)
        }
        Case::ValidateTimes { table, scale, starts, end, nominal } => {
            one(validate::times(&Table::checked(&table.table)?, *scale, starts, *end, *nominal)?)
        }
        Case::BoxSize { data, remaining } => two(boxes::box_size(data, *remaining)?),
        Case::Children { payload, at } => {
            let (kind, start, length, next) = boxes::children(payload, *at)?;
            Answer::of(&[kind as i128, start as i128, length as i128, next as i128])
        }
        Case::Child { payload, kind } => two(boxes::child(payload, *kind)?),
        Case::FindBox { bytes, from, to, kind, text_types } => two(boxes::find_box(bytes, *from, *to, *kind, *text_types)?),
        Case::TableText { file } => two(boxes::table_text(file)?),
        Case::VideoFrameTimesOfMoov { moov, standard, room } => frame_times::of_moov(moov, *standard, room)?.answer(),
        Case::McrawTimes { timestamps, room } => mcraw::times(timestamps, room)?.answer(),
        Case::CheckMcraw { table, timestamps, room } => one(validate::mcraw(&Table::checked(&table.table)?, timestamps, room)?),
        Case::Cut { map, a, b, room } => maps::cut(map, *a, *b, room)?,
        Case::Cuts { map, ranges, room } => maps::cuts(map, ranges, room)?,
        Case::Join { first, second, room } => maps::join(first, second, room)?,
        Case::Merge { map, room } => maps::merge(map, room)?,
        Case::Origin { map, frame } => maps::origin(map, *frame)?,
        Case::Origins { map, frames, room } => maps::origins(map, frames, *room)?,
        Case::ReadTable { text, room } => texts::read(text, room)?,
        Case::SourceNames { text, room } => texts::names(text, room)?,
        Case::JsonString { text, at, room } => texts::string(text, *at, *room)?,
    })
}

/// The frame times of a video
pub struct Times {
    pub scale: u64,
    pub starts: Vec<i64>,
    pub end: i64,
    pub nominal: i64,
}

impl Times {
    fn answer(self) -> Answer {
        let values = [self.starts.len() as i128, self.scale as i128, self.nominal as i128, self.end as i128];
        Answer { longs: self.starts, ..Answer::of(&values) }
    }
}
