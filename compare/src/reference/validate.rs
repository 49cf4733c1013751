//! A table against its video: 20, 22, 23 with 24, 25; and a table against a recording's timestamps.

use super::{ GREATEST_SCALE, MOST_BYTES, Refusal, mcraw, numbers::{ microseconds, near }, table::Table };

/// A video's frame count, timescale, end and nominal, and the ticks of a frame
struct Video<'a> {
    frames: u64,
    scale: u64,
    end: i128,
    nominal: i128,
    ticks: &'a dyn Fn(u64) -> i128,
}

/// Frame k lies at k × denominator ticks of scale numerator
pub fn constant(table: &Table, frames: u64, num: u64, den: u64) -> Result<u64, Refusal> {
    if num > GREATEST_SCALE || den > GREATEST_SCALE { return Err((20, 0)); }
    let ticks = |k: u64| k as i128 * den as i128;
    judge(table, &Video { frames, scale: num, end: ticks(frames), nominal: den as i128, ticks: &ticks })
}

/// Frame k lies at its start; index = length gives the end
pub fn times(table: &Table, scale: u64, starts: &[i64], end: i64, nominal: i64) -> Result<u64, Refusal> {
    if scale > GREATEST_SCALE || starts.len() > MOST_BYTES { return Err((20, 0)); }
    let ticks = |k: u64| starts.get(k as usize).copied().unwrap_or(end) as i128;
    judge(table, &Video { frames: starts.len() as u64, scale, end: end as i128, nominal: nominal as i128, ticks: &ticks })
}

fn judge(table: &Table, video: &Video) -> Result<u64, Refusal> {
    if table.frames != video.frames { return Err((22, 0)); }
    for (k, segment) in table.segments.iter().enumerate() {
        let time = microseconds((video.ticks)(segment.out_first_frame), video.scale).ok_or((23, k as u64))?;
        if time != segment.out_start { return Err((24, k as u64)); }
    }
    let end_us = table.segments[table.segments.len() - 1].out_end();
    if !near(end_us, video.scale, video.end, video.nominal) { return Err((25, 0)); }
    Ok(table.frames)
}

/// One timestamp is a constant video of one frame at the fps of segment 0's source; any 31 becomes 35
pub fn mcraw(table: &Table, timestamps: &[i64], room: &[usize; 2]) -> Result<u64, Refusal> {
    if timestamps.len() == 1 {
        let fps = table.sources[table.segments[0].source as usize].fps;
        return constant(table, 1, fps.0, fps.1);
    }
    let video = mcraw::times(timestamps, room).map_err(|r| if r.0 == 31 { (35, 0) } else { r })?;
    times(table, video.scale, &video.starts, video.end, video.nominal)
}
