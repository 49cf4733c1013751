//! A recording's timestamps as a video.

use super::{ MOST_BYTES, Refusal, Times };

/// In order: 30, 31 (few), 34, 33 (span), 32, 31 (nominal), 33 (end)
pub fn times(timestamps: &[i64], room: &[usize; 2]) -> Result<Times, Refusal> {
    let n = timestamps.len();
    if n > MOST_BYTES { return Err((30, 0)); }
    if n < 2 { return Err((31, 0)); }
    for k in 1..n {
        if timestamps[k] < timestamps[k - 1] { return Err((34, k as u64)); }
    }
    let first = timestamps[0];
    let span = timestamps[n - 1] as i128 - first as i128;
    if span > i64::MAX as i128 { return Err((33, 0)); }
    if n > room[0] || n > room[1] { return Err((32, 0)); }
    let mut intervals: Vec<i64> = (1..n).map(|k| timestamps[k] - timestamps[k - 1]).collect();
    intervals.sort();
    let nominal = intervals[(n - 2) / 2];
    if nominal == 0 { return Err((31, 0)); }
    let end = i64::try_from(span + nominal as i128).map_err(|_| (33, 0))?;
    let starts = timestamps.iter().map(|t| t - first).collect();
    Ok(Times { scale: 1_000_000_000, starts, end, nominal })
}
