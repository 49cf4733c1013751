//! Microseconds, nearness, and the UTC rule.

use super::{ GREATEST_SCALE, Refusal };

/// ticks × 1,000,000 / scale to the nearest whole number, halves away from zero; none for scale 0 or outside i64
pub fn microseconds(ticks: i128, scale: u64) -> Option<i64> {
    if scale == 0 { return None; }
    let scaled = (ticks * 1_000_000).unsigned_abs();
    let (whole, rest) = (scaled / scale as u128, scaled % scale as u128);
    let nearest = (whole + if rest * 2 >= scale as u128 { 1 } else { 0 }) as i128;
    i64::try_from(if ticks < 0 { -nearest } else { nearest }).ok()
}

pub fn ticks_to_us(ticks: i64, scale: u64) -> Result<i64, Refusal> {
    if scale > GREATEST_SCALE { return Err((20, 0)); }
    microseconds(ticks as i128, scale).ok_or((23, 0))
}

/// |2·end_us·scale - 2·end·1,000,000| <= 2·nominal·1,000,000 + scale
pub fn near(end_us: i64, scale: u64, end: i128, nominal: i128) -> bool {
    let apart = 2 * end_us as i128 * scale as i128 - 2 * end * 1_000_000;
    apart.abs() <= 2 * nominal * 1_000_000 + scale as i128
}

/// 20 bytes, `YYYY-MM-DDTHH:MM:SSZ`, Gregorian month lengths, hour < 24, minute and second < 60
pub fn is_utc_second(bytes: &[u8]) -> bool {
    const FORM: &[u8; 20] = b"0000-00-00T00:00:00Z";
    let formed = |(b, f): (&u8, &u8)| if *f == b'0' { b.is_ascii_digit() } else { b == f };
    if bytes.len() != 20 || !bytes.iter().zip(FORM).all(formed) { return false; }
    let number = |from: usize, to: usize| bytes[from..to].iter().fold(0, |n, b| n * 10 + (b - b'0') as usize);
    let (year, month, day) = (number(0, 4), number(5, 7), number(8, 10));
    let leap = (year % 4 == 0 && year % 100 != 0) || year % 400 == 0;
    let february = if leap { 29 } else { 28 };
    let days = [31, february, 31, 30, 31, 30, 31, 31, 30, 31, 30, 31];
    (1..=12).contains(&month) && day >= 1 && day <= days[month - 1] && number(11, 13) < 24 && number(14, 16) < 60 && number(17, 19) < 60
}
