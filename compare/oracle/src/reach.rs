/// What the comparison asks: the private functions, as they stand
pub mod reach {
    use super::*;
    use std::io::Cursor;

    pub fn ticks_to_us(ticks: i64, scale: u64) -> Option<i64> { super::ticks_to_us(ticks as i128, scale as u128) }
    pub fn is_utc_second(text: &str) -> bool { super::is_utc_second(text) }
    pub fn check(table: &SegmentTable) -> bool { table.check().is_ok() }
    pub fn time_us(video: &VideoFrames, frame: u64) -> Option<i64> { video.time_us(frame) }
    pub fn box_size(data: &[u8], remaining: u64) -> Option<(u64, u64)> { super::box_size(data, remaining) }
    /// The children's types and where their payloads lie
    pub fn children(payload: &[u8]) -> impl Iterator<Item = (u32, u64, u64)> {
        let place = |p: &[u8]| p.as_ptr() as u64 - payload.as_ptr() as u64;
        super::children(payload).map(move |(typ, p)| (u32::from_be_bytes(typ), place(p), p.len() as u64))
    }
    pub fn child<'a>(payload: &'a [u8], typ: &[u8; 4]) -> Option<&'a [u8]> { super::child(payload, typ) }
    pub fn video_frame_times_of_moov(moov: &[u8]) -> Option<VideoFrameTimes> { super::video_frame_times_of_moov(moov) }
    pub fn mcraw_times(timestamps: &[i64]) -> Option<VideoFrameTimes> { super::mcraw_times(timestamps) }
    pub fn check_mcraw(text: &[u8], timestamps: &[i64]) -> Found { super::check_mcraw(text, timestamps) }

    pub fn find_box(bytes: &[u8], start: u64, end: u64, typ: &[u8; 4], text_types: bool) -> Result<Option<(u64, u64)>> {
        super::find_box(&mut Cursor::new(bytes), start, end, typ, text_types)
    }
    pub fn read_moov(file: &[u8]) -> Option<Vec<u8>> {
        super::read_moov(&mut Cursor::new(file), file.len() as u64).ok().flatten()
    }
    pub fn read_isobmff(file: &[u8]) -> Result<Option<Found>> {
        super::read_isobmff(&mut Cursor::new(file), file.len() as u64)
    }
    /// The places of the MTRM boxes' payloads in a file, found with the functions that `read_isobmff` finds them with
    pub fn table_places(file: &[u8]) -> Vec<(u64, u64)> {
        let size = file.len() as u64;
        let Ok(Some((moov, moov_len))) = find_box(file, 0, size, b"moov", true) else { return Vec::new() };
        let Ok(Some((udta, udta_len))) = find_box(file, moov, moov + moov_len, b"udta", false) else { return Vec::new() };
        let payload = &file[udta as usize..(udta + udta_len) as usize];
        children(payload).filter(|(typ, ..)| typ.to_be_bytes() == BOX_TYPE).map(|(_, start, len)| (udta + start, len)).collect()
    }
}
