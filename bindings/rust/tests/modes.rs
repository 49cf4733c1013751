//! The two modes of composition offsets. By the standard those of a ctts of version 0 are unsigned; in the crate's mode they are
//! signed, as those of every other version are in both.
mod movie;

use movie::{boxed, full, in_both_modes, moov, place, table, CRATE, STANDARD};
use segment_table::{find_box, video_frame_times_of_moov, FrameTimes, Refusal};

type Answer = Result<FrameTimes, Refusal>;

/// No frame is left.
const NONE: Answer = Err(Refusal { number: 31, index: 0 });

#[track_caller]
fn modes(moov: &[u8], in_crate: Answer, by_standard: Answer) {
    assert_eq!(video_frame_times_of_moov(moov, CRATE), in_crate);
    assert_eq!(video_frame_times_of_moov(moov, STANDARD), by_standard);
}

/// Three frames of 10 ticks, with a ctts of these entries.
fn frames(version: u8, entries: &[(u32, u32)]) -> Vec<u8> {
    moov(100, (3, 10), &table(b"ctts", version, entries), b"")
}

/// When those of them that are shown start, and where the last ends.
fn times(starts: &[i64], end: i64) -> Answer {
    Ok(FrameTimes { scale: 100, nominal: 10, end, starts: starts.to_vec() })
}

/// An edit from a time on; in version 1, whose times have 64 bits.
fn edit(time: u64) -> Vec<u8> {
    boxed(b"edts", &full(b"elst", 1, &[1, 0, 0, (time >> 32) as u32, time as u32, 0x10000]))
}

/// Half a second a frame, and an offset of 2.4 seconds.
#[test]
fn a_time_lapse() {
    let lapse = |edts: &[u8]| moov(1_000_000_000, (3, 500_000_000), &table(b"ctts", 0, &[(3, 2_400_000_000)]), edts);
    let shown = |starts: &[i64], end| Ok(FrameTimes { scale: 1_000_000_000, nominal: 500_000_000, end, starts: starts.to_vec() });
    modes(&lapse(b""), NONE, shown(&[2_400_000_000, 2_900_000_000, 3_400_000_000], 3_900_000_000));
    for time in [0, 2_400_000_000] {
        modes(&lapse(&edit(time)), NONE, shown(&[0, 500_000_000, 1_000_000_000], 1_500_000_000));
    }
    modes(&lapse(&edit(2_400_000_001)), NONE, shown(&[0, 500_000_000], 1_000_000_000));
}

#[test]
fn the_top_bit_in_version_0() {
    let below = times(&[2_147_483_647, 2_147_483_657, 2_147_483_667], 2_147_483_677);
    assert_eq!(in_both_modes(&frames(0, &[(3, 0x7fff_ffff)])), below);
    let from = times(&[2_147_483_648, 2_147_483_658, 2_147_483_668], 2_147_483_678);
    modes(&frames(0, &[(3, 0x8000_0000)]), NONE, from);
    let last = times(&[4_294_967_295, 4_294_967_305, 4_294_967_315], 4_294_967_325);
    modes(&frames(0, &[(3, 0xffff_ffff)]), times(&[9, 19], 29), last);
}

#[test]
fn signed_in_every_other_version() {
    for version in [1, 2, 255] {
        let below = times(&[2_147_483_647, 2_147_483_657, 2_147_483_667], 2_147_483_677);
        assert_eq!(in_both_modes(&frames(version, &[(3, 0x7fff_ffff)])), below);
        assert_eq!(in_both_modes(&frames(version, &[(3, 0x8000_0000)])), NONE);
        assert_eq!(in_both_modes(&frames(version, &[(3, 0xffff_ffff)])), times(&[9, 19], 29));
    }
}

/// The version is one byte; the flags after it say nothing.
#[test]
fn flags() {
    for (version, by_standard) in [(0, times(&[10, 20, 4_294_967_295], 4_294_967_305)), (1, times(&[10, 20], 30))] {
        let mut moov = frames(version, &[(1, 0xffff_ffff)]);
        let flags = place(&moov, b"ctts") + 9;
        moov[flags..flags + 3].fill(0xff);
        modes(&moov, times(&[10, 20], 30), by_standard);
    }
}

/// The first frame alone has an offset, which by the standard puts it after the others.
#[test]
fn an_edit() {
    let edited = |edts: &[u8]| moov(100, (3, 10), &table(b"ctts", 0, &[(1, 0xffff_ffff)]), edts);
    modes(&edited(&edit(0)), times(&[0, 10], 20), times(&[0, 10, 4_294_967_285], 4_294_967_295));
    modes(&edited(&edit(21)), NONE, times(&[0], 10));
}

#[test]
fn entries_of_no_frame() {
    let plain = times(&[5, 15, 25], 35);
    assert_eq!(in_both_modes(&frames(0, &[(0, 0x8000_0000), (3, 5)])), plain);
    assert_eq!(in_both_modes(&frames(0, &[(1, 5), (0, 0xffff_ffff), (2, 5)])), plain);
    assert_eq!(in_both_modes(&frames(0, &[(3, 5), (1, 0xffff_ffff)])), plain);
    modes(&frames(0, &[(0, 5), (3, 0x8000_0005)]), NONE, times(&[2_147_483_653, 2_147_483_663, 2_147_483_673], 2_147_483_683));
}

#[test]
fn frames_without_an_offset() {
    let late = times(&[20, 4_294_967_295, 4_294_967_305], 4_294_967_315);
    modes(&frames(0, &[(2, 0xffff_ffff)]), times(&[9, 20], 30), late);
    let plain = times(&[0, 10, 20], 30);
    assert_eq!(in_both_modes(&frames(0, &[])), plain);
    assert_eq!(in_both_modes(&moov(100, (3, 10), b"", b"")), plain);
}

/// A ctts under 4 bytes counts as absent, and one that ends before its entries is 31.
#[test]
fn a_ctts_that_breaks_off() {
    let payload = [0, 0, 0, 0, 0, 0, 0, 1, 0, 0, 0, 3, 0xff, 0xff, 0xff, 0xff];
    let cut = |length| moov(100, (3, 10), &boxed(b"ctts", &payload[..length]), b"");
    for length in 0..4 { assert_eq!(in_both_modes(&cut(length)), times(&[0, 10, 20], 30)); }
    for length in 4..16 { assert_eq!(in_both_modes(&cut(length)), NONE); }
    modes(&cut(16), times(&[9, 19], 29), times(&[4_294_967_295, 4_294_967_305, 4_294_967_315], 4_294_967_325));
}

/// Stored movies, and offsets of one bit.
#[test]
fn the_same_where_no_top_bit_is_set() {
    for name in ["frametimes/stdin", "frametimes_files/data/m1", "frametimes_files/data/large"] {
        let file = std::fs::read(format!("../../crates/{name}")).unwrap();
        let moov = find_box(&file, 0..file.len() as u64, *b"moov", true).unwrap();
        assert_eq!(in_both_modes(moov).unwrap().starts.len(), 3);
    }
    for bit in 0..31 {
        let first: i64 = 1 << bit;
        for version in [0, 1] {
            assert_eq!(in_both_modes(&frames(version, &[(3, first as u32)])), times(&[first, first + 10, first + 20], first + 30));
        }
    }
}
