//! Inputs of the field that ask more than equal intervals and durations: recordings with a pause, moovs of variable frame rate, and
//! moovs with much before the frames that are looked for.

use super::{ Inputs, in_both_modes, lasting };
use crate::{ case::Case, generate::{ boxes::{ Form, boxed }, moovs::{ Head, Moov } }, random::Random };

/// A frame at 30 frames a second, and ten seconds, in nanoseconds
const FRAME: u64 = 33_333_333;
const PAUSE: u64 = 10_000_000_000;

/// How many timestamps and frames are measured, and how many more timestamps for how the cost grows
const SIZES: [usize; 3] = [100, 10_000, 1_000_000];
const MORE: [usize; 3] = [4_000_000, 8_000_000, 16_000_000];

pub fn inputs(all: bool) -> Inputs {
    let mut r = Random::new(5);
    let mut inputs = Inputs::new();
    for n in SIZES.into_iter().chain(MORE.into_iter().filter(|_| all)) { inputs.extend(pauses(&mut r, n)); }
    for n in SIZES { inputs.extend(variable(&mut r, n as u32)); }
    for n in [1_000, 100_000] { inputs.extend(walks(n)); }
    inputs
}

/// `n` timestamps with these intervals
pub fn recording(n: usize, mut interval: impl FnMut() -> u64) -> Vec<i64> {
    let mut at = 1_000_000_000;
    (0..n).map(|_| { at += interval() as i64; at }).collect()
}

/// Recordings of `n` timestamps with one long interval in their middle
fn pauses(r: &mut Random, n: usize) -> Inputs {
    let with = |name: &str, long: u64, interval: &mut dyn FnMut() -> u64| {
        let mut left = n / 2;
        let timestamps = recording(n, || {
            left = left.wrapping_sub(1);
            if left == 0 { long } else { interval() }
        });
        (format!("{n} timestamps, {name}"), Case::McrawTimes { timestamps, room: [n; 2] })
    };
    vec![
        with("equal but for a pause of 10 s", PAUSE, &mut || FRAME),
        with("jitter and a pause of 10 s", PAUSE, &mut || FRAME + r.below(2000)),
        with("jitter and a pause of an hour", 360 * PAUSE, &mut || FRAME + r.below(2000)),
        with("1000 or 1001, one of 2^62", 1 << 62, &mut || 1000 + r.below(2)),
    ]
}

/// Moovs of `n` frames that last differently, and one of frames that are shown in the order opposite to their decoding
fn variable(r: &mut Random, n: u32) -> Inputs {
    let mut different: Vec<u32> = (1..=n).collect();
    for k in (1..different.len()).rev() { different.swap(k, r.below(k as u64 + 1) as usize); }
    let each = |durations: &mut dyn Iterator<Item = u32>| lasting(durations.map(|d| (1, d)).collect(), None, None);
    let falling = (0..n).map(|k| (1, (n - k) * 1024)).collect();
    let mut inputs = vec![
        (format!("{n} frames, 1,000 durations at random"), each(&mut (0..n).map(|_| 500 + r.below(1000) as u32))),
        (format!("{n} frames, durations all different"), each(&mut different.into_iter())),
        (format!("{n} frames, durations that fall"), each(&mut (1..=n).rev())),
    ];
    inputs.extend(in_both_modes(format!("{n} frames, times that fall"), lasting(vec![(n, 512)], Some(falling), None)));
    inputs
}

/// Moovs of 100 frames with `n` things before them that have no part in the answer; with room for the frames, and once with as much as
/// who doesn't know their number has to lend, all of which is cleared
fn walks(n: usize) -> Inputs {
    let head = |scale| Head { version: 0, scale };
    let plan = Moov { movie: head(1000), media: head(12800), handler: *b"vide", stts: vec![(100, 512)], ctts: None, elst: None };
    let sound = Moov { handler: *b"soun", stts: vec![(10, 1024)], ..plan.clone() };
    let mut stts = vec![(0, 512); n];
    stts.extend(&plan.stts);
    let tracks = plan.after(&sound.track(&[], &[]).repeat(n));
    let bytes = tracks.len();
    let of = |moov: Vec<u8>, room: usize| Case::VideoFrameTimesOfMoov { moov, standard: false, room: [room; 3] };
    vec![
        (format!("{n} sound tracks before the video"), of(tracks.clone(), 100)),
        (format!("{n} sound tracks before the video, room for {bytes} frames"), of(tracks, bytes)),
        (format!("{n} stts entries of no frames"), of(Moov { stts, ..plan.clone() }.in_order(&[]), 100)),
        (format!("{n} empty boxes before the mdia"), of([plan.mvhd(), plan.track(&boxed(Form::Short, b"free", &[]).repeat(n), &[])].concat(), 100)),
    ]
}
