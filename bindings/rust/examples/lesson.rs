//! The first lesson from Rust: a clip of two rows is cut across its join, and the first frame past it is looked for.
use segment_table::{FrameMap, Refusal, Row};

fn main() -> Result<(), Refusal> {
    let row = |source, source_first, count, out_first| Row { source, source_first, count, out_first, shift: None };
    let clip = FrameMap::new(&[row(0, 10, 30, 0), row(1, 5, 20, 30)])?;
    let origin = clip.cut(25..40)?.origin(5)?;
    println!("frame 5 is frame {} of source {}", origin.frame, origin.source);
    Ok(())
}
