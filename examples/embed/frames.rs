//! A host with a loop of frames: each of a hundred scripts gets a slice of 100 steps a frame, until all have ended.
//!
//!     cargo run --example frames --manifest-path bindings/rust/Cargo.toml
use tallowmarch::{Error, Outcome, Run, Standing};

fn main() -> Result<(), Error> {
    // Each prints the numbers from 1 to its own, and their sum.
    let text = |number: u32| format!("0 1 1 {number} {{ dup = add }} for (sum ) print =");
    let mut scripts = (1..=100).map(|number| Run::new(text(number).as_bytes()).space(4096).start()).collect::<Result<Vec<Standing>, _>>()?;
    let mut bytes = 0;
    for frame in 1.. {
        let mut left = Vec::new();
        for mut script in scripts {
            let outcome = script.advance(100)?;
            bytes += script.take().len();
            if outcome == Outcome::StepsOut {
                left.push(script);
            }
        }
        scripts = left;
        println!("frame {frame}: {} scripts go on, {bytes} bytes were printed", scripts.len());
        if scripts.is_empty() {
            break;
        }
    }
    Ok(())
}
