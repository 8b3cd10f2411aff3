//! The least that a Rust host does: one program, run in the host's own process.
//!
//!     cargo run --example hello --manifest-path bindings/rust/Cargo.toml
use std::io::{self, Write};
use tallowmarch::{Outcome, Run};

fn main() -> Result<(), Box<dyn std::error::Error>> {
    let report = Run::new(b"(Hello from PostScript: ) print 1 2 add =").space(4096).run()?;
    io::stdout().write_all(&report.printed)?;
    assert_eq!(report.outcome, Outcome::Finished);
    eprintln!("{:?} after {} steps", report.outcome, report.steps);
    Ok(())
}
