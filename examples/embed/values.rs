//! A host that asks scripts for what they came to: what they defined, the topmost operand, and what went wrong.
//!
//!     cargo run --example values --manifest-path bindings/rust/Cargo.toml
use tallowmarch::{Error, Outcome, Run, Value, What};

/// A value in a few words.
fn show(what: &str, value: Option<Value>) {
    let text = match value.map(|it| it.what) {
        None => "none".to_string(),
        Some(What::Integer(number)) => format!("the integer {number}"),
        Some(What::String(bytes) | What::Name(bytes) | What::Operator(bytes)) => String::from_utf8_lossy(&bytes).into_owned(),
        Some(other) => format!("{other:?}"),
    };
    println!("  {what}: {text}");
}

fn main() -> Result<(), Error> {
    for text in ["/area 12 5 mul def (square miles)", "/area {side dup mul} def [1 2 3]", "/area 12 0 idiv def"] {
        let mut script = Run::new(text.as_bytes()).start()?;
        let outcome = script.advance(1000)?;
        println!("{text}");
        if outcome == Outcome::Faulted {
            show("error", script.error_name(1)?);
            show("raised by", script.error_command(1)?);
        }
        show("area", script.definition(1, b"area")?);
        show("topmost operand", script.operand(1, 0)?);
    }
    Ok(())
}
