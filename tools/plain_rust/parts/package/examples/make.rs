//! Makes the stream of any OBJ text, and says what was done to the text:
//!
//!     cargo run --release --example make [FACES] < model.obj > model.vdpm
use std::io::{stdin, stdout, Read, Write};
use vdpm::library::{prepare, simplify, Asked};

fn main() -> Result<(), Box<dyn std::error::Error>> {
    let faces = std::env::args().nth(1).map_or(Ok(0), |word| word.parse())?;
    let mut text = Vec::new();
    stdin().read_to_end(&mut text)?;
    let fit = prepare(&text, None)?;
    eprint!("{}", String::from_utf8_lossy(&fit.notes));
    let stream = simplify(&fit.text, Asked { faces, ..Asked::default() })?;
    stdout().write_all(stream.as_bytes())?;
    Ok(())
}
