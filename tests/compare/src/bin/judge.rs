//! judge: what check says of the image at standard input.
//!
//! Prints one line: `sound`, files, free, held, bad and reserved; or `finding`,
//! its number and its place.

use std::io::Read;

use compare::volume;
use compare::volume::answer::{number, value};

/// A verdict in words.
fn verdict(image: &[u8]) -> String {
    let mut out = [0; 20];
    let answer = volume::check(image, &mut out);
    if answer != 0 {
        return format!("finding {} {}", number(answer), value(answer));
    }
    let words = out
        .as_chunks()
        .0
        .iter()
        .map(|word| u32::from_le_bytes(*word));
    let counts: Vec<String> = words.map(|word| word.to_string()).collect();
    format!("sound {}", counts.join(" "))
}

fn main() -> std::io::Result<()> {
    let mut image = Vec::new();
    std::io::stdin().read_to_end(&mut image)?;
    println!("{}", verdict(&image));
    Ok(())
}
