//! Reads standard input whole, and either copies it once (`read_text copy`) or counts its lines
//! (`read_text lines`): a measure for the reader of texts.
use std::io::Read;

fn main() {
    let word = std::env::args().nth(1).unwrap_or_default();
    let mut text = Vec::new();
    std::io::stdin().read_to_end(&mut text).expect("reading");
    if word == "copy" {
        let copy = text.clone();
        println!("{}", copy.len());
    } else {
        println!("{}", text.iter().filter(|byte| **byte == b'\n').count());
    }
}
