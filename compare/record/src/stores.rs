//! Stores. The Rust leaves a value store to its users, so these lines hold the
//! answers of document 01's reading alone.

mod layouts;
mod numbers;
mod writes;

use cases::hex;

pub fn lines() -> Vec<String> {
    [layouts::lines(), numbers::lines(), writes::lines()].concat()
}

fn line(letter: char, input: &[u8], answer: &[u8]) -> String {
    format!("{letter} {} {}", hex(input), hex(answer))
}
