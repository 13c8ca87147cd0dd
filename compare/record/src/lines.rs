//! Inputs without repetition.

use std::collections::HashSet;

/// Inputs in the order they were added, each once.
#[derive(Default)]
pub struct Inputs {
    order: Vec<Vec<u8>>,
    seen: HashSet<Vec<u8>>,
}

impl Inputs {
    pub fn add(&mut self, input: Vec<u8>) {
        if self.seen.insert(input.clone()) {
            self.order.push(input);
        }
    }

    /// An input as it is, one byte short and one byte longer. The first byte
    /// is its type code and stays.
    pub fn add_around(&mut self, input: &[u8], more: u8) {
        self.add(input.to_vec());
        if input.len() > 1 {
            self.add(input[..input.len() - 1].to_vec());
        }
        self.add([input, &[more]].concat());
    }

    pub fn len(&self) -> usize {
        self.order.len()
    }

    pub fn into_vec(self) -> Vec<Vec<u8>> {
        self.order
    }
}
