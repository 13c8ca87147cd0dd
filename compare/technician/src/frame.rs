//! A frame to run, from whichever source.

use cases::given::Given;
use cases::{Case, Random, Seen};

pub struct Frame {
    /// Where it comes from, in words.
    pub place: String,
    pub case: Case,
    /// Document 01's answer, by the independent reading.
    pub document: Seen,
}

impl Frame {
    pub fn new(place: String, case: Case) -> Self {
        let document = case.document();
        Self {
            place,
            case,
            document,
        }
    }
}

/// Random frames: the same ones for the same seed.
pub fn random(many: usize, seed: u64) -> impl Iterator<Item = Frame> {
    let mut random = Random::new(mixed(seed));
    let mut given = Given::default();
    (1..=many).map(move |number| {
        let frame = Frame::new(format!("random frame {number}"), given.next(&mut random));
        given.go_on(&frame.document);
        frame
    })
}

/// Small seeds made large, since small ones start with small numbers.
fn mixed(seed: u64) -> u64 {
    let mut mixed = seed.wrapping_add(0x9e37_79b9_7f4a_7c15);
    mixed = (mixed ^ mixed >> 30).wrapping_mul(0xbf58_476d_1ce4_e5b9);
    mixed = (mixed ^ mixed >> 27).wrapping_mul(0x94d0_49bb_1331_11eb);
    mixed ^ mixed >> 31
}

#[cfg(test)]
mod tests {
    use super::*;

    #[test]
    fn a_seed_says_it_all() {
        let frames = |seed| -> Vec<Case> { random(300, seed).map(|frame| frame.case).collect() };
        assert_eq!(frames(1).len(), 300);
        assert_eq!(frames(1), frames(1));
        assert_ne!(frames(1), frames(2));
        assert_ne!(frames(2), frames(3));
    }
}
