//! Of lists that were cut at every place.

use super::{Line, may, must};
use crate::join::{Outside, Split, Verdict};

const HELD: &str = "held between records";
const FAILS: &str = "seen to fail in a record";
const HOLDS: &str = "the same is left in a record";

pub fn lines() -> Vec<Line> {
    let laws = [0x02, 0x05, 0x06].map(law);
    laws.iter()
        .flat_map(|law| [must(law, &[HELD, FAILS]), may(law, &[HOLDS])].concat())
        .collect()
}

fn law(joined: u8) -> String {
    format!("every place, joined by {joined:02x}")
}

/// Nothing where the law says nothing though A is whole.
pub fn placed(split: &Split, verdict: Verdict) -> Option<String> {
    let said = match verdict {
        Verdict::Held => HELD,
        Verdict::Outside(Outside::Cut, true) => FAILS,
        Verdict::Outside(Outside::Cut, false) => HOLDS,
        Verdict::Outside(..) | Verdict::Broken => return None,
    };
    Some(format!("{}: {said}", law(split.ways[2].command())))
}
