//! The listed differences, each by its smallest frames, run now.

use cases::stores::bench;
use cases::{Case, Condition, Difference, unhex};

use crate::frame::Frame;
use crate::sides::{Ran, Sides};
use crate::verdict::Verdict;

/// The least room that every reply to them fits.
pub const ROOM: usize = 9;

/// The names in docs/DIFFERENCES.md of the two differences in the reply buffer.
const BEHIND: &str = "bytes of the reply buffer behind a reply";
const REFUSED: &str = "the reply buffer after a refusal";

/// A listed difference in what is said to a frame.
pub struct Listed {
    pub difference: Difference,
    pub ran: Ran,
}

/// The frames of docs/DIFFERENCES.md over store T. Of the three writes: attribute
/// 0 is read-only, so its record fails; behind it, a write without response has a
/// record that stores 0 in attribute 1. Of the undivided writes that divide: such
/// a record, or one that fails, before a string that is too long.
pub fn listed(sides: &mut Sides) -> Result<Vec<Listed>, String> {
    let mut frames = Vec::new();
    for condition in Condition::ALL {
        for (command, behind) in [(0x02, &[][..]), (0x03, &[]), (0x05, &[1, 0, 0x20, 0])] {
            let head = [0, 0, command, 0, 0];
            let request = [&head, condition.smallest(), behind].concat();
            frames.push((Difference::Value(condition), request));
        }
    }
    frames.push((Difference::DefaultResponse, unhex("00000b")));
    for before in ["01002000", "000000"] {
        let request = format!("000003{before}070042050000000000");
        frames.push((Difference::Divided, unhex(&request)));
    }
    let one = |(difference, request): (Difference, Vec<u8>)| {
        let ran = ran(sides, difference.name(), &request, ROOM)?;
        Ok(Listed { difference, ran })
    };
    frames.into_iter().map(one).collect()
}

/// The two differences in the reply buffer, which the old one's caller does not
/// look at.
pub fn buffers(sides: &mut Sides) -> Result<[(&'static str, Ran); 2], String> {
    Ok([
        (BEHIND, ran(sides, BEHIND, &unhex("0000000001"), 5)?),
        (REFUSED, ran(sides, REFUSED, &unhex("000000"), 1)?),
    ])
}

fn ran(sides: &mut Sides, name: &str, request: &[u8], room: usize) -> Result<Ran, String> {
    let case = Case::over(&bench(), request, room);
    sides.one(Frame::new(format!("the listed frame of {name}"), case))
}

impl Listed {
    /// What is wrong with it.
    pub fn trouble(&self) -> Option<String> {
        match self.ran.verdict() {
            Verdict::Listed(difference) if difference == self.difference => None,
            Verdict::Unlisted(text) => Some(text),
            _ => Some(format!(
                "the listed frame of {} makes no such difference\n{}",
                self.difference.name(),
                self.ran.frame.case
            )),
        }
    }
}

#[cfg(test)]
mod tests {
    use super::{BEHIND, REFUSED};

    #[test]
    fn names_of_the_page() {
        let page = include_str!("../../../docs/DIFFERENCES.md");
        for name in [BEHIND, REFUSED] {
            assert!(page.contains(&format!("\n| {name} | ")), "{name}");
        }
    }
}
