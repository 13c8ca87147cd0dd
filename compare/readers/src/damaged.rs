//! The replies of document 01's bench frames, and every damage of one byte.

use ours::Held;

use crate::bench;
use crate::frames::Frames;

/// Says how many bench replies there were, and how many damaged ones were
/// compared.
pub fn compare(frames: &mut Frames) -> Result<(usize, usize), String> {
    let replies = replies(frames)?;
    let before = frames.counted.frames;
    for reply in &replies {
        frames.give(reply)?;
        for damaged in damaged(reply) {
            frames.give(&damaged)?;
        }
    }
    frames.compare()?;
    Ok((replies.len(), frames.counted.frames - before))
}

/// The replies, as ours gives them.
fn replies(frames: &mut Frames) -> Result<Vec<Vec<u8>>, String> {
    let served = bench::served();
    let (list, report) = bench::report();
    let requests = served.iter().map(|(case, seen)| Held::request(case, seen));
    let held: Vec<Held> = requests.chain([Held::report(&list, &report)]).collect();
    frames.driver.agree(&held)?;
    let replies = served.iter().map(|(_, seen)| seen.reply().to_vec());
    Ok(replies.chain([report.reply]).collect())
}

/// Cut at every place, each byte changed to every other, and with any byte
/// behind.
fn damaged(reply: &[u8]) -> Vec<Vec<u8>> {
    let cut = (0..reply.len()).map(|at| reply[..at].to_vec());
    let changed = (0..reply.len()).flat_map(|at| {
        let others = (0..=0xff).filter(move |&byte| byte != reply[at]);
        others.map(move |byte| {
            let mut changed = reply.to_vec();
            changed[at] = byte;
            changed
        })
    });
    let longer = (0..=0xff).map(|byte| [reply, &[byte]].concat());
    cut.chain(changed).chain(longer).collect()
}

#[cfg(test)]
mod tests {
    use cases::{hex, unhex};

    use super::*;

    #[test]
    fn every_damage_is_another_frame() {
        let reply = unhex("182b0400");
        let all = damaged(&reply);
        assert_eq!(all.len(), 4 + 4 * 255 + 256);
        let once: std::collections::HashSet<String> = all.iter().map(|one| hex(one)).collect();
        assert_eq!(once.len(), all.len());
        assert!(!once.contains(&hex(&reply)));
    }
}
