//! What is counted: a line for each kind of what came, and whether a run in
//! which it never came has shown too little.

mod failing;
mod joined;
mod ordered;
mod placed;

use cases::Seen;

pub use failing::{in_common, outside};
pub use joined::joined;
pub use ordered::{BY_CHANCE, MADE, ordered};
pub use placed::placed;

/// What it says, and whether it must come.
pub type Line = (String, bool);

/// All lines, in the order in which they are printed.
pub fn lines() -> Vec<Line> {
    [
        joined::lines(),
        placed::lines(),
        ordered::lines(),
        failing::lines(),
    ]
    .concat()
}

fn must(law: &str, details: &[&str]) -> Vec<Line> {
    listed(law, details, true)
}

fn may(law: &str, details: &[&str]) -> Vec<Line> {
    listed(law, details, false)
}

fn listed(law: &str, details: &[&str], must: bool) -> Vec<Line> {
    let line = |detail: &&str| (format!("{law}: {detail}"), must);
    details.iter().map(line).collect()
}

/// The details that came.
fn came<const N: usize>(details: [(&'static str, bool); N]) -> Vec<&'static str> {
    let came = details.into_iter().filter(|&(_, came)| came);
    came.map(|(detail, _)| detail).collect()
}

/// Why nothing changed: a store, table or cluster that calls refuse,
const REFUSED: [&str; 3] = [
    "nothing changed, another cluster (1)",
    "nothing changed, no store (7)",
    "nothing changed, no table (8)",
];

/// or records that change nothing.
const OTHERWISE: &str = "nothing changed otherwise";

fn nothing_lines(law: &str) -> Vec<Line> {
    [must(law, &REFUSED), may(law, &[OTHERWISE])].concat()
}

fn nothing(seen: &Seen) -> &'static str {
    match seen.number {
        1 => REFUSED[0],
        7 => REFUSED[1],
        8 => REFUSED[2],
        _ => OTHERWISE,
    }
}

#[cfg(test)]
mod tests {
    use super::*;

    #[test]
    fn each_line_once() {
        let mut lines = lines();
        let many = lines.len();
        lines.sort_unstable();
        lines.dedup();
        assert_eq!(lines.len(), many);
    }
}
