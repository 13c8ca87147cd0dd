//! The whole list.

use cases::{Condition, hex};
use reading::Extent;

use crate::lines::Inputs;
use crate::{
    collections, frames, headers, histories, numbers, requests, rust, stores, strings, types,
};

/// The list, or why there is none.
pub fn whole() -> Result<String, String> {
    let mut lines = types::lines()?;
    lines.extend(headers::lines()?);

    let mut inputs = Inputs::default();
    numbers::add(&mut inputs);
    strings::add(&mut inputs);
    collections::add(&mut inputs);
    for input in inputs.into_vec() {
        lines.push(value_line(&input)?);
    }
    lines.extend(stores::lines());
    lines.extend(frames::lines()?.0);
    lines.extend(histories::lines()?.0);
    lines.extend(requests::lines()?.0);

    let count = u32::try_from(lines.len()).expect("the list is short");
    lines.push(format!("n {}", hex(&count.to_le_bytes())));
    Ok(lines.join("\n") + "\n")
}

/// An `e` line where the Rust and document 01 agree, a `d` line where a listed
/// condition holds. The condition holds exactly where they differ.
fn value_line(value: &[u8]) -> Result<String, String> {
    let ours = document(value);
    let theirs = rust::extent(value)?;
    let (input, first, second) = (hex(value), hex(&ours), hex(&theirs));
    match (ours == theirs, Condition::of(value)) {
        (true, None) => Ok(format!("e {input} {second}")),
        (false, Some(_)) => Ok(format!("d {input} {first} {second}")),
        (false, None) => Err(format!(
            "a difference that is not listed: {input}, document 01 {first}, the Rust {second}"
        )),
        (true, Some(condition)) => Err(format!(
            "{condition:?} is listed as a difference and is none: {input}, both {first}"
        )),
    }
}

/// Document 01's answer for a value, in the form of the Rust's.
fn document(value: &[u8]) -> Vec<u8> {
    match reading::extent(value[0], &value[1..], 0) {
        Extent::End(end) => rust::taken(Some(end)),
        Extent::Cut | Extent::Without => rust::taken(None),
    }
}

#[cfg(test)]
mod tests {
    use cases::unhex;

    use super::*;

    #[test]
    fn shape() {
        let list = whole().expect("no difference but the listed ones");
        assert_eq!(list, whole().expect("again"), "two runs, one list");
        assert!(list.is_ascii() && list.len() < 1_600_000);

        let mut lines: Vec<&str> = list
            .strip_suffix('\n')
            .expect("an end")
            .split('\n')
            .collect();
        assert!((8_000..12_000).contains(&lines.len()));

        let last = lines.pop().expect("a last line");
        let count = u32::try_from(lines.len()).expect("short");
        assert_eq!(last, format!("n {}", hex(&count.to_le_bytes())));

        let floors = [
            ('t', 256, 3),
            ('i', 1, 3),
            ('h', 1_400, 3),
            ('e', 1_200, 3),
            ('d', 300, 4),
            ('s', 1_000, 3),
            ('v', 300, 3),
            ('w', 300, 3),
            ('c', 1_500, 3),
            ('x', 100, 4),
            ('m', 150, 3),
            ('q', 300, 3),
            ('y', 30, 4),
        ];
        let mut rest = lines.len();
        for (letter, floor, fields) in floors {
            let of: Vec<&&str> = lines
                .iter()
                .filter(|line| line.starts_with(letter))
                .collect();
            assert!(of.len() >= floor, "{letter}: {}", of.len());
            assert!(of.iter().all(|line| line.split(' ').count() == fields));
            rest -= of.len();
        }
        assert_eq!(rest, 0, "no other letters");

        for line in &lines {
            assert!(line.len() < 20_000);
            for field in line.split(' ').skip(1) {
                assert_eq!(field, hex(&unhex(field)), "{line}");
            }
        }
        let once: std::collections::HashSet<_> = lines.iter().collect();
        assert_eq!(once.len(), lines.len(), "no line twice");
    }

    #[test]
    fn every_condition_has_lines() {
        let list = whole().expect("a list");
        for condition in Condition::ALL {
            let found = list
                .lines()
                .filter_map(|line| line.strip_prefix("d "))
                .map(|rest| unhex(rest.split(' ').next().expect("an input")))
                .filter(|value| Condition::of(value) == Some(condition))
                .count();
            assert!(found >= 4, "{condition:?}: {found}");
        }
    }
}
