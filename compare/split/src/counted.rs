//! How often each kind came.

use std::collections::{BTreeSet, HashMap};

use reading::Kind;
use reading::store::attributes;

use crate::join::{self, Split};
use crate::kinds::{self, lines};
use crate::order::{self, Pair};

#[derive(Debug, PartialEq, Eq)]
pub struct Counted {
    counts: HashMap<String, usize>,
    /// Types of attributes that got another value by a list that was held.
    types: BTreeSet<u8>,
    /// Lists cut in two for which the law of joining held.
    pub joined: usize,
    /// Pairs for which the law of order held.
    pub ordered: usize,
}

impl Counted {
    pub fn new() -> Self {
        Self {
            counts: lines().into_iter().map(|(line, _)| (line, 0)).collect(),
            types: BTreeSet::new(),
            joined: 0,
            ordered: 0,
        }
    }

    pub fn count(&mut self, line: &str) {
        let count = self.counts.get_mut(line);
        *count.unwrap_or_else(|| panic!("there is no line for {line}")) += 1;
    }

    pub fn split(&mut self, split: &Split, ran: &join::Ran, verdict: join::Verdict) {
        match verdict {
            join::Verdict::Held => {
                self.joined += 1;
                self.changed(&split.before.store, &ran.joined.store);
                self.count_all(kinds::joined(split, ran));
            }
            join::Verdict::Outside(outside, fails) => {
                self.count(&kinds::outside(split, outside, fails));
            }
            join::Verdict::Broken => (),
        }
    }

    pub fn pair(&mut self, pair: &Pair, ran: &order::Ran, verdict: order::Verdict, made: &str) {
        match verdict {
            order::Verdict::Held => {
                self.ordered += 1;
                self.count_all(kinds::ordered(pair, ran, made));
            }
            order::Verdict::InCommon(fails) => self.count(&kinds::in_common(fails)),
            order::Verdict::Broken => (),
        }
    }

    fn count_all(&mut self, lines: Vec<String>) {
        for line in lines {
            self.count(&line);
        }
    }

    /// Counts the types of the attributes whose bodies differ.
    fn changed(&mut self, before: &[u8], after: &[u8]) {
        let attributes = attributes(before).unwrap_or_default();
        let other = attributes.iter().filter(|entry| {
            let body = entry.offset..entry.offset + entry.room;
            before.get(body.clone()) != after.get(body)
        });
        self.types.extend(other.map(|entry| entry.type_code));
    }

    /// A line for each kind, with how often it came here and there.
    pub fn beside(&self, other: &Self) -> String {
        let line = |(line, _)| {
            let (here, there) = (self.counts[&line], other.counts[&line]);
            format!("{here:9}  {there:9}  {line}\n")
        };
        let lines: String = lines().into_iter().map(line).collect();
        let (here, there, all) = (self.types.len(), other.types.len(), types().len());
        lines + &format!("{here:9}  {there:9}  types of values changed, of {all}\n")
    }

    /// What must come and never came.
    pub fn never(&self) -> Vec<String> {
        let missing = types()
            .difference(&self.types)
            .copied()
            .collect::<Vec<u8>>();
        let types = missing
            .into_iter()
            .map(|code| format!("a changed value of type {code:02x}"));
        let needed = lines().into_iter().filter(|(_, must)| *must);
        let never = needed.filter(|(line, _)| self.counts[line] == 0);
        never.map(|(line, _)| line).chain(types).collect()
    }
}

/// The types that a store may hold.
fn types() -> BTreeSet<u8> {
    let held = |code: &u8| matches!(reading::kind(*code), Kind::Fixed(1..) | Kind::Text(1));
    (0..=0xff).filter(held).collect()
}

#[cfg(test)]
mod tests {
    use cases::stores::bench;

    use super::*;

    #[test]
    fn what_never_came_is_named() {
        let mut counted = Counted::new();
        let never = counted.never();
        let (must, may): (Vec<_>, Vec<_>) = lines().into_iter().partition(|(_, must)| *must);
        assert_eq!(never.len(), must.len() + types().len());
        for (line, _) in must.iter().chain(&may) {
            counted.count(line);
        }
        assert_eq!(counted.never().len(), types().len());
        counted.types = types();
        assert!(counted.never().is_empty());
        let line = &must[0].0;
        counted.counts.insert(line.clone(), 0);
        assert_eq!(counted.never(), std::slice::from_ref(line));
    }

    #[test]
    fn changed_values_by_their_types() {
        let mut counted = Counted::new();
        let store = bench();
        counted.changed(&store, &store);
        assert!(counted.types.is_empty());
        let mut other = store.clone();
        other[0x28] = 9;
        other[0x2c] = b'U';
        counted.changed(&store, &other);
        assert_eq!(counted.types, BTreeSet::from([0x20, 0x42]));
    }

    #[test]
    #[should_panic(expected = "no line")]
    fn other_lines_are_not_counted() {
        Counted::new().count("any");
    }
}
