//! The limit that tables had before document 02's request 7. A history from an
//! empty table whose keys, as they stand under the new limit, never pass 16 at
//! once gives the same answers under both: the Rust's table of 16 is given its
//! calls too, as long as they do not.

use cases::histories::{Answer, Call};
use reading::table::{Entry, FORMER_ENTRIES};

use crate::table::list;

/// The Rust's table with the room of before, empty at first; none once a history
/// has passed it.
pub struct Former(Option<oracle::Table<FORMER_ENTRIES>>);

impl Former {
    /// For a history from an empty table.
    pub fn new() -> Self {
        Self(Some(oracle::Table::default()))
    }

    /// For a table that no history has led to.
    pub fn none() -> Self {
        Self(None)
    }

    pub fn passed(&self) -> bool {
        self.0.is_none()
    }

    /// Gives it a call to which the Rust's table with the new limit says this, and
    /// which leaves that with these entries: it is to say and leave the same. The
    /// call that passes it is the first that it does not accept. Gives whether it
    /// was given the call: it is not once it is passed.
    pub fn give(
        &mut self,
        call: &Call,
        rust: &Answer,
        left: impl Fn() -> Vec<Entry>,
    ) -> Result<bool, String> {
        let Some(table) = &self.0 else {
            return Ok(false);
        };
        let left = left();
        let said = table.call(call);
        let entries = table.entries();
        let passes = left.len() > FORMER_ENTRIES;
        let stands = if passes {
            said == Answer::yes(false) && entries == left[..FORMER_ENTRIES]
        } else {
            said == *rust && entries == left
        };
        if !stands {
            return Err(format!(
                "the Rust's table of {FORMER_ENTRIES} answers {said:?} and leaves\n{}but under the new limit it is {rust:?} and\n{}",
                list(&entries),
                list(&left)
            ));
        }
        if passes {
            self.0 = None;
        }
        Ok(true)
    }
}

#[cfg(test)]
mod tests {
    use cases::histories::middle::moving;
    use reading::table::{Config, ENTRIES, Key, SIGNED};

    use super::*;

    fn configure(attribute: u16) -> Call {
        let [Call::Configure(key, config), ..] = moving(SIGNED, 2, 0, 0) else {
            panic!("a configuration comes first");
        };
        Call::Configure(Key { attribute, ..key }, config)
    }

    /// What a table with the new limit says to these calls, and has then.
    fn after(calls: &[Call]) -> (Answer, Vec<Entry>) {
        let table: oracle::Table<ENTRIES> = oracle::Table::default();
        let said = calls.iter().map(|call| table.call(call)).last();
        (said.expect("a call"), table.entries())
    }

    /// Sixteen, one of them again, and one more.
    #[test]
    fn left_by_the_seventeenth() {
        let mut former = Former::new();
        let mut calls = Vec::new();
        let sixteen = (0..16).map(|attribute| (attribute, true));
        for (attribute, stays) in sixteen.chain([(3, true), (16, false), (4, false)]) {
            calls.push(configure(attribute));
            let (rust, left) = after(&calls);
            let given = former.give(&configure(attribute), &rust, || left.clone());
            assert_eq!(given, Ok(calls.len() <= 18));
            assert_eq!(former.passed(), !stays, "{attribute}");
        }
        assert_eq!(after(&calls).1.len(), 17);
    }

    /// One that says or leaves otherwise than under the new limit is seen: here
    /// what the new limit says is not true.
    #[test]
    fn what_differs_is_seen() {
        let calls = [configure(1), configure(2)];
        let (rust, left) = after(&calls);
        let mut changed = left.clone();
        changed[0].config = Config {
            change: 7,
            ..left[0].config
        };
        let exchanged = [left[1], left[0]];
        for (said, left, stands) in [
            (rust, &left[..], true),
            (Answer::yes(false), &left, false),
            (rust, &changed, false),
            (rust, &exchanged, false),
            (rust, &left[..1], false),
        ] {
            let mut former = Former::new();
            let first = after(&calls[..1]);
            assert_eq!(
                former.give(&calls[0], &first.0, || first.1.clone()),
                Ok(true)
            );
            let given = former.give(&calls[1], &said, || left.to_vec());
            assert_eq!(given.is_ok(), stands);
        }
        let given = Former::none().give(&calls[1], &rust, || left.clone());
        assert_eq!(given, Ok(false));
    }
}
