//! How old and new compare on one frame.

use std::fmt::Write;

use cases::Difference;
use frames::sides::difference;

use crate::difference::{Side, first};
use crate::sides::{Old, Ran};

#[derive(Debug, Clone, PartialEq, Eq)]
pub enum Verdict {
    Equal,
    /// As docs/DIFFERENCES.md has it.
    Listed(Difference),
    /// The old one has no such store or table.
    NoCounterpart,
    /// With everything that is to be known of it.
    Unlisted(String),
}

impl Ran {
    /// The new one is held to document 01 on every frame: so where the two
    /// differ as listed, too, and where there is no old answer.
    pub fn verdict(&self) -> Verdict {
        match (&self.new, &self.old) {
            (Ok(new), old) if *new == self.frame.document => match old {
                Old::NoCounterpart => Verdict::NoCounterpart,
                Old::Said(outcome) => match difference(&self.frame.case, new, outcome) {
                    Ok(None) => Verdict::Equal,
                    Ok(Some(listed)) => Verdict::Listed(listed),
                    Err(_) => Verdict::Unlisted(self.shown()),
                },
                Old::Panicked(_) => Verdict::Unlisted(self.shown()),
            },
            _ => Verdict::Unlisted(self.shown()),
        }
    }

    /// The frame, the answers, and the first difference.
    fn shown(&self) -> String {
        let document = Side::of_seen("document 01", &self.frame.document);
        let old = match &self.old {
            Old::Said(outcome) => Ok(Side::of_outcome("old", outcome)),
            Old::NoCounterpart => Err("old: it has no such store or table\n".to_owned()),
            Old::Panicked(trouble) => Err(format!("old: {trouble}\n")),
        };
        let new = match &self.new {
            Ok(seen) => Ok(Side::of_seen("new", seen)),
            Err(trouble) => Err(format!("new: {trouble}\n")),
        };
        let mut text = format!("{}\n{}", self.frame.place, self.frame.case);
        for side in [&old, &new] {
            text += &side.as_ref().map_or_else(String::clone, Side::to_string);
        }
        let Ok(new) = &new else { return text };
        // where old and new are alike, both have left document 01
        let against_old = old
            .as_ref()
            .ok()
            .and_then(|old| first(old, &new.unmarked()));
        let difference = against_old.or_else(|| {
            text += &document.to_string();
            first(&document, new)
        });
        let _ = writeln!(text, "first difference: {}", difference.unwrap_or_default());
        text
    }
}

#[cfg(test)]
mod tests {
    use cases::stores::bench;
    use cases::{Case, Condition, unhex};
    use frames::sides::asked;
    use oracle::Oracle;

    use super::*;
    use crate::frame::Frame;

    /// A frame over T, with the new answer that document 01 asks for.
    fn ran(store: &[u8], request: &str) -> Ran {
        let case = Case::over(store, &unhex(request), 64);
        let old = asked(&mut Oracle::default(), &case).expect("no panic");
        let frame = Frame::new("line 7".to_owned(), case);
        Ran {
            new: Ok(frame.document.clone()),
            old: old.map_or(Old::NoCounterpart, Old::Said),
            frame,
        }
    }

    /// Bench frame 7.
    const DIVIDED: &str = "002b0301002009070042054142434445";

    #[test]
    fn right_answers() {
        assert_eq!(ran(&bench(), "002a000000").verdict(), Verdict::Equal);
        let boolean = Difference::Value(Condition::BooleanAboveOne);
        for (request, difference) in [
            ("00000200001002", boolean),
            ("00000b", Difference::DefaultResponse),
            (DIVIDED, Difference::Divided),
        ] {
            let verdict = ran(&bench(), request).verdict();
            assert_eq!(verdict, Verdict::Listed(difference));
        }
        assert_eq!(ran(&[0], "002a00").verdict(), Verdict::NoCounterpart);
    }

    /// It is an unlisted difference, of which this is said.
    fn says(ran: &Ran, part: &str) {
        match ran.verdict() {
            Verdict::Unlisted(text) => assert!(text.contains(part), "{text}"),
            other => panic!("{other:?}"),
        }
    }

    #[test]
    fn a_wrong_byte_anywhere() {
        for (request, store) in [
            ("002a000000", bench()),
            ("00000200001002", bench()),
            ("00000b", bench()),
            (DIVIDED, bench()),
            ("002a00", vec![0]),
        ] {
            let right = ran(&store, request);
            let seen = right.new.as_ref().expect("an answer");
            for at in 0..seen.buffer.len() + seen.store.len() + seen.table.len() {
                let mut wrong = ran(&store, request);
                let seen = wrong.new.as_mut().expect("an answer");
                let bytes = seen.buffer.iter_mut().chain(&mut seen.store);
                let byte = bytes.chain(&mut seen.table).nth(at).expect("a byte");
                *byte ^= 0x40;
                says(&wrong, &format!("request  {request}\n"));
                says(&wrong, "first difference: ");
            }
        }
    }

    #[test]
    fn another_refusal() {
        let mut wrong = ran(&bench(), "002a0000");
        wrong.new.as_mut().expect("an answer").number = 5;
        says(&wrong, "first difference: the number: document 01 4, new 5");
    }

    /// The old one has no marks: the level's, a Uint8, is held to document 02.
    #[test]
    fn another_mark() {
        let store = {
            let mut store = bench();
            store[4 + 8 + 3] |= 2; // it can be reported
            store
        };
        let configure = "002d06000100200a003c0001";
        let right = ran(&store, configure);
        let seen = right.new.as_ref().expect("an answer");
        assert_eq!((seen.table[0], seen.table[17]), (1, 1));
        assert_eq!(right.verdict(), Verdict::Equal);
        let mut wrong = ran(&store, configure);
        wrong.new.as_mut().expect("an answer").table[17] = 0;
        says(
            &wrong,
            "first difference: table, byte 17: document 01 01, new 00",
        );
        // another difference is named, and not the mark
        let mut wrong = ran(&store, configure);
        wrong.new.as_mut().expect("an answer").table[18] = 1;
        says(&wrong, "first difference: table, byte 18: old 00, new 01");
    }

    #[test]
    fn the_old_one_alone() {
        let mut wrong = ran(&bench(), "002a000000");
        let Old::Said(outcome) = &mut wrong.old else {
            panic!("it is asked");
        };
        outcome.store[36] = 1;
        says(&wrong, "first difference: store, byte 36: old 01, new 00");
    }

    /// A frame that meets a listed difference does not excuse any other answer,
    /// not even the right one.
    #[test]
    fn the_old_one_otherwise_than_listed() {
        let mut other = ran(&bench(), DIVIDED);
        let Old::Said(outcome) = &mut other.old else {
            panic!("it is asked");
        };
        outcome.store[40] = 8;
        says(&other, "first difference: store, byte 40: old 08, new 07");
        let mut right = ran(&bench(), DIVIDED);
        let Old::Said(outcome) = &mut right.old else {
            panic!("it is asked");
        };
        outcome.store[40] = 7;
        says(&right, "old:\n  reply    182b04870700");
    }

    #[test]
    fn no_answer_to_compare() {
        let mut wrong = ran(&bench(), "002a000000");
        wrong.new = Err("ours wrote behind a result".to_owned());
        says(&wrong, "new: ours wrote behind a result");
        let mut wrong = ran(&bench(), "002a000000");
        wrong.old = Old::Panicked("the Rust panics".to_owned());
        says(&wrong, "old: the Rust panics");
    }
}
