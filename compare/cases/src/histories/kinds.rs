//! Calls by kind and answer, and how often each came.

use reading::table::{Broken, ENTRIES, Entry, FORMER_ENTRIES, Reason, SIGNED, ask, moved, place};

use super::call::{Answer, Call};
use super::middle::deciding;

/// The calls on a table.
pub const CALLS: [&str; 5] = ["configure", "clear", "configuration", "mark", "ask"];

/// All that is done to a table's bytes.
pub const ALL: [&str; 11] = [
    "configure",
    "clear",
    "configuration",
    "mark",
    "ask",
    "refused",
    "signed",
    "unsigned",
    "entries",
    "former",
    "damaged",
];

/// All kinds; a run that does not reach each of them has failed.
const KINDS: [&str; 57] = [
    "configure accepted, new key",
    "configure accepted, key again",
    "configure not accepted",
    "clear, key stood last",
    "clear, key stood before others",
    "clear, key did not stand",
    "configuration found",
    "configuration not found",
    "mark, for the first time",
    "mark, again",
    "mark, no entry",
    "ask no: no entry",
    "ask no: disabled",
    "ask yes: never marked",
    "ask no: below minimum",
    "ask no: below minimum, which is above maximum, and at maximum",
    "ask no: clock back, below minimum",
    "ask yes: at maximum",
    "ask yes: at maximum, and at minimum, which is above it",
    "ask yes: moved enough",
    "ask yes: moved enough, maximum 0",
    "ask yes: moved enough, by 2^63 or more",
    "ask yes: clock back, moved enough",
    "ask no: moved too little",
    "ask no: moved too little, by 2^63 or more",
    "ask no: clock back, moved too little",
    "ask no: not moved",
    "ask no: clock back, not moved",
    "refused, 13: configure with a mark above 1",
    "signed: ask that the values do not decide, and the Rust says the same",
    "signed: ask, both values below 0 or neither, and the Rust says the same",
    "signed: ask, one value below 0 and one not, and the Rust says the same",
    "unsigned: ask that the values do not decide, and the Rust says the same",
    "unsigned: ask, both values below 2^63, and the Rust says the same",
    "unsigned: ask, both values from 2^63 on, and the Rust says the same",
    "unsigned: ask across the middle, change 0 or 1, and the Rust says the same",
    "unsigned: ask across the middle, and the Rust says the same",
    "unsigned: ask across the middle, where the Rust says no: a listed difference",
    "unsigned: ask across the middle, where the Rust says yes: a listed difference",
    "entries: fewer than 16",
    "entries: 16",
    "entries: 17",
    "entries: from 18 to 126",
    "entries: 127",
    "entries: 128",
    "former: a call that the Rust's table of 16 answers alike",
    "former: the same, with 16 entries",
    "former: a 17th key, which that table does not accept, and the history leaves it",
    "former: a history that never has more than 16 entries",
    "former: a history that passes 16",
    "damaged: length",
    "damaged: count",
    "damaged: slot past the count",
    "damaged: mark",
    "damaged: flag",
    "damaged: time or value under flag 0",
    "damaged: another table",
];

pub struct Kinds([u64; KINDS.len()]);

impl Default for Kinds {
    fn default() -> Self {
        Self([0; KINDS.len()])
    }
}

impl Kinds {
    pub fn count(&mut self, kind: &'static str) {
        let place = KINDS.iter().position(|&known| known == kind);
        self.0[place.expect("the kind is listed")] += 1;
    }

    /// The kinds of these calls that never came.
    pub fn missing(&self, calls: &[&str]) -> Vec<&'static str> {
        let none = |(kind, count)| (count == 0).then_some(kind);
        self.of(calls).filter_map(none).collect()
    }

    /// A line for each kind of these calls.
    pub fn list(&self, calls: &[&str]) -> String {
        let line = |(kind, count)| format!("{count:9}  {kind}\n");
        self.of(calls).map(line).collect()
    }

    /// A kind's first word is its call.
    fn of(&self, calls: &[&str]) -> impl Iterator<Item = (&'static str, u64)> {
        let each = KINDS.into_iter().zip(self.0);
        each.filter(|(kind, _)| calls.contains(&kind.split([' ', ',', ':']).next().unwrap_or(kind)))
    }
}

/// The kind of a call on a table of these entries, which was answered so.
pub fn of(entries: &[Entry], call: &Call, answer: &Answer) -> &'static str {
    let yes = answer.written[0] == 1;
    match *call {
        Call::Configure(..) if *answer == Answer::NO_MARK => {
            "refused, 13: configure with a mark above 1"
        }
        Call::Configure(..) if !yes => "configure not accepted",
        Call::Configure(key, _) => match place(entries, key) {
            Some(_) => "configure accepted, key again",
            None => "configure accepted, new key",
        },
        Call::Clear(key) => match place(entries, key) {
            Some(place) if place + 1 == entries.len() => "clear, key stood last",
            Some(_) => "clear, key stood before others",
            None => "clear, key did not stand",
        },
        Call::Configuration(_) if yes => "configuration found",
        Call::Configuration(_) => "configuration not found",
        Call::Mark(key, ..) => match place(entries, key) {
            Some(place) if entries[place].last.is_none() => "mark, for the first time",
            Some(_) => "mark, again",
            None => "mark, no entry",
        },
        Call::Ask(key, now, value) => {
            let reason = ask(entries, key, now, value);
            let entry = place(entries, key).map(|place| entries[place]);
            of_ask(reason, entry, now, value)
        }
    }
}

fn of_ask(reason: Reason, entry: Option<Entry>, now: u32, value: i64) -> &'static str {
    let Some(entry) = entry else {
        return "ask no: no entry";
    };
    let Some((time, reported)) = entry.last else {
        return match reason {
            Reason::Disabled => "ask no: disabled",
            _ => "ask yes: never marked",
        };
    };
    let maximum = entry.config.maximum;
    let crossed = 0 < maximum && maximum < entry.config.minimum;
    let far = moved(entry.config.mark, value, reported) >= 1 << 63;
    let back = now < time;
    match reason {
        Reason::NoEntry => "ask no: no entry",
        Reason::Disabled => "ask no: disabled",
        Reason::NeverMarked => "ask yes: never marked",
        Reason::BelowMinimum if back => "ask no: clock back, below minimum",
        Reason::BelowMinimum if crossed && now - time >= maximum.into() => {
            "ask no: below minimum, which is above maximum, and at maximum"
        }
        Reason::BelowMinimum => "ask no: below minimum",
        Reason::AtMaximum if crossed => "ask yes: at maximum, and at minimum, which is above it",
        Reason::AtMaximum => "ask yes: at maximum",
        Reason::MovedEnough if back => "ask yes: clock back, moved enough",
        Reason::MovedEnough if far => "ask yes: moved enough, by 2^63 or more",
        Reason::MovedEnough if maximum == 0 => "ask yes: moved enough, maximum 0",
        Reason::MovedEnough => "ask yes: moved enough",
        Reason::MovedTooLittle if back => "ask no: clock back, moved too little",
        Reason::MovedTooLittle if far => "ask no: moved too little, by 2^63 or more",
        Reason::MovedTooLittle => "ask no: moved too little",
        Reason::NotMoved if back => "ask no: clock back, not moved",
        Reason::NotMoved => "ask no: not moved",
    }
}

/// The kind of an ask of a key that stands, by its mark and by how the Rust stands
/// to it. Where the Rust says otherwise, it is under the listed difference:
/// `Table::give` has seen to that.
pub fn of_marked(
    entries: &[Entry],
    call: &Call,
    document: &Answer,
    rust: &Answer,
) -> Option<&'static str> {
    let Call::Ask(key, ..) = *call else {
        return None;
    };
    let signed = entries[place(entries, key)?].config.mark == SIGNED;
    if document != rust {
        return Some(if *rust == Answer::yes(false) {
            "unsigned: ask across the middle, where the Rust says no: a listed difference"
        } else {
            "unsigned: ask across the middle, where the Rust says yes: a listed difference"
        });
    }
    let Some((config, reported, value)) = deciding(entries, call) else {
        return Some(if signed {
            "signed: ask that the values do not decide, and the Rust says the same"
        } else {
            "unsigned: ask that the values do not decide, and the Rust says the same"
        });
    };
    Some(match (signed, reported < 0, value < 0) {
        (true, true, true) | (true, false, false) => {
            "signed: ask, both values below 0 or neither, and the Rust says the same"
        }
        (true, ..) => "signed: ask, one value below 0 and one not, and the Rust says the same",
        (_, false, false) => "unsigned: ask, both values below 2^63, and the Rust says the same",
        (_, true, true) => "unsigned: ask, both values from 2^63 on, and the Rust says the same",
        _ if config.change < 2 => {
            "unsigned: ask across the middle, change 0 or 1, and the Rust says the same"
        }
        _ => "unsigned: ask across the middle, and the Rust says the same",
    })
}

/// The kind of a table that a call leaves.
pub fn of_left(entries: &[Entry]) -> &'static str {
    const LAST: usize = ENTRIES - 1;
    match entries.len() {
        ..FORMER_ENTRIES => "entries: fewer than 16",
        FORMER_ENTRIES => "entries: 16",
        17 => "entries: 17",
        ..LAST => "entries: from 18 to 126",
        LAST => "entries: 127",
        _ => "entries: 128",
    }
}

/// The kind of a call that a table with the limit of before is given too, by what
/// it leaves under the new one.
pub fn of_former(entries: &[Entry]) -> &'static str {
    match entries.len() {
        ..FORMER_ENTRIES => "former: a call that the Rust's table of 16 answers alike",
        FORMER_ENTRIES => "former: the same, with 16 entries",
        _ => "former: a 17th key, which that table does not accept, and the history leaves it",
    }
}

/// The kind of a history, by whether its entries have passed the limit of before.
pub fn of_history(passed: bool) -> &'static str {
    if passed {
        "former: a history that passes 16"
    } else {
        "former: a history that never has more than 16 entries"
    }
}

/// The kind of a damaged table.
pub fn of_damaged(read: &Result<Vec<Entry>, Broken>) -> &'static str {
    match read {
        Err(Broken::Length) => "damaged: length",
        Err(Broken::Count) => "damaged: count",
        Err(Broken::Unused) => "damaged: slot past the count",
        Err(Broken::Mark) => "damaged: mark",
        Err(Broken::Flag) => "damaged: flag",
        Err(Broken::Unreported) => "damaged: time or value under flag 0",
        Ok(_) => "damaged: another table",
    }
}

#[cfg(test)]
mod tests {
    use super::*;

    /// A kind of a call that is not named would never be missed.
    #[test]
    fn all_are_missed() {
        let none = Kinds::default();
        assert_eq!(none.missing(&ALL), KINDS);
        let mut all = Kinds::default();
        for kind in KINDS {
            all.count(kind);
        }
        assert_eq!(all.missing(&ALL), [""; 0]);
    }
}
