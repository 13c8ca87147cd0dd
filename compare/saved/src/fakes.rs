//! Servers that are wrong, each in its way.

use ours::{Answer, Server};
use reading::saved::{Fault, length, read, read_within, save, write};
use reading::table::{
    ENTRIES, Entry, FORMER_ENTRIES, SIGNED, SIZE, SLOT, UNSIGNED, entries, is_mark, place, to_bytes,
};

use crate::call::{Call, Given, restores, saves};
use crate::counted::is_old;
use crate::made::Form;

/// What it makes of a call.
pub struct Fake(pub fn(&Call) -> Answer);

impl Server<Given> for Fake {
    fn serve(&mut self, calls: &[Given]) -> Result<Vec<Result<Answer, String>>, String> {
        let answer = |given: &Given| Ok(self.0(&given.call));
        Ok(calls.iter().map(answer).collect())
    }
}

type Wrong = fn(&Call) -> Answer;

/// With the function in which each is wrong.
pub const ALL: [(&str, Wrong); 18] = [
    ("restore", keeps_last_reports),
    ("restore", any_offsets),
    ("restore", leaves_the_old_table),
    ("restore", passes_over_the_rest),
    ("restore", over_a_table_alone),
    ("restore", one_more),
    ("restore", former_limit),
    ("restore", old_as_unsigned),
    ("restore", no_old_forms),
    ("restore", keeps_any_mark),
    ("save", saves_what_is_cleared),
    ("save", saves_a_key_twice),
    ("save", leaves_bytes),
    ("save", room_first),
    ("save", clears_reports),
    ("save", without_marks),
    ("save", former_slots),
    ("save", former_length),
];

/// A restore that leaves `entries`, where the bytes are a table's length.
fn restored(table: &[u8], form: &[u8], entries: Option<Vec<Entry>>) -> Answer {
    if table.len() != SIZE {
        return restores(8, table, form);
    }
    let number = if entries.is_some() { 0 } else { 13 };
    restores(number, &to_bytes(&entries.unwrap_or_default()), form)
}

/// A restore that writes over the slots and not their last reports.
fn keeps_last_reports(call: &Call) -> Answer {
    let Call::Restore { table, saved } = call else {
        return call.document();
    };
    let old = entries(table).unwrap_or_default();
    let kept = |entry: Entry| Entry {
        last: place(&old, entry.key).and_then(|place| old[place].last),
        ..entry
    };
    let entries = read(saved).ok();
    let entries = entries.map(|entries| entries.into_iter().map(kept).collect());
    restored(table, saved, entries)
}

/// A restore that reads the bodies one after the other, whatever the offsets are.
fn any_offsets(call: &Call) -> Answer {
    match call {
        Call::Restore { table, saved } => restored(table, saved, read(&put_right(saved)).ok()),
        Call::Save { .. } => call.document(),
    }
}

/// With offsets that follow on, where there are any.
fn put_right(saved: &[u8]) -> Vec<u8> {
    let mut form = saved.to_vec();
    let count = usize::from(form.first().copied().unwrap_or(0));
    let which = match is_old(&form) {
        true => Form::Unmarked,
        false => Form::Marked,
    };
    if form.len() == 1 + (6 + which.body()) * count && count <= ENTRIES {
        for (place, offset) in which.offsets(count).into_iter().enumerate() {
            form[6 * place + 5..6 * place + 7].copy_from_slice(&offset.to_le_bytes());
        }
    }
    form
}

/// A refused restore that is done before the table is emptied.
fn leaves_the_old_table(call: &Call) -> Answer {
    match call {
        Call::Restore { table, saved } if read(saved).is_err() => {
            let number = if table.len() == SIZE { 13 } else { 8 };
            restores(number, table, saved)
        }
        _ => call.document(),
    }
}

/// A save that writes a table with this fault.
fn saves_with(call: &Call, fault: Fault) -> Answer {
    if let Call::Save { table, room } = call
        && let Ok(held) = entries(table)
        && write(&held) == Err(fault)
        && *room >= length(held.len())
    {
        let reply = Form::Marked.of(&held);
        let number = 0;
        return saves(table, &reading::commands::Answer { number, reply }, *room);
    }
    call.document()
}

/// It passes over a maximum of 0 with a minimum of ffff.
fn saves_what_is_cleared(call: &Call) -> Answer {
    saves_with(call, Fault::Neither)
}

fn saves_a_key_twice(call: &Call) -> Answer {
    saves_with(call, Fault::Repeated)
}

/// A refused save that leaves the buffer's first byte.
fn leaves_bytes(call: &Call) -> Answer {
    match call {
        Call::Save { table, room } if save(table, *room).number != 0 && *room > 0 => {
            let mut buffer = vec![0; *room];
            buffer[0] = 0xa5;
            Answer::new(save(table, *room).number, &[0], &[table, &buffer])
        }
        _ => call.document(),
    }
}

/// A save that says 5 before 13.
fn room_first(call: &Call) -> Answer {
    if let Call::Save { table, room } = call
        && let Ok(held) = entries(table)
        && *room < length(held.len())
    {
        let (number, reply) = (5, Vec::new());
        return saves(table, &reading::commands::Answer { number, reply }, *room);
    }
    call.document()
}

/// A restore that passes over what is behind the last body.
fn passes_over_the_rest(call: &Call) -> Answer {
    let Call::Restore { table, saved } = call else {
        return call.document();
    };
    let count = usize::from(saved.first().copied().unwrap_or(0));
    let end = saved.len().min(length(count));
    restored(table, saved, read(&saved[..end]).ok())
}

/// A restore that says 8 where the old bytes are no table.
fn over_a_table_alone(call: &Call) -> Answer {
    match call {
        Call::Restore { table, saved } if entries(table).is_err() => restores(8, table, saved),
        _ => call.document(),
    }
}

/// A restore that reads all entries but the last where there is one more than
/// there is room for.
fn one_more(call: &Call) -> Answer {
    const MORE: usize = ENTRIES + 1;
    match call {
        Call::Restore { table, saved }
            if saved.len() == length(MORE) && usize::from(saved[0]) == MORE =>
        {
            let (contents, bodies) = saved[1..].split_at(6 * MORE);
            let [contents, bodies] = [&contents[..6 * ENTRIES], &bodies[..13 * ENTRIES]];
            let form = [&[ENTRIES as u8], contents, bodies].concat();
            restored(table, saved, read(&put_right(&form)).ok())
        }
        _ => call.document(),
    }
}

/// A restore of a box whose tables have room for sixteen.
fn former_limit(call: &Call) -> Answer {
    match call {
        Call::Restore { table, saved } => {
            restored(table, saved, read_within(FORMER_ENTRIES, saved).ok())
        }
        Call::Save { .. } => call.document(),
    }
}

/// A save that looks at no slot behind the sixteenth where there are no more
/// entries.
fn former_slots(call: &Call) -> Answer {
    match call {
        Call::Save { table, room }
            if table.len() == SIZE && usize::from(table[0]) <= FORMER_ENTRIES =>
        {
            let mut blank = table.clone();
            blank[1 + SLOT * FORMER_ENTRIES..].fill(0);
            saves(table, &save(&blank, *room), *room)
        }
        _ => call.document(),
    }
}

/// A save that has no room for a form of more than sixteen.
fn former_length(call: &Call) -> Answer {
    match call {
        Call::Save { table, room } => {
            let most = length(FORMER_ENTRIES);
            saves(table, &save(table, most.min(*room)), *room)
        }
        Call::Restore { .. } => call.document(),
    }
}

/// A save that forgets the last reports of the table itself.
fn clears_reports(call: &Call) -> Answer {
    let Call::Save { table, room } = call else {
        return call.document();
    };
    let mut left = table.clone();
    if let Ok(mut held) = entries(table) {
        held.iter_mut().for_each(|entry| entry.last = None);
        left = to_bytes(&held);
    }
    saves(&left, &save(table, *room), *room)
}

/// A restore that reads a form without marks as unsigned.
fn old_as_unsigned(call: &Call) -> Answer {
    let Call::Restore { table, saved } = call else {
        return call.document();
    };
    let mut entries = read(saved).ok();
    if is_old(saved) {
        for entry in entries.iter_mut().flatten() {
            entry.config.mark = UNSIGNED;
        }
    }
    restored(table, saved, entries)
}

/// A restore that knows only the form with marks.
fn no_old_forms(call: &Call) -> Answer {
    match call {
        Call::Restore { table, saved } if is_old(saved) => restored(table, saved, None),
        _ => call.document(),
    }
}

/// A restore that takes any byte for a mark, a 2 too, and keeps it.
fn keeps_any_mark(call: &Call) -> Answer {
    let Call::Restore { table, saved } = call else {
        return call.document();
    };
    if read(saved) != Err(Fault::Mark) {
        return call.document();
    }
    let bodies = 1 + 6 * usize::from(saved[0]);
    let mut form = saved.clone();
    let mut marks = Vec::new();
    for mark in form[bodies..].iter_mut().skip(12).step_by(13) {
        marks.push(*mark);
        if !is_mark(*mark) {
            *mark = SIGNED;
        }
    }
    let mut entries = read(&form).ok();
    for (entry, mark) in entries.iter_mut().flatten().zip(marks) {
        entry.config.mark = mark;
    }
    restored(table, saved, entries)
}

/// A save that writes the form that there was before.
fn without_marks(call: &Call) -> Answer {
    if let Call::Save { table, room } = call
        && save(table, *room).number == 0
    {
        let reply = Form::Unmarked.of(&entries(table).expect("it is saved"));
        let number = 0;
        return saves(table, &reading::commands::Answer { number, reply }, *room);
    }
    call.document()
}
