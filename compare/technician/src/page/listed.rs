//! The listed differences, with what this run gave.

use cases::hex;

use super::answers::{buffers, with_stores};
use super::block::{Block, Table, code, heading, text};
use crate::commands::Command;
use crate::listed::ROOM;
use crate::results::Results;

pub fn section(results: &Results) -> Vec<Block> {
    vec![
        heading("The listed differences, by their smallest frames"),
        text(&format!(
            "All stand in docs/DIFFERENCES.md. To step over a value that it does not store, the old server reads it with a reader that refuses some values \
             whose end is known; there it ends without a reply, or without the records behind. The new one steps over them. The last three rows are others. The old \
             server answers a Default Response by a Default Response, so that two of them never stop; the new one sends nothing. In an undivided write the \
             old server finds too late that a string is too long: it has stored the record before, or has listed another failure and not this one; the new \
             one stores nothing and lists every failure. These frames were run for this page, over store T of document 01, with room for {ROOM} bytes of reply:",
        )),
        in_answers(results),
        text(
            "In two more the reply buffer itself differs, outside of what is sent. It was all zeros before the old call; the new server leaves zeros \
             behind a reply and after a refusal, whatever was in it:",
        ),
        in_buffers(results),
    ]
}

fn in_answers(results: &Results) -> Block {
    let rows = results.listed.iter().map(|listed| {
        let request = &listed.ran.frame.case.request;
        let [old, new] = with_stores(&listed.ran);
        let name = listed.difference.name().to_owned();
        let command = Command::of(request).name().to_owned();
        vec![name, command, code(&hex(request)), old, new]
    });
    let head = ["value, or frame", "command", "frame", "old", "new"];
    Table::of(&head, rows.collect())
}

fn in_buffers(results: &Results) -> Block {
    let rows = results.buffers.iter().map(|(name, ran)| {
        let case = &ran.frame.case;
        let [old, new] = buffers(ran);
        let (request, room) = (code(&hex(&case.request)), case.room.to_string());
        vec![(*name).to_owned(), request, room, old, new]
    });
    let head = ["what", "frame", "room", "buffer, old", "buffer, new"];
    Table::of(&head, rows.collect())
}
