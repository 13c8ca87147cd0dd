//! What is proved, what was run, and what is taken on trust.

use super::block::{Block, heading, list, text};

pub fn section() -> Vec<Block> {
    vec![
        heading("What is proved, and what is not"),
        text(
            "Proved, for every store, table, frame and reply length, not only for those that were run:",
        ),
        list(&[
            "The new server's answer is the one that a written definition gives: the number it returns, every byte of the reply buffer, and \
             every byte of store and table afterwards. No second answer meets the contract.",
            "The number of a value is one definition over all widths and types, and every function that reads a number is proved equal to it. \
             By it a value of an unsigned type of up to 7 bytes is never negative.",
            "Reading a reply of the new server, or a report, gives back exactly the records that it wrote, and for each value the number that the \
             attribute has in the store.",
            "Bad frames, stores and tables are refused by number, and what each refusal leaves is part of the definition.",
            "An undivided write is done whole or not at all: every record is checked first, and none can fail once the first is written.",
            "A chain of replies ends: whatever boxes hand each other their replies, over any stores and tables, no more than two replies are sent, since a Default \
             Response gets nothing.",
            "A reporting table that is saved has one saved form, and such a form is of one table: restored, it is the same table without its last reports, and saved \
             again, the same bytes. What is read in counts as configured, and demand 3, what document 01 promises of reports, starts from it.",
            "How far a value has moved is measured as its type asks: with a sign for the Int types, without one for all others, never in 64 bits alone. So a 64-bit \
             meter that goes from 0 to its top is reported; the old server takes that for a move of 1. A form that was saved before tells nothing of it: it is read as signed, as it was then.",
        ]),
        text("Shown by runs, not proved:"),
        list(&[
            "That the new server answers as the old one. The runs are the one on this page and, in the gate (`make test`), a million random frames \
             and a million calls of the reporting table.",
            "That the definitions say what document 01 says. They are short enough to be read against it (docs/READING.md); the new server is held to an \
             independent reading of it, written in Rust, on every frame of every run.",
        ]),
        text("Taken on trust:"),
        list(&[
            "The prover and the compiler of Rattle, the C compiler and linker that join the archive to its caller, and the machine. On a machine that is \
             not x86-64 the archive runs under an emulator.",
            "The caller in C: no pointer is null, and the buffers of one call do not overlap.",
            "Stand-ins for five crates that the old server needs and that were not at hand (`byte`, `heapless`, `spin`, `zigbee-macros`, `zigbee-core`), \
             and the store under it: the old code leaves the store to its user, and here it is one that keeps document 01's rules. \
             docs/DIFFERENCES.md says what each assumes.",
        ]),
        text(
            "Not covered: the code between the boxes and the head-end, the radio driver, and cluster commands, which both answer with UNSUP_COMMAND here.",
        ),
    ]
}
