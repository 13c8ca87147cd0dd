//! The sections of the page; the longer ones have files of their own.

use super::block::{Block, Table, code, heading, text};
use super::{incident, listed, proved};
use crate::counted::Row;
use crate::results::Results;

pub const TITLE: &str = "Old and new attribute server on the same frames";

/// All of them; `speed` is what was measured, where something was.
pub fn all(results: &Results, speed: Option<Vec<Block>>) -> Vec<Block> {
    [
        start(results),
        incident::section(results),
        counts(results),
        listed::section(results),
        speed_section(speed),
        proved::section(),
        again(results),
    ]
    .concat()
}

fn start(results: &Results) -> Vec<Block> {
    let all = results.counted.all();
    let troubles = results.troubles();
    let mut outcome = format!(
        "{} frames: {} equal, {} differ as listed, {} have no counterpart in the old server, {} differ otherwise.",
        all.frames,
        all.equal,
        all.all_listed(),
        all.no_counterpart,
        all.unlisted
    );
    let well = troubles.is_empty();
    if !well && all.unlisted == 0 {
        outcome += " A frame that is run for this page alone went wrong.";
    }
    let mut blocks = vec![
        heading(TITLE),
        text(
            "The old server is zigbee-rs at d89880a89e, in Rust, its files unchanged. The new one is Hingedrift, the archive `libhingedrift.a`, called \
             through its C header. Each frame is given to both, over the same store and the same reporting table. Compared are: whether there is a \
             reply, every byte of it, and every byte of store and table afterwards. Besides, the new server is held to an independent reading of document 01 \
             (the statement of what the server does) on every frame.",
        ),
        Block::Outcome {
            well,
            text: outcome,
        },
    ];
    if !well {
        blocks.push(heading("Differences that are not listed"));
        blocks.extend(troubles.into_iter().map(Block::Code));
    }
    blocks
}

fn counts(results: &Results) -> Vec<Block> {
    let counted = &results.counted;
    let mut rows: Vec<Vec<String>> = counted
        .rows()
        .map(|(command, row)| row.cells(command.name()))
        .collect();
    rows.push(counted.all().cells("all"));
    let mut blocks = vec![
        heading("This run, by command"),
        text(&format!("Made by {}.", code(&results.command))),
        Table::of(&Row::HEAD, rows),
        text(
            "Equal: a reply from both with the same bytes, or none from both, and the same store and table afterwards. No counterpart: bytes that are no \
             store or no table, which the new server refuses by 7 or 8 and the old one cannot be given.",
        ),
    ];
    let by_name: Vec<Vec<String>> = counted
        .listed()
        .into_iter()
        .map(|(command, difference, many)| {
            vec![
                difference.name().to_owned(),
                command.name().to_owned(),
                many.to_string(),
            ]
        })
        .collect();
    if !by_name.is_empty() {
        blocks.push(text("The listed differences among them:"));
        blocks.push(Table::of(&["difference", "command", "frames"], by_name));
    }
    blocks
}

fn speed_section(speed: Option<Vec<Block>>) -> Vec<Block> {
    let nothing = || {
        vec![text(
            "Nothing was measured for this page. A measurement that stands in results/speed.md is shown here.",
        )]
    };
    let measured = speed.unwrap_or_else(nothing);
    [vec![heading("Speed")], measured].concat()
}

fn again(results: &Results) -> Vec<Block> {
    vec![
        heading("This page again"),
        Block::Code(format!("{}\n", results.command)),
        text(
            "The same frames give the same page. compare/FRAMES.md says how to write down frames of your own; `compare/run --random N --seed S` makes N \
             random ones.",
        ),
    ]
}
