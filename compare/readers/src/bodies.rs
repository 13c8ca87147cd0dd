//! Replies that no server of ours writes: any records behind a header, whole
//! and damaged, and any bytes.

use cases::Random;
use cases::requests::{CONTROLS, header, value};

use crate::frames::Frames;

/// So many of each reader.
const FRAMES: usize = 10_000;

const COMMANDS: [u8; 7] = [0x01, 0x04, 0x07, 0x09, 0x0d, 0x0b, 0x0a];

/// Statuses, 00 more often than others.
const STATUSES: [u8; 6] = [0x00, 0x00, 0x00, 0x86, 0x8b, 0xff];

/// Says how many were compared.
pub fn compare(frames: &mut Frames, random: &mut Random) -> Result<usize, String> {
    let before = frames.counted.frames;
    for _ in 0..FRAMES {
        for command in COMMANDS {
            let frame = frame(random, command);
            frames.give(&frame)?;
        }
    }
    frames.compare()?;
    Ok(frames.counted.frames - before)
}

fn frame(random: &mut Random, command: u8) -> Vec<u8> {
    let control = match random.below(16) {
        0 => random.byte(),
        _ => random.of(&CONTROLS),
    };
    let head = header(random, control, command);
    let mut frame = [head, body(random, command)].concat();
    match random.below(8) {
        0 => frame.truncate(random.below(frame.len() + 1)),
        1 => {
            let at = random.below(frame.len());
            frame[at] = random.byte();
        }
        2 => frame.push(random.byte()),
        _ => (),
    }
    frame
}

fn body(random: &mut Random, command: u8) -> Vec<u8> {
    if random.one_in(4) {
        let length = random.below(24);
        return random.bytes(length);
    }
    let many = random.of(&[0, 1, 1, 2, 3, 8]);
    let ahead = match command {
        0x0d => vec![random.of(&[0, 1, 1, 2])],
        0x04 | 0x07 if many == 0 => vec![0x00],
        _ => Vec::new(),
    };
    let records: Vec<u8> = (0..many).flat_map(|_| record(random, command)).collect();
    [ahead, records].concat()
}

/// A record of a reply of this command.
fn record(random: &mut Random, command: u8) -> Vec<u8> {
    let id = random.bytes(2);
    match command {
        0x01 => match random.of(&STATUSES) {
            0x00 => [id, vec![0x00], typed(random)].concat(),
            status => [id, vec![status]].concat(),
        },
        0x04 => [vec![failure(random)], id].concat(),
        0x07 => [vec![failure(random), random.byte() % 2], id].concat(),
        0x09 => setting(random, id),
        0x0a => [id, typed(random)].concat(),
        0x0d => [id, vec![random.byte()]].concat(),
        _ => random.bytes(2),
    }
}

/// Mostly no 00.
fn failure(random: &mut Random) -> u8 {
    match random.below(12) {
        0 => 0x00,
        _ => random.byte() | 0x01,
    }
}

/// Any type, and a value of it.
fn typed(random: &mut Random) -> Vec<u8> {
    let code = match random.below(4) {
        0 => random.byte(),
        1 => random.of(&[0x00, 0x23, 0x27, 0x29, 0x2f, 0x42, 0xf1]),
        2 => random.of(&[0x48, 0x4c, 0x50, 0x51]),
        _ => 0x08 + random.byte() % 0x28,
    };
    [vec![code], value(random, code)].concat()
}

fn setting(random: &mut Random, id: Vec<u8>) -> Vec<u8> {
    let status = random.of(&STATUSES);
    let direction = random.of(&[0, 0, 0, 1, 0xff]);
    let head = [vec![status, direction], id].concat();
    if status != 0x00 {
        return head;
    }
    let code = match random.below(3) {
        0 => random.byte(),
        _ => random.of(&[0x20, 0x23, 0x29, 0x2f, 0x39, 0xe2, 0x42]),
    };
    let fields = random.bytes(4 + reading::change_width(code));
    [head, vec![code], fields].concat()
}
