//! Frames, whole and cut around their header.

use cases::{Random, hex};
use reading::FrameType;

use crate::lines::Inputs;
use crate::rust;

pub fn lines() -> Result<Vec<String>, String> {
    inputs().iter().map(|frame| line(frame)).collect()
}

fn inputs() -> Vec<Vec<u8>> {
    let mut random = Random::new(0x6865_6164);
    let mut inputs = Inputs::default();
    inputs.add(Vec::new());
    for control in 0..=0xff {
        for length in 0..=header_length(control) {
            inputs.add([vec![control], random.bytes(length)].concat());
        }
    }
    // every command, the control bytes taken in turn
    for command in 0..=0xff_u8 {
        let control = command.wrapping_mul(37);
        let before = random.bytes(header_length(control) - 2);
        let body = random.byte() % 4;
        let rest = [vec![command], random.bytes(body.into())].concat();
        inputs.add([vec![control], before, rest].concat());
    }
    inputs.into_vec()
}

fn header_length(control: u8) -> usize {
    if control & 4 == 0 { 3 } else { 5 }
}

fn line(frame: &[u8]) -> Result<String, String> {
    let theirs = rust::header(frame)?;
    let ours = document(frame);
    let (input, answer) = (hex(frame), hex(&theirs));
    if ours != theirs {
        let ours = hex(&ours);
        return Err(format!(
            "header {input}: document 01 {ours}, the Rust {answer}"
        ));
    }
    Ok(format!("h {input} {answer}"))
}

fn document(frame: &[u8]) -> Vec<u8> {
    let Some(header) = reading::header(frame) else {
        return Vec::new();
    };
    let frame_type = match header.frame_type {
        FrameType::Global => 0,
        FrameType::Cluster => 1,
        FrameType::Reserved => 2,
    };
    let code = header.manufacturer_code;
    let [low, high] = code.unwrap_or(0).to_le_bytes();
    let body = rust::short(header.body);
    vec![
        frame_type,
        code.is_some().into(),
        low,
        high,
        header.sequence,
        header.command,
        body,
    ]
}
