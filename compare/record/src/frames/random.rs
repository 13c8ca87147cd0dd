//! Random frames over random stores of up to five attributes.

use cases::Random;
use cases::requests::request;
use cases::stores::{built, random_parts};
use reading::store::attributes;

use super::Frames;
use super::line::{MOST_ROOM, document};

pub fn add(frames: &mut Frames) {
    let random = &mut Random::new(0x6672_616d);
    for _ in 0..120 {
        let store = built(&random_parts(random));
        let attributes = attributes(&store).expect("a store");
        for command in [0x00, 0x02, 0x03, 0x05, 0x0c] {
            let request = request(random, &attributes, command);
            if fits(&store, &request) {
                frames.add(&store, &request);
            }
        }
    }
}

/// Whether the list has room for the replies, and for the line.
fn fits(store: &[u8], request: &[u8]) -> bool {
    let longest = document(store, request)
        .iter()
        .map(|said| said.reply.len())
        .max();
    request.len() < 64 && longest < Some(MOST_ROOM)
}
