//! The responder for unserved clusters.

use cases::given::small_room;
use cases::given::stores::CLUSTERS;
use cases::kinds::{Kinds, of_unsupported};
use cases::requests::header;
use cases::{Random, hex};
use oracle::Request;
use ours::{Call, Held, lent_list, replied};

pub fn one(random: &mut Random, kinds: &mut Kinds) -> Result<Held, String> {
    let many = random.below(5);
    let served: Vec<u16> = (0..many).map(|_| random.of(&CLUSTERS)).collect();
    let cluster = random.of(&[0xfc21, 0x0006, 0x0600, 0x1234]);
    let (unicast, room) = (random.of(&[0, 1, 1, 0x80]), small_room(random));
    let request = request(random);

    let unicast_asked = unicast != 0;
    let answer =
        reading::commands::unsupported_cluster(&served, cluster, unicast_asked, &request, room);
    let asked = Request {
        cluster,
        unicast: unicast_asked,
        frame: &request,
        room,
    };
    let rust = oracle::unsupported_cluster(&served, &asked);
    let named = |trouble: String| {
        format!(
            "{trouble}, responder for {served:04x?}: {asked:?}, frame {}",
            hex(&request)
        )
    };
    if rust != (answer.number == 0).then(|| answer.reply.clone()) {
        return Err(named(format!("document 01 {answer:?}, the Rust {rust:?}")));
    }
    let counted = of_unsupported(&served, cluster, &request, room, &answer);
    kinds.count(&counted).map_err(named)?;
    Ok(Held {
        call: Call::unsupported_cluster(&served, cluster, unicast, &request, room),
        answer: replied(&answer, room, [&lent_list(&served), &request]),
    })
}

/// A frame of any kind, cut at times.
fn request(random: &mut Random) -> Vec<u8> {
    let command = random.of(&[0x00, 0x02, 0x0b, 0x0b, 0x40, 0xff]);
    let control = match random.below(2) {
        0 => random.of(&[0x00, 0x01, 0x02, 0x03]),
        _ => random.byte(),
    };
    let more = random.below(3);
    let whole = [header(random, control, command), random.bytes(more)].concat();
    match random.below(8) {
        0 => whole[..random.below(whole.len())].to_vec(),
        _ => whole,
    }
}
