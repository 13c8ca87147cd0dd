//! Document 01's bench frames, and a few besides, so that each reader has a
//! reply with records.

use cases::given::List;
use cases::stores::bench;
use cases::{Case, Seen, unhex};
use reading::commands::Answer;
use reading::store::cluster_of;
use reading::table::to_bytes;

/// Requests and rooms, each over what those before it left of store T: frames
/// 1 to 4, a string; 5, 6, 7; 9, 10; 11, its refusals; what it configured; a
/// command that nobody serves.
const REQUESTS: [(&str, usize); 16] = [
    ("002a00 0000 0900", 14),
    ("002a00 0000 0900", 13),
    ("002a00 0000 0900", 10),
    ("002a00 0000 0900", 3),
    ("002a00 0700 0500", 64),
    ("002b02 01002009", 64),
    ("002b02 00002301000000", 64),
    ("002b03 01002009 070042054142434445", 64),
    ("002b02 00002301000000 09002000", 64),
    ("002c0c 0100 02", 64),
    ("002c0c 0100 03", 64),
    ("002c0c 0800 00", 64),
    ("002d06 00050029 0a003c003200", 64),
    ("002d06 00010020 0a003c0001 0109003c00", 64),
    ("002e08 000500 000000 010900", 64),
    ("002fff", 64),
];

/// Each request, and what is to come of it.
pub fn served() -> Vec<(Case, Seen)> {
    let mut store = bench();
    let mut table = to_bytes(&[]);
    let mut served = Vec::new();
    for (request, room) in REQUESTS {
        let case = Case {
            cluster: cluster_of(&store).expect("it is a store"),
            store,
            table,
            unicast: 1,
            request: unhex(request),
            room,
        };
        let seen = case.document();
        assert_eq!(seen.number, 0, "each has a reply");
        store = seen.store.clone();
        table = seen.table.clone();
        served.push((case, seen));
    }
    served
}

/// The attributes of T that may be reported.
pub fn report() -> (List, Answer) {
    let list = List {
        store: bench(),
        sequence: 0x2a,
        ids: vec![0, 5],
        room: 64,
    };
    let report = list.document();
    (list, report)
}
