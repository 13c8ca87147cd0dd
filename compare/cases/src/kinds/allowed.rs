//! All that document 01 allows. A run that does not reach each of them has
//! failed, and so has one that reaches another.

use super::Detail::{self, Alone, First, Later, Said};
use super::Kind;
use super::readers::{BY_ALL, BY_ONE, READERS};

/// The commands that read, write and discover.
pub const VALUES: [&str; 5] = ["read", "write", "undivided", "no response", "discover"];

/// All that a served frame may be.
pub const SERVED: [&str; 11] = [
    "any frame",
    "read",
    "write",
    "undivided",
    "no response",
    "discover",
    "configure",
    "read configuration",
    "a received Default Response",
    "another global command",
    "a cluster command",
];

/// The calls besides.
pub const OTHERS: [&str; 3] = ["unsupported cluster", "report", "number"];

pub const ALLOWED: &[(&str, u8, &[Detail])] = &[
    ("any frame", 1, &[Said("other cluster")]),
    ("any frame", 2, &[Said("header short")]),
    ("any frame", 3, &[Said("reserved frame type")]),
    ("any frame", 7, &[Said("no store")]),
    ("any frame", 8, &[Said("no table")]),
    // read
    (
        "read",
        0,
        &[
            First(0x00),
            First(0x86),
            First(0x89),
            Later(0x00),
            Later(0x86),
            Later(0x89),
            Said("nothing asked"),
            Said("stopped before the first record"),
            Said("stopped after records"),
        ],
    ),
    (
        "read",
        4,
        &[Said("first record cut"), Said("later record cut")],
    ),
    ("read", 5, &[Said("header")]),
    // write
    (
        "write",
        0,
        &[
            Alone(0x00),
            First(0x86),
            First(0x87),
            First(0x88),
            First(0x8d),
            Later(0x86),
            Later(0x87),
            Later(0x88),
            Later(0x8d),
            Said("nothing asked"),
            Said("with failures, others stored"),
        ],
    ),
    (
        "write",
        4,
        &[
            Said("cut"),
            Said("without extent"),
            Said("earlier records stored"),
        ],
    ),
    (
        "write",
        5,
        &[
            Said("header"),
            Said("a failure"),
            Said("the one 00"),
            Said("earlier records stored"),
        ],
    ),
    // undivided
    (
        "undivided",
        0,
        &[
            Alone(0x00),
            First(0x86),
            First(0x87),
            First(0x88),
            First(0x8d),
            Later(0x86),
            Later(0x87),
            Later(0x88),
            Later(0x8d),
            Said("nothing asked"),
            Said("too long beside another failure"),
        ],
    ),
    ("undivided", 4, &[Said("cut"), Said("without extent")]),
    (
        "undivided",
        5,
        &[
            Said("header"),
            Said("a failure"),
            Said("the one 00"),
            Said("all records stored"),
            Said("too long beside another failure"),
            Said("too long before a record that cannot be read"),
        ],
    ),
    // no response
    (
        "no response",
        6,
        &[
            Said("whole"),
            Said("up to a cut record"),
            Said("up to a value without extent"),
            Said("stored"),
            Said("a record failed"),
        ],
    ),
    // discover
    (
        "discover",
        0,
        &[
            Said("complete, nothing from start on"),
            Said("complete, all from start on"),
            Said("not complete by the maximum"),
            Said("not complete by the room"),
        ],
    ),
    ("discover", 4, &[Said("cut")]),
    ("discover", 5, &[Said("header"), Said("the complete byte")]),
    // configure
    (
        "configure",
        0,
        &[
            Alone(0x00),
            First(0x86),
            First(0x87),
            First(0x89),
            First(0x8c),
            First(0x8d),
            Later(0x86),
            Later(0x87),
            Later(0x89),
            Later(0x8c),
            Later(0x8d),
            Said("nothing asked"),
            Said("an entry more"),
            Said("an entry less"),
            Said("another entry"),
            Said("an entry that compares as signed"),
            Said("an entry that compares as unsigned"),
            Said("an entry of another mark than before"),
            Said("with failures, others done"),
        ],
    ),
    ("configure", 4, &[Said("cut"), Said("earlier records done")]),
    (
        "configure",
        5,
        &[
            Said("header"),
            Said("a failure"),
            Said("the one 00"),
            Said("earlier records done"),
        ],
    ),
    // read configuration
    (
        "read configuration",
        0,
        &[
            First(0x00),
            First(0x86),
            First(0x8b),
            First(0x8c),
            Later(0x00),
            Later(0x86),
            Later(0x8b),
            Later(0x8c),
            Said("with a change"),
            Said("without a change"),
            Said("nothing asked"),
            Said("stopped before the first record"),
            Said("stopped after records"),
        ],
    ),
    (
        "read configuration",
        4,
        &[Said("first record cut"), Said("later record cut")],
    ),
    ("read configuration", 5, &[Said("header")]),
    // Default Response
    (
        "a received Default Response",
        6,
        &[
            Said("unicast"),
            Said("no unicast"),
            Said("without room for an answer"),
        ],
    ),
    ("another global command", 0, &[Alone(0x81)]),
    (
        "another global command",
        5,
        &[Said("header"), Said("behind the header")],
    ),
    ("another global command", 6, &[Said("no unicast")]),
    ("a cluster command", 0, &[Alone(0x81)]),
    (
        "a cluster command",
        5,
        &[Said("header"), Said("behind the header")],
    ),
    ("a cluster command", 6, &[Said("no unicast")]),
    // the other calls
    (
        "unsupported cluster",
        0,
        &[Alone(0xc3), Said("a reserved frame type")],
    ),
    ("unsupported cluster", 2, &[Said("header short")]),
    (
        "unsupported cluster",
        5,
        &[Said("header"), Said("behind the header")],
    ),
    (
        "unsupported cluster",
        6,
        &[
            Said("a served cluster"),
            Said("a received Default Response"),
            Said("no unicast"),
        ],
    ),
    ("report", 0, &[Said("one record"), Said("more records")]),
    ("report", 5, &[Said("header"), Said("a record")]),
    ("report", 7, &[Said("no store")]),
    ("report", 11, &[Said("nothing to report")]),
    ("report", 12, &[Said("not found"), Said("not reportable")]),
    ("number", 0, &[Said("not below 0"), Said("below 0")]),
    ("number", 7, &[Said("no store")]),
    ("number", 9, &[Said("not found"), Said("no number")]),
];

/// All kinds.
fn all() -> impl Iterator<Item = (&'static str, u8, &'static [Detail])> {
    let by_all = |&(number, details)| READERS.iter().map(move |&reader| (reader, number, details));
    let readers = BY_ALL.iter().flat_map(by_all).chain(BY_ONE.iter().copied());
    ALLOWED.iter().copied().chain(readers)
}

/// All kinds of these commands.
pub fn kinds(commands: &[&str]) -> impl Iterator<Item = Kind> {
    all()
        .filter(|(command, ..)| commands.contains(command))
        .flat_map(|(command, number, details)| {
            details.iter().map(move |&detail| (command, number, detail))
        })
}

pub fn allows((command, number, detail): Kind) -> bool {
    all().any(|known| (known.0, known.1) == (command, number) && known.2.contains(&detail))
}
