//! All that document 01 allows the readers of replies to say.

use super::Detail::{self, Said};

/// The readers, by what they read.
pub const READERS: [&str; 7] = [
    "read reply",
    "write reply",
    "configure reply",
    "configuration reply",
    "discover reply",
    "default response",
    "report frame",
];

/// What any of them may say.
pub const BY_ALL: &[(u8, &[Detail])] = &[
    (0, &[Said("a manufacturer code")]),
    (2, &[Said("header short")]),
    (10, &[Said("another frame type"), Said("another command")]),
];

const VALUE: [Detail; 5] = [
    Said("a number below 0"),
    Said("a number not below 0"),
    Said("a top bit that is no sign"),
    Said("no bytes, and the number 0"),
    Said("no number"),
];

const VALUE_CUT: &[Detail] = &[
    Said("first record cut"),
    Said("later record cut"),
    Said("first value without extent"),
    Said("later value without extent"),
];

const FAILURES_CUT: &[Detail] = &[
    Said("empty"),
    Said("first record cut"),
    Said("later record cut"),
];

/// What each may say besides.
pub const BY_ONE: &[(&str, u8, &[Detail])] = &[
    (
        "read reply",
        0,
        &[
            Said("no record"),
            Said("one record"),
            Said("more records"),
            Said("a failure"),
        ],
    ),
    ("read reply", 0, &VALUE),
    ("read reply", 4, VALUE_CUT),
    (
        "write reply",
        0,
        &[Said("no record"), Said("one record"), Said("more records")],
    ),
    ("write reply", 4, FAILURES_CUT),
    ("write reply", 10, &[Said("00 first"), Said("00 later")]),
    (
        "configure reply",
        0,
        &[
            Said("no record"),
            Said("one record"),
            Said("more records"),
            Said("direction 0"),
            Said("another direction"),
        ],
    ),
    ("configure reply", 4, FAILURES_CUT),
    ("configure reply", 10, &[Said("00 first"), Said("00 later")]),
    (
        "configuration reply",
        0,
        &[
            Said("no record"),
            Said("one record"),
            Said("more records"),
            Said("a failure"),
            Said("a change"),
            Said("a change with its top bit"),
            Said("no change field"),
            Said("an unknown type"),
            Said("a setting of another direction"),
        ],
    ),
    (
        "configuration reply",
        4,
        &[Said("first record cut"), Said("later record cut")],
    ),
    (
        "discover reply",
        0,
        &[
            Said("no record"),
            Said("one record"),
            Said("more records"),
            Said("complete"),
            Said("not complete"),
        ],
    ),
    ("discover reply", 4, FAILURES_CUT),
    ("discover reply", 10, &[Said("a complete byte above 1")]),
    (
        "default response",
        0,
        &[Said("two bytes"), Said("bytes behind")],
    ),
    ("default response", 4, &[Said("empty"), Said("one byte")]),
    (
        "report frame",
        0,
        &[Said("no record"), Said("one record"), Said("more records")],
    ),
    ("report frame", 0, &VALUE),
    ("report frame", 4, VALUE_CUT),
];
