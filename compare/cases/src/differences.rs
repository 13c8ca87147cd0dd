//! The listed differences of the Rust in what is said to a frame, and the one
//! answer that each lets the Rust give.

use reading::store::cluster_of;
use reading::table::{Entry, entries};
use reading::{FrameType, Header};

use crate::case::{Case, unmarked};
use crate::conditions::Condition;
use crate::divided::divided;
use crate::records::body_of;

#[derive(Debug, Clone, Copy, PartialEq, Eq, Hash)]
pub enum Difference {
    /// The Rust refuses a value that it steps over.
    Value(Condition),
    /// The Rust answers a received Default Response.
    DefaultResponse,
    /// The Rust finds in the second pass of an undivided write that a string is
    /// too long.
    Divided,
}

impl Difference {
    /// All of them, in the order of docs/DIFFERENCES.md.
    pub fn all() -> impl Iterator<Item = Self> {
        let values = Condition::ALL.into_iter().map(Self::Value);
        values.chain([Self::DefaultResponse, Self::Divided])
    }

    /// Its name in docs/DIFFERENCES.md.
    pub fn name(self) -> &'static str {
        match self {
            Self::Value(condition) => condition.name(),
            Self::DefaultResponse => "a received Default Response",
            Self::Divided => "an undivided write that divides",
        }
    }

    /// The one that a frame meets, over a store and a table that the Rust can be
    /// given, and what the Rust says then. An undivided write that meets two of
    /// them counts under the value: the Rust refuses that in the first pass.
    pub fn of(case: &Case) -> Option<(Self, Said)> {
        let (header, _) = body_of(&case.request)?;
        let own = cluster_of(&case.store) == Some(case.cluster);
        if !own || header.frame_type != FrameType::Global {
            return None;
        }
        if header.command == 0x0b {
            return Some((Self::DefaultResponse, unsupported(case, &header)));
        }
        if let Some((condition, length)) = Condition::of_frame(&case.store, &case.request) {
            return Some((Self::Value(condition), refused(case, &header, length)));
        }
        Some((Self::Divided, divided(case)?))
    }
}

/// All that the Rust says and leaves.
#[derive(Debug, Clone, PartialEq, Eq)]
pub struct Said {
    pub reply: Option<Vec<u8>>,
    pub store: Vec<u8>,
    /// Without marks.
    pub table: Vec<Entry>,
}

impl Said {
    /// No reply, and store and table as they were.
    pub fn nothing(case: &Case) -> Self {
        Self {
            reply: None,
            store: case.store.clone(),
            table: unmarked(&entries(&case.table).unwrap_or_default()),
        }
    }

    /// The same with this reply, where it fits.
    pub fn reply(case: &Case, reply: Vec<u8>) -> Self {
        Self {
            reply: (reply.len() <= case.room).then_some(reply),
            ..Self::nothing(case)
        }
    }

    /// Whether it is this and nothing else.
    pub fn is(&self, reply: Option<&[u8]>, store: &[u8], table: &[Entry]) -> bool {
        self.reply.as_deref() == reply && self.store == store && self.table == table
    }
}

/// To unicast, by a Default Response of status UNSUP_COMMAND.
fn unsupported(case: &Case, header: &Header) -> Said {
    if case.unicast == 0 {
        return Said::nothing(case);
    }
    let reply = vec![0x18, header.sequence, 0x0b, header.command, 0x81];
    Said::reply(case, reply)
}

/// There is no reply. What a write did before it came to that value, in its
/// first `length` bytes, stays done; an undivided write has not done anything.
fn refused(case: &Case, header: &Header, length: usize) -> Said {
    let nothing = Said::nothing(case);
    if header.command == 0x03 {
        return nothing;
    }
    let before = Case {
        request: case.request[..length].to_vec(),
        ..case.clone()
    };
    Said {
        store: before.document().store,
        ..nothing
    }
}

#[cfg(test)]
mod tests {
    use super::*;
    use crate::{hex, stores::bench, unhex};

    /// The difference that a frame over T meets; what the Rust says to it then,
    /// and T's bytes from attribute 1 on.
    fn of(request: &str, room: usize) -> Option<(Difference, String, String)> {
        let case = Case::over(&bench(), &unhex(&request.replace(' ', "")), room);
        let (difference, said) = Difference::of(&case)?;
        assert_eq!(said.store[..40], case.store[..40]);
        assert_eq!(said.table, []);
        let reply = said.reply.map_or("none".to_owned(), |reply| hex(&reply));
        Some((difference, reply, hex(&said.store[40..])))
    }

    fn is(difference: Difference, reply: &str, rest: &str) -> Option<(Difference, String, String)> {
        Some((difference, reply.to_owned(), rest.to_owned()))
    }

    const REST: &str = "0738ff0254560000";
    const WITH_9: &str = "0938ff0254560000";

    #[test]
    fn default_responses() {
        let says = |reply| is(Difference::DefaultResponse, reply, REST);
        assert_eq!(of("00000b", 5), says("18000b0b81"));
        assert_eq!(of("1c34127f0b0000", 64), says("187f0b0b81"));
        assert_eq!(of("00000b", 4), says("none"));
        assert_eq!(of("01000b", 64), None, "a cluster command");
        let mut broadcast = Case::over(&bench(), &unhex("00000b"), 64);
        broadcast.unicast = 0;
        let (_, said) = Difference::of(&broadcast).expect("one");
        assert_eq!(said, Said::nothing(&broadcast));
        let cluster = broadcast.cluster + 1;
        let elsewhere = Case {
            cluster,
            ..broadcast
        };
        assert_eq!(Difference::of(&elsewhere), None, "another cluster");
    }

    #[test]
    fn values() {
        let boolean = |rest| is(Difference::Value(Condition::BooleanAboveOne), "none", rest);
        assert_eq!(of("000002 00001002", 64), boolean(REST));
        assert_eq!(of("000002 00001001", 64), None);
        for command in ["02", "05"] {
            let frame = format!("0000{command} 01002009 00001002 01002011");
            assert_eq!(of(&frame, 64), boolean(WITH_9));
        }
        // the failure before it does not fit, and ends a write with a reply
        let frame = "000002 09002000 01002009 00001002";
        assert_eq!(of(frame, 5), boolean(REST));
        assert_eq!(of(frame, 6), boolean(WITH_9));
        assert_eq!(of("000003 01002009 00001002", 64), boolean(REST));
        let too_long = "000003 01002009 070042054142434445 00001002";
        assert_eq!(of(too_long, 64), boolean(REST), "the value decides");
    }

    #[test]
    fn undivided_writes() {
        let says = |reply, rest| is(Difference::Divided, reply, rest);
        let frame_7 = "002b03 01002009 070042054142434445";
        assert_eq!(of(frame_7, 64), says("182b04870700", WITH_9));
        assert_eq!(of(frame_7, 6), says("182b04870700", WITH_9));
        assert_eq!(of(frame_7, 5), says("none", WITH_9));
        assert_eq!(of(frame_7, 2), says("none", REST));
        let both = "002b03 070042054142434445 09002000";
        assert_eq!(of(both, 6), says("182b04860900", REST));
        assert_eq!(of(both, 5), says("none", REST));
        let cut = "002b03 01002009 070042054142434445 01";
        assert_eq!(of(cut, 64), says("none", REST));
        // other commands; not too long; too long, but of another type
        assert_eq!(of("002b02 01002009 070042054142434445", 64), None);
        assert_eq!(of("002b05 01002009 070042054142434445", 64), None);
        assert_eq!(of("002b03 01002009 0700420441424344", 64), None);
        assert_eq!(of("002b03 01002009 070041054142434445", 64), None);
    }

    #[test]
    fn rows_of_the_page() {
        let page = include_str!("../../../docs/DIFFERENCES.md");
        for (difference, frame) in [
            (Difference::DefaultResponse, "`00000b`"),
            (Difference::Divided, "`000003` `01002000`"),
        ] {
            let row = format!("\n| {} | {frame}", difference.name());
            assert_eq!(page.matches(&row).count(), 1, "{row}");
        }
    }
}
