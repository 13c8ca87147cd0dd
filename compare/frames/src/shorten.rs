//! A case that goes wrong, made as short as may be.

use cases::stores::{Part, parts, rebuilt};
use cases::{Case, fewest};
use reading::store::is_store;
use reading::table::{Entry, entries, to_bytes};

/// The case without what it goes wrong without: entries, attributes, bytes of
/// the request, and room.
pub fn shorten(case: &Case, mut wrong: impl FnMut(&Case) -> bool) -> Case {
    let mut case = case.clone();
    if let Ok(held) = entries(&case.table) {
        case = fewest(&held, |held| with_entries(&case, held), &mut wrong);
    }
    if is_store(&case.store) {
        let parts = parts(&case.store);
        case = fewest(&parts, |parts| with_parts(&case, parts), &mut wrong);
    }
    let bytes = case.request.clone();
    case = fewest(&bytes, |request| with_request(&case, request), &mut wrong);
    let smaller = |room| Case {
        room,
        ..case.clone()
    };
    let least = (0..case.room).map(smaller).find(|case| wrong(case));
    least.unwrap_or(case)
}

fn with_entries(case: &Case, held: &[Entry]) -> Case {
    Case {
        table: to_bytes(held),
        ..case.clone()
    }
}

fn with_request(case: &Case, request: &[u8]) -> Case {
    Case {
        request: request.to_vec(),
        ..case.clone()
    }
}

fn with_parts(case: &Case, parts: &[Part]) -> Case {
    Case {
        store: rebuilt(&case.store, parts),
        ..case.clone()
    }
}

#[cfg(test)]
mod tests {
    use cases::Random;
    use cases::given::Given;

    use super::*;

    /// Wrong with an odd attribute configured, a 5 in the request, and room 6.
    fn wrong(case: &Case) -> bool {
        let held = entries(&case.table).unwrap_or_default();
        held.iter().any(|entry| entry.key.attribute % 2 == 1)
            && case.request.contains(&5)
            && case.room >= 6
    }

    #[test]
    fn only_what_is_needed() {
        let random = &mut Random::new(0x7368_6f72);
        let mut given = Given::default();
        let mut tried = 0;
        while tried < 20 {
            let case = given.next(random);
            if !wrong(&case) || !is_store(&case.store) {
                continue;
            }
            let short = shorten(&case, wrong);
            assert!(wrong(&short));
            assert_eq!(short.request, [5]);
            assert_eq!((short.room, short.table[0]), (6, 1));
            assert_eq!(short.store[2..], [0, 0], "no attributes");
            assert_eq!(short.cluster, case.cluster);
            tried += 1;
        }
    }
}
