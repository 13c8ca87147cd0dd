//! The records of a list: where each ends, and what it names.

use cases::{End, records};
use reading::change_width;

/// A list, as far as it can be read.
pub struct Read {
    /// Where each record ends, and the attribute that it names.
    pub records: Vec<(usize, u16)>,
    pub end: End,
}

/// A list of writes or, for command 06, of configurations.
pub fn read(command: u8, list: &[u8]) -> Read {
    match command {
        0x06 => configurations(list),
        _ => writes(list),
    }
}

fn writes(list: &[u8]) -> Read {
    // the store is for statuses alone
    let (records, end) = records(&[], list);
    let ends = records
        .iter()
        .map(|record| (record.at + 2 + record.value.len(), record.id));
    Read {
        records: ends.collect(),
        end,
    }
}

fn configurations(list: &[u8]) -> Read {
    let mut records = Vec::new();
    let mut at = 0;
    while at < list.len() {
        let Some(record) = configuration(&list[at..]) else {
            return Read {
                records,
                end: End::Cut,
            };
        };
        at += record.len();
        records.push((at, u16::from_le_bytes([record[1], record[2]])));
    }
    Read {
        records,
        end: End::Whole,
    }
}

/// The first record: direction and id, then a timeout, or type, minimum, maximum
/// and change.
fn configuration(list: &[u8]) -> Option<&[u8]> {
    let length = match list.first()? {
        0 => 8 + change_width(*list.get(3)?),
        _ => 5,
    };
    list.get(..length)
}

impl Read {
    /// How many bytes the records have that can be read.
    pub fn length(&self) -> usize {
        self.records.last().map_or(0, |&(end, _)| end)
    }

    /// Where a list can be cut in two without cutting a record.
    pub fn places(&self) -> Vec<usize> {
        let ends = self.records.iter().map(|&(end, _)| end);
        [0].into_iter().chain(ends).collect()
    }

    pub fn ids(&self) -> Vec<u16> {
        self.records.iter().map(|&(_, id)| id).collect()
    }
}

/// Whether two lists of writes name an attribute in common.
pub fn in_common(one: &[u8], other: &[u8]) -> bool {
    let named = read(0x02, one).ids();
    read(0x02, other).ids().iter().any(|id| named.contains(id))
}

/// The records of a list and, last, what cannot be read.
pub fn pieces(command: u8, list: &[u8]) -> Vec<&[u8]> {
    let places = [read(command, list).places(), vec![list.len()]].concat();
    let pieces = places.windows(2).map(|ends| &list[ends[0]..ends[1]]);
    pieces.filter(|piece| !piece.is_empty()).collect()
}

/// A list of writes without the records that name one of these. What cannot be
/// read stays.
pub fn without(list: &[u8], ids: &[u16]) -> Vec<u8> {
    let named = read(0x02, list).ids();
    let stays = |&(at, _): &(usize, &[u8])| named.get(at).is_none_or(|id| !ids.contains(id));
    let pieces = pieces(0x02, list).into_iter().enumerate();
    let left: Vec<&[u8]> = pieces.filter(stays).map(|(_, piece)| piece).collect();
    left.concat()
}

#[cfg(test)]
mod tests {
    use cases::{hex, unhex};

    use super::*;

    #[test]
    fn writes_by_their_ends() {
        let list = unhex("01002009 07004202 5456 0900 4c 0100 20 05");
        let whole = read(0x02, &list);
        assert_eq!(whole.records, [(4, 1), (10, 7), (17, 9)]);
        assert_eq!((whole.end, whole.length()), (End::Whole, 17));
        assert_eq!(whole.places(), [0, 4, 10, 17]);
        for at in 0..list.len() {
            let cut = read(0x05, &list[..at]);
            let between = whole.places().contains(&at);
            assert_eq!(cut.end == End::Whole, between, "at {at}");
            assert!(whole.records.starts_with(&cut.records));
        }
        let without = read(0x02, &unhex("01002009 000099 01002009"));
        assert_eq!(without.end, End::WithoutExtent);
        assert_eq!(without.ids(), [1]);
        let none = read(0x02, &[]);
        assert_eq!((none.end, none.places()), (End::Whole, vec![0]));
    }

    #[test]
    fn configurations_by_their_ends() {
        // with a change, of an unknown type, of another direction
        let list = unhex("00050029 0a003c003200 00010099 0a003c00 0105003c00");
        let whole = read(0x06, &list);
        assert_eq!(whole.records, [(10, 5), (18, 1), (23, 5)]);
        assert_eq!(whole.end, End::Whole);
        for at in 0..list.len() {
            let cut = read(0x06, &list[..at]);
            let between = whole.places().contains(&at);
            assert_eq!(cut.end == End::Whole, between, "at {at}");
            assert!(whole.records.starts_with(&cut.records));
        }
    }

    #[test]
    fn ends_are_those_of_document_01() {
        // refusal 4 comes exactly where a record cannot be read
        let store = cases::stores::bench();
        for (command, list) in [
            (0x02, "01002009 07004202 5456 0900 4c 0100 20 05"),
            (0x06, "00050029 0a003c003200 00010099 0a003c00 0105003c00"),
        ] {
            let list = unhex(list);
            for at in 0..=list.len() {
                let request = [&[0x00, 0x2a, command], &list[..at]].concat();
                let seen = cases::Case::over(&store, &request, 64).document();
                let whole = read(command, &list[..at]).end == End::Whole;
                assert_eq!(seen.number, if whole { 0 } else { 4 }, "at {at}");
            }
        }
    }

    #[test]
    fn attributes_in_common() {
        let list = unhex("01002009 07004202 5456 01002008 0500");
        assert!(in_common(&list, &unhex("07002000")));
        assert!(!in_common(&list, &unhex("05002000 02002000")));
        // behind a cut nothing is named
        assert!(!in_common(&list, &unhex("000099 01002009")));
        let pieces: Vec<String> = pieces(0x02, &list).into_iter().map(hex).collect();
        assert_eq!(pieces, ["01002009", "070042025456", "01002008", "0500"]);
        assert_eq!(hex(&without(&list, &[1])), "0700420254560500");
        assert_eq!(hex(&without(&list, &[7, 5])), "01002009010020080500");
        assert_eq!(without(&list, &[]), list);
    }
}
