//! The requests, byte by byte.

use reading::change_width;
use reading::store::Attribute;

use crate::calls::{ROOM, Request};
use crate::stores::{CLUSTER, another};

pub const SEQUENCE: u8 = 0x2a;

/// What every configure asks for.
pub const MINIMUM: u16 = 10;
pub const MAXIMUM: u16 = 60;
pub const CHANGE: u64 = 50;

/// A global command to the store's cluster.
fn request(command: u8, body: &[u8]) -> Request {
    Request {
        cluster: CLUSTER,
        frame: [&[0x00, SEQUENCE, command], body].concat(),
        room: ROOM,
    }
}

pub fn read(some: &[Attribute]) -> Request {
    let body: Vec<u8> = some.iter().flat_map(|one| one.id.to_le_bytes()).collect();
    request(0x00, &body)
}

/// Each gets another value than it has in `store`.
pub fn write(store: &[u8], some: &[Attribute]) -> Request {
    let mut body = Vec::new();
    for one in some {
        let value = one.value(store).expect("the store is sound");
        body.extend(one.id.to_le_bytes());
        body.push(one.type_code);
        body.extend(another(one, value));
    }
    request(0x02, &body)
}

pub fn configure(some: &[Attribute]) -> Request {
    let mut body = Vec::new();
    for one in some {
        body.push(0x00);
        body.extend(one.id.to_le_bytes());
        body.push(one.type_code);
        body.extend(MINIMUM.to_le_bytes());
        body.extend(MAXIMUM.to_le_bytes());
        body.extend(&CHANGE.to_le_bytes()[..change_width(one.type_code)]);
    }
    request(0x06, &body)
}

pub fn read_configuration(some: &[Attribute]) -> Request {
    let record = |one: &Attribute| {
        let [low, high] = one.id.to_le_bytes();
        [0x00, low, high]
    };
    let body: Vec<u8> = some.iter().flat_map(record).collect();
    request(0x08, &body)
}

/// From the first on, at most 64.
pub fn discover() -> Request {
    request(0x0c, &[0, 0, 64])
}

/// One request for each of the refusals 1 to 5, in their order.
pub fn refused() -> Vec<Request> {
    let read = || request(0x00, &[0, 0, 1, 0]);
    let other_cluster = Request {
        cluster: 0x0006,
        ..read()
    };
    let header_short = Request {
        frame: vec![0x00, SEQUENCE],
        ..read()
    };
    let reserved_type = Request {
        frame: vec![0x02, SEQUENCE, 0x00, 0, 0],
        ..read()
    };
    let record_cut = request(0x00, &[0, 0, 1]);
    let too_short = Request { room: 2, ..read() };
    vec![
        other_cluster,
        header_short,
        reserved_type,
        record_cut,
        too_short,
    ]
}

#[cfg(test)]
mod tests {
    use cases::Case;

    use super::*;
    use crate::stores::{four, sixty_four};

    #[test]
    fn refused_by_their_numbers() {
        for store in [four(), sixty_four()] {
            let number = |request: &Request| {
                let mut case = Case::over(&store, &request.frame, request.room);
                case.cluster = request.cluster;
                case.document().number
            };
            let numbers: Vec<u8> = refused().iter().map(number).collect();
            assert_eq!(numbers, [1, 2, 3, 4, 5]);
        }
    }
}
