//! Where the held reader of replies (frame/payload.rs) differs from document
//! 01's readers: each line of docs/DIFFERENCES.md on it, by its smallest frame.

use byte::BytesExt;
use zigbee_cluster_library::frame::payload::ZclFramePayload;
use zigbee_cluster_library::frame::{GeneralCommand, Status, ZclFrame};

/// The statuses and ids of a write reply, or that it is refused.
fn write_reply(body: &[u8]) -> Option<Vec<(Status, Option<u16>)>> {
    let frame = [&[0x18, 0x00, 0x04], body].concat();
    let read: ZclFrame = frame.read_with(&mut 0, ()).ok()?;
    let ZclFramePayload::GeneralCommand(GeneralCommand::WriteAttributesResponse(list)) =
        read.payload
    else {
        panic!("{frame:02x?} is read as another command");
    };
    Some(
        list.iter()
            .map(|one| (one.status, one.attribute_id))
            .collect(),
    )
}

fn is_refused(frame: &[u8]) -> bool {
    frame.read_with::<ZclFrame>(&mut 0, ()).is_err()
}

#[test]
fn statuses() {
    assert_eq!(write_reply(&[]), Some(vec![]));
    assert_eq!(
        write_reply(&[0x00, 0x00]),
        Some(vec![(Status::Success, None); 2])
    );
    // a status that ZCL replaces by 00, and one that it replaces by 81
    assert_eq!(write_reply(&[0x8a]), Some(vec![(Status::Success, None)]));
    let replaced = vec![(Status::UnsupCommand, Some(0))];
    assert_eq!(write_reply(&[0x82, 0x00, 0x00]), Some(replaced));
    // a status that ZCL does not know
    assert_eq!(write_reply(&[0x02, 0x00, 0x00]), None);
}

#[test]
fn a_list_has_room_for_sixteen() {
    let failure = [0x86, 0x00, 0x00];
    let read = |many| write_reply(&failure.repeat(many)).map(|list| list.len());
    assert_eq!(read(16), Some(16));
    assert_eq!(read(17), None);
}

#[test]
fn replies_without_a_reader() {
    for (command, body) in [(0x07, 0x00), (0x0d, 0x01)] {
        assert!(is_refused(&[0x18, 0x00, command, body]), "{command:02x}");
    }
    assert!(is_refused(&[0x18, 0x00, 0x09]));
}

/// The values that a write's record steps over no better.
#[test]
fn values() {
    let bodies: [&[u8]; 5] = [
        &[0x10, 0x02],
        &[0x41, 0xff],
        &[0x43, 0xff, 0xff],
        &[0x42, 0x01, 0x80],
        &[0x4c, 0x00, 0x00],
    ];
    for value in bodies {
        let read = [&[0x18, 0x00, 0x01, 0x00, 0x00, 0x00], value].concat();
        let report = [&[0x18, 0x00, 0x0a, 0x00, 0x00], value].concat();
        assert!(is_refused(&read) && is_refused(&report), "{value:02x?}");
    }
    assert!(!is_refused(&[
        0x18, 0x00, 0x01, 0x00, 0x00, 0x00, 0x10, 0x01
    ]));
    assert!(!is_refused(&[0x18, 0x00, 0x0a, 0x00, 0x00, 0x10, 0x01]));
}
