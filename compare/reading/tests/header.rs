//! Headers with and without a manufacturer code.

use reading::{FrameType, Header, header};

#[test]
fn global() {
    let expected = Header {
        frame_type: FrameType::Global,
        manufacturer_code: None,
        sequence: 0x2a,
        command: 0x0c,
        body: 3,
    };
    assert_eq!(header(&[0x00, 0x2a, 0x0c]), Some(expected));
    assert_eq!(header(&[0x18, 0x2a, 0x0c, 0xff]), Some(expected));
}

#[test]
fn manufacturer_code() {
    let expected = Header {
        frame_type: FrameType::Cluster,
        manufacturer_code: Some(0x1234),
        sequence: 0x2a,
        command: 0xfe,
        body: 5,
    };
    assert_eq!(header(&[0x05, 0x34, 0x12, 0x2a, 0xfe]), Some(expected));
    assert_eq!(header(&[0xfd, 0x34, 0x12, 0x2a, 0xfe, 0]), Some(expected));
}

#[test]
fn reserved() {
    for control in [0x02, 0x03, 0xfa, 0xfb] {
        let header = header(&[control, 0, 0]).expect("long enough");
        assert_eq!(header.frame_type, FrameType::Reserved);
    }
}

#[test]
fn short() {
    for length in 0..3 {
        assert_eq!(header(&vec![0x00; length]), None);
    }
    for length in 0..5 {
        assert_eq!(header(&vec![0x04; length]), None);
    }
}
