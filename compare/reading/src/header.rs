//! What stands before a frame's body.

#[derive(Debug, Clone, Copy, PartialEq, Eq)]
pub enum FrameType {
    Global,
    Cluster,
    Reserved,
}

#[derive(Debug, Clone, Copy, PartialEq, Eq)]
pub struct Header {
    pub frame_type: FrameType,
    pub manufacturer_code: Option<u16>,
    pub sequence: u8,
    pub command: u8,
    /// Where the body starts.
    pub body: usize,
}

/// `None` for a frame that is too short to have one.
pub fn header(frame: &[u8]) -> Option<Header> {
    let control = *frame.first()?;
    let frame_type = match control & 3 {
        0 => FrameType::Global,
        1 => FrameType::Cluster,
        _ => FrameType::Reserved,
    };
    let (manufacturer_code, at) = if control & 4 != 0 {
        let code = [*frame.get(1)?, *frame.get(2)?];
        (Some(u16::from_le_bytes(code)), 3)
    } else {
        (None, 1)
    };
    Some(Header {
        frame_type,
        manufacturer_code,
        sequence: *frame.get(at)?,
        command: *frame.get(at + 1)?,
        body: at + 2,
    })
}
