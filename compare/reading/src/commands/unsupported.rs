//! The responder for clusters that nobody serves.

use super::answer::{Answer, Refusal, Served};
use super::default_response::{UNSUPPORTED_CLUSTER, default_response};
use crate::header::{FrameType, header};

pub fn unsupported_cluster(
    served: &[u16],
    cluster: u16,
    unicast: bool,
    request: &[u8],
    room: usize,
) -> Answer {
    answered(served, cluster, unicast, request, room).into()
}

fn answered(served: &[u16], cluster: u16, unicast: bool, request: &[u8], room: usize) -> Served {
    if served.contains(&cluster) {
        return Err(Refusal::NothingToSend);
    }
    let header = header(request).ok_or(Refusal::HeaderShort)?;
    if header.frame_type == FrameType::Global && header.command == 0x0b {
        return Err(Refusal::NothingToSend);
    }
    default_response(&header, unicast, UNSUPPORTED_CLUSTER, room)
}
