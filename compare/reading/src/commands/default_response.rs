//! Default Response: only to unicast.

use super::answer::{Refusal, Served};
use super::reply::Reply;
use crate::header::Header;

pub const UNSUP_COMMAND: u8 = 0x81;
pub const UNSUPPORTED_CLUSTER: u8 = 0xc3;

pub fn default_response(header: &Header, unicast: bool, status: u8, room: usize) -> Served {
    if !unicast {
        return Err(Refusal::NothingToSend);
    }
    let mut reply = Reply::begun(header.sequence, 0x0b, room)?;
    reply.put(&[header.command, status])?;
    reply.done()
}
