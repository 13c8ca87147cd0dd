//! The reply to discover.

use super::{Read, Why, body, records};

#[derive(Debug, Clone, PartialEq, Eq)]
pub struct Discovery {
    pub complete: bool,
    /// Ids and type codes.
    pub attributes: Vec<(u16, u8)>,
}

pub fn discover_reply(frame: &[u8]) -> Read<Discovery> {
    let mut body = body(frame, 0x0d)?;
    let complete = match body.byte() {
        Ok(0) => false,
        Ok(1) => true,
        Ok(_) => return Err(Why::CompleteByte.into()),
        Err(_) => return Err(Why::Empty.into()),
    };
    let attributes = records(body, |body| Ok((body.short()?, body.byte()?)))?;
    Ok(Discovery {
        complete,
        attributes,
    })
}
