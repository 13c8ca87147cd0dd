//! A Default Response.

use super::{Read, Why, body};
use crate::body::Body;

#[derive(Debug, Clone, Copy, PartialEq, Eq)]
pub struct DefaultResponse {
    pub command: u8,
    pub status: u8,
}

/// What stands behind its two bytes is ignored.
pub fn default_response(frame: &[u8]) -> Read<DefaultResponse> {
    let mut body = body(frame, 0x0b)?;
    if !body.goes_on() {
        return Err(Why::Empty.into());
    }
    Ok(both(&mut body)?)
}

fn both(body: &mut Body<'_>) -> Result<DefaultResponse, Why> {
    Ok(DefaultResponse {
        command: body.byte()?,
        status: body.byte()?,
    })
}
