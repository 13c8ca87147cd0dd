//! Lists of failures: the replies to a write and to a configure. Where nothing
//! failed, one byte 00 stands for the list.

use super::{Read, Why, body, records};
use crate::body::{Body, Cut};

#[derive(Debug, Clone, Copy, PartialEq, Eq)]
pub struct Failure {
    /// As it came, and not 00.
    pub status: u8,
    /// Of a configure alone.
    pub direction: Option<u8>,
    pub id: u16,
}

pub fn write_reply(frame: &[u8]) -> Read<Vec<Failure>> {
    failures(body(frame, 0x04)?, |_| Ok(None))
}

pub fn configure_reply(frame: &[u8]) -> Read<Vec<Failure>> {
    failures(body(frame, 0x07)?, |body| body.byte().map(Some))
}

fn failures<'a>(
    body: Body<'a>,
    direction: impl Fn(&mut Body<'a>) -> Result<Option<u8>, Cut>,
) -> Read<Vec<Failure>> {
    match body.rest() {
        [] => return Err(Why::Empty.into()),
        [0x00] => return Ok(Vec::new()),
        _ => (),
    }
    records(body, |body| {
        let status = body.byte()?;
        if status == 0x00 {
            return Err(Why::SuccessInList);
        }
        Ok(Failure {
            status,
            direction: direction(body)?,
            id: body.short()?,
        })
    })
}
