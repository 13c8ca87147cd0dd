//! Discover: ids and types from a start on.

use super::answer::Served;
use super::reply::{Reply, id_bytes};
use crate::body::Body;
use crate::store::{Attribute, attributes};

/// A discover request's body; what follows is ignored.
pub struct Asked {
    start: u16,
    maximum: u8,
}

impl Asked {
    pub fn read(mut body: Body<'_>) -> Result<Self, super::answer::Refusal> {
        Ok(Self {
            start: body.short()?,
            maximum: body.byte()?,
        })
    }
}

pub fn discover(store: &[u8], asked: &Asked, mut reply: Reply) -> Served {
    let from_start: Vec<Attribute> = attributes(store)
        .unwrap_or_default()
        .into_iter()
        .filter(|attribute| attribute.id >= asked.start)
        .collect();
    // the complete byte stands before the records
    let fitting = reply.left().saturating_sub(1) / 3;
    let sent = from_start.len().min(asked.maximum.into()).min(fitting);
    reply.put(&[u8::from(sent == from_start.len())])?;
    for attribute in &from_start[..sent] {
        let [low, high] = id_bytes(attribute.id);
        reply.put(&[low, high, attribute.type_code])?;
    }
    reply.done()
}
