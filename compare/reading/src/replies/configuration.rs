//! The reply to read configuration.

use super::{Read, body, records};
use crate::types::change_width;

#[derive(Debug, Clone, Copy, PartialEq, Eq)]
pub struct Setting {
    pub type_code: u8,
    pub minimum: u16,
    pub maximum: u16,
    /// Without a sign; 0 where the type has no change field.
    pub change: u64,
}

#[derive(Debug, Clone, Copy, PartialEq, Eq)]
pub struct SettingRecord {
    /// As it came; behind any but 00 there is no setting.
    pub status: u8,
    /// Whatever it is, the fields are the same.
    pub direction: u8,
    pub id: u16,
    pub setting: Option<Setting>,
}

pub fn configuration_reply(frame: &[u8]) -> Read<Vec<SettingRecord>> {
    records(body(frame, 0x09)?, |body| {
        let status = body.byte()?;
        let direction = body.byte()?;
        let id = body.short()?;
        let mut setting = None;
        if status == 0x00 {
            let type_code = body.byte()?;
            let minimum = body.short()?;
            let maximum = body.short()?;
            let field = body.bytes(change_width(type_code))?;
            let mut change = [0; 8];
            change[..field.len()].copy_from_slice(field);
            setting = Some(Setting {
                type_code,
                minimum,
                maximum,
                change: u64::from_le_bytes(change),
            });
        }
        Ok(SettingRecord {
            status,
            direction,
            id,
            setting,
        })
    })
}
