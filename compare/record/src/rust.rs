//! The answers of the held Rust, in the list's form. A panic is an error that
//! names its input.

use std::panic::{AssertUnwindSafe, catch_unwind};

use byte::BytesExt;
use cases::hex;
use zigbee_cluster_library::frame::header::ZclHeader;
use zigbee_cluster_library::frame::header::frame_control::FrameType;
use zigbee_cluster_library::types::data_types::ZclDataType;
use zigbee_cluster_library::types::ids::TypeId;

/// All but `Unknown`.
const NAMED: [TypeId; 55] = {
    use TypeId::*;
    [
        NoData,
        Data8,
        Data16,
        Data24,
        Data32,
        Data40,
        Data48,
        Data56,
        Data64,
        Boolean,
        Bitmap8,
        Bitmap16,
        Bitmap24,
        Bitmap32,
        Bitmap40,
        Bitmap48,
        Bitmap56,
        Bitmap64,
        Uint8,
        Uint16,
        Uint24,
        Uint32,
        Uint40,
        Uint48,
        Uint56,
        Uint64,
        Int8,
        Int16,
        Int24,
        Int32,
        Int40,
        Int48,
        Int56,
        Int64,
        Enum8,
        Enum16,
        SemiPrecision,
        SinglePrecision,
        DoublePrecision,
        OctetString,
        CharacterString,
        LongOctetString,
        LongCharacterString,
        Array,
        Structure,
        Set,
        Bag,
        TimeOfDay,
        Date,
        UtcTime,
        ClusterId,
        AttributeId,
        BacnetOid,
        IeeeAddress,
        SecurityKey,
    ]
};

pub type Answer = Result<Vec<u8>, String>;

/// Row `code` of the type table.
pub fn row(code: u8) -> Answer {
    caught(&[code], || {
        let id = TypeId::from_u8(code);
        vec![
            id.fixed_size().map_or(0xff, short),
            id.is_analog().into(),
            id.is_reportable_type().into(),
        ]
    })
}

/// The codes of the types that have a name, in the order of the Rust's enum.
pub fn named() -> Vec<u8> {
    NAMED.map(TypeId::as_u8).to_vec()
}

/// The header of `frame`, empty where it is refused.
pub fn header(frame: &[u8]) -> Answer {
    caught(frame, || {
        let mut offset = 0;
        let read: byte::Result<ZclHeader> = frame.read_with(&mut offset, ());
        let Ok(header) = read else { return Vec::new() };
        let frame_type = match header.frame_control.frame_type() {
            FrameType::GlobalCommand => 0,
            FrameType::ClusterCommand => 1,
            FrameType::Reserved => 2,
        };
        let code = header.manufacturer_code.map(|code| code.0);
        let [low, high] = code.unwrap_or(0).to_le_bytes();
        let command = header.command_identifier.raw();
        vec![
            frame_type,
            code.is_some().into(),
            low,
            high,
            header.sequence_number,
            command,
            short(offset),
        ]
    })
}

/// The extent of `value`, which is a type code and bytes.
pub fn extent(value: &[u8]) -> Answer {
    caught(value, || {
        let (&code, bytes) = value.split_first().expect("a value has a type code");
        let mut offset = 0;
        let read: byte::Result<ZclDataType<'_>> = bytes.read_with(&mut offset, code);
        taken(read.is_ok().then_some(offset))
    })
}

/// 00 for a refusal, else 01 and the number of bytes taken.
pub fn taken(bytes: Option<usize>) -> Vec<u8> {
    let Some(bytes) = bytes else { return vec![0] };
    let [low, high] = u16::try_from(bytes)
        .expect("inputs are short")
        .to_le_bytes();
    vec![1, low, high]
}

/// A number that fits one byte.
pub fn short(number: usize) -> u8 {
    u8::try_from(number).expect("sizes and offsets are small")
}

fn caught(input: &[u8], ask: impl FnOnce() -> Vec<u8>) -> Answer {
    catch_unwind(AssertUnwindSafe(ask))
        .map_err(|_| format!("the Rust panics on the input {}", hex(input)))
}
