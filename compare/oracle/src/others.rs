//! The Rust's responder for unserved clusters, and its report frames.

use reading::store::find;
use zigbee_cluster_library::reporting::AttributeReportBuilder;
use zigbee_cluster_library::server::UnsupportedClusterResponder;
use zigbee_cluster_library::types::codec::ZclKind;
use zigbee_cluster_library::types::descriptors::{Attribute, Cluster, ReadOnly, Reportable};
use zigbee_cluster_library::types::ids::{AttributeId, ClusterId, TypeId};
use zigbee_core::zdo::{ClusterRequest, ClusterRequestHandler};

use crate::Request;

/// The responder's reply.
pub fn unsupported_cluster(served: &[u16], request: &Request<'_>) -> Option<Vec<u8>> {
    let asked = ClusterRequest {
        cluster_id: request.cluster,
        unicast: request.unicast,
        asdu: request.frame,
    };
    let mut buffer = vec![0; request.room];
    let reply = UnsupportedClusterResponder::new(served).handle(&asked, &mut buffer)?;
    buffer.truncate(reply.len);
    Some(buffer)
}

/// The length of the frame that the Rust's builder makes of these attributes,
/// at the start of `frame`. One that is missing or not reportable cannot be
/// given to it: its types forbid it.
pub fn report(store: &[u8], sequence: u8, ids: &[u16], frame: &mut [u8]) -> Option<usize> {
    let mut builder = AttributeReportBuilder::new(frame, sequence).ok()?;
    for &id in ids {
        let attribute = find(store, id).filter(|attribute| attribute.access & 2 != 0)?;
        builder = pushed(builder, id, attribute.type_code, attribute.value(store)?)?;
    }
    Some(builder.finish().ok()?.asdu().len())
}

/// A stored value of type `CODE`, which is sent as its bytes.
struct Stored<const CODE: u8>;

impl<const CODE: u8> ZclKind for Stored<CODE> {
    type Value<'a> = &'a [u8];
    const TYPE_ID: TypeId = TypeId::from_u8(CODE);

    fn read<'a>(_: &'a [u8], _: &mut usize) -> byte::Result<&'a [u8]> {
        Err(byte::Error::BadInput {
            err: "a report is only written",
        })
    }

    fn write(value: &[u8], bytes: &mut [u8], offset: &mut usize) -> byte::Result<()> {
        let end = *offset + value.len();
        let place = bytes.get_mut(*offset..end).ok_or(byte::Error::Incomplete)?;
        place.copy_from_slice(value);
        *offset = end;
        Ok(())
    }
}

type Builder<'a> = AttributeReportBuilder<'a>;

fn push_as<'a, const CODE: u8>(builder: Builder<'a>, id: u16, value: &[u8]) -> Option<Builder<'a>> {
    let cluster = Cluster::new(ClusterId(0xfc21), "store");
    let attribute: Attribute<Stored<CODE>, ReadOnly, Reportable> =
        cluster.attribute(AttributeId(id), "attribute");
    builder.push(&attribute, value).ok()
}

/// A record of a type that is known only now: one instance for each.
macro_rules! push_by_code {
    ($builder:expr, $id:expr, $code:expr, $value:expr, $($known:literal)*) => {
        match $code {
            $($known => push_as::<$known>($builder, $id, $value),)*
            other => panic!("no store holds type {other:02x}"),
        }
    };
}

fn pushed<'a>(builder: Builder<'a>, id: u16, code: u8, value: &[u8]) -> Option<Builder<'a>> {
    push_by_code!(builder, id, code, value,
        0x08 0x09 0x0a 0x0b 0x0c 0x0d 0x0e 0x0f 0x10
        0x18 0x19 0x1a 0x1b 0x1c 0x1d 0x1e 0x1f
        0x20 0x21 0x22 0x23 0x24 0x25 0x26 0x27
        0x28 0x29 0x2a 0x2b 0x2c 0x2d 0x2e 0x2f
        0x30 0x31 0x38 0x39 0x3a 0x41 0x42
        0xe0 0xe1 0xe2 0xe8 0xe9 0xea 0xf0 0xf1)
}
