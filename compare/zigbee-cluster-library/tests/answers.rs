//! The held server and table answer over the stand-ins: document 01's bench
//! frames 9 and 11.

use zigbee_cluster_library::frame::Status;
use zigbee_cluster_library::reporting::{AttributeReporting, ReportingConfig, ReportingTable};
use zigbee_cluster_library::server::ClusterServer;
use zigbee_cluster_library::types::descriptors::{AccessFlags, AttrInfo, Cluster};
use zigbee_cluster_library::types::ids::{AttributeId, ClusterId, TypeId};
use zigbee_core::zdo::ClusterRequest;

const CLUSTER: ClusterId = ClusterId(0xfc21);
const READ: AccessFlags = AccessFlags::READ;
const REPORT: AccessFlags = READ.union(AccessFlags::REPORTABLE);
const WRITE: AccessFlags = AccessFlags::READ_WRITE;

const fn info(id: u16, type_id: TypeId, access: AccessFlags) -> AttrInfo {
    AttrInfo {
        id: AttributeId(id),
        type_id,
        access,
    }
}

static ATTRIBUTES: [AttrInfo; 4] = [
    info(0, TypeId::Uint32, REPORT),
    info(1, TypeId::Uint8, WRITE),
    info(5, TypeId::Int16, REPORT.union(WRITE)),
    info(7, TypeId::CharacterString, WRITE),
];

struct Server(ReportingTable<16>);

impl ClusterServer for Server {
    fn cluster(&self) -> Cluster {
        Cluster::new(CLUSTER, "bench")
    }

    fn attributes(&self) -> &'static [AttrInfo] {
        &ATTRIBUTES
    }

    fn encode_value(&self, _: AttributeId, _: &mut [u8], _: &mut usize) -> Status {
        Status::UnsupportedAttribute
    }

    fn reporting(&self) -> Option<&dyn AttributeReporting> {
        Some(&self.0)
    }
}

fn ask(server: &Server, frame: &[u8]) -> Vec<u8> {
    let request = ClusterRequest {
        cluster_id: CLUSTER.0,
        unicast: true,
        asdu: frame,
    };
    let mut out = [0; 64];
    let reply = server.handle_request(&request, &mut out).expect("a reply");
    out[..reply.len].to_vec()
}

#[test]
fn discover() {
    let server = Server(ReportingTable::new());
    assert_eq!(
        ask(&server, &[0x00, 0x2c, 0x0c, 0x01, 0x00, 0x02]),
        [0x18, 0x2c, 0x0d, 0x00, 0x01, 0x00, 0x20, 0x05, 0x00, 0x29]
    );
    assert_eq!(ask(&server, &[0x00, 0x2c, 0x0c, 0x01, 0x00, 0x03])[3], 1);
}

#[test]
fn configure() {
    let server = Server(ReportingTable::new());
    let frame = [
        0x00, 0x2d, 0x06, 0x00, 0x05, 0x00, 0x29, 0x0a, 0x00, 0x3c, 0x00, 0x32, 0x00,
    ];
    assert_eq!(ask(&server, &frame), [0x18, 0x2d, 0x07, 0x00]);
    assert_eq!(server.0.len(), 1);

    let attribute = AttributeId(5);
    server.0.reported(CLUSTER, attribute, 100, -200);
    for (now, value, due) in [
        (109, 0, false),
        (110, -151, false),
        (110, -150, true),
        (159, -200, false),
        (160, -200, true),
        (90, 0, false),
    ] {
        let answer = server.0.should_report(CLUSTER, attribute, now, value);
        assert_eq!(answer, due, "{now} {value}");
    }
}

/// What src/lib.rs adds: the entries, in order and in full.
#[test]
fn entries_shown() {
    let table: ReportingTable<2> = ReportingTable::new();
    let config = |change| ReportingConfig {
        min_interval: 1,
        max_interval: 2,
        reportable_change: change,
    };
    assert_eq!(table.shown(), []);
    assert!(table.configure(CLUSTER, AttributeId(5), config(7)));
    assert!(table.configure(CLUSTER, AttributeId(4), config(8)));
    table.reported(CLUSTER, AttributeId(4), 100, -200);
    let first = (CLUSTER, AttributeId(5), config(7), None);
    let second = (CLUSTER, AttributeId(4), config(8), Some((100, -200)));
    assert_eq!(table.shown(), [first, second]);

    let again: ReportingTable<2> = ReportingTable::of(&[first, second, first]);
    assert_eq!(again.shown(), [first, second]);
    again.clear(CLUSTER, AttributeId(5));
    assert_eq!(again.shown(), [second]);
}
