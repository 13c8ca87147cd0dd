//! A cluster served from a store. Its calls allocate nothing.

use std::cell::{Ref, RefCell};

use reading::store::{check, cluster_of, find};
use reading::table::{ENTRIES, Entry};
use reading::{Extent, extent};
use zigbee_cluster_library::frame::Status;
use zigbee_cluster_library::reporting::{AttributeReporting, ReportingTable};
use zigbee_cluster_library::server::ClusterServer;
use zigbee_cluster_library::types::descriptors::{AttrInfo, Cluster};
use zigbee_cluster_library::types::ids::{AttributeId, ClusterId, TypeId};

use crate::lists::Lists;
use crate::tables;

pub struct Server {
    /// The Rust lends the server unchangeably, also for a write.
    store: RefCell<Vec<u8>>,
    attributes: &'static [AttrInfo],
    table: ReportingTable<ENTRIES>,
}

impl Server {
    pub(crate) fn new(
        store: &[u8],
        attributes: &'static [AttrInfo],
        table: ReportingTable<ENTRIES>,
    ) -> Self {
        Self {
            store: RefCell::new(store.to_vec()),
            attributes,
            table,
        }
    }

    /// To be asked many times: its attribute list lives as long as the program.
    pub fn held(store: &[u8], table: &[Entry]) -> Self {
        Self::new(store, Lists::default().of(store), tables::of(table))
    }

    pub fn store(&self) -> Ref<'_, Vec<u8>> {
        self.store.borrow()
    }

    pub fn table(&self) -> &ReportingTable<ENTRIES> {
        &self.table
    }

    pub(crate) fn into_parts(self) -> (Vec<u8>, ReportingTable<ENTRIES>) {
        (self.store.into_inner(), self.table)
    }
}

impl ClusterServer for Server {
    fn cluster(&self) -> Cluster {
        let cluster = cluster_of(&self.store.borrow()).expect("the store is sound");
        Cluster::new(ClusterId(cluster), "store")
    }

    fn attributes(&self) -> &'static [AttrInfo] {
        self.attributes
    }

    fn encode_value(&self, id: AttributeId, out: &mut [u8], offset: &mut usize) -> Status {
        let store = self.store.borrow();
        let attribute = find(&store, id.0);
        let value = attribute.and_then(|attribute| attribute.value(&store));
        let (Some(attribute), Some(value)) = (attribute, value) else {
            return Status::UnsupportedAttribute;
        };
        let end = *offset + 1 + value.len();
        // all of it or nothing
        let Some([type_code, place @ ..]) = out.get_mut(*offset..end) else {
            return Status::InsufficientSpace;
        };
        *type_code = attribute.type_code;
        place.copy_from_slice(value);
        *offset = end;
        Status::Success
    }

    fn decode_value(
        &self,
        id: AttributeId,
        type_id: TypeId,
        bytes: &[u8],
        offset: &mut usize,
    ) -> Status {
        let mut store = self.store.borrow_mut();
        let code = type_id.as_u8();
        let attribute = match check(&store, id.0, code) {
            Ok(attribute) => attribute,
            Err(status) => return status_of(status),
        };
        let Extent::End(end) = extent(code, bytes, *offset) else {
            // the Rust finds this out itself as it steps over the value
            return Status::InvalidValue;
        };
        let status = attribute.set(&mut store, &bytes[*offset..end]);
        if status == 0x00 {
            *offset = end;
        }
        status_of(status)
    }

    fn reporting(&self) -> Option<&dyn AttributeReporting> {
        Some(&self.table)
    }
}

fn status_of(code: u8) -> Status {
    Status::from_u8(code).expect("the store's statuses are known")
}
