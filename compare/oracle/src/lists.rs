//! The attribute lists that the Rust asks for: they live as long as the
//! program, so there is one for each contents, however often it is served.

use std::collections::HashMap;

use reading::store::{Attribute, attributes};
use zigbee_cluster_library::types::descriptors::{AccessFlags, AttrInfo};
use zigbee_cluster_library::types::ids::{AttributeId, TypeId};

#[derive(Default)]
pub struct Lists(HashMap<Vec<u8>, &'static [AttrInfo]>);

impl Lists {
    pub fn of(&mut self, store: &[u8]) -> &'static [AttrInfo] {
        let attributes = attributes(store).expect("the store is sound");
        let contents = &store[..4 + 8 * attributes.len()];
        if let Some(list) = self.0.get(contents) {
            return list;
        }
        let list: Vec<AttrInfo> = attributes.iter().map(info).collect();
        let list: &'static [AttrInfo] = Vec::leak(list);
        self.0.insert(contents.to_vec(), list);
        list
    }
}

/// Every attribute can be read.
fn info(attribute: &Attribute) -> AttrInfo {
    let mut access = AccessFlags::READ;
    if attribute.access & 1 != 0 {
        access = access.union(AccessFlags::WRITE);
    }
    if attribute.access & 2 != 0 {
        access = access.union(AccessFlags::REPORTABLE);
    }
    AttrInfo {
        id: AttributeId(attribute.id),
        type_id: TypeId::from_u8(attribute.type_code),
        access,
    }
}
