//! The old server: the held Rust over document 01's store.

use oracle::{Server, tables};
use reading::table::{Entry, Key};
use zigbee_cluster_library::reporting::AttributeReporting;
use zigbee_cluster_library::server::ClusterServer;
use zigbee_cluster_library::types::ids::{AttributeId, ClusterId};
use zigbee_core::zdo::ClusterRequest;

use crate::calls::{Ask, Report, Request};
use crate::side::{Said, Side};

pub struct Old(Server);

impl Side for Old {
    fn new(store: &[u8], table: &[Entry]) -> Self {
        Self(Server::held(store, table))
    }

    fn request(&mut self, request: &Request, reply: &mut [u8]) -> Said {
        let asked = ClusterRequest {
            cluster_id: request.cluster,
            unicast: true,
            asdu: &request.frame,
        };
        let reply = self.0.handle_request(&asked, reply);
        reply.map_or(Said::Refused, |reply| Said::Frame(reply.len))
    }

    fn report(&mut self, report: &Report, frame: &mut [u8]) -> Said {
        let used = oracle::report(&self.0.store(), report.sequence, &report.ids, frame);
        used.map_or(Said::Refused, Said::Frame)
    }

    fn ask(&mut self, ask: &Ask) -> Said {
        let (cluster, attribute) = ids(ask.key);
        let table = self.0.table();
        Said::Due(table.should_report(cluster, attribute, ask.now, ask.value))
    }

    fn mark(&mut self, mark: &Ask) -> Said {
        let (cluster, attribute) = ids(mark.key);
        let table = self.0.table();
        table.reported(cluster, attribute, mark.now, mark.value);
        Said::Done
    }

    fn store(&self) -> Vec<u8> {
        self.0.store().clone()
    }

    fn table(&self) -> Result<Vec<Entry>, String> {
        Ok(tables::entries(self.0.table()))
    }
}

fn ids(key: Key) -> (ClusterId, AttributeId) {
    (ClusterId(key.cluster), AttributeId(key.attribute))
}
