//! The oracle: the held Rust's `ClusterServer` over a store that keeps
//! document 01's store rules, and its `ReportingTable`, with room for as many
//! entries as a table has by document 02's request 7. The Rust has no
//! store, so `reading`'s is taken, and its extents where a value is stored;
//! nothing else of it.

mod calls;
mod lists;
mod others;
mod server;
pub mod tables;

use std::panic::{AssertUnwindSafe, catch_unwind};

use reading::table::Entry;
use zigbee_cluster_library::server::ClusterServer;
use zigbee_core::zdo::ClusterRequest;

pub use calls::Table;
use lists::Lists;
pub use others::{report, unsupported_cluster};
pub use server::Server;

/// A frame that comes in.
#[derive(Debug, Clone, Copy)]
pub struct Request<'a> {
    pub cluster: u16,
    pub unicast: bool,
    pub frame: &'a [u8],
    /// How long the reply buffer is.
    pub room: usize,
}

/// What the Rust says and leaves.
#[derive(Debug, Clone, PartialEq, Eq)]
pub struct Outcome {
    pub reply: Option<Vec<u8>>,
    /// The whole reply buffer, which was all zeros.
    pub buffer: Vec<u8>,
    pub store: Vec<u8>,
    pub table: Vec<Entry>,
}

#[derive(Default)]
pub struct Oracle(Lists);

impl Oracle {
    /// One request, over a sound store and a table. An
    /// error where the Rust panics.
    pub fn handle(
        &mut self,
        store: &[u8],
        table: &[Entry],
        request: &Request<'_>,
    ) -> Result<Outcome, String> {
        let attributes = self.0.of(store);
        let server = Server::new(store, attributes, tables::of(table));
        let asked = ClusterRequest {
            cluster_id: request.cluster,
            unicast: request.unicast,
            asdu: request.frame,
        };
        let mut buffer = vec![0; request.room];
        let handled = AssertUnwindSafe(|| server.handle_request(&asked, &mut buffer));
        let answer =
            catch_unwind(handled).map_err(|_| format!("the Rust panics on {request:?}"))?;
        let reply = answer.map(|reply| buffer[..reply.len].to_vec());
        let (store, table) = server.into_parts();
        let table = tables::entries(&table);
        Ok(Outcome {
            reply,
            buffer,
            store,
            table,
        })
    }
}
