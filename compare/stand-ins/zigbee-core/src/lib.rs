//! Stands for `zigbee-core` of the same project, which is absent. Only what
//! server.rs uses of it.
//!
//! Assumed of the real crate:
//! - a request says its cluster, whether it came by unicast, and its bytes;
//! - `ClusterReply::matching` keeps the length that it is given; profile and
//!   endpoints, which the real one carries over, have no part here;
//! - a handler that has no answer gives `None`.

pub mod zdo {
    /// A frame that came in.
    #[derive(Debug, Clone, Copy)]
    pub struct ClusterRequest<'a> {
        pub cluster_id: u16,
        pub unicast: bool,
        pub asdu: &'a [u8],
    }

    /// What stands at the start of the reply buffer.
    #[derive(Debug, Clone, Copy, PartialEq, Eq)]
    pub struct ClusterReply {
        pub cluster_id: u16,
        pub len: usize,
    }

    impl ClusterReply {
        pub const fn matching(request: &ClusterRequest<'_>, len: usize) -> Self {
            Self {
                cluster_id: request.cluster_id,
                len,
            }
        }
    }

    pub trait ClusterRequestHandler {
        fn handle(&self, request: &ClusterRequest<'_>, out: &mut [u8]) -> Option<ClusterReply>;
    }
}
