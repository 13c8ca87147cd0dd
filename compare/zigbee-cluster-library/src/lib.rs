//! The held Rust of zigbee-rs' crate of this name, unchanged: build.rs copies
//! it, this file stands in for its lib.rs and its types/mod.rs. The modules
//! `clusters`, `profile` and `sender` are absent and left out.

// The copied files are taken as they are, and parts of them are for the
// modules that are left out.
#![allow(unused, clippy::all)]

/// An entry of a reporting table, in full: cluster, attribute, configuration,
/// and time and value of its last report.
pub type Shown = (
    types::ids::ClusterId,
    types::ids::AttributeId,
    reporting::ReportingConfig,
    Option<(u32, i64)>,
);

// The held lib.rs has this one for its own modules. reporting.rs, which keeps
// a table's entries to itself, uses it twice; at one of these it also brings
// what shows them, so that whole tables can be compared.
macro_rules! bad_input {
    ("attribute report has no records") => {{
        #[allow(non_local_definitions)]
        impl<const N: usize> ReportingTable<N> {
            /// The entries, in their order.
            pub fn shown(&self) -> std::vec::Vec<crate::Shown> {
                self.entries
                    .lock()
                    .iter()
                    .map(|entry| (entry.cluster, entry.attribute, entry.config, entry.last))
                    .collect()
            }

            /// A table of the first `N` of these.
            pub fn of(shown: &[crate::Shown]) -> Self {
                let table = Self::new();
                for &(cluster, attribute, config, last) in shown {
                    let _ = table.entries.lock().push(Entry {
                        cluster,
                        attribute,
                        config,
                        last,
                    });
                }
                table
            }
        }

        byte::Error::BadInput {
            err: "attribute report has no records",
        }
    }};
    ($msg:expr) => {
        byte::Error::BadInput { err: $msg }
    };
}

include!(concat!(env!("OUT_DIR"), "/modules.rs"));
