//! Entries into the Rust's table and out of it. It has no marks, and compares
//! with the sign: what comes out is marked so.

use reading::table::{Config, Entry, Key, SIGNED};
use zigbee_cluster_library::Shown;
use zigbee_cluster_library::reporting::{ReportingConfig, ReportingTable};
use zigbee_cluster_library::types::ids::{AttributeId, ClusterId};

/// A table of these entries, however they came about.
pub fn of<const N: usize>(entries: &[Entry]) -> ReportingTable<N> {
    let shown: Vec<Shown> = entries.iter().map(to_rust).collect();
    ReportingTable::of(&shown)
}

/// The entries, in their order.
pub fn entries<const N: usize>(table: &ReportingTable<N>) -> Vec<Entry> {
    table.shown().into_iter().map(from_rust).collect()
}

fn to_rust(entry: &Entry) -> Shown {
    (
        ClusterId(entry.key.cluster),
        AttributeId(entry.key.attribute),
        ReportingConfig {
            min_interval: entry.config.minimum,
            max_interval: entry.config.maximum,
            reportable_change: entry.config.change,
        },
        entry.last,
    )
}

fn from_rust((cluster, attribute, config, last): Shown) -> Entry {
    Entry {
        key: Key {
            cluster: cluster.0,
            attribute: attribute.0,
        },
        config: Config {
            minimum: config.min_interval,
            maximum: config.max_interval,
            change: config.reportable_change,
            mark: SIGNED,
        },
        last,
    }
}
