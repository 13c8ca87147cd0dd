//! Calls on the held `ReportingTable`.

use cases::histories::{Answer, Call};
use reading::table::{Config, ENTRIES, Entry, Key, SIGNED};
use zigbee_cluster_library::reporting::{AttributeReporting, ReportingConfig, ReportingTable};
use zigbee_cluster_library::types::ids::{AttributeId, ClusterId};

use crate::tables;

/// With room for so many entries.
pub struct Table<const N: usize = ENTRIES>(ReportingTable<N>);

/// A table without entries.
impl<const N: usize> Default for Table<N> {
    fn default() -> Self {
        Self(ReportingTable::new())
    }
}

impl<const N: usize> Table<N> {
    /// A table of these entries, however they came about.
    pub fn of(entries: &[Entry]) -> Self {
        Self(tables::of(entries))
    }

    /// The entries, in their order.
    pub fn entries(&self) -> Vec<Entry> {
        let entries = tables::entries(&self.0);
        assert_eq!(entries.len(), self.count(), "all entries are shown");
        entries
    }

    /// How many entries there are.
    pub fn count(&self) -> usize {
        self.0.len()
    }

    /// What it says, whatever the mark of a configuration is.
    pub fn call(&self, call: &Call) -> Answer {
        match *call {
            Call::Configure(key, config) => {
                let (cluster, attribute) = ids(key);
                let config = ReportingConfig {
                    min_interval: config.minimum,
                    max_interval: config.maximum,
                    reportable_change: config.change,
                };
                Answer::yes(self.0.configure(cluster, attribute, config))
            }
            Call::Clear(key) => {
                let (cluster, attribute) = ids(key);
                self.0.clear(cluster, attribute);
                Answer::DONE
            }
            Call::Configuration(key) => {
                let (cluster, attribute) = ids(key);
                let found = self.0.configuration(cluster, attribute);
                Answer::found(found.map(config_from_rust))
            }
            Call::Ask(key, now, value) => Answer::yes(self.ask(key, now, value)),
            Call::Mark(key, now, value) => {
                let (cluster, attribute) = ids(key);
                self.0.reported(cluster, attribute, now, value);
                Answer::DONE
            }
        }
    }

    fn ask(&self, key: Key, now: u32, value: i64) -> bool {
        let (cluster, attribute) = ids(key);
        self.0.should_report(cluster, attribute, now, value)
    }
}

fn ids(key: Key) -> (ClusterId, AttributeId) {
    (ClusterId(key.cluster), AttributeId(key.attribute))
}

fn config_from_rust(config: ReportingConfig) -> Config {
    Config {
        minimum: config.min_interval,
        maximum: config.max_interval,
        change: config.reportable_change,
        mark: SIGNED,
    }
}
