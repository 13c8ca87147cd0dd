//! The new server: the proved archive over lent bytes.

use reading::table::{Entry, SIZE, entries, to_bytes};
use speed::{Ask, Report, Request, Said, Side};

use crate::archive;

pub struct New {
    store: Vec<u8>,
    table: [u8; SIZE],
}

impl Side for New {
    fn new(store: &[u8], table: &[Entry]) -> Self {
        Self {
            store: store.to_vec(),
            table: to_bytes(table).try_into().expect("a table has its length"),
        }
    }

    fn request(&mut self, request: &Request, reply: &mut [u8]) -> Said {
        let Self { store, table } = self;
        frame(archive::handle_request(
            store,
            table,
            request.cluster,
            &request.frame,
            reply,
        ))
    }

    fn report(&mut self, report: &Report, into: &mut [u8]) -> Said {
        frame(archive::report(
            &self.store,
            report.sequence,
            &report.ids,
            into,
        ))
    }

    fn ask(&mut self, ask: &Ask) -> Said {
        let Ask { key, now, value } = *ask;
        match archive::ask(&self.table, key.cluster, key.attribute, now, value) {
            (0, due) => Said::Due(due != 0),
            _ => Said::Refused,
        }
    }

    fn mark(&mut self, mark: &Ask) -> Said {
        let Ask { key, now, value } = *mark;
        match archive::mark(&mut self.table, key.cluster, key.attribute, now, value) {
            0 => Said::Done,
            _ => Said::Refused,
        }
    }

    fn store(&self) -> Vec<u8> {
        self.store.clone()
    }

    fn table(&self) -> Result<Vec<Entry>, String> {
        entries(&self.table).map_err(|broken| format!("the new table is none: {broken:?}"))
    }
}

fn frame((number, used): (u8, usize)) -> Said {
    match number {
        0 => Said::Frame(used),
        _ => Said::Refused,
    }
}
