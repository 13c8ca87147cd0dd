//! Stands for the new side in tests: the old one, but that it leaves zeros
//! behind a reply; and that it goes wrong where it is told to.

use reading::table::Entry;

use crate::calls::{Ask, Report, Request};
use crate::old::Old;
use crate::side::{Said, Side};

#[derive(Debug, Clone, Copy, PartialEq, Eq)]
pub enum Fault {
    Refusal,
    /// More bytes than there are.
    Length,
    Frame,
    Behind,
    Store,
    Table,
    NoTable,
}

pub struct StandIn {
    old: Old,
    pub fault: Option<Fault>,
}

impl StandIn {
    fn has(&self, fault: Fault) -> bool {
        self.fault == Some(fault)
    }
}

impl Side for StandIn {
    fn new(store: &[u8], table: &[Entry]) -> Self {
        let old = Old::new(store, table);
        Self { old, fault: None }
    }

    fn request(&mut self, request: &Request, reply: &mut [u8]) -> Said {
        let before = if self.has(Fault::Behind) { 1 } else { 0 };
        reply.fill(before);
        let said = self.old.request(request, reply);
        if said == Said::Refused {
            reply.fill(before);
        }
        match self.fault {
            Some(Fault::Refusal) => return Said::Refused,
            Some(Fault::Length) => return Said::Frame(reply.len() + 1),
            Some(Fault::Frame) => reply[1] ^= 1,
            _ => (),
        }
        said
    }

    fn report(&mut self, report: &Report, frame: &mut [u8]) -> Said {
        frame.fill(0);
        self.old.report(report, frame)
    }

    fn ask(&mut self, ask: &Ask) -> Said {
        self.old.ask(ask)
    }

    fn mark(&mut self, mark: &Ask) -> Said {
        self.old.mark(mark)
    }

    fn store(&self) -> Vec<u8> {
        let mut store = self.old.store();
        if self.has(Fault::Store) {
            *store.last_mut().expect("it has bytes") ^= 1;
        }
        store
    }

    fn table(&self) -> Result<Vec<Entry>, String> {
        if self.has(Fault::NoTable) {
            return Err("the bytes are no table".to_owned());
        }
        let mut table = self.old.table()?;
        if self.has(Fault::Table) {
            table[0].config.maximum ^= 1;
        }
        Ok(table)
    }
}
