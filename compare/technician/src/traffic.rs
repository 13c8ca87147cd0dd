//! A file of traffic: its lines, and the frames that they make.
//! compare/FRAMES.md has the form.

mod bytes;
mod line;

use cases::Case;
use reading::store::cluster_of;
use reading::table::to_bytes;

use crate::frame::Frame;
use line::Step;

/// What a file says, line by line.
#[derive(Debug, Clone, PartialEq, Eq)]
pub struct Traffic(Vec<(usize, Step)>);

impl Traffic {
    /// An error names every line that is not understood by its number.
    pub fn parsed(file: &[u8]) -> Result<Self, String> {
        let lines: Vec<&[u8]> = file.split(|&byte| byte == b'\n').collect();
        let (last, whole) = lines.split_last().expect("there is always a last one");
        let mut steps = Vec::new();
        let mut troubles = Vec::new();
        for (number, line) in (1..).zip(whole) {
            match line::step(line) {
                Ok(step) => steps.extend(step.map(|step| (number, step))),
                Err(trouble) => troubles.push(format!("line {number}: {trouble}")),
            }
        }
        if !last.is_empty() {
            let number = lines.len();
            troubles.push(format!(
                "line {number}: it does not end, so the file may be cut"
            ));
        }
        if troubles.is_empty() {
            troubles.extend(without_store(&steps));
        }
        let traffic = Self(steps);
        match troubles.is_empty() {
            false => Err(troubles.join("\n")),
            true if traffic.requests() == 0 => Err("there is no request in it".to_owned()),
            true => Ok(traffic),
        }
    }

    /// How many requests there are.
    pub fn requests(&self) -> usize {
        let steps = self.0.iter();
        steps.filter(|(_, step)| step.is_request()).count()
    }

    /// Each request over the store and the table that document 01 lets the one
    /// before leave.
    pub fn frames(self) -> impl Iterator<Item = Frame> {
        let mut now = Now::default();
        let steps = self.0.into_iter();
        steps.filter_map(move |(number, step)| now.meet(number, step))
    }
}

/// The first request that no store was given for.
fn without_store(steps: &[(usize, Step)]) -> Option<String> {
    let first = |is: fn(&Step) -> bool| steps.iter().find(|(_, step)| is(step));
    let (number, _) = first(Step::is_request)?;
    match first(|step| matches!(step, Step::Store(_))) {
        Some((store, _)) if store < number => None,
        _ => Some(format!("line {number}: a request before any store")),
    }
}

/// What the next request meets.
struct Now {
    store: Vec<u8>,
    table: Vec<u8>,
    /// The store's own where none is named.
    cluster: Option<u16>,
    unicast: u8,
    room: usize,
}

impl Default for Now {
    fn default() -> Self {
        Self {
            store: Vec::new(),
            table: to_bytes(&[]),
            cluster: None,
            unicast: 1,
            room: 64,
        }
    }
}

impl Now {
    fn meet(&mut self, number: usize, step: Step) -> Option<Frame> {
        match step {
            Step::Store(store) => self.store = store,
            Step::Table(table) => self.table = table,
            Step::Cluster(cluster) => self.cluster = cluster,
            Step::Unicast(unicast) => self.unicast = unicast,
            Step::Room(room) => self.room = room,
            Step::Request(request) => return Some(self.serve(number, request)),
        }
        None
    }

    fn serve(&mut self, number: usize, request: Vec<u8>) -> Frame {
        let own = cluster_of(&self.store).unwrap_or(0);
        let case = Case {
            store: self.store.clone(),
            table: self.table.clone(),
            cluster: self.cluster.unwrap_or(own),
            unicast: self.unicast,
            request,
            room: self.room,
        };
        let frame = Frame::new(format!("line {number}"), case);
        self.store.clone_from(&frame.document.store);
        self.table.clone_from(&frame.document.table);
        frame
    }
}

#[cfg(test)]
mod tests;
