//! How far it is, on a terminal only.

use std::io::{IsTerminal, Write, stderr};

pub struct Progress {
    shown: bool,
    many: usize,
}

impl Progress {
    pub fn new(many: usize) -> Self {
        let shown = stderr().is_terminal();
        Self { shown, many }
    }

    pub fn at(&self, done: usize) {
        if self.shown {
            let end = if done == self.many { "\r\x1b[K" } else { "" };
            eprint!("\r{done} of {} frames{end}", self.many);
            // a terminal that shows nothing is no trouble of the run
            let _ = stderr().flush();
        }
    }
}
