//! An attribute that has an entry, watched through a history of turns and held to
//! what is promised of it.

use reading::table::{Config, moved};

use crate::counted::{APART, Counted, FAIR, FAIR_AT_LAST, LEAST_APART, MOST_APART, TIMED};

/// By how much less than is promised a run is content: for tests, which show that
/// nothing is to spare.
#[derive(Debug, Clone, Copy, Default)]
pub struct Spared {
    pub turns: usize,
    pub most: u32,
    pub least: u32,
}

/// What the bounds are made of, beside the attribute's intervals.
#[derive(Debug, Clone, Copy)]
pub struct Terms {
    /// n, the cluster's entries.
    pub entries: usize,
    /// G, the most seconds between two turns.
    pub gap: u32,
    pub spared: Spared,
}

/// What a turn made of the attribute.
#[derive(Debug, Clone, Copy)]
pub struct Look {
    pub now: u32,
    pub value: i64,
    /// Whether it was found due,
    pub found: bool,
    /// and is in the frame.
    pub written: bool,
}

#[derive(Debug, Clone, Copy)]
pub struct Watched {
    config: Config,
    terms: Terms,
    /// Turns in a row that found it due and did not write it.
    row: usize,
    /// Time and value of its last report.
    report: Option<(u32, i64)>,
}

impl Watched {
    pub fn new(config: Config, terms: Terms) -> Self {
        Self {
            config,
            terms,
            row: 0,
            report: None,
        }
    }

    /// Found due in each of n consecutive turns, it is in one of those frames.
    pub fn fair(&mut self, look: &Look, counted: &mut Counted) -> Result<(), String> {
        let n = self.terms.entries;
        if look.written {
            counted.count(FAIR);
            if self.row == n - 1 {
                counted.count(FAIR_AT_LAST);
            }
        }
        self.row = match (look.found, look.written) {
            (true, false) => self.row + 1,
            _ => 0,
        };
        if self.row > 0 && self.row + self.terms.spared.turns >= n {
            return Err(format!("{} turns found it due: not written", self.row));
        }
        Ok(())
    }

    /// Found due as it is timed from its last report, and at least m and at most
    /// M+nG-1 seconds after it reported again.
    pub fn timed(&mut self, look: &Look, counted: &mut Counted) -> Result<(), String> {
        if look.found != self.is_due(look) {
            return Err(format!("found due or not, against its time: {look:?}"));
        }
        counted.count(TIMED);
        if let Some((time, _)) = self.report {
            self.apart(look.now - time, look.written, counted)?;
        }
        if look.written {
            self.report = Some((look.now, look.value));
        }
        Ok(())
    }

    /// Demand 3.
    fn is_due(&self, look: &Look) -> bool {
        let Some((time, reported)) = self.report else {
            return true;
        };
        let (since, config) = (look.now - time, self.config);
        let moved = moved(config.mark, look.value, reported);
        let late = config.maximum != 0 && since >= config.maximum.into();
        since >= config.minimum.into() && (late || moved != 0 && moved >= config.change.into())
    }

    /// So many seconds after a report there is another, or a turn without it.
    fn apart(&self, since: u32, written: bool, counted: &mut Counted) -> Result<(), String> {
        let Terms {
            entries,
            gap,
            spared,
        } = self.terms;
        let (least, maximum) = (u32::from(self.config.minimum), self.config.maximum);
        let most = (maximum != 0).then(|| u32::from(maximum) + entries as u32 * gap - 1);
        if most.is_some_and(|most| since > most - spared.most) {
            return Err(format!("{since} seconds without a report: too long"));
        }
        if written {
            if since < least + spared.least {
                return Err(format!("{since} seconds after a report: too soon"));
            }
            counted.count(APART);
            if since == least {
                counted.count(LEAST_APART);
            }
            if most == Some(since) {
                counted.count(MOST_APART);
            }
        }
        Ok(())
    }
}
