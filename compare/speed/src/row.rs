//! A row of the results: calls over a store and a table.

use reading::table::Entry;

use crate::calls::Calls;

/// What the calls go over; each has a table of results of its own.
#[derive(Debug, Clone, Copy, PartialEq, Eq)]
pub enum Over {
    Four,
    SixtyFour,
    /// As many entries as tables had room for before document 02's request 7. No
    /// store is lent.
    Table,
    /// As many as there is room for. Requests go over the store of 64.
    Full,
}

impl Over {
    pub const ALL: [Self; 4] = [Self::Four, Self::SixtyFour, Self::Table, Self::Full];

    /// Above the table of results.
    pub fn title(self) -> &'static str {
        match self {
            Self::Four => "A store of 4 attributes, document 01's T",
            Self::SixtyFour => "A store of 64 attributes",
            Self::Table => "A reporting table of 16 entries, no store",
            Self::Full => "A full reporting table, of 128 entries; requests over the store of 64",
        }
    }

    fn word(self) -> &'static str {
        match self {
            Self::Four => "4",
            Self::SixtyFour => "64",
            Self::Table => "table",
            Self::Full => "full",
        }
    }
}

#[derive(Debug)]
pub struct Row {
    pub over: Over,
    pub name: &'static str,
    pub store: Vec<u8>,
    pub table: Vec<Entry>,
    pub calls: Calls,
}

impl Row {
    /// As the command line has it, in one word.
    pub fn word(&self) -> String {
        format!("{}/{}", self.over.word(), self.name.replace(' ', "-"))
    }
}
