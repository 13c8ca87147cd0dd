//! The readers of replies. All that is asked of one frame is one call: a row
//! for each function and k.

use std::fmt;

use crate::BEFORE;
use crate::answer::Answer;
use crate::call::Call;
use crate::held::Held;

/// The most results that a reader has.
const RESULTS: usize = 8;

/// The bytes of a row on the pipe: a number, and the results.
const ROW: usize = 8 + 8 * RESULTS;

/// A function of a reader.
#[derive(Debug, Clone, Copy, PartialEq, Eq)]
pub enum Reader {
    ReadCheck,
    ReadRecord,
    WriteCheck,
    WriteRecord,
    ConfigureCheck,
    ConfigureRecord,
    ConfigurationCheck,
    ConfigurationRecord,
    DiscoverCheck,
    DiscoverRecord,
    DefaultResponse,
    ReportCheck,
    ReportRecord,
}

impl Reader {
    /// The bytes of each of its results, in their order.
    fn widths(self) -> &'static [usize] {
        match self {
            Self::ReadCheck | Self::WriteCheck | Self::ConfigureCheck => &[8],
            Self::ConfigurationCheck | Self::ReportCheck => &[8],
            Self::ReadRecord => &[1, 2, 1, 1, 8, 8, 1, 8],
            Self::WriteRecord => &[1, 1, 2],
            Self::ConfigureRecord => &[1, 1, 1, 2],
            Self::ConfigurationRecord => &[1, 1, 1, 2, 1, 2, 2, 8],
            Self::DiscoverCheck => &[1, 8],
            Self::DiscoverRecord => &[1, 2, 1],
            Self::DefaultResponse => &[1, 1],
            Self::ReportRecord => &[1, 2, 1, 8, 8, 1, 8],
        }
    }
}

/// A call of a reader, and what is to come of it.
#[derive(Debug, Clone, PartialEq, Eq)]
pub struct Row {
    reader: Reader,
    k: usize,
    number: u8,
    results: Vec<u64>,
}

impl Row {
    /// Results that are not given are zeros.
    pub fn new(reader: Reader, k: usize, number: u8, results: &[u64]) -> Self {
        let mut results = results.to_vec();
        let many = reader.widths().len();
        assert!(results.len() <= many, "{reader:?} has {many} results");
        results.resize(many, 0);
        Self {
            reader,
            k,
            number,
            results,
        }
    }

    /// As it goes over the pipe.
    fn asked(&self) -> [u8; ROW] {
        let mut bytes = [BEFORE; ROW];
        bytes[..8].copy_from_slice(&(self.reader as u64).to_le_bytes());
        bytes[8..16].copy_from_slice(&(self.k as u64).to_le_bytes());
        bytes
    }

    /// As it is to come back.
    fn answered(&self) -> [u8; ROW] {
        let mut bytes = [BEFORE; ROW];
        bytes[..8].copy_from_slice(&u64::from(self.number).to_le_bytes());
        let fields = bytes[8..].chunks_mut(8);
        for ((field, &width), result) in fields.zip(self.reader.widths()).zip(&self.results) {
            field[..width].copy_from_slice(&result.to_le_bytes()[..width]);
        }
        bytes
    }
}

impl fmt::Display for Row {
    fn fmt(&self, f: &mut fmt::Formatter<'_>) -> fmt::Result {
        let Self { reader, k, .. } = self;
        let expected = shown(*reader, &self.answered());
        write!(f, "{reader:?} {k}: expected {expected}")
    }
}

/// A row that came back: its number and results, in hex, and whether anything
/// was written behind them.
fn shown(reader: Reader, row: &[u8]) -> String {
    let number = row[0];
    let written = |(place, field): (usize, &[u8])| {
        let width = reader.widths().get(place).copied().unwrap_or(0);
        field[width..].iter().any(|&byte| byte != BEFORE)
    };
    let behind = if row[8..].chunks(8).enumerate().any(written) {
        ", and wrote behind a result"
    } else {
        ""
    };
    let fields = row[8..].chunks(8).zip(reader.widths());
    let results: Vec<String> = fields
        .map(|(field, &width)| {
            let high_first = field[..width].iter().rev();
            high_first.map(|byte| format!("{byte:02x}")).collect()
        })
        .collect();
    format!("{number} [{}]{behind}", results.join(" "))
}

impl Held {
    /// One frame, given to the readers.
    pub fn read(frame: &[u8], rows: &[Row]) -> Self {
        let asked: Vec<u8> = rows.iter().flat_map(Row::asked).collect();
        let answered: Vec<u8> = rows.iter().flat_map(Row::answered).collect();
        Self {
            call: Call::read(frame, &asked),
            answer: Answer::new(0, &[], &[frame, &answered]),
        }
    }
}

impl Call {
    /// Record k of the reply to a read, alone.
    pub fn read_record(frame: &[u8], k: usize) -> Self {
        Self::read(frame, &Row::new(Reader::ReadRecord, k, 0, &[]).asked())
    }
}

/// What came of such a call: the number that it returned, and the value's,
/// which is the last result.
pub fn value_number(answer: &Answer) -> (u8, i64) {
    let row = answer.left(1);
    let last = row.last_chunk().expect("a row has its results");
    (row[0], i64::from_le_bytes(*last))
}

/// The rows in which ours says otherwise, each with what ours says.
pub fn wrong_rows(rows: &[Row], answer: &Answer) -> Vec<String> {
    rows.iter()
        .zip(answer.left(1).chunks(ROW))
        .filter(|(row, came)| row.answered()[..] != came[..])
        .map(|(row, came)| format!("{row}, ours {}", shown(row.reader, came)))
        .collect()
}

#[cfg(test)]
mod tests {
    use super::*;

    fn row() -> Row {
        Row::new(Reader::WriteRecord, 3, 0, &[1, 0x88, 0x1234])
    }

    #[test]
    fn rows_on_the_pipe() {
        let asked = row().asked();
        assert_eq!(asked[..16], [[3, 0, 0, 0, 0, 0, 0, 0]; 2].concat());
        let answered = row().answered();
        assert_eq!(answered[..9], [0, 0, 0, 0, 0, 0, 0, 0, 1]);
        assert_eq!(answered[16..18], [0x88, BEFORE]);
        assert_eq!(answered[24..27], [0x34, 0x12, BEFORE]);
        assert_eq!(answered[32..], [BEFORE; ROW - 32]);
    }

    #[test]
    fn every_difference_shows() {
        let right = row().answered();
        for at in 0..ROW {
            let mut came = right;
            came[at] ^= 1;
            let answer = Answer::new(0, &[], &[&[], &came]);
            assert_eq!(wrong_rows(&[row()], &answer).len(), 1, "at {at}");
        }
        let answer = Answer::new(0, &[], &[&[], &right]);
        assert!(wrong_rows(&[row()], &answer).is_empty());
        assert_eq!(row().to_string(), "WriteRecord 3: expected 0 [01 88 1234]");
    }
}
