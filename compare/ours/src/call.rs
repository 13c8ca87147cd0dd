//! The calls: include/hingedrift.h, function by function.

use std::fmt;
use std::io::{self, Write};

use cases::hex;
use reading::commands::Turn;
use reading::table::{Config, Key};

use crate::held::lent_list;
use crate::{ARGUMENTS, BEFORE, BUFFERS, RESULTS, padded};

/// A buffer that a call is lent.
#[derive(Debug, Clone, Default)]
pub(crate) struct Lent {
    pub(crate) bytes: Vec<u8>,
    /// Whether the function may write to it.
    pub(crate) open: bool,
}

#[derive(Debug, Clone)]
pub struct Call {
    name: &'static str,
    /// Its number on the pipe.
    function: u64,
    arguments: [u64; ARGUMENTS],
    pub(crate) lent: [Lent; BUFFERS],
    /// The bytes of each result, 0 where the function has fewer.
    pub(crate) results: [usize; RESULTS],
}

const NONE: [usize; RESULTS] = [0; RESULTS];
const BYTE: [usize; RESULTS] = [1, 0, 0, 0, 0];
const LONG: [usize; RESULTS] = [8, 0, 0, 0, 0];

impl Call {
    pub fn table_new(table: &[u8]) -> Self {
        Self::new("table_new", 1, &[], [open(table)], NONE)
    }

    pub fn configure(table: &[u8], key: Key, config: Config) -> Self {
        let [cluster, attribute] = numbers(key);
        let (minimum, maximum) = (config.minimum.into(), config.maximum.into());
        let arguments = [
            cluster,
            attribute,
            minimum,
            maximum,
            config.change,
            config.mark.into(),
        ];
        Self::new("configure", 2, &arguments, [open(table)], BYTE)
    }

    pub fn clear(table: &[u8], key: Key) -> Self {
        Self::new("clear", 3, &numbers(key), [open(table)], NONE)
    }

    pub fn configuration(table: &[u8], key: Key) -> Self {
        let results = [1, 2, 2, 8, 1];
        Self::new("configuration", 4, &numbers(key), [closed(table)], results)
    }

    pub fn ask(table: &[u8], key: Key, now: u32, value: i64) -> Self {
        let [cluster, attribute] = numbers(key);
        let arguments = [cluster, attribute, now.into(), value.cast_unsigned()];
        Self::new("ask", 5, &arguments, [closed(table)], BYTE)
    }

    pub fn mark(table: &[u8], key: Key, now: u32, value: i64) -> Self {
        let [cluster, attribute] = numbers(key);
        let arguments = [cluster, attribute, now.into(), value.cast_unsigned()];
        Self::new("mark", 6, &arguments, [open(table)], NONE)
    }

    pub fn number(store: &[u8], attribute: u16) -> Self {
        Self::new("number", 7, &[attribute.into()], [closed(store)], LONG)
    }

    pub fn handle_request(
        store: &[u8],
        table: &[u8],
        cluster: u16,
        unicast: u8,
        request: &[u8],
        room: usize,
    ) -> Self {
        let arguments = [cluster.into(), unicast.into()];
        let lent = [open(store), open(table), closed(request), reply(room)];
        Self::new("handle_request", 8, &arguments, lent, LONG)
    }

    pub fn unsupported_cluster(
        served: &[u16],
        cluster: u16,
        unicast: u8,
        request: &[u8],
        room: usize,
    ) -> Self {
        let arguments = [cluster.into(), unicast.into()];
        let lent = [list(served), closed(request), reply(room)];
        Self::new("unsupported_cluster", 9, &arguments, lent, LONG)
    }

    pub fn report(store: &[u8], sequence: u8, ids: &[u16], room: usize) -> Self {
        let lent = [closed(store), list(ids), reply(room)];
        Self::new("report", 10, &[sequence.into()], lent, LONG)
    }

    /// Rows of calls of readers, on one frame.
    pub(crate) fn read(frame: &[u8], rows: &[u8]) -> Self {
        Self::new("readers", 11, &[], [closed(frame), open(rows)], NONE)
    }

    pub fn save(table: &[u8], room: usize) -> Self {
        Self::new("save", 12, &[], [closed(table), reply(room)], LONG)
    }

    pub fn restore(table: &[u8], saved: &[u8]) -> Self {
        Self::new("restore", 13, &[], [open(table), closed(saved)], NONE)
    }

    /// The last id goes in as an argument, and comes back as the second result.
    pub fn report_turn(turn: &Turn<'_>, table: &[u8]) -> Self {
        let arguments = [turn.sequence.into(), turn.now.into(), turn.last.into()];
        let lent = [closed(turn.store), open(table), reply(turn.room)];
        let results = [8, 4, 0, 0, 0];
        Self::new("report_turn", 14, &arguments, lent, results)
    }

    fn new<const N: usize>(
        name: &'static str,
        function: u64,
        arguments: &[u64],
        lent: [Lent; N],
        results: [usize; RESULTS],
    ) -> Self {
        Self {
            name,
            function,
            arguments: padded(arguments.iter().copied()),
            lent: padded(lent),
            results,
        }
    }

    /// Gives it to the pipe; says how many bytes it lends.
    pub(crate) fn write(&self, pipe: &mut impl Write) -> io::Result<usize> {
        let told = self.lent.each_ref().map(|lent| told(&lent.bytes));
        let lengths = self.lent.each_ref().map(|lent| lent.bytes.len());
        let buffers = lengths.into_iter().chain(told.map(<[u8]>::len));
        let numbers = [self.function].into_iter().chain(self.arguments);
        let numbers = numbers.chain(buffers.map(|length| length as u64));
        let head: Vec<u8> = numbers.flat_map(u64::to_le_bytes).collect();
        pipe.write_all(&head)?;
        for told in told {
            pipe.write_all(told)?;
        }
        Ok(lengths.iter().sum())
    }
}

/// What stands for the end of a batch.
pub(crate) const END: [u8; HEAD] = [0; HEAD];

/// The bytes of a call's numbers.
const HEAD: usize = 8 * (1 + ARGUMENTS + 2 * BUFFERS);

/// The bytes that tell a buffer: all that follow are as the last of them.
fn told(bytes: &[u8]) -> &[u8] {
    const STRIDE: usize = 256;
    let mut end = bytes.len();
    while end > STRIDE && bytes[end - 1 - STRIDE..end - 1] == bytes[end - STRIDE..end] {
        end -= STRIDE;
    }
    while end > 1 && bytes[end - 2] == bytes[end - 1] {
        end -= 1;
    }
    &bytes[..end]
}

fn open(bytes: &[u8]) -> Lent {
    let bytes = bytes.to_vec();
    Lent { bytes, open: true }
}

fn closed(bytes: &[u8]) -> Lent {
    let bytes = bytes.to_vec();
    Lent { bytes, open: false }
}

fn list(numbers: &[u16]) -> Lent {
    closed(&lent_list(numbers))
}

/// A buffer in which nothing has been written.
fn reply(room: usize) -> Lent {
    open(&vec![BEFORE; room])
}

fn numbers(key: Key) -> [u64; 2] {
    [key.cluster.into(), key.attribute.into()]
}

impl fmt::Display for Call {
    fn fmt(&self, f: &mut fmt::Formatter<'_>) -> fmt::Result {
        writeln!(f, "  {} {:x?}", self.name, self.arguments)?;
        for lent in self.lent.iter().filter(|lent| !lent.bytes.is_empty()) {
            writeln!(f, "  lent     {}", hex(&lent.bytes))?;
        }
        Ok(())
    }
}

#[cfg(test)]
mod tests {
    use super::*;

    #[test]
    fn what_follows_is_as_the_last() {
        for length in (0..600).chain([3841]) {
            for run in [0, 1, 2, 255, 256, 257, 258, length] {
                let mut bytes = vec![7; length];
                let start = length.saturating_sub(run);
                bytes[start..].fill(0);
                let told = told(&bytes);
                let last = told.last().copied().unwrap_or(0);
                assert_eq!([told, &vec![last; length - told.len()]].concat(), bytes);
                let one_run = run == 0 || start == 0;
                let expected = if one_run { length.min(1) } else { start + 1 };
                assert_eq!(told.len(), expected, "{length} {run}");
            }
        }
    }
}
