//! The answers.

use std::fmt;
use std::io::{self, Read};

use cases::hex;

use crate::call::{Call, Lent};
use crate::{BEFORE, BUFFERS, RESULTS, WALL, padded};

/// All that can be seen of a call afterwards.
#[derive(Debug, Clone, PartialEq, Eq)]
pub struct Answer {
    pub number: u8,
    /// What was written through the pointers to results, in their order.
    pub results: [u64; RESULTS],
    /// The buffers, whole.
    lent: [Vec<u8>; BUFFERS],
}

impl Answer {
    pub fn new(number: u8, results: &[u64], lent: &[&[u8]]) -> Self {
        Self {
            number,
            results: padded(results.iter().copied()),
            lent: padded(lent.iter().map(|bytes| bytes.to_vec())),
        }
    }

    /// A buffer as it is afterwards.
    pub(crate) fn left(&self, buffer: usize) -> &[u8] {
        &self.lent[buffer]
    }

    /// Takes the answer to a call from the pipe. An error inside where ours
    /// wrote what it is not to write.
    pub(crate) fn read(call: &Call, pipe: &mut impl Read) -> io::Result<Result<Self, String>> {
        let mut head = [[0; 8]; 1 + RESULTS];
        for number in &mut head {
            pipe.read_exact(number)?;
        }
        let mut walled: [Walled; BUFFERS] = Default::default();
        for (walled, lent) in walled.iter_mut().zip(&call.lent) {
            walled.read(pipe, lent.bytes.len())?;
        }
        Ok(Self::of(call, head, walled))
    }

    fn of(
        call: &Call,
        head: [[u8; 8]; 1 + RESULTS],
        walled: [Walled; BUFFERS],
    ) -> Result<Self, String> {
        let [number, results @ ..] = head;
        let number = u64::from_le_bytes(number);
        let mut answer = Self {
            number: u8::try_from(number).map_err(|_| format!("no answer: {number:x}"))?,
            results: [0; RESULTS],
            lent: Default::default(),
        };
        for (at, bytes) in results.into_iter().enumerate() {
            answer.results[at] = result(bytes, call.results[at])?;
        }
        for (at, walled) in walled.into_iter().enumerate() {
            answer.lent[at] = walled.unwall(&call.lent[at])?;
        }
        Ok(answer)
    }
}

/// A result of so many bytes, behind which nothing is written.
fn result(mut bytes: [u8; 8], width: usize) -> Result<u64, String> {
    if bytes[width..].iter().any(|&byte| byte != BEFORE) {
        return Err(format!("ours wrote behind a result: {}", hex(&bytes)));
    }
    bytes[width..].fill(0);
    Ok(u64::from_le_bytes(bytes))
}

/// A buffer as it comes back.
#[derive(Default)]
struct Walled {
    before: [u8; WALL],
    bytes: Vec<u8>,
    /// Some of it stands there so that the next buffer starts at a multiple of 8.
    behind: Vec<u8>,
}

impl Walled {
    /// Of the bytes some are told: all that follow are as the last of them.
    fn read(&mut self, pipe: &mut impl Read, length: usize) -> io::Result<()> {
        let mut told = [0; 8];
        pipe.read_exact(&mut told)?;
        let told = usize::try_from(u64::from_le_bytes(told)).unwrap_or(usize::MAX);
        if told > length || (told == 0) != (length == 0) {
            return Err(io::Error::other(format!("{told} bytes tell {length}")));
        }
        self.bytes.resize(told, 0);
        let behind = length.next_multiple_of(8) - length + WALL;
        self.behind.resize(behind, 0);
        pipe.read_exact(&mut self.before)?;
        pipe.read_exact(&mut self.bytes)?;
        pipe.read_exact(&mut self.behind)?;
        let last = self.bytes.last().copied().unwrap_or(0);
        self.bytes.resize(length, last);
        Ok(())
    }

    /// Takes the buffer out of its walls, which stand as they did.
    fn unwall(self, lent: &Lent) -> Result<Vec<u8>, String> {
        let mut walls = self.before.iter().chain(&self.behind);
        if walls.any(|&byte| byte != BEFORE) {
            let (before, inside) = (hex(&self.before), hex(&self.bytes));
            let behind = hex(&self.behind);
            return Err(format!(
                "ours wrote outside of what it was lent: {before} {inside} {behind}"
            ));
        }
        if !lent.open && self.bytes != lent.bytes {
            let left = hex(&self.bytes);
            return Err(format!("ours wrote to what it may only read: {left}"));
        }
        Ok(self.bytes)
    }
}

impl fmt::Display for Answer {
    fn fmt(&self, f: &mut fmt::Formatter<'_>) -> fmt::Result {
        writeln!(f, "  number   {}", self.number)?;
        writeln!(f, "  results  {:x?}", self.results)?;
        for bytes in self.lent.iter().filter(|bytes| !bytes.is_empty()) {
            writeln!(f, "  left     {}", hex(bytes))?;
        }
        Ok(())
    }
}

#[cfg(test)]
mod tests {
    use super::*;

    /// The answer to hd_number over three bytes: 9, and 0 as the result.
    fn answered(change: impl Fn(&mut [u8])) -> Result<Answer, String> {
        let call = Call::number(&[1, 2, 3], 5);
        let mut bytes = vec![9, 0, 0, 0, 0, 0, 0, 0];
        bytes.extend([0; 8]);
        bytes.extend([BEFORE; 32]);
        bytes.extend([3, 0, 0, 0, 0, 0, 0, 0]);
        bytes.extend([BEFORE; 16]);
        bytes.extend([1, 2, 3]);
        bytes.extend([BEFORE; 5 + 16]);
        for _ in 0..3 {
            bytes.extend([0; 8]);
            bytes.extend([BEFORE; 32]);
        }
        change(&mut bytes);
        let answer = Answer::read(&call, &mut bytes.as_slice());
        answer.unwrap_or_else(|trouble| Err(trouble.to_string()))
    }

    /// The bytes of such an answer.
    const ANSWERED: usize = 6 * 8 + (8 + 16 + 8 + 16) + 3 * (8 + 32);

    #[test]
    fn whole() {
        let expected = Answer::new(9, &[0], &[&[1, 2, 3]]);
        assert_eq!(answered(|_| ()), Ok(expected));
    }

    #[test]
    fn every_write_shows() {
        let whole = answered(|_| ());
        // past the result's eight bytes there is not one that may change
        for at in 0..ANSWERED {
            let changed = answered(|bytes| bytes[at] ^= 1);
            assert_ne!(changed, whole, "at {at}");
            assert_eq!(
                changed.is_err(),
                at > 0 && !(8..16).contains(&at),
                "at {at}"
            );
        }
    }
}
