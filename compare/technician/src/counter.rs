//! The rollback counter about the value at which its top bit is set: a read of
//! it by old and new, and its number.

use cases::stores::single;
use cases::{Case, Seen, unhex};

use crate::frame::Frame;
use crate::sides::{Ran, Sides};
use crate::verdict::Verdict;

/// A read of attribute 1.
const READ: &str = "002a000100";

const COUNTERS: [u32; 3] = [0x7fff_ffff, 0x8000_0000, 0x8000_0001];

pub struct Counter {
    pub counter: u32,
    pub ran: Ran,
    /// What hd_number returned, and the number that it gave.
    pub new: (u8, i64),
    /// What hd_read_record returned of the new one's reply, and the number.
    pub read: (u8, i64),
    /// The number by the independent reading.
    pub document: i64,
}

pub fn counters(sides: &mut Sides) -> Result<Vec<Counter>, String> {
    COUNTERS
        .into_iter()
        .map(|counter| one(sides, counter))
        .collect()
}

/// Over a store of the counter alone, an unsigned number of 32 bits that may
/// be reported.
fn one(sides: &mut Sides, counter: u32) -> Result<Counter, String> {
    let store = single(0x23, 2, &counter.to_le_bytes());
    let case = Case::over(&store, &unhex(READ), 64);
    let frame = Frame::new(format!("a read of counter {counter:08x}"), case);
    let ran = sides.one(frame)?;
    let reply = ran.new.as_ref().map_or(&[][..], Seen::reply).to_vec();
    Ok(Counter {
        counter,
        ran,
        new: sides.number(&store, 1)?,
        read: sides.number_read(&reply)?,
        document: reading::store::number(&store, 1).expect("a counter has a number"),
    })
}

impl Counter {
    /// As told: what reading the same bytes as a signed number gives.
    pub fn signed(&self) -> i32 {
        self.counter.cast_signed()
    }

    /// What is wrong with it.
    pub fn trouble(&self) -> Option<String> {
        match self.ran.verdict() {
            Verdict::Equal if [self.new, self.read] == [(0, self.document); 2] => None,
            Verdict::Unlisted(text) => Some(text),
            _ => Some(format!(
                "the number of counter {:08x} is {}; hd_number returned and gave {:?}, hd_read_record {:?}\n",
                self.counter, self.document, self.new, self.read
            )),
        }
    }
}
