//! Answers at every room, in the list's form.

/// What one call says and leaves.
#[derive(Debug, Clone, PartialEq, Eq)]
pub struct Said {
    /// 0 with a reply.
    pub number: u8,
    pub reply: Vec<u8>,
    pub store: Vec<u8>,
}

impl Said {
    /// Whether the Rust, which does not say why there is no reply, says and
    /// leaves the same.
    pub fn agrees(&self, rust: &Self) -> bool {
        (self.number == 0) == (rust.number == 0)
            && self.reply == rust.reply
            && self.store == rust.store
    }
}

/// The answers for room 0 on: 00 where all is as at the room before; else 01,
/// number, the reply's length, the reply, and 00 where the store is `before`,
/// or 01 and the store.
pub fn encoded(before: &[u8], answers: &[Said]) -> Vec<u8> {
    let mut bytes = Vec::new();
    let mut last = None;
    for answer in answers {
        if last == Some(answer) {
            bytes.push(0x00);
            continue;
        }
        last = Some(answer);
        let length = u8::try_from(answer.reply.len()).expect("replies are short");
        bytes.extend([0x01, answer.number, length]);
        bytes.extend(&answer.reply);
        if answer.store == before {
            bytes.push(0x00);
        } else {
            bytes.push(0x01);
            bytes.extend(&answer.store);
        }
    }
    bytes
}
