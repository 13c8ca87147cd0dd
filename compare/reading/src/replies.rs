//! Replies and report frames, read: all is checked first, then come the
//! records.

mod configuration;
mod default_response;
mod discover;
mod failures;
mod unread;
mod values;

pub use configuration::{Setting, SettingRecord, configuration_reply};
pub use default_response::{DefaultResponse, default_response};
pub use discover::{Discovery, discover_reply};
pub use failures::{Failure, configure_reply, write_reply};
pub use unread::{Unread, Why};
pub use values::{ReadRecord, Reported, Value, read_reply, report_frame};

use crate::body::Body;
use crate::header::{FrameType, header};

/// What a reader says of a frame.
pub type Read<T> = Result<T, Unread>;

/// What all seven readers say of one frame.
pub struct Readings {
    pub read: Read<Vec<ReadRecord>>,
    pub write: Read<Vec<Failure>>,
    pub configure: Read<Vec<Failure>>,
    pub configuration: Read<Vec<SettingRecord>>,
    pub discover: Read<Discovery>,
    pub default_response: Read<DefaultResponse>,
    pub report: Read<Vec<Reported>>,
}

impl Readings {
    pub fn of(frame: &[u8]) -> Self {
        Self {
            read: read_reply(frame),
            write: write_reply(frame),
            configure: configure_reply(frame),
            configuration: configuration_reply(frame),
            discover: discover_reply(frame),
            default_response: default_response(frame),
            report: report_frame(frame),
        }
    }

    /// What each says, in the order above: 0 where it reads the frame.
    pub fn numbers(&self) -> [u8; 7] {
        [
            number(&self.read),
            number(&self.write),
            number(&self.configure),
            number(&self.configuration),
            number(&self.discover),
            number(&self.default_response),
            number(&self.report),
        ]
    }
}

fn number<T>(read: &Read<T>) -> u8 {
    read.as_ref().err().map_or(0, |unread| unread.number())
}

/// The body of a frame of `command`. A manufacturer code is passed over.
fn body(frame: &[u8], command: u8) -> Result<Body<'_>, Why> {
    let header = header(frame).ok_or(Why::HeaderShort)?;
    if header.frame_type != FrameType::Global {
        return Err(Why::OtherFrameType);
    }
    if header.command != command {
        return Err(Why::OtherCommand);
    }
    Ok(Body::of_frame(frame, header.body))
}

/// Records up to the end of a body.
fn records<'a, R>(
    mut body: Body<'a>,
    one: impl Fn(&mut Body<'a>) -> Result<R, Why>,
) -> Read<Vec<R>> {
    let mut records = Vec::new();
    while body.goes_on() {
        match one(&mut body) {
            Ok(record) => records.push(record),
            Err(why) => {
                let behind = records.len();
                return Err(Unread { why, behind });
            }
        }
    }
    Ok(records)
}
