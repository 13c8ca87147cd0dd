//! The whole dispatch, in document 01's order: 7, 8, 1, 2, 3, then the command.

use super::answer::{Answer, Refusal, Served};
use super::configuration::read_configuration;
use super::configure::configure;
use super::default_response::{UNSUP_COMMAND, default_response};
use super::discover::{Asked, discover};
use super::read::read;
use super::reply::Reply;
use super::write::{undivided, without_response, write};
use crate::body::Body;
use crate::header::{FrameType, Header, header};
use crate::store::{cluster_of, is_store};
use crate::table::{ENTRIES, Entry, entries, to_bytes};

/// What is asked, besides store and table.
struct Request<'a> {
    header: Header,
    body: &'a [u8],
    unicast: bool,
    room: usize,
}

impl Request<'_> {
    fn reply(&self, command: u8) -> Result<Reply, Refusal> {
        Reply::begun(self.header.sequence, command, self.room)
    }
}

/// Serves one frame over a store and a table's entries.
pub fn serve(
    store: &mut [u8],
    table: &mut Vec<Entry>,
    cluster: u16,
    unicast: bool,
    request: &[u8],
    room: usize,
) -> Answer {
    served(store, table, cluster, unicast, request, room).into()
}

/// The same with a table as it is lent, in its bytes.
pub fn serve_lent(
    store: &mut [u8],
    table: &mut [u8],
    cluster: u16,
    unicast: bool,
    request: &[u8],
    room: usize,
) -> Answer {
    if !is_store(store) {
        return Err(Refusal::NoStore).into();
    }
    let Ok(mut read) = entries(table) else {
        return Err(Refusal::NoTable).into();
    };
    let answer = serve(store, &mut read, cluster, unicast, request, room);
    table.copy_from_slice(&to_bytes(&read));
    answer
}

fn served(
    store: &mut [u8],
    table: &mut Vec<Entry>,
    cluster: u16,
    unicast: bool,
    request: &[u8],
    room: usize,
) -> Served {
    if !is_store(store) {
        return Err(Refusal::NoStore);
    }
    if table.len() > ENTRIES {
        return Err(Refusal::NoTable);
    }
    if cluster_of(store) != Some(cluster) {
        return Err(Refusal::OtherCluster);
    }
    let header = header(request).ok_or(Refusal::HeaderShort)?;
    let request = Request {
        header,
        body: &request[header.body..],
        unicast,
        room,
    };
    match header.frame_type {
        FrameType::Global => global(store, table, cluster, &request),
        FrameType::Cluster => default_response(&header, unicast, UNSUP_COMMAND, room),
        FrameType::Reserved => Err(Refusal::ReservedFrameType),
    }
}

fn global(store: &mut [u8], table: &mut Vec<Entry>, cluster: u16, request: &Request<'_>) -> Served {
    let body = Body::new(request.body);
    match request.header.command {
        0x00 => read(store, body, request.reply(0x01)?),
        0x02 => write(store, body, request.reply(0x04)?),
        0x03 => undivided(store, body, request.reply(0x04)?),
        0x05 => without_response(store, body),
        0x06 => configure(store, table, cluster, body, request.reply(0x07)?),
        0x08 => read_configuration(store, table, cluster, body, request.reply(0x09)?),
        0x0c => {
            // its body is read before the header is written
            let asked = Asked::read(body)?;
            discover(store, &asked, request.reply(0x0d)?)
        }
        // a Default Response is never answered (document 02, request 1)
        0x0b => Err(Refusal::NothingToSend),
        _ => default_response(
            &request.header,
            request.unicast,
            UNSUP_COMMAND,
            request.room,
        ),
    }
}
