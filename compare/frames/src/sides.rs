//! How the Rust stands to what document 01 says.

use cases::{Case, Difference, Seen, unmarked};
use oracle::{Oracle, Outcome, Request};
use reading::store::is_store;
use reading::table::entries;

/// How the Rust stands to document 01's answer.
#[derive(Debug, Clone, Copy, PartialEq, Eq)]
pub enum Stands {
    /// A store or a table that has no counterpart in the Rust.
    NotAsked,
    Agrees,
    /// As a listed difference lets it.
    Differs(Difference),
}

/// An error where it stands otherwise.
pub fn rust(oracle: &mut Oracle, case: &Case, document: &Seen) -> Result<Stands, String> {
    let Some(outcome) = asked(oracle, case)? else {
        return Ok(Stands::NotAsked);
    };
    let difference = difference(case, document, &outcome)?;
    Ok(difference.map_or(Stands::Agrees, Stands::Differs))
}

/// The listed difference by which the Rust says or leaves something else than
/// document 01, if it does. An error where it does and none is listed; and where
/// the frame meets a listed one and the Rust does not say what that lets it.
pub fn difference(
    case: &Case,
    document: &Seen,
    outcome: &Outcome,
) -> Result<Option<Difference>, String> {
    let trouble = || format!("document 01:\n{document}the Rust:\n{}", shown(outcome));
    let listed = Difference::of(case);
    if let Some((_, said)) = &listed
        && !said.is(outcome.reply.as_deref(), &outcome.store, &outcome.table)
    {
        return Err(trouble());
    }
    if agrees(document, outcome) {
        return Ok(None);
    }
    let (difference, _) = listed.ok_or_else(trouble)?;
    Ok(Some(difference))
}

/// What the Rust says and leaves; nothing for a store or a table that has no
/// counterpart in it. An error where it panics.
pub fn asked(oracle: &mut Oracle, case: &Case) -> Result<Option<Outcome>, String> {
    let (true, Ok(table)) = (is_store(&case.store), entries(&case.table)) else {
        return Ok(None);
    };
    let request = Request {
        cluster: case.cluster,
        unicast: case.unicast != 0,
        frame: &case.request,
        room: case.room,
    };
    oracle.handle(&case.store, &table, &request).map(Some)
}

/// Whether the Rust, which says `None` to every refusal, says and leaves the
/// same, but for marks, which it does not have.
fn agrees(seen: &Seen, outcome: &Outcome) -> bool {
    let reply = (seen.number == 0).then(|| seen.reply());
    reply == outcome.reply.as_deref()
        && seen.store == outcome.store
        && entries(&seen.table).is_ok_and(|left| unmarked(&left) == outcome.table)
}

fn shown(outcome: &Outcome) -> String {
    let reply = outcome.reply.as_ref().map(|reply| cases::hex(reply));
    format!(
        "  reply    {}\n  store    {}\n  table    {}\n",
        reply.unwrap_or("none".to_owned()),
        cases::hex(&outcome.store),
        cases::shown(&reading::table::to_bytes(&outcome.table)),
    )
}
