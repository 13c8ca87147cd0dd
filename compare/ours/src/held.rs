//! Calls that are held to document 01's answers.

use cases::given::List;
use cases::{Case, Seen};

use crate::answer::Answer;
use crate::call::Call;

/// A call, and the answer that it is to have.
#[derive(Debug, Clone)]
pub struct Held {
    pub call: Call,
    pub answer: Answer,
}

impl Held {
    /// A request, held to all that is seen.
    pub fn request(case: &Case, seen: &Seen) -> Self {
        let call = Call::request(case);
        let lent = [&seen.store, &seen.table, &case.request, &seen.buffer];
        let answer = Answer::new(seen.number, &[seen.used as u64], &lent.map(Vec::as_slice));
        Self { call, answer }
    }

    pub fn report(list: &List, answer: &reading::commands::Answer) -> Self {
        let lent = [&list.store[..], &lent_list(&list.ids)];
        Self {
            call: Call::report(&list.store, list.sequence, &list.ids, list.room),
            answer: replied(answer, list.room, lent),
        }
    }
}

impl Call {
    /// A request.
    pub fn request(case: &Case) -> Self {
        Self::handle_request(
            &case.store,
            &case.table,
            case.cluster,
            case.unicast,
            &case.request,
            case.room,
        )
    }
}

/// What is seen of a request that ours answered. An error where the reply would
/// be longer than its room.
pub fn served(answer: &Answer) -> Result<Seen, String> {
    let [store, table, buffer] = [0, 1, 3].map(|place| answer.left(place).to_vec());
    let used = answer.results[0];
    match usize::try_from(used) {
        Ok(used) if used <= buffer.len() => Ok(Seen {
            number: answer.number,
            used,
            buffer,
            store,
            table,
        }),
        _ => Err(format!(
            "ours says that {used} bytes of {} are the reply",
            buffer.len()
        )),
    }
}

/// Document 01's answer as ours is held to it: with the whole buffer, and with
/// what it was lent before that.
pub fn replied(answer: &reading::commands::Answer, room: usize, lent: [&[u8]; 2]) -> Answer {
    let [first, second] = lent;
    let results = [answer.reply.len() as u64];
    Answer::new(
        answer.number,
        &results,
        &[first, second, &answer.buffer(room)],
    )
}

/// A list as it is lent.
pub fn lent_list(list: &[u16]) -> Vec<u8> {
    list.iter()
        .flat_map(|number| number.to_le_bytes())
        .collect()
}

#[cfg(test)]
mod tests {
    use super::*;

    #[test]
    fn a_request_is_seen_as_it_was_answered() {
        let request = cases::unhex("002a0000000900");
        let case = Case::over(&cases::stores::bench(), &request, 16);
        let seen = case.document();
        let mut held = Held::request(&case, &seen);
        assert_eq!(served(&held.answer), Ok(seen));
        held.answer.results[0] = 17;
        assert!(served(&held.answer).is_err());
    }
}
