//! The number of a value. The Rust has none.

use cases::given::{id, stores};
use cases::kinds::{Kinds, of_number};
use cases::{Random, hex};
use ours::{Answer, Call, Held};

pub fn one(random: &mut Random, kinds: &mut Kinds) -> Result<Held, String> {
    let store = stores::any(random);
    let id = id(random, &store);
    let answer = reading::store::number(&store, id);
    let named = |trouble: String| format!("{trouble}, number of {id:04x} over {}", hex(&store));
    kinds.count(&of_number(&store, id, answer)).map_err(named)?;
    let (number, value) = answer.map_or_else(|refusal| (refusal, 0), |value| (0, value));
    Ok(Held {
        call: Call::number(&store, id),
        answer: Answer::new(number, &[value.cast_unsigned()], &[&store]),
    })
}
