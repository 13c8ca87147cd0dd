//! Report frames.

use cases::Random;
use cases::given::List;
use cases::kinds::{Kinds, of_report};
use ours::Held;

pub fn one(random: &mut Random, kinds: &mut Kinds) -> Result<Held, String> {
    let list = List::any(random);
    let answer = list.document();
    let named = |trouble: String| format!("{trouble}, {list}");
    // bytes that are no store have no counterpart in the Rust
    if answer.number != 7 {
        let mut frame = vec![0; list.room];
        let used = oracle::report(&list.store, list.sequence, &list.ids, &mut frame);
        let rust = used.map(|used| &frame[..used]);
        if rust != (answer.number == 0).then_some(&answer.reply[..]) {
            return Err(named(format!("document 01 {answer:?}, the Rust {rust:?}")));
        }
    }
    let counted = of_report(&list.store, &list.ids, list.room, &answer);
    kinds.count(&counted).map_err(named)?;
    Ok(Held::report(&list, &answer))
}
