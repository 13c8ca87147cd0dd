//! The law of joining: list A and then list B leave what one list, A with B
//! behind it, leaves.

use cases::{Case, End, Seen};

use crate::lists::read;
use crate::sent::{Lists, same};
use crate::server::Server;
use crate::shorten::shorten;

/// A and B, and how A, B and the joined list are sent.
pub type Split = Lists<3>;

impl Split {
    fn first(&self) -> Case {
        self.ways[0].case(&self.before, &self.lists[0])
    }

    fn second(&self, first: &Seen) -> Case {
        self.ways[1].case(&self.before.after(first), &self.lists[1])
    }

    fn joined(&self) -> Case {
        self.ways[2].case(&self.before, &self.lists.concat())
    }
}

/// What is seen of the three calls.
pub struct Ran {
    pub a: Seen,
    pub b: Seen,
    pub joined: Seen,
}

pub fn run(server: &mut impl Server, splits: &[Split]) -> Result<Vec<Ran>, String> {
    let firsts: Vec<Case> = splits.iter().map(Split::first).collect();
    let firsts = server.serve(&firsts)?;
    let both = splits.iter().zip(&firsts);
    let seconds: Vec<Case> = both.map(|(split, first)| split.second(first)).collect();
    let seconds = server.serve(&seconds)?;
    let joined: Vec<Case> = splits.iter().map(Split::joined).collect();
    let joined = server.serve(&joined)?;
    let all = firsts.into_iter().zip(seconds).zip(joined);
    Ok(all.map(|((a, b), joined)| Ran { a, b, joined }).collect())
}

/// Why the law says nothing of a split. In each of these there is one for which
/// it would fail.
#[derive(Debug, Clone, Copy, PartialEq, Eq)]
pub enum Outside {
    Undivided,
    Cut,
    WithoutExtent,
    /// The joined call is refused by 5.
    JoinedRefused,
    /// A's own call is, and has less room than the joined one,
    LessRoomA,
    /// or B's.
    LessRoomB,
    /// One of these is, with no less room; the joined list goes by 05, which never
    /// is.
    JoinedNever,
}

#[derive(Debug, Clone, Copy, PartialEq, Eq)]
pub enum Verdict {
    Held,
    Broken,
    /// With whether the law fails there.
    Outside(Outside, bool),
}

pub fn verdict(split: &Split, ran: &Ran) -> Verdict {
    let same = same(&ran.b, &ran.joined);
    match outside(split, ran) {
        Some(outside) => Verdict::Outside(outside, !same),
        None if same => Verdict::Held,
        None => Verdict::Broken,
    }
}

fn outside(split: &Split, ran: &Ran) -> Option<Outside> {
    let [a, b, joined] = &split.ways;
    if joined.command() == 0x03 {
        return Some(Outside::Undivided);
    }
    match read(a.command(), &split.lists[0]).end {
        End::Cut => return Some(Outside::Cut),
        End::WithoutExtent => return Some(Outside::WithoutExtent),
        End::Whole => (),
    }
    if ran.joined.number == 5 {
        return Some(Outside::JoinedRefused);
    }
    // a part that is refused with as much room as the joined call was so for its
    // one 00, with all done, unless the joined list goes by 05
    let refused = [ran.a.number == 5, ran.b.number == 5];
    if refused[1] && b.room < joined.room {
        Some(Outside::LessRoomB)
    } else if refused[0] && a.room < joined.room {
        Some(Outside::LessRoomA)
    } else if refused.contains(&true) && joined.command() == 0x05 {
        Some(Outside::JoinedNever)
    } else {
        None
    }
}

/// Says what came of each of these; an error at the first for which the law
/// fails, cut to what is needed.
pub fn hold(
    server: &mut impl Server,
    splits: &[Split],
    mut held: impl FnMut(&Split, &Ran, Verdict),
) -> Result<(), String> {
    for (split, ran) in splits.iter().zip(run(server, splits)?) {
        match verdict(split, &ran) {
            Verdict::Broken => return Err(broken(server, split)),
            verdict => held(split, &ran, verdict),
        }
    }
    Ok(())
}

fn broken(server: &mut impl Server, split: &Split) -> String {
    let mut ran = |split: &Split| run(server, std::slice::from_ref(split)).ok()?.pop();
    let short = shorten(split, |split| {
        ran(split).is_some_and(|ran| verdict(split, &ran) == Verdict::Broken)
    });
    let Some(Ran { a, b, joined }) = ran(&short) else {
        return "the law of joining fails, and no call is answered any more".to_owned();
    };
    let (first, second, whole) = (short.first(), short.second(&a), short.joined());
    format!(
        "the law of joining fails\nA:\n{first}{a}B, on what A left:\n{second}{b}joined:\n{whole}{joined}"
    )
}

#[cfg(test)]
mod tests {
    use cases::Random;

    use super::*;
    use crate::fakes::{self, Fake};
    use crate::made::{split, split_by};
    use crate::server::Document;

    /// The trouble with this server, on random lists.
    fn trouble(server: &mut impl Server, commands: [u8; 3]) -> Option<String> {
        let random = &mut Random::new(0x6a6f_696e);
        let splits: Vec<Split> = (0..20_000).map(|_| split_by(random, commands)).collect();
        hold(server, &splits, |_, _, _| ()).err()
    }

    #[test]
    fn document_01_is_held() {
        let random = &mut Random::new(0x6a6f_696e);
        let splits: Vec<Split> = (0..5000).map(|_| split(random)).collect();
        let mut held = 0;
        let count = |_: &Split, _: &Ran, verdict| held += usize::from(verdict == Verdict::Held);
        assert_eq!(hold(&mut Document, &splits, count), Ok(()));
        assert!(held > 2500, "{held}");
    }

    #[test]
    fn wrong_servers_are_caught() {
        for (commands, wrong) in [
            ([0x02; 3], fakes::forgets_the_last as fn(&Case) -> Seen),
            ([0x05, 0x02, 0x05], fakes::forgets_the_last),
            ([0x06; 3], fakes::forgets_the_last),
            ([0x02; 3], fakes::from_the_last),
            ([0x06; 3], fakes::from_the_last),
            ([0x05; 3], fakes::stops_early),
            ([0x02; 3], fakes::all_or_nothing),
            ([0x06; 3], fakes::turns_the_table),
            ([0x06; 3], fakes::does_all_twice),
        ] {
            let trouble = trouble(&mut Fake(wrong), commands);
            let trouble = trouble.expect("the law fails for it");
            assert!(trouble.starts_with("the law of joining fails"), "{trouble}");
        }
    }

    #[test]
    fn it_is_the_law_that_is_held() {
        // to write a list twice leaves what to write it once does
        assert_eq!(trouble(&mut Fake(fakes::does_all_twice), [0x02; 3]), None);
    }
}
