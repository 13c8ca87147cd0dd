//! The law of order: two lists of writes that name no attribute in common leave
//! one store, whichever is sent first.

use cases::{Case, Seen};

use crate::lists::in_common;
use crate::sent::{Lists, same};
use crate::server::Server;
use crate::shorten::shorten;

/// Two lists, each with its own way, first or second.
pub type Pair = Lists<2>;

impl Pair {
    fn first(&self, list: usize) -> Case {
        self.ways[list].case(&self.before, &self.lists[list])
    }

    fn second(&self, list: usize, first: &Seen) -> Case {
        self.ways[list].case(&self.before.after(first), &self.lists[list])
    }
}

/// What is seen of the four calls.
pub struct Ran {
    /// Of each list, sent first.
    pub first: [Seen; 2],
    /// Of each, sent behind the other.
    pub second: [Seen; 2],
}

pub fn run(server: &mut impl Server, pairs: &[Pair]) -> Result<Vec<Ran>, String> {
    let mut first = |list| {
        let calls: Vec<Case> = pairs.iter().map(|pair| pair.first(list)).collect();
        server.serve(&calls)
    };
    let firsts = [first(0)?, first(1)?];
    let mut second = |list: usize| {
        let both = pairs.iter().zip(&firsts[1 - list]);
        let calls: Vec<Case> = both.map(|(pair, seen)| pair.second(list, seen)).collect();
        server.serve(&calls)
    };
    let seconds = [second(0)?, second(1)?];
    let paired = |[one, other]: [Vec<Seen>; 2]| one.into_iter().zip(other).map(<[Seen; 2]>::from);
    let all = paired(firsts).zip(paired(seconds));
    Ok(all.map(|(first, second)| Ran { first, second }).collect())
}

#[derive(Debug, Clone, Copy, PartialEq, Eq)]
pub enum Verdict {
    Held,
    Broken,
    /// An attribute in common, and whether the law fails there.
    InCommon(bool),
}

pub fn verdict(pair: &Pair, ran: &Ran) -> Verdict {
    let [one, other] = &pair.lists;
    let same = same(&ran.second[0], &ran.second[1]);
    if in_common(one, other) {
        Verdict::InCommon(!same)
    } else if same {
        Verdict::Held
    } else {
        Verdict::Broken
    }
}

/// Says what came of each of these; an error at the first for which the law
/// fails, cut to what is needed.
pub fn hold(
    server: &mut impl Server,
    pairs: &[Pair],
    mut held: impl FnMut(&Pair, &Ran, Verdict),
) -> Result<(), String> {
    for (pair, ran) in pairs.iter().zip(run(server, pairs)?) {
        match verdict(pair, &ran) {
            Verdict::Broken => return Err(broken(server, pair)),
            verdict => held(pair, &ran, verdict),
        }
    }
    Ok(())
}

fn broken(server: &mut impl Server, pair: &Pair) -> String {
    let mut ran = |pair: &Pair| run(server, std::slice::from_ref(pair)).ok()?.pop();
    let short = shorten(pair, |pair| {
        ran(pair).is_some_and(|ran| verdict(pair, &ran) == Verdict::Broken)
    });
    let Some(Ran { first, second }) = ran(&short) else {
        return "the law of order fails, and no call is answered any more".to_owned();
    };
    let way = |one: usize, other: usize| {
        let (call, next) = (short.first(one), short.second(other, &first[one]));
        let (seen, then) = (&first[one], &second[other]);
        format!("{call}{seen}then:\n{next}{then}")
    };
    let (there, back) = (way(0, 1), way(1, 0));
    format!("the law of order fails\none first:\n{there}the other first:\n{back}")
}

#[cfg(test)]
mod tests {
    use cases::Random;

    use super::*;
    use crate::fakes::{self, Fake};
    use crate::made::{disjoint, pair};
    use crate::server::Document;

    #[test]
    fn document_01_is_held() {
        let random = &mut Random::new(0x6f72_6465);
        let pairs: Vec<Pair> = (0..5000)
            .flat_map(|_| [pair(random), disjoint(random)])
            .collect();
        let mut held = 0;
        let count = |_: &Pair, _: &Ran, verdict| held += usize::from(verdict == Verdict::Held);
        assert_eq!(hold(&mut Document, &pairs, count), Ok(()));
        assert!(held > 5000, "{held}");
    }

    #[test]
    fn wrong_servers_are_caught() {
        for wrong in [
            fakes::leaves_a_mark as fn(&Case) -> Seen,
            fakes::looks_at_another,
        ] {
            let random = &mut Random::new(0x6f72_6465);
            let pairs: Vec<Pair> = (0..5000).map(|_| disjoint(random)).collect();
            let trouble = hold(&mut Fake(wrong), &pairs, |_, _, _| ());
            let trouble = trouble.expect_err("the law fails for it");
            assert!(trouble.starts_with("the law of order fails"), "{trouble}");
        }
    }
}
