//! Histories made by hand, each around one sentence of document 01.

use cases::histories::Call::{Ask, Clear, Configuration, Configure, Mark};
use reading::table::{Config, ENTRIES, FORMER_ENTRIES, Key, SIGNED};

use super::Step::{self, Call, Len};

const A: Key = key(0xfc21, 5);
/// As many as there is room for, and as there was before document 02's request 7.
const ALL: u16 = ENTRIES as u16;
const FORMER: u16 = FORMER_ENTRIES as u16;

/// A with cluster and attribute exchanged.
const EXCHANGED: Key = key(5, 0xfc21);

pub fn all() -> Vec<Vec<Step>> {
    let mut all = vec![vec![], vec![Len], vec![Call(Clear(A)), Len]];
    all.extend(kept_apart());
    all.extend(full());
    all.extend(cleared());
    all.extend(forgotten());
    all.extend(intervals());
    all.extend(distances());
    all
}

const fn key(cluster: u16, attribute: u16) -> Key {
    Key { cluster, attribute }
}

fn configure(key: Key, minimum: u16, maximum: u16, change: u64) -> Step {
    let config = Config {
        minimum,
        maximum,
        change,
        // as the Rust compares
        mark: SIGNED,
    };
    Call(Configure(key, config))
}

/// The first `many` of a row of keys, configured.
fn row(many: u16) -> Vec<Step> {
    (0..many)
        .map(|place| configure(key(6, place), place, 60 + place, u64::from(place)))
        .collect()
}

/// All that can be asked of some keys.
fn looks(keys: &[Key]) -> Vec<Step> {
    let each = |&key: &Key| [Call(Configuration(key)), Call(Ask(key, 1000, 7))];
    keys.iter().flat_map(each).chain([Len]).collect()
}

/// Cluster and attribute exchanged, and keys that share one of them.
fn kept_apart() -> Vec<Vec<Step>> {
    let others = [EXCHANGED, key(0xfc21, 6), key(0xfc22, 5), key(0x21fc, 5)];
    let mut histories = Vec::new();
    for other in others {
        let both = [A, other];
        let one = vec![
            configure(A, 1, 60, 2),
            Call(Mark(other, 10, 3)),
            Call(Mark(A, 900, 7)),
        ];
        let two = vec![configure(other, 3, 0xffff, 4), Call(Clear(A))];
        histories.push([one, looks(&both), two, looks(&both)].concat());
    }
    histories
}

/// A full table: the next is refused, a known one is not; after a clear there is
/// room for one. Sixteen entries are no full table any more.
fn full() -> Vec<Vec<Step>> {
    let again = configure(key(6, 9), 9, 9, 9);
    let more = configure(A, 1, 2, 3);
    let mut histories = Vec::new();
    for many in [FORMER, ALL] {
        histories.push(
            [
                row(many),
                vec![Len, more, Len, again, Call(Configuration(A))],
            ]
            .concat(),
        );
        let clear = Call(Clear(key(6, 0)));
        histories.push([row(many), vec![more, clear, Len, more, again, more, Len]].concat());
        let [last, next] = [many - 1, many].map(|place| key(6, place));
        let end = vec![configure(next, 0, 0, 0)];
        histories.push([row(many), looks(&[last, next]), end].concat());
    }
    let rows = [FORMER - 1, FORMER + 1, 40, ALL + 1];
    histories.extend(rows.map(row));
    histories
}

/// The first, a middle, the last and a missing entry taken out of tables of
/// several lengths; and all of them, from either end.
fn cleared() -> Vec<Vec<Step>> {
    let taken_out = |many: u16, place: u16| {
        let mark = Call(Mark(key(6, many - 1), 77, -5));
        let keys = [key(6, place), key(6, many - 1), key(6, 0)];
        let clear = Call(Clear(key(6, place)));
        [row(many), vec![mark, clear], looks(&keys), vec![clear, Len]].concat()
    };
    let mut histories = vec![taken_out(ALL, ALL / 2), taken_out(ALL, ALL - 1)];
    for many in [1, 2, 3, FORMER] {
        let mut places = vec![0, many / 2, many - 1, many, 0xffff];
        places.dedup();
        histories.extend(places.into_iter().map(|place| taken_out(many, place)));
    }
    let clears = |places: Vec<u16>| {
        let clear = |place: u16| Call(Clear(key(6, place)));
        [row(5), places.into_iter().map(clear).collect(), vec![Len]].concat()
    };
    histories.push(clears((0..5).collect()));
    histories.push(clears((0..5).rev().collect()));
    histories
}

/// A report is kept until the entry is configured again or taken out; one of a
/// key without an entry is lost.
fn forgotten() -> Vec<Vec<Step>> {
    let configured = configure(A, 10, 60, 1);
    let (mark, asks) = (
        Call(Mark(A, 100, 7)),
        [Call(Ask(A, 101, 8)), Call(Ask(A, 111, 8))],
    );
    let end = asks.to_vec();
    vec![
        [
            vec![configured, mark],
            end.clone(),
            vec![configured],
            end.clone(),
        ]
        .concat(),
        [
            vec![configured, mark, Call(Clear(A)), configured],
            end.clone(),
        ]
        .concat(),
        [vec![mark, configured], end.clone()].concat(),
        [vec![mark, Call(Clear(A)), mark], end.clone(), vec![Len]].concat(),
        [vec![configured, mark, Call(Mark(A, 0, i64::MIN))], end].concat(),
    ]
}

/// Around minimum and maximum, with a value that moved and one that did not;
/// a maximum of 0 and of ffff; a clock that went back.
fn intervals() -> Vec<Vec<Step>> {
    let pairs = [
        (0, 0),
        (0, 1),
        (10, 60),
        (60, 10),
        (60, 60),
        (0, 0xffff),
        (0xffff, 0xffff),
        (0xffff, 0xfffe),
        (0xfffe, 0),
        (0xffff, 0),
    ];
    let mut histories = Vec::new();
    for (minimum, maximum) in pairs {
        for last in [0, 1000, u32::MAX - 30] {
            let mut steps = vec![
                configure(A, minimum, maximum, 5),
                Call(Ask(A, last, 7)),
                Call(Mark(A, last, 7)),
            ];
            for interval in [0, u32::from(minimum), u32::from(maximum)] {
                for beside in [-1, 0, 1] {
                    let Some(now) = last
                        .checked_add(interval)
                        .and_then(|now| now.checked_add_signed(beside))
                    else {
                        continue;
                    };
                    steps.push(Call(Ask(A, now, 7)));
                    steps.push(Call(Ask(A, now, 12)));
                }
            }
            histories.push(steps);
        }
    }
    histories
}

/// Around the change, and values as far apart as they can be.
fn distances() -> Vec<Vec<Step>> {
    let half = 1 << 63;
    let changes = [0, 1, 2, half - 1, half, half + 1, u64::MAX - 1, u64::MAX];
    let values = [i64::MIN, i64::MIN + 1, -2, -1, 0, 1, i64::MAX - 1, i64::MAX];
    let mut histories = Vec::new();
    for change in changes {
        let mut steps = vec![configure(A, 0, 0, change)];
        for last in [i64::MIN, -1, 0, i64::MAX] {
            steps.push(Call(Mark(A, 1, last)));
            steps.extend(values.map(|value| Call(Ask(A, 2, value))));
        }
        histories.push(steps);
    }
    histories
}
