//! The two promises of document 02, request 3, on turns that are handed the id that
//! the turn before gave back, over a table whose entries stand:
//!
//! - an attribute found due in each of n consecutive turns, n being the cluster's
//!   entries, is in one of those frames;
//! - its reports stand at least m and at most M+nG-1 seconds apart, m and M being
//!   its intervals and G the most seconds between two turns; and what is found due
//!   is timed from the last report.

use std::collections::BTreeMap;

use cases::Random;
use cases::stores::{Part, built, string};
use ours::Server;
use reading::store::{cluster_of, find, number};
use reading::table::{Config, Entry, Key, SIGNED, UNSIGNED, entries, to_bytes};

use crate::call::Call;
use crate::compared::Compared;
use crate::counted::MOST_APART;
use crate::given::Given;
use crate::watched::{Look, Spared, Terms, Watched};

const HISTORIES: usize = 3000;
const TURNS: usize = 40;

/// The ids of the attributes that there may be.
const IDS: u16 = 8;

pub fn compare(
    compared: &mut Compared<'_, impl Server<Call>>,
    random: &mut Random,
    spared: Spared,
) -> Result<(), String> {
    for _ in 0..HISTORIES {
        let mut history = History::random(random, spared);
        for _ in 0..TURNS {
            history.turn(compared)?;
            history.happens(random);
        }
    }
    for n in 1..=5 {
        for maximum in 1..=4 {
            for gap in 1..=3 {
                worst(compared, spared, n, (maximum, gap))?;
            }
        }
    }
    Ok(())
}

struct History {
    parts: Vec<Part>,
    table: Vec<u8>,
    watched: BTreeMap<u16, Watched>,
    now: u32,
    last: u32,
    room: usize,
    /// The most seconds between two turns.
    gap: u32,
    /// Whether the clock goes back now and then, and attributes are not reportable
    /// now and then: the first promise holds all the same.
    wavers: bool,
}

impl History {
    fn new(parts: Vec<Part>, configs: &BTreeMap<u16, Config>, terms: Terms) -> Self {
        let cluster = cluster_of(&built(&parts)).expect("a store");
        let entry = |(&attribute, &config): (&u16, &Config)| Entry {
            key: Key { cluster, attribute },
            config,
            last: None,
        };
        let table: Vec<Entry> = configs.iter().map(entry).collect();
        let watched = |(&id, &config): (&u16, &Config)| (id, Watched::new(config, terms));
        let longest = parts.iter().map(|part| 3 + part.body.len()).max();
        Self {
            parts,
            table: to_bytes(&table),
            watched: configs.iter().map(watched).collect(),
            now: 0,
            last: 0x10000,
            room: 3 + longest.unwrap_or(0),
            gap: terms.gap,
            wavers: false,
        }
    }

    fn random(random: &mut Random, spared: Spared) -> Self {
        let codes = random.of(&[&[0x20][..], &[0x20, 0x29, 0x42]]);
        let parts = (0..IDS).map(|id| part(random, id, codes)).collect();
        let mut configs = BTreeMap::new();
        for _ in 0..=random.below(4) {
            // an id more than there are attributes
            let id = random.below(usize::from(IDS) + 1) as u16;
            configs.insert(id, config(random));
        }
        let (entries, gap) = (configs.len(), random.below(5) as u32);
        let terms = Terms {
            entries,
            gap,
            spared,
        };
        let mut history = Self::new(parts, &configs, terms);
        history.beside(random.below(3));
        history.now = random.below(6) as u32;
        history.last = random.of(&[0x10000, 0, 3, 7, 0xffff]);
        history.room += random.of(&[0, 0, 1, 4, 10]);
        history.wavers = random.one_in(3);
        history
    }

    /// With entries of another cluster, which n does not count, before its own.
    fn beside(&mut self, many: usize) {
        let own = entries(&self.table).expect("a table");
        let mut others: Vec<Entry> = own.iter().copied().take(many).collect();
        for other in &mut others {
            other.key.cluster ^= 1;
        }
        self.table = to_bytes(&[others, own].concat());
    }

    /// Takes a turn, and holds what it finds and writes to the promises.
    fn turn(&mut self, compared: &mut Compared<'_, impl Server<Call>>) -> Result<(), String> {
        let store = built(&self.parts);
        let given = Given {
            store: store.clone(),
            table: self.table.clone(),
            sequence: 0x2a,
            now: self.now,
            last: self.last,
            room: self.room,
        };
        let table = entries(&self.table).expect("a table");
        let due = given.turn().found_due(&table);
        let (turned, left) = compared.turn(given)?;
        (self.last, self.table) = (turned.last, left);
        let written = match due.iter().position(|&id| self.last == id.into()) {
            Some(last) if turned.answer.number == 0 => &due[..=last],
            _ => &[],
        };
        for (id, watched) in &mut self.watched {
            let look = Look {
                now: self.now,
                value: number(&store, *id).unwrap_or(0),
                found: due.contains(id),
                written: written.contains(id),
            };
            watched.fair(&look, &mut compared.counted)?;
            if !self.wavers && find(&store, *id).is_some() {
                watched.timed(&look, &mut compared.counted)?;
            }
        }
        Ok(())
    }

    /// Values change, and the clock goes on.
    fn happens(&mut self, random: &mut Random) {
        for part in &mut self.parts {
            if random.one_in(3) {
                part.body = body(random, part.code);
            }
            if self.wavers && random.one_in(8) {
                part.access ^= 2;
            }
        }
        self.now = match random.below(6) {
            0 if self.wavers => self.now.saturating_sub(3),
            _ => self.now + random.below(self.gap as usize + 1) as u32,
        };
    }
}

/// An attribute that is reportable.
fn part(random: &mut Random, id: u16, codes: &[u8]) -> Part {
    let code = random.of(codes);
    Part::new(id, code, 2, &body(random, code))
}

/// A small number, or a string in a room of 4.
fn body(random: &mut Random, code: u8) -> Vec<u8> {
    let small = random.below(4);
    match code {
        0x20 => vec![small as u8],
        0x29 => vec![small as u8, 0],
        _ => string(&b"TV4"[..small], 4),
    }
}

fn config(random: &mut Random) -> Config {
    let minimum = random.below(5) as u16;
    let more = random.below(7) as u16;
    Config {
        minimum,
        maximum: random.of(&[0, minimum.max(1), minimum + more.max(1)]),
        change: random.of(&[0, 1, 2, 3]),
        mark: random.of(&[SIGNED, UNSIGNED]),
    }
}

/// M+nG-1 seconds between two reports: there is room for one record, and all others
/// fall due in the first turn that finds the attribute late, the last report before
/// having been its own.
fn worst(
    compared: &mut Compared<'_, impl Server<Call>>,
    spared: Spared,
    n: u16,
    (maximum, gap): (u16, u32),
) -> Result<(), String> {
    let late = n - 1;
    let parts = (0..n).map(|id| Part::new(id, 0x20, 2, &[0])).collect();
    let config = |id| Config {
        minimum: 0,
        maximum: if id == late { maximum } else { 0 },
        change: 1,
        mark: UNSIGNED,
    };
    let configs = (0..n).map(|id| (id, config(id))).collect();
    let entries = n.into();
    let terms = Terms {
        entries,
        gap,
        spared,
    };
    let mut history = History::new(parts, &configs, terms);
    for _ in 0..n {
        history.turn(compared)?;
    }
    let before = u32::from(maximum) - 1;
    let early = (1..before).filter(|now| now % gap == 0).chain([before]);
    let times: Vec<u32> = early
        .chain((1..=n).map(|turns| before + u32::from(turns) * gap))
        .collect();
    let met = compared.counted.of(MOST_APART);
    for now in times {
        history.now = now;
        for part in &mut history.parts[..late.into()] {
            part.body[0] += u8::from(now > before);
        }
        history.turn(compared)?;
    }
    match compared.counted.of(MOST_APART) - met {
        1 => Ok(()),
        _ => Err(format!(
            "{n} entries, {maximum}, {gap}: the worst is not met"
        )),
    }
}

#[cfg(test)]
mod tests {
    use super::*;
    use crate::counted::Counted;
    use crate::fakes::Fake;

    fn run(spared: Spared) -> Result<Counted, String> {
        let server = &mut Fake(None);
        let mut compared = Compared::new(server);
        compare(&mut compared, &mut Random::new(7), spared)?;
        compared.end()
    }

    #[test]
    fn both_hold() {
        let counted = run(Spared::default()).expect("they hold");
        assert!(counted.of(MOST_APART) >= 5 * 4 * 3);
    }

    #[test]
    fn nothing_is_to_spare() {
        let none = Spared::default();
        for (spared, broken) in [
            (Spared { turns: 1, ..none }, "not written"),
            (Spared { most: 1, ..none }, "too long"),
            (Spared { least: 1, ..none }, "too soon"),
        ] {
            let trouble = run(spared).err().expect("it is broken");
            assert!(trouble.contains(broken), "{trouble}");
        }
    }

    /// Two entries of Uint8s, each due every second, and room for one record.
    fn two() -> History {
        let terms = Terms {
            entries: 2,
            gap: 1,
            spared: Spared::default(),
        };
        let parts = (0..2).map(|id| Part::new(id, 0x20, 2, &[0])).collect();
        let config = Config {
            minimum: 0,
            maximum: 1,
            change: 0,
            mark: UNSIGNED,
        };
        let configs = (0..2).map(|id| (id, config)).collect();
        History::new(parts, &configs, terms)
    }

    /// Whether the first promise holds through ten turns, before each of which this
    /// happens.
    fn holds(mut history: History, happens: fn(&mut History)) -> bool {
        let server = &mut Fake(None);
        let mut compared = Compared::new(server);
        let turns = (0..10).try_for_each(|_| {
            history.now += 1;
            happens(&mut history);
            history.turn(&mut compared)
        });
        let unfair = |trouble: &String| trouble.contains("not written");
        assert!(turns.as_ref().err().is_none_or(unfair), "{turns:?}");
        turns.is_ok()
    }

    /// Where every turn is handed none, an attribute may wait for ever; and so it may
    /// behind one whose record never fits.
    #[test]
    fn the_terms_are_needed() {
        assert!(holds(two(), |_| ()));
        assert!(!holds(two(), |history| history.last = 0x10000));
        let mut longer = two();
        longer.parts[0] = Part::new(0, 0x21, 2, &[0, 0]);
        assert!(!holds(longer, |_| ()));
    }
}
