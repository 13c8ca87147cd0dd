//! Histories: a store, a table, a clock and the last id, and what happens to them.

use cases::requests::request;
use cases::{Case, Random};
use ours::{Answer, Held, Server};
use reading::store::{attributes, cluster_of, find, number};
use reading::table::{Entry, Key, ask, clear, configure, entries, to_bytes};

use crate::call::Call;
use crate::compared::Compared;
use crate::counted::{ASKS, BACK, CLEARED, CONFIGURES, REQUESTS};
use crate::given::Given;
use crate::made;

const HISTORIES: usize = 6000;
const STEPS: usize = 60;

pub fn compare(
    compared: &mut Compared<'_, impl Server<Call>>,
    random: &mut Random,
) -> Result<(), String> {
    for _ in 0..HISTORIES {
        let mut history = History::new(random);
        for _ in 0..STEPS {
            history.step(compared, random)?;
        }
    }
    Ok(())
}

struct History {
    store: Vec<u8>,
    table: Vec<Entry>,
    now: u32,
    last: u32,
}

impl History {
    fn new(random: &mut Random) -> Self {
        let store = made::store(random);
        let now = random.of(&[0, 10, 1000, 1 << 31, u32::MAX - 20]);
        let table = made::table(random, &store, now);
        Self {
            store,
            table,
            now,
            last: last(random),
        }
    }

    fn step(
        &mut self,
        compared: &mut Compared<'_, impl Server<Call>>,
        random: &mut Random,
    ) -> Result<(), String> {
        let before = self.now;
        self.now = made::later(random, before);
        for _ in 0..random.below(4) {
            self.set(random);
        }
        if self.now < before {
            compared.counted.count(BACK);
        }
        match random.below(20) {
            0 | 1 => self.configure(compared, random),
            2 => self.clear(compared, random),
            3 => self.ask(compared, random),
            4 => self.request(compared, random),
            5 => {
                self.last = last(random);
                self.turn(compared, random)
            }
            6 => self.damaged(compared, random),
            _ => self.turn(compared, random),
        }
    }

    fn lent(&self) -> Vec<u8> {
        to_bytes(&self.table)
    }

    fn turn(
        &mut self,
        compared: &mut Compared<'_, impl Server<Call>>,
        random: &mut Random,
    ) -> Result<(), String> {
        let (turned, table) = compared.turn(self.given(random))?;
        self.last = turned.last;
        self.table = entries(&table).expect("it is a table still");
        Ok(())
    }

    /// A turn over bytes that may be no store or no table. The history goes on as if
    /// it had not been.
    fn damaged(
        &mut self,
        compared: &mut Compared<'_, impl Server<Call>>,
        random: &mut Random,
    ) -> Result<(), String> {
        let mut given = self.given(random);
        let which = random.below(4);
        if which != 0 {
            given.table = made::damaged_table(random, &given.table);
        }
        if which < 2 {
            given.store = made::damaged(random, &given.store);
        }
        compared.turn(given)?;
        Ok(())
    }

    fn given(&self, random: &mut Random) -> Given {
        let mut given = Given {
            store: self.store.clone(),
            table: self.lent(),
            sequence: random.byte(),
            now: self.now,
            last: self.last,
            room: 1 << 13,
        };
        given.room = room(random, &given);
        given
    }

    fn configure(
        &mut self,
        compared: &mut Compared<'_, impl Server<Call>>,
        random: &mut Random,
    ) -> Result<(), String> {
        let (key, config) = (made::key(random, &self.store), made::config(random));
        let call = ours::Call::configure(&self.lent(), key, config);
        let accepted = configure(&mut self.table, key, config);
        let answer = Answer::new(0, &[accepted.into()], &[&self.lent()]);
        let line = CONFIGURES[usize::from(accepted)];
        compared.between(line, Held { call, answer })
    }

    fn clear(
        &mut self,
        compared: &mut Compared<'_, impl Server<Call>>,
        random: &mut Random,
    ) -> Result<(), String> {
        let key = made::key(random, &self.store);
        let call = ours::Call::clear(&self.lent(), key);
        clear(&mut self.table, key);
        let answer = Answer::new(0, &[], &[&self.lent()]);
        compared.between(CLEARED, Held { call, answer })
    }

    /// Asks as a turn does: no number counts as 0.
    fn ask(
        &mut self,
        compared: &mut Compared<'_, impl Server<Call>>,
        random: &mut Random,
    ) -> Result<(), String> {
        let key = made::key(random, &self.store);
        let value = number(&self.store, key.attribute).unwrap_or(0);
        let call = ours::Call::ask(&self.lent(), key, self.now, value);
        let due = ask(&self.table, key, self.now, value).is_due();
        let answer = Answer::new(0, &[due.into()], &[&self.lent()]);
        compared.between(ASKS[usize::from(due)], Held { call, answer })
    }

    /// A request that writes values, or that configures.
    fn request(
        &mut self,
        compared: &mut Compared<'_, impl Server<Call>>,
        random: &mut Random,
    ) -> Result<(), String> {
        let which = random.below(REQUESTS.len());
        let command = [0x02, 0x03, 0x05, 0x06][which];
        let attributes = attributes(&self.store).expect("a store");
        let case = Case {
            store: self.store.clone(),
            table: self.lent(),
            cluster: cluster_of(&self.store).expect("a store"),
            unicast: 1,
            request: request(random, &attributes, command),
            room: 64,
        };
        let seen = case.document();
        self.store.clone_from(&seen.store);
        self.table = entries(&seen.table).expect("it is a table still");
        compared.between(REQUESTS[which], Held::request(&case, &seen))
    }

    /// The hardware changes a value.
    fn set(&mut self, random: &mut Random) {
        let Key { attribute, .. } = made::key(random, &self.store);
        if let Some(attribute) = find(&self.store, attribute) {
            let old = attribute.value(&self.store).expect("it has a value");
            let new = made::new_value(random, &attribute, old);
            attribute.set(&mut self.store, &new);
        }
    }
}

/// A last id that no turn gave back.
fn last(random: &mut Random) -> u32 {
    match random.below(6) {
        0 => 0x10000,
        1 => random.of(&[0x10001, 0x2_0000, u32::MAX, u32::MAX - 1, 1 << 31]),
        2 => random.of(&[0, 0xfffe, 0xffff]),
        3 => random.word(),
        _ => random.below(0x120) as u32,
    }
}

/// Around the length of the frame that all the room in the world would give, or of
/// its first record, or small, or any.
fn room(random: &mut Random, ample: &Given) -> usize {
    let frame = ample.document().0.answer.reply.len().max(3);
    match random.below(12) {
        0 => random.below(4),
        1 => 3 + random.below(9),
        2 => random.below(400),
        3 | 4 => frame,
        5 => (frame + 1).saturating_sub(random.below(5)),
        6..=8 => random.below(frame + 1),
        _ => 64,
    }
}
