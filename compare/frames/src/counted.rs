//! How the Rust stood to document 01, over all frames.

use std::collections::HashMap;

use cases::Difference;
use frames::sides::Stands;

/// At least so many must agree with the Rust.
const AGREED: usize = 1_000_000;

#[derive(Default)]
pub struct Counted {
    pub agreed: usize,
    not_asked: usize,
    differed: HashMap<Difference, usize>,
}

impl Counted {
    pub fn count(&mut self, stands: Stands) {
        match stands {
            Stands::NotAsked => self.not_asked += 1,
            Stands::Agrees => self.agreed += 1,
            Stands::Differs(difference) => *self.differed.entry(difference).or_default() += 1,
        }
    }

    pub fn list(&self) -> String {
        let mut list = format!(
            "{:9}  the Rust has no such store or table\n",
            self.not_asked
        );
        for difference in Difference::all() {
            let count = self.differed.get(&difference).unwrap_or(&0);
            list += &format!("{count:9}  the Rust differs: {}\n", difference.name());
        }
        list
    }

    /// An error where too few agreed, or a listed difference was never one.
    pub fn enough(&self) -> Result<(), String> {
        if self.agreed < AGREED {
            return Err(format!("only {} frames agree with the Rust", self.agreed));
        }
        match Difference::all().find(|difference| !self.differed.contains_key(difference)) {
            Some(difference) => Err(format!("{} never made a difference", difference.name())),
            None => Ok(()),
        }
    }
}
