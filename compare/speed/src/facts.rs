//! What compare/speed/run found out and this program cannot: a line each.

use std::collections::HashMap;

#[derive(Debug, Default, PartialEq, Eq)]
pub struct Facts {
    /// The kit that made the archive, as it names itself.
    pub kit: Option<String>,
    /// The bytes of the archive's code.
    pub text: Option<u64>,
    /// Why there are no counts.
    uncounted: Option<String>,
    /// Instructions a call, by row and side.
    counts: HashMap<(String, String), u64>,
    /// The cells of the report turn's rows.
    pub turns: Vec<[String; 4]>,
}

impl Facts {
    pub fn parsed(file: &str) -> Result<Self, String> {
        let mut facts = Self::default();
        for line in file.lines() {
            facts
                .take(line)
                .ok_or_else(|| format!("not understood: `{line}`"))?;
        }
        Ok(facts)
    }

    fn take(&mut self, line: &str) -> Option<()> {
        let (word, rest) = line.split_once(' ')?;
        match word {
            "kit" => self.kit = Some(rest.to_owned()),
            "text" => self.text = Some(rest.parse().ok()?),
            "uncounted" => self.uncounted = Some(rest.to_owned()),
            "count" => {
                let [row, side, many] = rest.split(' ').collect::<Vec<&str>>()[..] else {
                    return None;
                };
                let place = (row.to_owned(), side.to_owned());
                self.counts.insert(place, many.parse().ok()?);
            }
            "turn" => {
                let cells: Vec<String> = rest.split(" | ").map(str::to_owned).collect();
                self.turns.push(cells.try_into().ok()?);
            }
            _ => return None,
        }
        Some(())
    }

    /// Why nothing was counted, where nothing was.
    pub fn uncounted(&self) -> Option<&str> {
        let why = self.uncounted.as_deref().unwrap_or("nobody did");
        self.counts.is_empty().then_some(why)
    }

    /// Of the row of this word, on the old side and on the new one.
    pub fn counts(&self, row: &str) -> [Option<u64>; 2] {
        let of = |side: &str| self.counts.get(&(row.to_owned(), side.to_owned())).copied();
        ["old", "new"].map(of)
    }
}

#[cfg(test)]
mod tests {
    use super::*;

    #[test]
    fn what_is_understood() {
        let file = "kit a kit 5\ntext 77\ncount 4/read-1 old 10\ncount 4/read-1 new 25\ncount 64/read-1 old 3\nturn all due | a turn | 1 | 2\n";
        let facts = Facts::parsed(file).expect("it is understood");
        assert_eq!(facts.kit.as_deref(), Some("a kit 5"));
        assert_eq!((facts.text, facts.uncounted()), (Some(77), None));
        assert_eq!(facts.counts("4/read-1"), [Some(10), Some(25)]);
        assert_eq!(facts.counts("64/read-1"), [Some(3), None]);
        assert_eq!(facts.counts("64/read-10"), [None; 2]);
        assert_eq!(facts.turns, [["all due", "a turn", "1", "2"]]);
        assert_eq!(Facts::default().uncounted(), Some("nobody did"));
    }

    #[test]
    fn what_is_not() {
        for line in [
            "kit",
            "text x",
            "count 4/read-1 old",
            "count a old 1 2",
            "speed 1",
            "turn all due | a turn | 1",
        ] {
            assert_eq!(
                Facts::parsed(line),
                Err(format!("not understood: `{line}`"))
            );
        }
    }
}
