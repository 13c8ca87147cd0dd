//! The command line, which compare/speed/run gives.

pub const USAGE: &str = "usage: speed --rows, or speed --frames, or speed --calls ROW old|new N, or speed --page FILE [--pairs N] [--facts FILE], or speed --counted FILE --facts FILE";

/// So many pairs of blocks are timed unless another number is given.
const PAIRS: usize = 201;

#[derive(Debug, Clone, Copy, PartialEq, Eq)]
pub enum Which {
    Old,
    New,
}

#[derive(Debug, PartialEq, Eq)]
pub enum Arguments {
    /// Prints the rows' words.
    Rows,
    /// Prints the rows with their calls.
    Frames,
    /// Makes calls of a row on one side, and nothing else.
    Calls {
        row: String,
        which: Which,
        many: usize,
    },
    /// Times all rows.
    Timing {
        page: String,
        pairs: usize,
        facts: Option<String>,
    },
    /// Times nothing: the page has what was counted elsewhere.
    Counted { page: String, facts: String },
}

impl Arguments {
    pub fn parsed(words: &[String]) -> Result<Self, String> {
        let words: Vec<&str> = words.iter().map(String::as_str).collect();
        match words[..] {
            ["--rows"] => Ok(Self::Rows),
            ["--frames"] => Ok(Self::Frames),
            ["--calls", row, side, many] => Ok(Self::Calls {
                row: row.to_owned(),
                which: which(side)?,
                many: number(many)?,
            }),
            ["--page", page, ref options @ ..] => timing(page, options),
            ["--counted", page, "--facts", facts] => Ok(Self::Counted {
                page: page.to_owned(),
                facts: facts.to_owned(),
            }),
            _ => Err(USAGE.to_owned()),
        }
    }
}

fn timing(page: &str, options: &[&str]) -> Result<Arguments, String> {
    let mut pairs = PAIRS;
    let mut facts = None;
    for option in options.chunks(2) {
        match *option {
            ["--pairs", many] => pairs = number(many)?,
            ["--facts", file] => facts = Some(file.to_owned()),
            _ => return Err(USAGE.to_owned()),
        }
    }
    Ok(Arguments::Timing {
        page: page.to_owned(),
        pairs,
        facts,
    })
}

fn which(side: &str) -> Result<Which, String> {
    match side {
        "old" => Ok(Which::Old),
        "new" => Ok(Which::New),
        _ => Err(USAGE.to_owned()),
    }
}

fn number(word: &str) -> Result<usize, String> {
    let parsed = word.parse().ok().filter(|&number| number > 0);
    parsed.ok_or_else(|| format!("N cannot be `{word}`; {USAGE}"))
}

#[cfg(test)]
mod tests {
    use super::*;

    fn parsed(line: &str) -> Result<Arguments, String> {
        let words: Vec<String> = line.split(' ').map(str::to_owned).collect();
        Arguments::parsed(&words)
    }

    fn timing(pairs: usize, facts: Option<&str>) -> Arguments {
        Arguments::Timing {
            page: "p.md".to_owned(),
            pairs,
            facts: facts.map(str::to_owned),
        }
    }

    #[test]
    fn what_is_understood() {
        assert_eq!(parsed("--rows"), Ok(Arguments::Rows));
        assert_eq!(parsed("--frames"), Ok(Arguments::Frames));
        assert_eq!(parsed("--page p.md"), Ok(timing(PAIRS, None)));
        let both = parsed("--page p.md --facts f --pairs 3");
        assert_eq!(both, Ok(timing(3, Some("f"))));
        let calls = Arguments::Calls {
            row: "4/read-1".to_owned(),
            which: Which::New,
            many: 300,
        };
        assert_eq!(parsed("--calls 4/read-1 new 300"), Ok(calls));
        let counted = Arguments::Counted {
            page: "p.md".to_owned(),
            facts: "f".to_owned(),
        };
        assert_eq!(parsed("--counted p.md --facts f"), Ok(counted));
    }

    #[test]
    fn what_is_not() {
        for line in [
            "--help",
            "--page",
            "--page p.md --pairs",
            "--page p.md --pairs 0",
            "--page p.md --pairs x",
            "--page p.md --fast",
            "--calls 4/read-1 both 300",
            "--calls 4/read-1 old",
            "--frames 4/read-1",
            "--counted p.md",
            "--counted p.md --pairs 3",
        ] {
            let trouble = parsed(line).expect_err(line);
            assert!(trouble.contains(USAGE), "{trouble}");
        }
    }
}
