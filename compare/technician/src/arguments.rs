//! The command line: the repository's folder, which compare/run gives, and what
//! the user gave.

use std::path::PathBuf;

const USAGE: &str = "usage: compare/run FILE, or compare/run --random N --seed S";

#[derive(Debug, PartialEq, Eq)]
pub enum From {
    File(String),
    Random { many: usize, seed: u64 },
}

#[derive(Debug, PartialEq, Eq)]
pub struct Arguments {
    pub root: PathBuf,
    pub from: From,
}

impl Arguments {
    pub fn parsed(words: &[String]) -> Result<Self, String> {
        let words: Vec<&str> = words.iter().map(String::as_str).collect();
        let [root, given @ ..] = &words[..] else {
            return Err(USAGE.to_owned());
        };
        let from = match given {
            ["--random", many, "--seed", seed] => From::Random {
                many: number("N", many, 1)?,
                seed: number("S", seed, 0)?,
            },
            [file] if !file.starts_with('-') => From::File((*file).to_owned()),
            _ => return Err(USAGE.to_owned()),
        };
        let root = PathBuf::from(root);
        Ok(Self { root, from })
    }

    /// What makes the same results again.
    pub fn command(&self) -> String {
        match &self.from {
            From::File(file) if file.contains(char::is_whitespace) => {
                format!("compare/run '{file}'")
            }
            From::File(file) => format!("compare/run {file}"),
            From::Random { many, seed } => format!("compare/run --random {many} --seed {seed}"),
        }
    }
}

fn number<T: std::str::FromStr + PartialOrd>(
    name: &str,
    word: &str,
    least: T,
) -> Result<T, String> {
    let parsed = word.parse().ok().filter(|number| *number >= least);
    parsed.ok_or_else(|| format!("{name} cannot be `{word}`; {USAGE}"))
}

#[cfg(test)]
mod tests {
    use super::*;

    fn parsed(line: &str) -> Result<Arguments, String> {
        let words: Vec<String> = line.split(' ').map(str::to_owned).collect();
        Arguments::parsed(&words)
    }

    #[test]
    fn what_is_understood() {
        for line in ["compare/sample.txt", "--random 20 --seed 7"] {
            let arguments = parsed(&format!("/root {line}")).expect("it is understood");
            assert_eq!(arguments.command(), format!("compare/run {line}"));
        }
    }

    #[test]
    fn what_is_not() {
        for line in [
            "/root",
            "/root --help",
            "/root a b",
            "/root --random 0 --seed 1",
            "/root --random x --seed 1",
            "/root --random 1 --seed -1",
            "/root --random 5",
        ] {
            let trouble = parsed(line).expect_err(line);
            assert!(trouble.contains(USAGE), "{trouble}");
        }
    }
}
