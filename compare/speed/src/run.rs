//! What the command line asks for.

use std::fs;
use std::io::ErrorKind;
use std::path::Path;

use speed::{Arguments, Built, Facts, Measured, UNTIMED, page, rows, table, text, turn_lines};

#[cfg(archive)]
use crate::both;

const NO_ARCHIVE: &str = "there was no archive when this program was built: `make lib` makes it";

/// Why it did not come to its end.
pub enum Trouble {
    /// The two sides differ.
    #[cfg(archive)]
    Differs(String),
    NotRun(String),
}

pub fn run(words: &[String]) -> Result<(), Trouble> {
    match Arguments::parsed(words).map_err(Trouble::NotRun)? {
        Arguments::Rows => {
            for row in rows() {
                println!("{}", row.word());
            }
            Ok(())
        }
        Arguments::Frames => {
            print!("{}", text(&rows()));
            Ok(())
        }
        Arguments::Counted { page, facts } => counted(&page, &facts).map_err(Trouble::NotRun),
        #[cfg(archive)]
        Arguments::Calls { row, which, many } => both::calls(&row, which, many),
        #[cfg(archive)]
        Arguments::Timing { page, pairs, facts } => both::timing(&page, pairs, facts.as_deref()),
        #[cfg(not(archive))]
        Arguments::Calls { .. } | Arguments::Timing { .. } => Err(without_archive()),
    }
}

#[cfg(not(archive))]
fn without_archive() -> Trouble {
    let why = if cfg!(target_arch = "x86_64") {
        NO_ARCHIVE
    } else {
        "the archive is for x86-64, and this machine is not"
    };
    Trouble::NotRun(why.to_owned())
}

/// Every row is to have a count of the new side.
fn counted(to: &str, facts: &str) -> Result<(), String> {
    remove(to)?;
    let facts = read(facts)?;
    let mut measured = Vec::new();
    for row in rows() {
        let counts = facts.counts(&row.word());
        counts[1].ok_or_else(|| format!("{}: not counted", row.word()))?;
        measured.push(Measured::of(&row, None, counts));
    }
    print!("{}{}", table(&measured), turn_lines(&facts.turns));
    println!("\n{UNTIMED}");
    write(to, &page(&measured, &facts, &built(None)?))
}

/// A run that does not come to its end leaves no page of an earlier one.
pub fn remove(page: &str) -> Result<(), String> {
    match fs::remove_file(page) {
        Err(trouble) if trouble.kind() != ErrorKind::NotFound => Err(format!("{page}: {trouble}")),
        _ => Ok(()),
    }
}

pub fn read(path: &str) -> Result<Facts, String> {
    let file = fs::read_to_string(path).map_err(|trouble| format!("{path}: {trouble}"))?;
    Facts::parsed(&file)
}

pub fn built(pairs: Option<usize>) -> Result<Built, String> {
    let path = option_env!("ARCHIVE").ok_or(NO_ARCHIVE)?;
    let archive = fs::metadata(path).map_err(|trouble| format!("{path}: {trouble}"))?;
    Ok(Built {
        compiler: env!("COMPILED_BY"),
        archive: archive.len(),
        pairs,
    })
}

pub fn write(path: &str, text: &str) -> Result<(), String> {
    let folder = Path::new(path).parent().unwrap_or(Path::new(""));
    fs::create_dir_all(folder)
        .and_then(|()| fs::write(path, text))
        .map_err(|trouble| format!("{path}: {trouble}"))?;
    println!("written: {path}");
    Ok(())
}
