//! The results as pages: one in Markdown and one in HTML, made of the same
//! blocks.

mod answers;
mod block;
mod html;
mod incident;
mod listed;
mod markdown;
mod proved;
mod sections;
mod speed;

use std::fs;
use std::io::ErrorKind;

use crate::results::Results;

const FOLDER: &str = "results";
const MARKDOWN: &str = "results/results.md";
const HTML: &str = "results/results.html";

/// Takes both away, so that a run that does not come to its end leaves no page
/// of an earlier one.
pub fn clear() -> Result<(), String> {
    for path in [MARKDOWN, HTML] {
        match fs::remove_file(path) {
            Err(trouble) if trouble.kind() != ErrorKind::NotFound => {
                return Err(format!("{path}: {trouble}"));
            }
            _ => (),
        }
    }
    Ok(())
}

/// Writes both, below the folder in which the program runs.
pub fn write(results: &Results) -> Result<(), String> {
    let speed = speed::read(&format!("{FOLDER}/speed.md"))?;
    let blocks = sections::all(results, speed);
    fs::create_dir_all(FOLDER).map_err(|trouble| format!("{FOLDER}: {trouble}"))?;
    for (path, text) in [
        (MARKDOWN, markdown::page(&blocks)),
        (HTML, html::page(sections::TITLE, &blocks)),
    ] {
        fs::write(path, text).map_err(|trouble| format!("{path}: {trouble}"))?;
        println!("written: {path}");
    }
    Ok(())
}
