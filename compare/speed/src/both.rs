//! What needs the archive: calls of one side, and the timing of both.

use speed::{
    Facts, Measured, Old, ROOM, Row, Side, Which, agree, named, page, rows, table, timed,
    turn_lines,
};

use crate::new::New;
use crate::run::{Trouble, built, read, remove, write};

pub fn calls(row: &str, which: Which, many: usize) -> Result<(), Trouble> {
    let row = named(row).ok_or_else(|| Trouble::NotRun(format!("no row `{row}`")))?;
    match which {
        Which::Old => calls_of::<Old>(&row, many),
        Which::New => calls_of::<New>(&row, many),
    }
    Ok(())
}

fn calls_of<S: Side>(row: &Row, many: usize) {
    let mut side = S::new(&row.store, &row.table);
    row.calls.many(many, &mut side, &mut [0; ROOM]);
}

pub fn timing(to: &str, pairs: usize, facts: Option<&str>) -> Result<(), Trouble> {
    remove(to).map_err(Trouble::NotRun)?;
    let facts = facts.map_or(Ok(Facts::default()), read);
    let facts = facts.map_err(Trouble::NotRun)?;
    let mut measured = Vec::new();
    for row in rows() {
        let mut old = Old::new(&row.store, &row.table);
        let mut new = New::new(&row.store, &row.table);
        agree(&row, &mut old, &mut new).map_err(Trouble::Differs)?;
        let timed = timed(&row, &mut old, &mut new, pairs);
        measured.push(Measured::of(&row, Some(&timed), facts.counts(&row.word())));
    }
    print!("{}{}", table(&measured), turn_lines(&facts.turns));
    let built = built(Some(pairs)).map_err(Trouble::NotRun)?;
    write(to, &page(&measured, &facts, &built)).map_err(Trouble::NotRun)
}
