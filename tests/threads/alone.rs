//! A unit that is alone makes a script with no tries: nobody is in its way, so nothing may be busy.

use super::texts::{Texts, settled_text, texts};
use dbtg_run::{Database, Outcome, settle};
use std::io::{self, Write};

// Prints what `replay` prints of the script. None where a text has a fault, a statement is not done, or the database is not settled.
pub fn run_alone(rt: &HostRuntime, words: &[String]) -> Option<()> {
    let alloc = rt.alloc();
    let Texts { schema, capacity, scripts } = texts(rt, words)?;
    let (db, mut units) = Database::make(alloc, schema, capacity, 1).ok()?;
    for (place, statement) in scripts.as_slice().first()?.as_slice().iter().enumerate() {
        let unit = units.as_mut_slice().first_mut()?;
        match db.execute(alloc, unit, statement, 0) {
            Outcome::Done(_) => {}
            Outcome::Busy => {
                let _ = eprintln!(rt; "statement {place} is busy");
                return None;
            }
            Outcome::Spent | Outcome::NoMemory => return None,
        }
    }
    let settled = settle(alloc, db, units).ok()?;
    io::writer(rt).write_all(settled_text(alloc, &settled).ok()?.as_slice()).ok()
}
