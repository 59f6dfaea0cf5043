//! The texts that the command names, read, and what is printed of a settled database.

use dbtg_run::Settled;
use dbtg_schema::{Row, Schema};
use dbtg_script::{number, push_run, read_script};
use dbtg_unit::Statement;
use std::alloc::{AllocError, Global};
use std::fs;

// A schema and a capacity that the command names, and its scripts, in their order.
#[derive(Drop)]
pub struct Texts {
    pub schema: Schema,
    pub capacity: u16,
    pub scripts: Row<Row<Statement>>,
}

// The words are a capacity, and the paths of a schema and of scripts. None where a file cannot be read or has a fault.
pub fn texts(rt: &HostRuntime, words: &[String]) -> Option<Texts> {
    let alloc = rt.alloc();
    let capacity = number(words.get(0)?.as_bytes()) as u16;
    let schema = Schema::read(alloc, fs::read(rt, words.get(1)?.as_str()).ok()?.as_slice()).ok()?;
    let mut scripts = Row::of(Vec::new(alloc));
    for path in words.get(2..)? {
        let text = fs::read(rt, path.as_str()).ok()?;
        let statements = read_script(alloc, &schema, text.as_slice()).ok()?;
        scripts.push(Row::of(statements)).ok()?;
    }
    Some(Texts { schema, capacity, scripts })
}

// All that `replay` prints of a run.
pub fn settled_text(alloc: Global, settled: &Settled) -> Result<Vec<u8>, AllocError> {
    let mut out = Vec::new(alloc);
    push_run(
        alloc,
        &mut out,
        &settled.schema,
        settled.history.as_slice(),
        &settled.image,
        settled.units.as_slice(),
    )?;
    Ok(out)
}
