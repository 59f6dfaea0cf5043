//! What is measured: the same scripts on the core and on threads, and beside them the run that only reads them.

use super::texts::{Texts, texts};
use dbtg_run::{Database, NoGate, Outcome, RunUnit, run_script};
use dbtg_schema::Row;
use dbtg_step::Core;
use dbtg_unit::{Statement, Stepped};
use std::alloc::Global;
use std::sync::Wait;
use std::thread::{Threads, join};
use std::time::Instant;

// How many statements all units together have done; none where one of them found no memory.
type Done = Option<usize>;

// The database is made, and nothing is done.
fn read(alloc: Global, given: Texts) -> Done {
    let (_, units) = Database::make(alloc, given.schema, given.capacity, given.scripts.len() as u8).ok()?;
    if units.is_empty() { None } else { Some(0) }
}

// One script after the other, on the core, event by event.
fn step(alloc: Global, given: Texts) -> Done {
    let units = given.scripts.len() as u8;
    let mut core = Core::new(alloc, &given.schema, given.capacity, given.scripts).ok()?;
    for before in 0..units {
        while matches!(core.step(before + 1), Stepped::Moved) {}
    }
    Some(core.history().len())
}

fn run_in_place(alloc: Global, db: &Database, unit: &mut RunUnit, script: &[Statement]) -> Done {
    for statement in script {
        match db.execute(alloc, unit, statement, 64) {
            Outcome::Done(_) => {}
            _ => return None,
        }
    }
    Some(script.len())
}

// One script after the other, each by its unit, on this thread.
fn execute(alloc: Global, given: Texts) -> Done {
    let count = given.scripts.len() as u8;
    let (db, mut units) = Database::make(alloc, given.schema, given.capacity, count).ok()?;
    let mut done = 0;
    for (unit, script) in units.as_mut_slice().iter_mut().zip(given.scripts.as_slice()) {
        done += run_in_place(alloc, &db, unit, script.as_slice())?;
    }
    Some(done)
}

fn run_one<R: Wait>(rt: &R, alloc: Global, db: &Database, unit: RunUnit, script: &[Statement]) -> Done {
    let mut unit = unit;
    run_script(rt, alloc, db, &mut unit, script, &NoGate).ok()?;
    Some(unit.journal().len())
}

// Each unit on a thread of its own, as `run_units` starts them; nothing is settled.
fn abreast<R: Threads + Wait + Sync>(rt: &R, alloc: Global, db: &Database, units: Vec<RunUnit>, scripts: &[Row<Statement>]) -> Done {
    let mut units = units;
    let Some(unit) = units.pop() else {
        return Some(0);
    };
    let script = scripts[units.len()].as_slice();
    let (one, others) = join(
        rt,
        move || -> Done { run_one(rt, alloc, db, unit, script) },
        move || -> Done { abreast(rt, alloc, db, units, scripts) },
    );
    Some(one? + others?)
}

// Statements a second, by the clock.
fn timed<R: Threads + Wait + Sync>(rt: &HostRuntime, threads: &R, given: Texts) -> Option<()> {
    let alloc = rt.alloc();
    let count = given.scripts.len() as u8;
    let (db, units) = Database::make(alloc, given.schema, given.capacity, count).ok()?;
    let began = Instant::now(rt).ok()?;
    let done = abreast(threads, alloc, &db, units, given.scripts.as_slice())?;
    let micros = began.elapsed(rt).ok()?.as_micros() as u64;
    let pace = done as u64 * 1_000_000 / micros.max(1);
    println!(rt; "{count} threads: {done} statements, {pace} a second").ok()
}

// The first word says how the scripts are run.
pub fn pace<R: Threads + Wait + Sync>(rt: &HostRuntime, threads: &R, words: &[String]) -> Option<()> {
    let given = texts(rt, words.get(1..)?)?;
    let done = match words.get(0)?.as_str() {
        "read" => read(rt.alloc(), given)?,
        "step" => step(rt.alloc(), given)?,
        "execute" => execute(rt.alloc(), given)?,
        "abreast" => return timed(rt, threads, given),
        _ => return None,
    };
    println!(rt; "{done} statements").ok()
}
