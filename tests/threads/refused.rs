//! Makes calls of `dbtg_run`, and each that tells of want of memory once more: so a run of which one growth of memory was refused ends
//! as one of which none was. Prints what comes of it, and on standard error the call that met the refusal, or how a call was not as it
//! must be. See tests/program/refuse-threads.

use super::shop::{DELETE, FIRST, SECOND, SHOP, is_done};
use super::texts::settled_text;
use dbtg_run::{Database, Fault, NoGate, Outcome, RunUnit, Settled, Unsettled, run_units, settle};
use dbtg_schema::{Row, Schema};
use dbtg_script::{answers_text, image_text, push_run, read_script, units_text};
use dbtg_step::run_serial;
use dbtg_unit::{Statement, Unit};
use std::alloc::{AllocError, Global};
use std::io::{self, Write};
use std::slice;
use std::sync::Wait;
use std::thread::Threads;

const CAPACITY: u16 = 3;

const MODIFY: &[u8] = b"MODIFY ITEM QTY = 3\n";

// What a unit makes on a thread: changes of each kind.
const SCRIPT: &[u8] = b"OPEN AREA MAIN USAGE-MODE IS UPDATE\nOPEN AREA SIDE USAGE-MODE IS UPDATE\nSTORE CUSTOMER CNO = 1\nSTORE ORDR ONO = 1\nSTORE ITEM PART = \"A\"\nKEEP\nMODIFY ITEM QTY = 3\nINSERT INTO WATCH\nGET\nREMOVE FROM LINES\nFIND KEY CUSTOMER:1\nDELETE ALL\n";

fn tell(rt: &HostRuntime, call: &str) {
    let _ = eprintln!(rt; "{call}");
}

// What a call gives, if need be when it is made again.
fn twice<T: Drop, F: Fn() -> Result<T, AllocError>>(rt: &HostRuntime, call: &str, make: &F) -> Option<T> {
    for _ in 0..2 {
        match make() {
            Ok(it) => return Some(it),
            Err(_) => tell(rt, call),
        }
    }
    None
}

// The readers' faults here are want of memory alone, since the texts have none.
fn schema(rt: &HostRuntime) -> Option<Schema> {
    twice(rt, "Schema::read", &|| -> Result<Schema, AllocError> {
        Schema::read(rt.alloc(), SHOP).map_err(|_| AllocError)
    })
}

fn statements(rt: &HostRuntime, schema: &Schema, text: &[u8]) -> Option<Vec<Statement>> {
    twice(rt, "read_script", &|| -> Result<Vec<Statement>, AllocError> {
        read_script(rt.alloc(), schema, text).map_err(|_| AllocError)
    })
}

fn made(rt: &HostRuntime, units: u8) -> Option<(Database, Vec<RunUnit>)> {
    for _ in 0..2 {
        match Database::make(rt.alloc(), schema(rt)?, CAPACITY, units) {
            Ok(made) => return Some(made),
            Err(_) => tell(rt, "Database::make"),
        }
    }
    None
}

// All that a caller sees of a unit.
fn unit_text(alloc: Global, db: &Database, unit: &RunUnit) -> Result<Vec<u8>, AllocError> {
    let shown = Unit {
        number: unit.number(),
        currency: unit.currency().copy(alloc)?,
        modes: Row::of(Vec::new(alloc)),
        kept: unit.kept().copy(alloc)?,
    };
    let mut out = answers_text(alloc, &db.schema, unit.journal())?;
    out.extend_from_slice(units_text(alloc, &db.schema, slice::from_ref(&shown))?.as_slice())?;
    Ok(out)
}

fn shown(rt: &HostRuntime, db: &Database, unit: &RunUnit) -> Option<Vec<u8>> {
    twice(rt, "units_text", &|| -> Result<Vec<u8>, AllocError> { unit_text(rt.alloc(), db, unit) })
}

// Whether a growth of a statement was refused.
#[derive(Clone, Copy, PartialEq, Eq)]
enum Refused {
    No,
    Yes,
}

// A statement that is done, or that found no memory: then the unit is as it was.
fn try_once(rt: &HostRuntime, db: &Database, unit: &mut RunUnit, statement: &Statement, tries: u32) -> Option<Refused> {
    let before = shown(rt, db, unit)?;
    let outcome = db.execute(rt.alloc(), unit, statement, tries);
    if is_done(&outcome) {
        return Some(Refused::No);
    }
    if !matches!(outcome, Outcome::NoMemory) {
        tell(rt, "a statement that is not done");
        return None;
    }
    tell(rt, "Database::execute");
    if shown(rt, db, unit)?.as_slice() != before.as_slice() {
        tell(rt, "a statement without memory that changes its unit");
    }
    Some(Refused::Yes)
}

fn execute(rt: &HostRuntime, db: &Database, unit: &mut RunUnit, statement: &Statement, tries: u32) -> Option<()> {
    match try_once(rt, db, unit, statement, tries)? {
        Refused::No => Some(()),
        Refused::Yes => match try_once(rt, db, unit, statement, tries)? {
            Refused::No => Some(()),
            Refused::Yes => None,
        },
    }
}

fn execute_all(rt: &HostRuntime, db: &Database, unit: &mut RunUnit, text: &[u8]) -> Option<()> {
    for statement in &statements(rt, &db.schema, text)? {
        execute(rt, db, unit, statement, 8)?;
    }
    Some(())
}

// The first unit makes a MODIFY, and the second a DELETE with no tries, which wants the same areas alone. Where the first finds no memory
// the second comes before it tries again: so nothing of the first may be in its way.
fn modify_and_delete(rt: &HostRuntime, db: &Database, first: &mut RunUnit, second: &mut RunUnit) -> Option<()> {
    let modify = statements(rt, &db.schema, MODIFY)?;
    let delete = statements(rt, &db.schema, DELETE)?;
    let refused = try_once(rt, db, first, modify.first()?, 8)?;
    execute(rt, db, second, delete.first()?, 0)?;
    match refused {
        Refused::No => Some(()),
        Refused::Yes => execute(rt, db, first, modify.first()?, 8),
    }
}

// Both units, one after the other.
fn both_shown(rt: &HostRuntime, db: &Database, units: &[RunUnit]) -> Option<(Vec<u8>, Vec<u8>)> {
    Some((shown(rt, db, units.first()?)?, shown(rt, db, units.last()?)?))
}

fn is_same(one: &(Vec<u8>, Vec<u8>), other: &(Vec<u8>, Vec<u8>)) -> bool {
    one.0.as_slice() == other.0.as_slice() && one.1.as_slice() == other.1.as_slice()
}

// The database is settled; where memory is refused it comes back with its units as they were, and is settled then.
fn settled(rt: &HostRuntime, db: Database, units: Vec<RunUnit>) -> Option<Settled> {
    let before = both_shown(rt, &db, units.as_slice())?;
    let back = match settle(rt.alloc(), db, units) {
        Ok(settled) => return Some(settled),
        Err(back) => back,
    };
    tell(rt, "settle");
    let is_as_before = is_same(&both_shown(rt, &back.db, back.units.as_slice())?, &before);
    if back.fault != Fault::NoMemory || back.units.len() != 2 || !is_as_before {
        tell(rt, "units that come back otherwise");
    }
    settle(rt.alloc(), back.db, back.units).ok()
}

// The image and the units: the order of the MODIFY and the DELETE is not the same each time.
fn ended_text(alloc: Global, settled: &Settled) -> Result<Vec<u8>, AllocError> {
    let mut out = image_text(alloc, &settled.schema, &settled.image)?;
    out.extend_from_slice(units_text(alloc, &settled.schema, settled.units.as_slice())?.as_slice())?;
    Ok(out)
}

// Two units on one thread.
fn in_turn(rt: &HostRuntime) -> Option<Vec<u8>> {
    let (db, mut units) = made(rt, 2)?;
    let [first, second] = units.as_mut_slice() else {
        return None;
    };
    execute_all(rt, &db, first, FIRST)?;
    execute_all(rt, &db, second, SECOND)?;
    modify_and_delete(rt, &db, first, second)?;
    let settled = settled(rt, db, units)?;
    twice(rt, "image_text", &|| -> Result<Vec<u8>, AllocError> { ended_text(rt.alloc(), &settled) })
}

// What follows this many lines.
fn behind(text: &[u8], lines: usize) -> Option<&[u8]> {
    let mut rest = text;
    for _ in 0..lines {
        let end = rest.iter().position(|byte| *byte == b'\n')?;
        rest = rest.get(end + 1..)?;
    }
    Some(rest)
}

// The unit goes on behind the statements that it has made.
fn go_on<R: Threads + Wait + Sync>(rt: &HostRuntime, threads: &R, back: Unsettled) -> Option<Settled> {
    let Unsettled { fault, db, units } = back;
    if fault != Fault::NoMemory || units.len() != 1 {
        tell(rt, "a run that comes back otherwise");
    }
    let left = behind(SCRIPT, units.first()?.journal().len())?;
    let script = Row::of(statements(rt, &db.schema, left)?);
    run_units(threads, rt.alloc(), db, units, &[script], &NoGate).ok()
}

// One unit on a thread of its own.
fn on_a_thread<R: Threads + Wait + Sync>(rt: &HostRuntime, threads: &R) -> Option<Vec<u8>> {
    let (db, units) = made(rt, 1)?;
    let script = Row::of(statements(rt, &db.schema, SCRIPT)?);
    let settled = match run_units(threads, rt.alloc(), db, units, &[script], &NoGate) {
        Ok(settled) => settled,
        Err(back) => {
            tell(rt, "run_units");
            go_on(rt, threads, back)?
        }
    };
    twice(rt, "push_run", &|| -> Result<Vec<u8>, AllocError> { settled_text(rt.alloc(), &settled) })
}

fn core_text(alloc: Global, schema: &Schema, script: Vec<Statement>) -> Result<Vec<u8>, AllocError> {
    let mut scripts = Row::of(Vec::new(alloc));
    scripts.push(Row::of(script))?;
    let run = run_serial(alloc, schema, CAPACITY, scripts)?;
    let mut out = Vec::new(alloc);
    push_run(alloc, &mut out, schema, run.history.as_slice(), &run.image, run.units.as_slice())?;
    Ok(out)
}

// What the core makes of the script of the thread.
fn on_the_core(rt: &HostRuntime) -> Option<Vec<u8>> {
    let schema = schema(rt)?;
    for _ in 0..2 {
        match core_text(rt.alloc(), &schema, statements(rt, &schema, SCRIPT)?) {
            Ok(text) => return Some(text),
            Err(_) => tell(rt, "run_serial"),
        }
    }
    None
}

pub fn refused<R: Threads + Wait + Sync>(rt: &HostRuntime, threads: &R) -> Option<()> {
    let in_turn = in_turn(rt)?;
    let on_a_thread = on_a_thread(rt, threads)?;
    if on_the_core(rt)?.as_slice() != on_a_thread.as_slice() {
        tell(rt, "a thread that comes to something else");
    }
    io::writer(rt).write_all(in_turn.as_slice()).ok()?;
    io::writer(rt).write_all(on_a_thread.as_slice()).ok()
}
