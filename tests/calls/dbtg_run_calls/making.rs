//! A database is made, and its units make statements in turn. What is expected stands in docs/profile: OPEN in usage-modes.md.

use dbtg_cells::Mode;
use dbtg_run::{Database, Outcome, RunUnit};
use dbtg_schema::{AreaNo, Schema};
use dbtg_script::read_script;
use dbtg_unit::{Cause, Statement, Status};
use std::alloc::Global;
use std::test::*;

const CARD: &[u8] =
    b"SCHEMA NAME IS CARD.\nAREA NAME IS MAIN.\nRECORD NAME IS CUSTOMER; WITHIN MAIN.\n  02 CNO PICTURE IS 9(4).\n";

// A database on CARD and its units; none where it can't be made.
fn made(alloc: Global, units: u8) -> Option<(Database, Vec<RunUnit>)> {
    match Schema::read(alloc, CARD) {
        Ok(schema) => Database::make(alloc, schema, 3, units).ok(),
        Err(_) => None,
    }
}

// The number of the unit that is handed out last, and how many there are.
fn last_and_count(alloc: Global, units: u8) -> Option<(u8, usize)> {
    let (_, mut units) = made(alloc, units)?;
    let count = units.len();
    let last = units.pop()?;
    if last.journal().is_empty() {
        Some((last.number(), count))
    } else {
        None
    }
}

#[test]
fn units_are_numbered_from_1(rt: HostRuntime) {
    assert_eq!(rt; last_and_count(rt.alloc(), 1), Some((1, 1)));
    assert_eq!(rt; last_and_count(rt.alloc(), 2), Some((2, 2)));
    assert_eq!(rt; last_and_count(rt.alloc(), 8), Some((8, 8)));
}

// The ticket and the status of the unit's OPEN of MAIN in this mode; none where it isn't done.
fn opens(alloc: Global, db: &Database, unit: &mut RunUnit, mode: Mode) -> Option<(u64, Status)> {
    let open = Statement::OpenArea {
        area: AreaNo::new(0),
        mode,
    };
    match db.execute(alloc, unit, &open, 1) {
        Outcome::Done(answer) => match unit.journal().last() {
            Some(entry) => Some((entry.ticket, answer.status)),
            None => None,
        },
        _ => None,
    }
}

type Opened = Option<(u64, Status)>;

// What becomes of an OPEN of the second unit, and then of one of the first.
fn both_open(alloc: Global, second: Mode, first: Mode) -> Option<(Opened, Opened)> {
    let (db, mut units) = made(alloc, 2)?;
    let mut two = units.pop()?;
    let mut one = units.pop()?;
    let after = opens(alloc, &db, &mut two, second);
    Some((after, opens(alloc, &db, &mut one, first)))
}

#[test]
fn units_see_one_database(rt: HostRuntime) {
    let shared = both_open(rt.alloc(), Mode::Update, Mode::Update);
    assert_eq!(rt; shared, Some((Some((0, Status::Done)), Some((1, Status::Done)))));
    let alone = both_open(rt.alloc(), Mode::ExclusiveUpdate, Mode::Retrieval);
    let conflict = Status::Refused(Cause::UsageConflict);
    assert_eq!(rt; alone, Some((Some((0, Status::Done)), Some((1, conflict)))));
}

// The number of the record that a STORE answers with, and the number in the answer that the journal has.
fn stored(alloc: Global) -> Option<(u32, u32)> {
    let (db, mut units) = made(alloc, 1)?;
    let mut unit = units.pop()?;
    let text = b"OPEN AREA MAIN USAGE-MODE IS UPDATE\nSTORE CUSTOMER CNO = 7\n";
    let script = read_script(alloc, &db.schema, text).ok()?;
    let mut numbers = None;
    for statement in &script {
        numbers = match db.execute(alloc, &mut unit, statement, 1) {
            Outcome::Done(answer) => match (answer.key, &unit.journal().last()?.answer.key) {
                (Some(given), Some(noted)) => Some((given.number, noted.number)),
                _ => None,
            },
            _ => None,
        };
    }
    numbers
}

#[test]
fn a_store_answers_with_the_key_that_is_noted(rt: HostRuntime) {
    assert_eq!(rt; stored(rt.alloc()), Some((1, 1)));
}
