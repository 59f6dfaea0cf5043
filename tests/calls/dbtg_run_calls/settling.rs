//! Units make statements in turn, also while one of them is held behind its ticket, and the database is settled. What is expected
//! stands in docs/profile: the statuses in statements.md, the areas of a DELETE in deletion.md, REMOVE in statements.md.

use super::shop::{DELETE, FIRST, REMOVE, SECOND, SHOP, ends_with_ticket, is_audited, is_done, members, script};
use dbtg_run::{Database, Fault, Gate, Outcome, Point, RunUnit, settle};
use dbtg_schema::Schema;
use std::alloc::Global;
use std::cell::{Cell, RefCell};
use std::test::*;

// Makes the statements of a script with this many tries each; how many were done with status 0000.
fn make_all(alloc: Global, db: &Database, unit: &mut RunUnit, text: &[u8], tries: u32) -> Option<usize> {
    let mut done = 0;
    for statement in &script(alloc, db, text)? {
        if is_done(&db.execute(alloc, unit, statement, tries)) {
            done += 1;
        }
    }
    Some(done)
}

// While the first unit is behind its ticket, the second makes a DELETE, which wants areas alone, and a REMOVE.
#[derive(Drop)]
struct Meeting<'a> {
    alloc: Global,
    db: &'a Database,
    second: RefCell<RunUnit>,
    delete_was_busy: Cell<bool>,
    remove_was_done: Cell<bool>,
    answered: Cell<usize>,
}

impl Meeting<'_> {
    fn outcome(&self, text: &[u8]) -> Option<Outcome> {
        let statements = script(self.alloc, self.db, text)?;
        let mut second = self.second.try_borrow_mut().ok()?;
        Some(self.db.execute(self.alloc, &mut second, statements.get(0)?, 100))
    }
}

impl Gate for Meeting<'_> {
    fn pass(&self, _unit: u8, _ticket: u64, point: Point) {
        match point {
            Point::Ticketed => {
                let deleted = self.outcome(DELETE);
                self.delete_was_busy.set(matches!(deleted, Some(Outcome::Busy)));
                let removed = self.outcome(REMOVE);
                self.remove_was_done.set(matches!(removed, Some(it) if is_done(&it)));
            }
            Point::Answered => self.answered.set(self.answered.get() + 1),
        }
    }
}

// A database on SHOP whose two units have made their scripts.
fn begun(alloc: Global) -> Option<(Database, RunUnit, RunUnit)> {
    let schema = Schema::read(alloc, SHOP).ok()?;
    let (db, mut units) = Database::make(alloc, schema, 10, 2).ok()?;
    let (mut second, mut first) = (units.pop()?, units.pop()?);
    let firsts = make_all(alloc, &db, &mut first, FIRST, 8)?;
    let seconds = make_all(alloc, &db, &mut second, SECOND, 8)?;
    if (firsts, seconds) == (9, 3) { Some((db, first, second)) } else { None }
}

// The database and the units again, where a unit is missing.
fn without_a_unit(alloc: Global, db: Database, units: Vec<RunUnit>) -> Option<(Database, Vec<RunUnit>)> {
    match settle(alloc, db, units) {
        Err(back) => match back.fault {
            Fault::Missing => Some((back.db, back.units)),
            Fault::NoMemory => None,
        },
        Ok(_) => None,
    }
}

// What the meeting showed: the first's REMOVE done, the second's DELETE busy and its REMOVE done, and how many were answered.
type Met = (bool, bool, bool, usize);

// The two units meet, and come back.
fn met(alloc: Global) -> Option<(Met, Database, RunUnit, RunUnit)> {
    let (db, mut first, second) = begun(alloc)?;
    let remove = script(alloc, &db, REMOVE)?;
    let meeting = Meeting {
        alloc,
        db: &db,
        second: RefCell::new(second),
        delete_was_busy: Cell::new(false),
        remove_was_done: Cell::new(false),
        answered: Cell::new(0),
    };
    let outcome = db.execute_at(alloc, &mut first, remove.first()?, 8, &meeting);
    let Meeting { second, delete_was_busy, remove_was_done, answered, .. } = meeting;
    let met = (is_done(&outcome), delete_was_busy.get(), remove_was_done.get(), answered.get());
    Some((met, db, first, second.into_inner()))
}

#[test]
fn two_meet(rt: HostRuntime) {
    let Some((met, _, _, _)) = met(rt.alloc()) else {
        panic!(rt; "the units did not meet");
    };
    assert_eq!(rt; met, (true, true, true, 1));
}

// What a settled meeting shows: the members of HAS and of LINES, whether the tickets are in order, and the audit's verdict.
type Shown = (Option<usize>, Option<usize>, bool, bool);

// The first unit alone doesn't settle the database, but the two do.
fn shown(alloc: Global) -> Option<Shown> {
    let (_, db, first, second) = met(alloc)?;
    let mut units = Vec::new(alloc);
    units.push(first).ok()?;
    let (db, mut units) = without_a_unit(alloc, db, units)?;
    units.push(second).ok()?;
    let settled = settle(alloc, db, units).ok()?;
    Some((members(&settled, 0), members(&settled, 1), ends_with_ticket(&settled, 13), is_audited(alloc, &settled, 10, 2)))
}

#[test]
fn a_meeting_is_settled(rt: HostRuntime) {
    assert_eq!(rt; shown(rt.alloc()), Some((Some(2), Some(0), true, true)));
}
