//! A gate looks at what it is told and at what the unit holds there, and at the tries that a statement uses. What is expected stands in
//! docs/on-threads.md: the two points of a gate, and what uses a try; and in docs/profile: the areas of a DELETE in deletion.md.

use super::shop::{DELETE, FIRST, REMOVE, SECOND, SHOP, is_done, script};
use dbtg_run::{Database, Gate, Outcome, Point, RunUnit};
use dbtg_schema::Schema;
use std::alloc::Global;
use std::cell::{Cell, RefCell};
use std::sync::atomic::{AtomicBool, Ordering};
use std::test::*;
use std::thread::{self, Threads, join};

fn make(alloc: Global, db: &Database, unit: &mut RunUnit, text: &[u8], tries: u32) -> Option<Outcome> {
    let statements = script(alloc, db, text)?;
    let (last, others) = statements.as_slice().split_last()?;
    for statement in others {
        if !is_done(&db.execute(alloc, unit, statement, 8)) {
            return None;
        }
    }
    Some(db.execute(alloc, unit, last, tries))
}

// The second unit takes the first one's item to another order.
const MOVE: &[u8] = b"OPEN AREA MAIN USAGE-MODE IS UPDATE\nOPEN AREA SIDE USAGE-MODE IS UPDATE\nFIND KEY ORDR:2\nFIND KEY ITEM:1 SUPPRESS LINES\nREMOVE FROM LINES\nINSERT INTO LINES\n";

// Two areas, and a record type in each, which no set joins.
const YARD: &[u8] =
    b"SCHEMA NAME IS YARD.\nAREA NAME IS LEFT.\nAREA NAME IS RIGHT.\nRECORD NAME IS CRATE; WITHIN LEFT.\n  02 N PICTURE IS 9(4).\nRECORD NAME IS BARREL; WITHIN RIGHT.\n  02 N PICTURE IS 9(4).\n";

// Both units of the yard open all of it, and the first stores a crate.
const OPENS: &[u8] = b"OPEN AREA LEFT USAGE-MODE IS UPDATE\nOPEN AREA RIGHT USAGE-MODE IS UPDATE\n";
const STORES: &[u8] = b"OPEN AREA LEFT USAGE-MODE IS UPDATE\nOPEN AREA RIGHT USAGE-MODE IS UPDATE\nSTORE CRATE N = 1\n";

// A database, and two units of it.
type Begun = (Database, RunUnit, RunUnit);

// A database on this schema with two units that have made these scripts.
fn begun_on(alloc: Global, schema: &[u8], first_text: &[u8], second_text: &[u8]) -> Option<Begun> {
    let (db, mut units) = Database::make(alloc, Schema::read(alloc, schema).ok()?, 10, 2).ok()?;
    let (mut second, mut first) = (units.pop()?, units.pop()?);
    make(alloc, &db, &mut first, first_text, 8)?;
    make(alloc, &db, &mut second, second_text, 8)?;
    Some((db, first, second))
}

// The same on SHOP, where the second's script is this one.
fn begun(alloc: Global, second_text: &[u8]) -> Option<Begun> {
    begun_on(alloc, SHOP, FIRST, second_text)
}

// What a gate was told: whose statement, its ticket, and whether it was the ticket's point.
type Told = (u8, u64, bool);

// Notes what it is told, and lets the second unit make a statement at each point.
#[derive(Drop)]
struct Watch<'a> {
    alloc: Global,
    db: &'a Database,
    second: RefCell<RunUnit>,
    text: &'a [u8],
    told: [Cell<Option<Told>>; 2],
    done: [Cell<bool>; 2],
}

impl Watch<'_> {
    fn second_is_done(&self) -> Option<bool> {
        let statements = script(self.alloc, self.db, self.text)?;
        let mut second = self.second.try_borrow_mut().ok()?;
        Some(is_done(&self.db.execute(self.alloc, &mut second, statements.get(0)?, 0)))
    }
}

impl Gate for Watch<'_> {
    fn pass(&self, unit: u8, ticket: u64, point: Point) {
        let is_ticketed = matches!(point, Point::Ticketed);
        let place = if is_ticketed { 0 } else { 1 };
        self.told[place].set(Some((unit, ticket, is_ticketed)));
        self.done[place].set(self.second_is_done() == Some(true));
    }
}

// What the gate was told at both points, whether the second unit's statement was done there, and the ticket that the first then has.
type Seen = (Option<Told>, Option<Told>, bool, bool, u64);

// The first unit makes a statement, and the second one of its own at each of its points.
fn seen(alloc: Global, begun: Option<Begun>, first_text: &[u8], second_text: &[u8]) -> Option<Seen> {
    let (db, mut first, second) = begun?;
    let statements = script(alloc, &db, first_text)?;
    let watch = Watch {
        alloc,
        db: &db,
        second: RefCell::new(second),
        text: second_text,
        told: [Cell::new(None), Cell::new(None)],
        done: [Cell::new(false), Cell::new(false)],
    };
    db.execute_at(alloc, &mut first, statements.first()?, 8, &watch);
    let ticket = first.journal().last()?.ticket;
    Some((watch.told[0].get(), watch.told[1].get(), watch.done[0].get(), watch.done[1].get(), ticket))
}

// Twelve statements came before. A DELETE wants its areas alone: it finds them taken at the ticket, and free behind the last latch.
#[test]
fn a_gate_is_told_the_ticket_and_nothing_is_held_at_the_answer(rt: HostRuntime) {
    let seen = seen(rt.alloc(), begun(rt.alloc(), SECOND), REMOVE, DELETE);
    assert_eq!(rt; seen, Some((Some((1, 12, true)), Some((1, 12, false)), false, true, 12)));
}

// Whether the second unit's statement was done at the ticket of the first, and whether at its answer.
fn done(seen: Option<Seen>) -> Option<(bool, bool)> {
    let (_, _, at_the_ticket, at_the_answer, _) = seen?;
    Some((at_the_ticket, at_the_answer))
}

// GET takes the area of its record, shared. So two units have it at once.
#[test]
fn two_units_share_an_area(rt: HostRuntime) {
    let seen = seen(rt.alloc(), begun(rt.alloc(), SECOND), b"GET\n", b"GET\n");
    assert_eq!(rt; done(seen), Some((true, true)));
}

// What the second unit sees of the yard, while the first deletes the crate.
fn beside_a_delete(alloc: Global, text: &[u8]) -> Option<(bool, bool)> {
    done(seen(alloc, begun_on(alloc, YARD, STORES, OPENS), DELETE, text))
}

// The DELETE has the one area alone, and nothing of the other: who needs the other goes on meanwhile.
#[test]
fn a_unit_goes_on_in_another_area(rt: HostRuntime) {
    assert_eq!(rt; beside_a_delete(rt.alloc(), b"STORE BARREL N = 1\n"), Some((true, true)));
    assert_eq!(rt; beside_a_delete(rt.alloc(), b"STORE CRATE N = 2\n"), Some((false, true)));
}

// What becomes of the first unit's REMOVE with this many tries, made as often as is said. Its guess of the owner is wrong at first, since
// the second unit has moved the item.
fn removes(alloc: Global, tries: u32, count: usize) -> Option<Outcome> {
    let (db, mut first, _) = begun(alloc, MOVE)?;
    let statements = script(alloc, &db, REMOVE)?;
    for _ in 1..count {
        db.execute(alloc, &mut first, statements.first()?, tries);
    }
    Some(db.execute(alloc, &mut first, statements.first()?, tries))
}

// A turn back uses a try. Where none is left the statement is Busy; but the owner is noted, so that it is done the next time.
#[test]
fn a_turn_back_uses_a_try_and_notes_the_owner(rt: HostRuntime) {
    assert!(rt; matches!(removes(rt.alloc(), 0, 1), Some(Outcome::Busy)));
    assert!(rt; matches!(removes(rt.alloc(), 0, 2), Some(it) if is_done(&it)));
    assert!(rt; matches!(removes(rt.alloc(), 1, 1), Some(it) if is_done(&it)));
}

// The turns that a unit waits for its partner, and those for which it is held when the partner has come.
const TURNS: u32 = 10_000_000;
const HELD: u32 = 1000;

// Holds the first unit at its ticket until the second tries for what it has, and then a little longer.
#[derive(Drop)]
struct Hold {
    is_held: AtomicBool,
    is_wanted: AtomicBool,
}

impl Hold {
    fn wait_for(flag: &AtomicBool) {
        for _ in 0..TURNS {
            if flag.load(Ordering::SeqCst) {
                return;
            }
            thread::yield_now();
        }
    }
}

impl Gate for Hold {
    fn pass(&self, _unit: u8, _ticket: u64, point: Point) {
        if let Point::Ticketed = point {
            self.is_held.store(true, Ordering::SeqCst);
            Self::wait_for(&self.is_wanted);
            for _ in 0..HELD {
                thread::yield_now();
            }
        }
    }
}

// Whether both are done: the first unit's REMOVE, held at its ticket, and the second's DELETE with this many tries, which wants its areas.
fn both_done<R: Threads + Sync>(rt: &R, alloc: Global, tries: u32) -> Option<(bool, bool)> {
    let (db, first, second) = begun(alloc, SECOND)?;
    let (remove, delete) = (script(alloc, &db, REMOVE)?, script(alloc, &db, DELETE)?);
    let hold = Hold { is_held: AtomicBool::new(false), is_wanted: AtomicBool::new(false) };
    let (db, hold, remove, delete) = (&db, &hold, remove.first()?, delete.first()?);
    Some(join(
        rt,
        move || -> bool {
            let mut first = first;
            is_done(&db.execute_at(alloc, &mut first, remove, 8, hold))
        },
        move || -> bool {
            let mut second = second;
            Hold::wait_for(&hold.is_held);
            hold.is_wanted.store(true, Ordering::SeqCst);
            is_done(&db.execute(alloc, &mut second, delete, tries))
        },
    ))
}

// All the tries that are given are used where they are wanted.
#[test]
fn a_statement_tries_as_often_as_it_may(rt: HostRuntime) {
    assert_eq!(rt; both_done(&rt, rt.alloc(), u32::MAX), Some((true, true)));
}
