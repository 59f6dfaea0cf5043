//! Two units on threads of their own are held by a gate, so that the second's REMOVE ends between the ticket and the end of the first's.
//! tests/threads makes the same meeting. What is expected stands in docs/profile: REMOVE in statements.md.

use super::shop::{FIRST, REMOVE, SECOND, SHOP, ends_with_ticket, is_audited, members, script};
use dbtg_run::{Database, Gate, Point, RunUnit, Settled, run_units};
use dbtg_schema::{Row, Schema};
use dbtg_unit::{Statement, Status};
use std::alloc::Global;
use std::sync::Wait;
use std::sync::atomic::{AtomicBool, AtomicU64, Ordering};
use std::thread::{self, Threads};

// The turns that a unit waits for its partner, and no longer; few where the partner never comes.
const TURNS: u32 = 10_000_000;
const FEW_TURNS: u32 = 1000;

// Holds unit 2 at its second answer until unit 1 has nine, and unit 1 at its tenth ticket until unit 2 has four answers.
#[derive(Drop)]
struct Turnstile {
    first_turns: u32,
    first_tickets: AtomicU64,
    first_answers: AtomicU64,
    second_answers: AtomicU64,
    somebody_is_late: AtomicBool,
}

impl Turnstile {
    fn new(first_turns: u32) -> Self {
        Self {
            first_turns,
            first_tickets: AtomicU64::new(0),
            first_answers: AtomicU64::new(0),
            second_answers: AtomicU64::new(0),
            somebody_is_late: AtomicBool::new(false),
        }
    }

    fn wait_for(&self, turns: u32, counter: &AtomicU64, count: u64) {
        for _ in 0..turns {
            if counter.load(Ordering::SeqCst) >= count {
                return;
            }
            thread::yield_now();
        }
        self.somebody_is_late.store(true, Ordering::SeqCst);
    }
}

impl Gate for Turnstile {
    fn pass(&self, unit: u8, _ticket: u64, point: Point) {
        match (unit, point) {
            (1, Point::Ticketed) => {
                if self.first_tickets.fetch_add(1, Ordering::SeqCst) == 9 {
                    self.wait_for(self.first_turns, &self.second_answers, 4);
                }
            }
            (1, Point::Answered) => {
                self.first_answers.fetch_add(1, Ordering::SeqCst);
            }
            (_, Point::Answered) => {
                if self.second_answers.fetch_add(1, Ordering::SeqCst) == 1 {
                    self.wait_for(TURNS, &self.first_answers, 9);
                }
            }
            (_, Point::Ticketed) => {}
        }
    }
}

// A database on SHOP with this many units.
pub fn made(alloc: Global, units: u8) -> Option<(Database, Vec<RunUnit>)> {
    Database::make(alloc, Schema::read(alloc, SHOP).ok()?, 10, units).ok()
}

// The script of these texts, one behind the other.
pub fn whole(alloc: Global, db: &Database, texts: &[&[u8]]) -> Option<Row<Statement>> {
    let mut all = Vec::new(alloc);
    for text in texts {
        all.extend_from_slice(text).ok()?;
    }
    Some(Row::of(script(alloc, db, all.as_slice())?))
}

fn all_done(settled: &Settled) -> bool {
    settled.history.as_slice().iter().all(|entry| entry.answer.status == Status::Done)
}

// What a meeting shows: whether a unit waited in vain, whether all was done, the members of HAS and of LINES, whether the tickets are
// in order, and the audit's verdict.
pub type Shown = (bool, bool, Option<usize>, Option<usize>, bool, bool);

pub const AS_IT_MUST: Shown = (false, true, Some(2), Some(0), true, true);

// What is shown where the second unit makes no REMOVE: the first waits for its fourth answer in vain, and all else is done.
pub const IN_VAIN: Shown = (true, true, Some(2), Some(1), true, true);

// The two units meet, and the database is settled.
pub fn meeting<R: Threads + Wait + Sync>(rt: &R, alloc: Global) -> Option<Shown> {
    meeting_of(rt, alloc, TURNS, &[SECOND, REMOVE], 13)
}

// The first unit waits at its ticket for a partner that never comes there.
pub fn waiting_in_vain<R: Threads + Wait + Sync>(rt: &R, alloc: Global) -> Option<Shown> {
    meeting_of(rt, alloc, FEW_TURNS, &[SECOND], 12)
}

fn meeting_of<R: Threads + Wait + Sync>(rt: &R, alloc: Global, turns: u32, seconds: &[&[u8]], last: u64) -> Option<Shown> {
    let (db, units) = made(alloc, 2)?;
    let first = whole(alloc, &db, &[FIRST, REMOVE])?;
    let second = whole(alloc, &db, seconds)?;
    let turnstile = Turnstile::new(turns);
    let settled = run_units(rt, alloc, db, units, &[first, second], &turnstile).ok()?;
    let late = turnstile.somebody_is_late.load(Ordering::SeqCst);
    Some((
        late,
        all_done(&settled),
        members(&settled, 0),
        members(&settled, 1),
        ends_with_ticket(&settled, last),
        is_audited(alloc, &settled, 10, 2),
    ))
}
