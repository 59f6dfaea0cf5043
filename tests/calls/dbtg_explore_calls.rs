//! Explores programs that meet, as a caller does, with memory to spare.

use dbtg_explore::{Explored, Meeting, explore};
use dbtg_program::{End, Program, read_program};
use dbtg_schema::Schema;
use dbtg_states::Watch;
use std::test::*;

mod wishes;

/// Is told nothing.
struct Unwatched;

impl Watch for Unwatched {
    fn seen(&self, _: usize) {}
}

/// One area, and nothing else that the programs name.
const HOUSE: &[u8] =
    b"SCHEMA NAME IS HOUSE.\nAREA NAME IS MAIN.\nRECORD NAME IS ROOM; WITHIN MAIN.\n  02 NUMBER PICTURE IS 9(4).\n";

/// Opens the area, and keeps it open.
const OPENS: &[u8] = b"OPEN AREA MAIN USAGE-MODE IS EXCLUSIVE UPDATE\n";

/// Tries to open the area until it can, and closes it.
const TRIES: &[u8] =
    b"AGAIN.\nOPEN AREA MAIN USAGE-MODE IS EXCLUSIVE UPDATE\nIF STATUS = 0129 GO TO AGAIN\nCLOSE AREA MAIN\n";

/// Tries as many times as it can count.
const COUNTS: &[u8] =
    b"01 TRIES PIC 9(4)\nAGAIN.\nADD 1 TO TRIES\nOPEN AREA MAIN USAGE-MODE IS EXCLUSIVE UPDATE\nIF STATUS = 0129 GO TO AGAIN\nCLOSE AREA MAIN\n";

/// Stores a record and changes it for ever.
const CHANGES: &[u8] =
    b"OPEN AREA MAIN USAGE-MODE IS UPDATE\nSTORE ROOM NUMBER = 1\nAGAIN.\nMODIFY ROOM NUMBER = 1\nGO TO AGAIN\n";

/// Opens the area, which it wants to be refused.
const ASSERTS: &[u8] =
    b"OPEN AREA MAIN USAGE-MODE IS EXCLUSIVE UPDATE\nASSERT STATUS = 0129\n";

/// The programs of these texts.
fn programs_of(rt: &HostRuntime, schema: &Schema, texts: &[&[u8]]) -> Option<Vec<Program>> {
    let mut programs = Vec::new(rt.alloc());
    for text in texts {
        programs.push(read_program(rt.alloc(), schema, text).ok()?).ok()?;
    }
    Some(programs)
}

/// They meet, and have made nothing before.
fn meeting<'a>(schema: &'a Schema, programs: &'a [Program]) -> Meeting<'a> {
    Meeting { schema, capacity: 10, programs, begun: &[], last_waits: false }
}

/// What comes of these programs; none where memory is refused or there are more states than the limit.
fn explored(rt: &HostRuntime, texts: &[&[u8]], limit: usize) -> Option<Explored> {
    let schema = Schema::read(rt.alloc(), HOUSE).ok()?;
    let programs = programs_of(rt, &schema, texts)?;
    explore(rt.alloc(), &Unwatched, &meeting(&schema, programs.as_slice()), limit).ok()
}

// Unit 2 tries for ever where unit 1 was first; unit 1 is refused where unit 2 was, and has ended.
#[test]
fn one_tries_in_vain(rt: HostRuntime) {
    let Some(all) = explored(&rt, &[OPENS, TRIES], 100) else {
        panic!(rt; "not explored")
    };
    assert!(rt; all.states == 7);
    assert!(rt; all.results.len() == 2);
    assert!(rt; all.results.as_slice()[0].as_slice() == [2, 1, 2].as_slice());
    assert!(rt; all.results.as_slice()[1].as_slice() == [2, 2, 1].as_slice());
    assert!(rt; all.failures.is_empty());
    let Some(endless) = all.endless else {
        panic!(rt; "no way round")
    };
    assert!(rt; endless.turns.as_slice() == [1].as_slice());
    assert!(rt; endless.round.as_slice() == [2].as_slice());
}

// Each lets the other go on, so neither can try for ever.
#[test]
fn nobody_tries_in_vain(rt: HostRuntime) {
    let Some(all) = explored(&rt, &[TRIES, TRIES], 100) else {
        panic!(rt; "not explored")
    };
    assert!(rt; all.results.len() == 1);
    assert!(rt; all.results.as_slice()[0].as_slice() == [1, 1, 2, 2].as_slice());
    assert!(rt; all.endless.is_none());
}

// Each try is a new state.
#[test]
fn tries_that_are_counted_come_to_the_limit(rt: HostRuntime) {
    assert!(rt; explored(&rt, &[OPENS, COUNTS], 200).is_none());
    assert!(rt; explored(&rt, &[COUNTS], 3).is_some());
    assert!(rt; explored(&rt, &[COUNTS], 2).is_none());
}

// A change after which a record has another version, and nothing else is new, leads to no new state.
#[test]
fn a_version_makes_no_new_state(rt: HostRuntime) {
    let Some(all) = explored(&rt, &[CHANGES], 100) else {
        panic!(rt; "not explored")
    };
    assert!(rt; all.states == 3);
    assert!(rt; all.results.is_empty());
    let Some(endless) = all.endless else {
        panic!(rt; "no way round")
    };
    assert!(rt; endless.turns.as_slice() == [1, 1].as_slice());
    assert!(rt; endless.round.as_slice() == [1].as_slice());
}

// Unit 1 fails where it is first, and not where unit 2 is; where it fails unit 2 tries for ever.
#[test]
fn one_fails_although_another_goes_on(rt: HostRuntime) {
    let Some(all) = explored(&rt, &[ASSERTS, TRIES], 100) else {
        panic!(rt; "not explored")
    };
    assert!(rt; all.failures.len() == 1);
    let first = &all.failures.as_slice()[0];
    assert!(rt; first.failure.unit == 1);
    assert!(rt; first.failure.how == End::Assert(2));
    assert!(rt; first.turns.as_slice() == [1].as_slice());
    assert!(rt; all.endless.is_some());
}
