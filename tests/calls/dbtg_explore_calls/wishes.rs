//! Judges wishes for the status of a statement, by the area that two units want alone.

use super::{COUNTS, HOUSE, OPENS, TRIES, Unwatched, meeting, programs_of};
use dbtg_explore::{Wish, broken_turns, is_there};
use dbtg_schema::{Row, Schema};
use dbtg_states::Stop;
use std::test::*;

/// Whether there is the statement, and the first turns that break the wish, or why the search stops; nothing where memory is refused.
#[derive(Drop)]
struct Judged {
    there: bool,
    broken: Result<Option<Row<u8>>, Stop>,
}

fn judged(rt: &HostRuntime, texts: &[&[u8]], wish: Wish, limit: usize) -> Option<Judged> {
    let schema = Schema::read(rt.alloc(), HOUSE).ok()?;
    let programs = programs_of(rt, &schema, texts)?;
    let meeting = meeting(&schema, programs.as_slice());
    let there = is_there(&meeting, wish);
    let broken = broken_turns(rt.alloc(), &Unwatched, &meeting, wish, limit);
    Some(Judged { there, broken })
}

/// Is this what breaks the wish first, for a statement that there is?
fn is_broken_by(rt: &HostRuntime, texts: &[&[u8]], wish: Wish, limit: usize, turns: &[u8]) -> bool {
    match judged(rt, texts, wish, limit) {
        Some(Judged { there: true, broken: Ok(Some(found)) }) => found.as_slice() == turns,
        _ => false,
    }
}

/// Does no order break the wish, for a statement that there is?
fn holds(rt: &HostRuntime, texts: &[&[u8]], wish: Wish) -> bool {
    match judged(rt, texts, wish, 100) {
        Some(Judged { there: true, broken: Ok(None) }) => true,
        _ => false,
    }
}

fn is_no_statement(rt: &HostRuntime, texts: &[&[u8]], wish: Wish) -> bool {
    match judged(rt, texts, wish, 100) {
        Some(Judged { there: false, broken: Ok(None) }) => true,
        _ => false,
    }
}

fn stops(rt: &HostRuntime, texts: &[&[u8]], wish: Wish, limit: usize) -> bool {
    match judged(rt, texts, wish, limit) {
        Some(Judged { broken: Err(Stop::States), .. }) => true,
        _ => false,
    }
}

fn never(unit: u8, line: u64, status: u16) -> Wish {
    Wish { unit, line, status, never: true }
}

fn always(unit: u8, line: u64, status: u16) -> Wish {
    Wish { unit, line, status, never: false }
}

// Unit 2 is refused where unit 1 was first, whether or not it comes to its end then; unit 1 where unit 2 was.
#[test]
fn one_is_refused_where_another_was_first(rt: HostRuntime) {
    assert!(rt; is_broken_by(&rt, &[OPENS, TRIES], never(2, 2, 129), 100, &[1, 2]));
    assert!(rt; is_broken_by(&rt, &[OPENS, TRIES], always(2, 2, 0), 100, &[1, 2]));
    assert!(rt; is_broken_by(&rt, &[OPENS, TRIES], never(2, 2, 0), 100, &[2]));
    assert!(rt; is_broken_by(&rt, &[OPENS, TRIES], always(1, 1, 0), 100, &[2, 1]));
    assert!(rt; holds(&rt, &[OPENS, TRIES], always(2, 4, 0)));
    assert!(rt; holds(&rt, &[OPENS, TRIES], never(1, 1, 511)));
}

// A line that has no statement; a unit that has no program.
#[test]
fn what_is_no_statement_is_not_there(rt: HostRuntime) {
    assert!(rt; is_no_statement(&rt, &[OPENS, TRIES], never(2, 1, 0)));
    assert!(rt; is_no_statement(&rt, &[OPENS, TRIES], never(2, 3, 0)));
    assert!(rt; is_no_statement(&rt, &[OPENS, TRIES], never(2, 5, 0)));
    assert!(rt; is_no_statement(&rt, &[OPENS, TRIES], never(0, 1, 0)));
    assert!(rt; is_no_statement(&rt, &[OPENS, TRIES], never(3, 1, 0)));
}

// Three states are found from the first: where they are over the limit the wish is judged behind each of them all the same.
#[test]
fn a_wish_is_judged_behind_all_that_are_found(rt: HostRuntime) {
    assert!(rt; is_broken_by(&rt, &[OPENS, COUNTS], never(2, 4, 129), 1, &[1, 2]));
    assert!(rt; stops(&rt, &[OPENS, COUNTS], never(2, 6, 511), 100));
    assert!(rt; stops(&rt, &[OPENS, COUNTS], never(2, 4, 129), 0));
}
