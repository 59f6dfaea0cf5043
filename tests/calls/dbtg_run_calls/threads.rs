//! Units make their scripts on threads of their own. What is expected stands in docs/profile: REMOVE in statements.md.

use super::meeting::{AS_IT_MUST, IN_VAIN, made, meeting, waiting_in_vain, whole};
use super::shop::{DELETE, FIRST, ends_with_ticket, is_audited};
use dbtg_run::{Fault, NoGate, Settled, Unsettled, run_units};
use std::alloc::Global;
use std::sync::Wait;
use std::test::*;
use std::thread::Threads;

#[test]
fn two_units_meet_on_threads(rt: HostRuntime) {
    assert_eq!(rt; meeting(&rt, rt.alloc()), Some(AS_IT_MUST));
}

// A gate that never sees its partner lets its unit go at its limit of turns, and tells of it.
#[test]
fn a_unit_waits_in_vain(rt: HostRuntime) {
    assert_eq!(rt; waiting_in_vain(&rt, rt.alloc()), Some(IN_VAIN));
}

// How many entries of a unit the history has.
fn entries_of(settled: &Settled, unit: u8) -> usize {
    settled.history.as_slice().iter().filter(|entry| entry.unit == unit).count()
}

// Five units with the same script.
fn five<R: Threads + Wait + Sync>(rt: &R, alloc: Global) -> Option<Settled> {
    let (db, units) = made(alloc, 5)?;
    let mut scripts = Vec::new(alloc);
    for _ in 0..5 {
        scripts.push(whole(alloc, &db, &[FIRST, DELETE])?).ok()?;
    }
    run_units(rt, alloc, db, units, scripts.as_slice(), &NoGate).ok()
}

#[test]
fn each_unit_makes_its_whole_script(rt: HostRuntime) {
    let Some(settled) = five(&rt, rt.alloc()) else {
        panic!(rt; "the database is not settled");
    };
    for unit in 1..6 {
        assert_eq!(rt; entries_of(&settled, unit), 10);
    }
    assert!(rt; ends_with_ticket(&settled, 49));
    assert!(rt; is_audited(rt.alloc(), &settled, 10, 5));
}

// What comes back where one of two units was not handed in: the fault, how many units, and how many statements they made.
fn without_a_unit<R: Threads + Wait + Sync>(rt: &R, alloc: Global) -> Option<(Fault, usize, usize)> {
    let (db, mut units) = made(alloc, 2)?;
    units.pop()?;
    let first = whole(alloc, &db, &[FIRST])?;
    match run_units(rt, alloc, db, units, &[first], &NoGate) {
        Ok(_) => None,
        Err(Unsettled { fault, units, .. }) => Some((fault, units.len(), units.first()?.journal().len())),
    }
}

#[test]
fn nothing_is_made_where_a_unit_is_missing(rt: HostRuntime) {
    assert_eq!(rt; without_a_unit(&rt, rt.alloc()), Some((Fault::Missing, 1, 0)));
}
