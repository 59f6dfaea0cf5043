//! What is in hand: guesses, and more areas and cells than are held in place.

use super::{are_owners, key};
use dbtg_cells::{Cell, CellName, Owner, Owners, Ring};
use dbtg_schema::{AreaNo, RecordNo, SetNo};
use dbtg_unit::Held;
use std::alloc::{AllocError, Global};
use std::test::*;

#[test]
fn guesses(rt: HostRuntime) {
    let mut guesses = Owners::none(2);
    guesses.set(0, Some(Owner::System));
    let mut held = Held::new(rt.alloc(), guesses);
    assert_eq!(rt; held.guess(SetNo::new(0)), Some(Owner::System));
    held.set_guess(SetNo::new(1), Some(Owner::Rec(key(7, 2))));
    let wanted = [Some(Owner::System), Some(Owner::Rec(key(7, 2)))];
    assert!(rt; are_owners(held.guesses(), wanted.as_slice()));
}

fn takes_twelve_areas(held: &mut Held) -> Result<bool, AllocError> {
    for a in 0..12 {
        held.push_area(AreaNo::new(a))?;
    }
    let are_taken = held.has(AreaNo::new(11)) && !held.has(AreaNo::new(12));
    Ok(are_taken && held.pop_area() == Some(AreaNo::new(11)) && !held.has(AreaNo::new(11)))
}

#[test]
fn areas_beyond_those_in_place(rt: HostRuntime) -> Result<(), Fail> {
    let mut held = Held::new(rt.alloc(), Owners::none(0));
    assert!(rt; takes_twelve_areas(&mut held)?);
    Ok(())
}

fn ring_name(number: u32) -> CellName {
    CellName::Ring(SetNo::new(0), Some((RecordNo::new(0), number)))
}

// Takes the rings of this many records in hand; false where there is no memory.
fn takes_rings(alloc: Global, held: &mut Held, count: u32) -> bool {
    for number in 0..count {
        let mut ring = Ring::absent(alloc);
        ring.open(Owner::Rec(key(number, 1)));
        if held.push_cell(ring_name(number), Cell::Ring(ring)).is_err() {
            return false;
        }
    }
    true
}

// Is the ring of this record found, and no other in its place?
fn is_found(held: &Held, number: u32) -> bool {
    match held.cell(&ring_name(number)) {
        Some(Cell::Ring(ring)) => ring.owner() == Some(Owner::Rec(key(number, 1))),
        _ => false,
    }
}

fn are_found(held: &Held, count: u32) -> bool {
    for number in 0..count {
        if !is_found(held, number) {
            return false;
        }
    }
    true
}

// The last cell goes from the hand.
pub(super) fn lets_a_cell_go(held: &mut Held) -> bool {
    held.pop_cell().is_some()
}

fn lets_cells_go(held: &mut Held, count: u32) -> bool {
    for _ in 0..count {
        if !lets_a_cell_go(held) {
            return false;
        }
    }
    true
}

fn finds_what_is_left(held: &mut Held) -> bool {
    let are_all_found = are_found(held, 20) && !is_found(held, 20);
    let are_nine_left = lets_cells_go(held, 11) && are_found(held, 9) && !is_found(held, 9);
    let are_seven_left = lets_cells_go(held, 2) && are_found(held, 7) && !is_found(held, 7);
    are_all_found && are_nine_left && are_seven_left
}

#[test]
fn cells_beyond_those_in_place(rt: HostRuntime) {
    let mut held = Held::new(rt.alloc(), Owners::none(1));
    assert!(rt; takes_rings(rt.alloc(), &mut held, 20) && finds_what_is_left(&mut held));
}

// A ring that is absent, under the name of the last one, which went.
fn takes_another(alloc: Global, held: &mut Held) -> bool {
    let again = Cell::Ring(Ring::absent(alloc));
    held.push_cell(ring_name(11), again).is_ok()
}

fn has_name(held: &Held, number: u32) -> bool {
    held.cell(&ring_name(number)).is_some()
}

fn forgets_the_last_of_twelve(held: &mut Held) -> bool {
    are_found(held, 12) && lets_a_cell_go(held) && !has_name(held, 11)
}

#[test]
fn name_that_went_is_taken_again(rt: HostRuntime) {
    let mut held = Held::new(rt.alloc(), Owners::none(1));
    assert!(rt; takes_rings(rt.alloc(), &mut held, 12) && forgets_the_last_of_twelve(&mut held));
    assert!(rt; takes_another(rt.alloc(), &mut held) && has_name(&held, 11) && are_found(&held, 11));
    assert!(rt; lets_a_cell_go(&mut held) && !has_name(&held, 11) && are_found(&held, 11));
}
