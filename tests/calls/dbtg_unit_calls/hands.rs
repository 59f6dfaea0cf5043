//! Hands that count what they hold, lend a cell to be written, and are given guesses anew.

use super::{are_owners, key};
use dbtg_cells::{Cell, CellName, DbKey, MaybeOwner, Mode, Owner, Owners, Usage};
use dbtg_schema::{AreaNo, SetNo};
use dbtg_unit::Held;
use std::alloc::{AllocError, Global};
use std::process::Abort;
use std::test::*;

fn counts_areas(held: &mut Held) -> Result<bool, AllocError> {
    let had = held.area_count();
    held.push_area(AreaNo::new(1))?;
    held.push_area(AreaNo::new(4))?;
    let has = held.area_count();
    let popped = held.pop_area();
    Ok(had == 0 && has == 2 && popped == Some(AreaNo::new(4)) && held.area_count() == 1)
}

#[test]
fn areas_are_counted(rt: HostRuntime) -> Result<(), Fail> {
    let mut held = Held::new(rt.alloc(), Owners::none(0));
    assert!(rt; counts_areas(&mut held)?);
    Ok(())
}

// The usage lists of two areas, each with room for one user; false where there is no memory.
fn takes_usages(alloc: Global, held: &mut Held) -> Result<bool, AllocError> {
    for area in 0..2 {
        let mut usage = Usage::new(alloc);
        usage.reserve_user()?;
        let name = CellName::Usage(AreaNo::new(area));
        if held.push_cell(name, Cell::Usage(usage)).is_err() {
            return Ok(false);
        }
    }
    Ok(true)
}

// A user enters the usage list of an area where that is in hand: is it?
fn enters(rt: &impl Abort, held: &mut Held, area: u8) -> bool {
    match held.cell_mut(&CellName::Usage(AreaNo::new(area))) {
        Some(Cell::Usage(usage)) => {
            assert!(rt; usage.has_room());
            usage.enter(3, Mode::Update);
            true
        }
        _ => false,
    }
}

fn mode_in(held: &Held, area: u8) -> Option<Mode> {
    match held.cell(&CellName::Usage(AreaNo::new(area))) {
        Some(Cell::Usage(usage)) => usage.mode_in(3),
        _ => None,
    }
}

// The list of area 1 is written, and no other.
fn writes_one(rt: &impl Abort, held: &mut Held) -> bool {
    let is_written = enters(rt, held, 1) && !enters(rt, held, 2);
    is_written && mode_in(held, 1) == Some(Mode::Update) && mode_in(held, 0).is_none()
}

#[test]
fn cell_is_written_in_hand(rt: HostRuntime) -> Result<(), Fail> {
    let mut held = Held::new(rt.alloc(), Owners::none(0));
    assert!(rt; takes_usages(rt.alloc(), &mut held)? && writes_one(&rt, &mut held));
    Ok(())
}

#[test]
fn owners_of_a_list(rt: HostRuntime) {
    let list = [Some(Owner::System), None, Some(Owner::Rec(key(7, 2)))];
    let kept = [MaybeOwner::of(list[0]), MaybeOwner::of(list[1]), MaybeOwner::of(list[2])];
    assert!(rt; are_owners(Owners::of(&kept).as_slice(), list.as_slice()));
}

// A schema has sixteen sets at most, so what is past them is left out.
#[test]
fn owners_past_the_sixteenth(rt: HostRuntime) {
    let owners = Owners::of(&[MaybeOwner::of(Some(Owner::System)); 20]);
    assert!(rt; are_owners(owners.as_slice(), [Some(Owner::System); 16].as_slice()));
}

fn guesses_as_told(held: &mut Held) -> bool {
    let anew = [None, Some(Owner::Rec(key(7, 2)))];
    held.set_guesses(Owners::of(&[MaybeOwner::of(anew[0]), MaybeOwner::of(anew[1])]));
    are_owners(held.guesses(), anew.as_slice()) && held.guess(SetNo::new(0)).is_none()
}

#[test]
fn guesses_anew(rt: HostRuntime) {
    let mut held = Held::new(rt.alloc(), Owners::of(&[MaybeOwner::of(Some(Owner::System)), MaybeOwner::of(None)]));
    assert!(rt; guesses_as_told(&mut held));
}
