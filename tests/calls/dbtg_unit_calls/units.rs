//! What changes of a unit, by docs/profile/currency.md and docs/profile/keeping.md.

use super::key;
use dbtg_cells::{DbKey, Mode, Owner};
use dbtg_schema::{AreaNo, Row, SetNo};
use dbtg_unit::{Currency, Kept, Place, Suppress, Unit};
use std::alloc::{AllocError, Global};
use std::test::*;

// A unit of a schema with two record types, areas and sets: nothing is current, open or kept.
pub(super) fn opening(alloc: Global) -> Result<Unit, AllocError> {
    Ok(Unit {
        number: 1,
        currency: Currency {
            run_unit: None,
            types: Row::of(Vec::from_slice(alloc, &[None, None])?),
            areas: Row::of(Vec::from_slice(alloc, &[None, None])?),
            sets: Row::of(Vec::from_slice(alloc, &[None, None])?),
        },
        modes: Row::of(Vec::from_slice(alloc, &[None, None])?),
        kept: Kept::of(Vec::new(alloc)),
    })
}

#[test]
fn area_is_opened_and_closed(rt: HostRuntime) -> Result<(), Fail> {
    let mut unit = opening(rt.alloc())?;
    unit.open(AreaNo::new(1), Mode::Update);
    assert_eq!(rt;
        unit.modes.as_slice(),
        [None, Some(Mode::Update)].as_slice()
    );
    unit.close(AreaNo::new(1));
    assert_eq!(rt; unit.modes.as_slice(), [None, None].as_slice());
    Ok(())
}

#[test]
fn unit_moves_in_a_set(rt: HostRuntime) -> Result<(), Fail> {
    let mut unit = opening(rt.alloc())?;
    unit.move_to(SetNo::new(1), place(Owner::Rec(key(7, 2)), None));
    let wanted = [None, Some(place(Owner::Rec(key(7, 2)), None))];
    assert!(rt; unit.currency.sets.as_slice() == wanted.as_slice());
    Ok(())
}

#[test]
fn deleted_record_is_not_current(rt: HostRuntime) -> Result<(), Fail> {
    let mut unit = opening(rt.alloc())?;
    unit.currency.run_unit = Some(key(7, 2));
    unit.clear_run_unit();
    assert_eq!(rt; unit.currency.run_unit, None);
    Ok(())
}

fn place(owner: Owner, at: Option<DbKey>) -> Place {
    Place { owner, at }
}

#[test]
fn key_of_a_place(rt: HostRuntime) {
    // the member; at the owner itself the owner; at SYSTEM none
    let at_member = place(Owner::Rec(key(1, 1)), Some(key(2, 1)));
    assert_eq!(rt; at_member.key(), Some(key(2, 1)));
    let at_owner = place(Owner::Rec(key(1, 1)), None);
    assert_eq!(rt; at_owner.key(), Some(key(1, 1)));
    let at_system = place(Owner::System, None);
    assert_eq!(rt; at_system.key(), None);
}

#[test]
fn suppressed_set(rt: HostRuntime) {
    let suppress = Suppress {
        types: false,
        areas: false,
        sets: 2,
    };
    assert!(rt; suppress.has_set(1));
    assert!(rt; !suppress.has_set(0) && !suppress.has_set(2) && !suppress.has_set(17));
}

fn keeps(alloc: Global, unit: &mut Unit, key: &DbKey, version: u64) -> Result<(), AllocError> {
    let kept = unit.kept.noted(alloc, *key, version)?;
    unit.keep(kept);
    Ok(())
}

// A unit's own change is noted with the new version.
fn notes_a_change(unit: &mut Unit, key: &DbKey) -> bool {
    let was_kept = unit.kept_version(*key) == Some(1);
    unit.renote(*key, 2);
    was_kept && unit.kept_version(*key) == Some(2)
}

// What is freed is kept no longer, and the other still; then nothing is.
fn frees_one_and_all(unit: &mut Unit, one: &DbKey, other: &DbKey) -> bool {
    unit.forget(*one);
    let is_one_free = unit.kept_version(*one).is_none() && unit.kept_version(*other) == Some(4);
    unit.forget_all();
    is_one_free && unit.kept_version(*other).is_none()
}

#[test]
fn record_is_kept_and_freed(rt: HostRuntime) -> Result<(), Fail> {
    let mut unit = opening(rt.alloc())?;
    keeps(rt.alloc(), &mut unit, &key(1, 1), 1)?;
    keeps(rt.alloc(), &mut unit, &key(2, 1), 4)?;
    assert!(rt; notes_a_change(&mut unit, &key(1, 1)));
    assert!(rt; frees_one_and_all(&mut unit, &key(1, 1), &key(2, 1)));
    Ok(())
}

#[test]
fn kept_list_is_in_key_order(rt: HostRuntime) -> Result<(), Fail> {
    let kept = Kept::of(Vec::new(rt.alloc()));
    let kept = kept.noted(rt.alloc(), key(4, 1), 1)?;
    let mut kept = kept.noted(rt.alloc(), key(2, 1), 1)?;
    assert_eq!(rt;
        kept.as_slice(),
        [(key(2, 1), 1), (key(4, 1), 1)].as_slice()
    );
    kept.renote(key(4, 1), 5);
    assert_eq!(rt;
        kept.as_slice(),
        [(key(2, 1), 1), (key(4, 1), 5)].as_slice()
    );
    kept.clear();
    assert!(rt; kept.as_slice().is_empty());
    Ok(())
}
