//! Makes public calls of `dbtg_unit` as their callers do, once and with memory to spare: units, what is in hand, and edits of cells.
//! What judges statements is called in `dbtg_calls`, where scripts state them. The numbers of a status are those of
//! docs/profile/statuses.md.

use cells::lets_a_cell_go;
use dbtg_cells::{Cell, CellName, DbKey, MaybeOwner, Owner, Owners, Usage};
use dbtg_schema::{AreaNo, RecordNo};
use dbtg_unit::{Cause, Form, Held, Kept, Statement, Status, Suppress};
use std::alloc::{AllocError, Global};
use std::test::*;

mod cells;
mod edits;
mod hands;
mod in_hand;
mod prepared;
mod ring_edits;
mod units;

fn key(number: u32, generation: u8) -> DbKey {
    DbKey {
        rtype: RecordNo::new(0),
        number,
        generation,
    }
}

// Are these the wanted owners, set by set?
fn are_owners(owners: &[MaybeOwner], wanted: &[Option<Owner>]) -> bool {
    owners.len() == wanted.len() && owners.iter().zip(wanted).all(|(one, other)| one.get() == *other)
}

#[test]
fn causes_have_their_numbers(rt: HostRuntime) {
    for (cause, number) in [
        (Cause::AreaNotOpen, 1),
        (Cause::ChangedByAnother, 3),
        (Cause::DuplicatesNotAllowed, 5),
        (Cause::NoSuchCurrent, 6),
        (Cause::End, 7),
        (Cause::UpdateModeNeeded, 9),
        (Cause::NoRoom, 11),
        (Cause::NoCurrentOfRunUnit, 13),
        (Cause::MandatoryAutomatic, 14),
        (Cause::Mandatory, 15),
        (Cause::AlreadyMember, 16),
        (Cause::Deleted, 17),
        (Cause::OtherRecordType, 20),
        (Cause::NotMember, 22),
        (Cause::PositionLost, 23),
        (Cause::NoneSatisfies, 26),
        (Cause::AreaAlreadyOpen, 28),
        (Cause::UsageConflict, 29),
        (Cause::OwnerHasMembers, 30),
        (Cause::NotKept, 31),
    ] {
        assert_eq!(rt; cause.code(), number, "{cause:?}");
    }
}

#[test]
fn find_at_the_end_is_0307(rt: HostRuntime) {
    let suppress = Suppress {
        types: false,
        areas: false,
        sets: 0,
    };
    let find = Statement::Find(suppress, Form::CurrentOfUnit);
    assert_eq!(rt; Status::Refused(Cause::End).code(&find), 307);
    assert_eq!(rt; Status::Done.code(&find), 0);
}

#[test]
fn kept_key_has_its_version(rt: HostRuntime) -> Result<(), Fail> {
    let none = Kept::of(Vec::new(rt.alloc()));
    let mut kept = none.noted(rt.alloc(), key(7, 2), 3)?;
    assert_eq!(rt; kept.version(key(7, 2)), Some(3));
    assert_eq!(rt; kept.version(key(7, 1)), None, "another generation");
    kept.forget(key(7, 2));
    assert_eq!(rt; kept.version(key(7, 2)), None);
    Ok(())
}

fn gives_back_an_area(held: &mut Held, area: AreaNo) -> Result<bool, AllocError> {
    held.push_area(area)?;
    Ok(held.has(area) && held.pop_area() == Some(area))
}

fn gives_back_a_cell(alloc: Global, held: &mut Held, name: &CellName) -> bool {
    let cell = Cell::Usage(Usage::new(alloc));
    held.push_cell(*name, cell).is_ok()
        && held.cell(name).is_some()
        && lets_a_cell_go(held)
        && !lets_a_cell_go(held)
}

#[test]
fn held_gives_back_what_it_took(rt: HostRuntime) -> Result<(), Fail> {
    let area = AreaNo::new(1);
    let mut held = Held::new(rt.alloc(), Owners::none(0));
    assert!(rt; gives_back_an_area(&mut held, area)?);
    assert!(rt; gives_back_a_cell(rt.alloc(), &mut held, &CellName::Usage(area)));
    Ok(())
}

#[test]
fn owner_is_set_in_its_set(rt: HostRuntime) {
    let mut owners = Owners::none(2);
    owners.set(1, Some(Owner::System));
    let shown = owners.as_slice();
    assert_eq!(rt; shown.len(), 2);
    assert_eq!(rt; shown.get(0).map(|owner| owner.get()), Some(None));
    assert_eq!(rt; shown.get(1).map(|owner| owner.get()), Some(Some(Owner::System)));
}
