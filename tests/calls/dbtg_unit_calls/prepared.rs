//! What is prepared is done, and room is made before.

use super::key;
use super::units::opening;
use dbtg_cells::{Cell, CellName, NewOwner, NewRecord, Owner, Owners, RecordOwners, Ring, Shared, Slot, Usage};
use dbtg_schema::{AreaNo, RecordNo, Row, Schema, SetNo};
use dbtg_unit::{Answer, CellEdit, Edit, Held, Place, Prepared, Status, Unit, UnitEdit, finish, reserve_member, reserve_user};
use std::alloc::{AllocError, Global};
use std::test::*;

const SCHEMA: &str =
    "SCHEMA NAME IS S.\nAREA NAME IS A.\nRECORD NAME IS R; WITHIN A.\n 02 I PICTURE IS 9(1).\n";

fn slot_name() -> CellName {
    CellName::Slot(RecordNo::new(0), 7)
}

fn ring_name() -> CellName {
    CellName::Ring(SetNo::new(0), None)
}

fn usage_name() -> CellName {
    CellName::Usage(AreaNo::new(0))
}

// A vacant slot, the open ring of SYSTEM and a usage list in hand; none where there is no memory.
fn cells_in_hand(alloc: Global) -> Option<Held> {
    let mut held = Held::new(alloc, Owners::none(1));
    let mut ring = Ring::absent(alloc);
    ring.open(Owner::System);
    if held
        .push_cell(slot_name(), Cell::Slot(Slot::vacant()))
        .is_err()
    {
        return None;
    }
    if held.push_cell(ring_name(), Cell::Ring(ring)).is_err() {
        return None;
    }
    if held
        .push_cell(usage_name(), Cell::Usage(Usage::new(alloc)))
        .is_err()
    {
        return None;
    }
    Some(held)
}

fn has_room(held: &Held) -> bool {
    match held.cell(&ring_name()) {
        Some(Cell::Ring(ring)) => ring.has_room(key(7, 2)),
        _ => false,
    }
}

fn has_user_room(held: &Held) -> bool {
    match held.cell(&usage_name()) {
        Some(Cell::Usage(usage)) => usage.has_room(),
        _ => false,
    }
}

#[test]
fn room_is_made(rt: HostRuntime) -> Result<(), Fail> {
    let mut held = cells_in_hand(rt.alloc()).ok_or("memory")?;
    assert!(rt; !has_room(&held) && !has_user_room(&held));
    reserve_member(&mut held, &ring_name(), &key(7, 2))?;
    assert!(rt; has_room(&held) && !has_user_room(&held));
    reserve_user(&mut held, &usage_name())?;
    assert!(rt; has_room(&held) && has_user_room(&held));
    assert_eq!(rt; held.cells().len(), 3);
    Ok(())
}

// Two edits of one cell.
fn both(
    alloc: Global,
    name: &CellName,
    first: Edit,
    second: Edit,
) -> Result<Row<CellEdit>, AllocError> {
    let mut edits = Vec::new(alloc);
    edits.push(CellEdit {
        name: *name,
        edit: first,
    })?;
    edits.push(CellEdit {
        name: *name,
        edit: second,
    })?;
    Ok(Row::of(edits))
}

// A record is filled in, and then has an owner; both can be made of whatever is held.
fn filling(alloc: Global) -> Result<Row<CellEdit>, AllocError> {
    let owners = RecordOwners::of(alloc, &Owners::none(1))?;
    let stored = NewRecord::new(alloc, 2, Shared::new(alloc, Row::of(Vec::new(alloc)))?, owners)?;
    let fill = Edit::Fill { stored };
    let own = Edit::ChangeOwner {
        set: SetNo::new(0),
        owner: NewOwner::of(alloc, Owner::System)?,
    };
    both(alloc, &slot_name(), fill, own)
}

// Its answer has the key, its own version is noted, and SYSTEM is the guess.
fn plan(alloc: Global) -> Result<Prepared, AllocError> {
    let answer = Answer {
        status: Status::Done,
        key: Some(key(7, 2)),
        items: None,
    };
    let versions = Row::of(Vec::from_slice(alloc, &[(key(7, 2), 5)])?);
    let moved = UnitEdit::Move {
        set: SetNo::new(0),
        place: Place {
            owner: Owner::System,
            at: Some(key(7, 2)),
        },
    };
    let edits = filling(alloc)?;
    Ok(Prepared::new(answer, edits, versions, moved))
}

fn is_filled(held: &Held) -> bool {
    match held.cell(&slot_name()) {
        Some(Cell::Slot(slot)) => {
            slot.is_live(2) && slot.owner(SetNo::new(0)) == Some(Owner::System)
        }
        _ => false,
    }
}

fn unit_that_keeps(alloc: Global) -> Result<Unit, AllocError> {
    let mut unit = opening(alloc)?;
    let kept = unit.kept.noted(alloc, key(7, 2), 1)?;
    unit.keep(kept);
    Ok(unit)
}

fn schema(alloc: Global) -> Option<Schema> {
    Schema::read(alloc, SCHEMA.as_bytes()).ok()
}

fn is_done(held: &Held, unit: &Unit) -> bool {
    is_filled(held)
        && held.guess(SetNo::new(0)) == Some(Owner::System)
        && unit.kept_version(key(7, 2)) == Some(5)
}

// Makes the plan, and does it: is all of it done?
fn does_plan(
    alloc: Global,
    schema: &Schema,
    held: &mut Held,
    unit: &mut Unit,
) -> Result<bool, AllocError> {
    let plan = plan(alloc)?;
    let is_answer = plan.answer().key == Some(key(7, 2));
    let answer = finish(schema, plan, held, unit);
    Ok(is_answer && answer.key == Some(key(7, 2)) && is_done(held, unit))
}

#[test]
fn plan_is_done(rt: HostRuntime) -> Result<(), Fail> {
    let schema = schema(rt.alloc()).ok_or("a schema")?;
    let mut held = cells_in_hand(rt.alloc()).ok_or("memory")?;
    let mut unit = unit_that_keeps(rt.alloc())?;
    assert!(rt; does_plan(rt.alloc(), &schema, &mut held, &mut unit)?);
    Ok(())
}
