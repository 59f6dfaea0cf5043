//! Edits of usage lists, extents, slots and of rings as a whole, each made of a cell of its kind, by docs/profile/statements.md.

use super::key;
use dbtg_cells::{Cell, DbKey, Extent, Mode, NewOwner, NewRecord, Owner, Owners, RecordOwners, Ring, Shared, Slot, Stored, Usage, Value};
use dbtg_schema::{RecordNo, Row, SetNo};
use dbtg_unit::{Edit, edit_cell};
use std::alloc::{AllocError, Global};
use std::process::Abort;
use std::test::*;

fn mode_in(cell: &Cell) -> Option<Mode> {
    match cell {
        Cell::Usage(usage) => usage.mode_in(3),
        _ => None,
    }
}

// The usage list of an area, which has room for one more.
fn usage(alloc: Global) -> Result<Usage, AllocError> {
    let mut usage = Usage::new(alloc);
    usage.reserve_user()?;
    Ok(usage)
}

fn enters_user(rt: &impl Abort, alloc: Global) -> Result<bool, AllocError> {
    let usage = usage(alloc)?;
    assert!(rt; usage.has_room());
    let mut cell = Cell::Usage(usage);
    let mode = Mode::ProtectedUpdate;
    edit_cell(&mut cell, Edit::EnterUser { unit: 3, mode });
    Ok(mode_in(&cell) == Some(Mode::ProtectedUpdate))
}

fn leaves_user(rt: &impl Abort, alloc: Global) -> Result<bool, AllocError> {
    let mut usage = usage(alloc)?;
    assert!(rt; usage.has_room());
    usage.enter(3, Mode::Update);
    let mut cell = Cell::Usage(usage);
    let was = mode_in(&cell);
    edit_cell(&mut cell, Edit::LeaveUser { unit: 3 });
    Ok(was == Some(Mode::Update) && mode_in(&cell).is_none())
}

#[test]
fn users(rt: HostRuntime) -> Result<(), Fail> {
    assert!(rt; enters_user(&rt, rt.alloc())?);
    assert!(rt; leaves_user(&rt, rt.alloc())?);
    Ok(())
}

fn calc(alloc: Global, number: u64) -> Result<Row<Value>, AllocError> {
    let mut values = Vec::new(alloc);
    values.push(Value::Num(number))?;
    Ok(Row::of(values))
}

// The number with this CALC value.
fn number_with(cell: &Cell, value: u64) -> Option<u32> {
    match cell {
        Cell::Extent(extent) => extent.first_with(&[Value::Num(value)]),
        _ => None,
    }
}

fn enters_number(rt: &impl Abort, alloc: Global) -> Result<bool, AllocError> {
    let extent = Extent::new(alloc, 4)?;
    assert!(rt; extent.is_free(2));
    let calc = calc(alloc, 7)?;
    let mut cell = Cell::Extent(extent);
    edit_cell(&mut cell, Edit::EnterNumber { number: 2, calc });
    Ok(number_with(&cell, 7) == Some(2))
}

// Number 2 is live, with a CALC value of 7.
fn live(rt: &impl Abort, alloc: Global) -> Result<Extent, AllocError> {
    let mut extent = Extent::new(alloc, 4)?;
    assert!(rt; extent.is_free(2));
    let calc = calc(alloc, 7)?;
    extent.enter(2, calc);
    Ok(extent)
}

fn leaves_number(rt: &impl Abort, alloc: Global) -> Result<bool, AllocError> {
    let extent = live(rt, alloc)?;
    assert!(rt; extent.is_live(2));
    let mut cell = Cell::Extent(extent);
    edit_cell(&mut cell, Edit::LeaveNumber { number: 2 });
    Ok(number_with(&cell, 7).is_none())
}

fn changes_number(rt: &impl Abort, alloc: Global) -> Result<bool, AllocError> {
    let extent = live(rt, alloc)?;
    assert!(rt; extent.is_live(2));
    let calc = calc(alloc, 9)?;
    let mut cell = Cell::Extent(extent);
    edit_cell(&mut cell, Edit::ChangeNumber { number: 2, calc });
    Ok(number_with(&cell, 7).is_none() && number_with(&cell, 9) == Some(2))
}

#[test]
fn numbers(rt: HostRuntime) -> Result<(), Fail> {
    assert!(rt; enters_number(&rt, rt.alloc())?);
    assert!(rt; leaves_number(&rt, rt.alloc())?);
    assert!(rt; changes_number(&rt, rt.alloc())?);
    Ok(())
}

// Is this a ring that is there, with no member?
fn is_empty_ring(alloc: Global, cell: &Cell) -> Result<bool, AllocError> {
    match cell {
        Cell::Ring(ring) => {
            let keys = ring.keys(alloc)?;
            Ok(ring.is_present() && keys.is_empty())
        }
        _ => Ok(false),
    }
}

fn opens_ring(alloc: Global) -> Result<bool, AllocError> {
    let mut cell = Cell::Ring(Ring::absent(alloc));
    let owner = Owner::Rec(key(7, 2));
    edit_cell(&mut cell, Edit::OpenRing { owner });
    is_empty_ring(alloc, &cell)
}

fn closes_ring(alloc: Global) -> bool {
    let mut ring = Ring::absent(alloc);
    ring.open(Owner::System);
    let mut cell = Cell::Ring(ring);
    edit_cell(&mut cell, Edit::CloseRing);
    match &cell {
        Cell::Ring(ring) => !ring.is_present(),
        _ => false,
    }
}

#[test]
fn rings(rt: HostRuntime) -> Result<(), Fail> {
    assert!(rt; opens_ring(rt.alloc())?);
    assert!(rt; closes_ring(rt.alloc()));
    Ok(())
}

// A record of generation 2 without items, in one set, that has no owner there.
fn filled(alloc: Global) -> Result<Slot, AllocError> {
    let mut slot = Slot::vacant();
    let owners = RecordOwners::of(alloc, &Owners::none(1))?;
    slot.fill(NewRecord::new(alloc, 2, Shared::new(alloc, Row::of(Vec::new(alloc)))?, owners)?);
    Ok(slot)
}

fn record(cell: &Cell) -> Option<&Stored> {
    match cell {
        Cell::Slot(slot) => slot.record(),
        _ => None,
    }
}

fn version(cell: &Cell) -> Option<u64> {
    match record(cell) {
        Some(stored) => Some(stored.version),
        None => None,
    }
}

fn fills_slot(alloc: Global) -> Result<bool, AllocError> {
    let mut cell = Cell::Slot(Slot::vacant());
    let stored = NewRecord::new(alloc, 2, Shared::new(alloc, calc(alloc, 7)?)?, RecordOwners::of(alloc, &Owners::none(0))?)?;
    edit_cell(&mut cell, Edit::Fill { stored });
    Ok(version(&cell) == Some(1))
}

fn vacates_slot(alloc: Global) -> Result<bool, AllocError> {
    let mut cell = Cell::Slot(filled(alloc)?);
    edit_cell(&mut cell, Edit::Vacate);
    Ok(record(&cell).is_none())
}

fn changes_items(alloc: Global) -> Result<bool, AllocError> {
    let mut cell = Cell::Slot(filled(alloc)?);
    let items = Shared::new(alloc, calc(alloc, 9)?)?;
    edit_cell(&mut cell, Edit::ChangeItems { items });
    match record(&cell) {
        Some(stored) => Ok(matches!(stored.items.get().as_slice(), [Value::Num(9)])),
        None => Ok(false),
    }
}

fn changes_owner(alloc: Global) -> Result<bool, AllocError> {
    let mut cell = Cell::Slot(filled(alloc)?);
    let own = Edit::ChangeOwner {
        set: SetNo::new(0),
        owner: NewOwner::of(alloc, Owner::System)?,
    };
    edit_cell(&mut cell, own);
    match &cell {
        Cell::Slot(slot) => Ok(slot.owner(SetNo::new(0)) == Some(Owner::System)),
        _ => Ok(false),
    }
}

fn raises_version(rt: &impl Abort, alloc: Global) -> Result<bool, AllocError> {
    let slot = filled(alloc)?;
    assert!(rt; slot.has_next_version());
    let mut cell = Cell::Slot(slot);
    edit_cell(&mut cell, Edit::RaiseVersion);
    Ok(version(&cell) == Some(2))
}

#[test]
fn records(rt: HostRuntime) -> Result<(), Fail> {
    assert!(rt; fills_slot(rt.alloc())?);
    assert!(rt; vacates_slot(rt.alloc())?);
    assert!(rt; changes_items(rt.alloc())?);
    assert!(rt; changes_owner(rt.alloc())?);
    assert!(rt; raises_version(&rt, rt.alloc())?);
    Ok(())
}
