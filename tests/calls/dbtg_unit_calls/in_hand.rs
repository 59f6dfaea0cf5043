//! What is read off the cells in hand, and why a statement about the current of run-unit is refused for the record itself.

use super::key;
use super::units::opening;
use dbtg_cells::{Cell, CellName, DbKey, Extent, NewRecord, Owner, Owners, RecordOwners, Ring, Shared, Slot, Usage};
use dbtg_schema::{AreaNo, RecordNo, Row, SetNo};
use dbtg_unit::{Cause, Held, Unit, numbers, occurrence, own_refusal, stored, usage};
use std::alloc::{AllocError, Global};
use std::test::*;

fn takes(held: &mut Held, name: &CellName, cell: Cell) -> bool {
    held.push_cell(*name, cell).is_ok()
}

// A record of number 7 in its second generation.
fn slot(alloc: Global) -> Result<Slot, AllocError> {
    let mut slot = Slot::vacant();
    let items = Shared::new(alloc, Row::of(Vec::new(alloc)))?;
    let owners = RecordOwners::of(alloc, &Owners::none(0))?;
    slot.fill(NewRecord::new(alloc, 2, items, owners)?);
    Ok(slot)
}

fn ring(alloc: Global) -> Ring {
    let mut ring = Ring::absent(alloc);
    ring.open(Owner::Rec(key(7, 2)));
    ring
}

// That record, its ring in set 1, the extent of its type and the usage list of area 1.
fn takes_cells(alloc: Global, held: &mut Held) -> Result<bool, AllocError> {
    let rtype = RecordNo::new(0);
    let extent = Extent::new(alloc, 9)?;
    let ring_name = CellName::Ring(SetNo::new(1), Some((rtype, 7)));
    Ok(
        takes(
            held,
            &CellName::Usage(AreaNo::new(1)),
            Cell::Usage(Usage::new(alloc)),
        ) && takes(held, &CellName::Extent(rtype), Cell::Extent(extent))
            && takes(held, &ring_name, Cell::Ring(ring(alloc)))
            && takes(held, &CellName::Slot(rtype, 7), Cell::Slot(slot(alloc)?)),
    )
}

fn has_usage(held: &Held) -> bool {
    usage(held, AreaNo::new(1)).is_some() && usage(held, AreaNo::new(0)).is_none()
}

fn has_extent(held: &Held) -> bool {
    match numbers(held, RecordNo::new(0)) {
        Some(extent) => extent.capacity() == 9 && numbers(held, RecordNo::new(1)).is_none(),
        None => false,
    }
}

fn has_ring(held: &Held, set: u8, owner: &DbKey) -> bool {
    occurrence(held, SetNo::new(set), &Owner::Rec(*owner)).is_some()
}

// Another generation of the number owns nothing here.
fn has_its_ring(held: &Held) -> bool {
    has_ring(held, 1, &key(7, 2))
        && !has_ring(held, 1, &key(7, 1))
        && !has_ring(held, 0, &key(7, 2))
        && occurrence(held, SetNo::new(1), &Owner::System).is_none()
}

fn has_record(held: &Held) -> bool {
    stored(held, &key(7, 2)).is_some()
        && stored(held, &key(7, 1)).is_none()
        && stored(held, &key(8, 2)).is_none()
}

fn has_all(held: &Held) -> bool {
    has_usage(held)
        && has_extent(held)
        && has_its_ring(held)
        && has_record(held)
        && held.cell_count() == 4
}

#[test]
fn cells_are_read(rt: HostRuntime) -> Result<(), Fail> {
    let mut held = Held::new(rt.alloc(), Owners::none(2));
    assert!(rt; takes_cells(rt.alloc(), &mut held)? && has_all(&held));
    Ok(())
}

// Keeps the record at this version.
fn keeps(alloc: Global, unit: &mut Unit, version: u64) -> Result<(), AllocError> {
    let kept = unit.kept.noted(alloc, key(7, 2), version)?;
    unit.keep(kept);
    Ok(())
}

// In another generation the record is deleted; kept at another version, it was changed.
fn is_refused_in_turn(alloc: Global, held: &Held, unit: &mut Unit) -> Result<bool, AllocError> {
    let is_first = own_refusal(held, unit, &key(7, 2)).is_none();
    let is_deleted = own_refusal(held, unit, &key(7, 1)) == Some(Cause::Deleted);
    keeps(alloc, unit, 1)?;
    let is_kept = own_refusal(held, unit, &key(7, 2)).is_none();
    keeps(alloc, unit, 2)?;
    let is_changed = own_refusal(held, unit, &key(7, 2)) == Some(Cause::ChangedByAnother);
    Ok(is_first && is_deleted && is_kept && is_changed)
}

fn is_refused(alloc: Global, held: &Held) -> Result<bool, AllocError> {
    let mut unit = opening(alloc)?;
    is_refused_in_turn(alloc, held, &mut unit)
}

#[test]
fn refused_for_the_record_itself(rt: HostRuntime) -> Result<(), Fail> {
    let mut held = Held::new(rt.alloc(), Owners::none(2));
    assert!(rt; takes_cells(rt.alloc(), &mut held)? && is_refused(rt.alloc(), &held)?);
    Ok(())
}
