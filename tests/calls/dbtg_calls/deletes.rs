//! The cells of a DELETE, named one after another until it needs no more.

use dbtg_cells::{Cell, CellName, DbKey, Extent, MaybeOwner, Mode, NewRecord, Owner, Owners, RecordOwners, Ring, Shared, Slot, Usage};
use dbtg_erase::next_need;
use dbtg_schema::{AreaNo, RecordNo, Row, Schema, SetNo};
use dbtg_unit::{Currency, Erase, Held, Kept, Need, Unit};
use std::alloc::{AllocError, Global};
use std::test::*;

// A room may have lamps; a lamp need not be in a room.
const HOUSE: &[u8] =
    b"SCHEMA NAME IS HOUSE.\nAREA NAME IS MAIN.\nRECORD NAME IS ROOM; WITHIN MAIN.\n  02 RNO PICTURE IS 9(4).\nRECORD NAME IS LAMP; WITHIN MAIN.\n  02 LNO PICTURE IS 9(4).\nSET NAME IS LIGHTS; ORDER IS LAST; OWNER IS ROOM.\n  MEMBER IS LAMP OPTIONAL AUTOMATIC.\n";

fn room() -> DbKey {
    DbKey {
        rtype: RecordNo::new(0),
        number: 1,
        generation: 1,
    }
}

fn lamp() -> DbKey {
    DbKey {
        rtype: RecordNo::new(1),
        number: 3,
        generation: 1,
    }
}

// The room is current of run-unit, and its area is open for updates.
fn unit(alloc: Global) -> Result<Unit, AllocError> {
    Ok(Unit {
        number: 1,
        currency: Currency {
            run_unit: Some(room()),
            types: Row::of(Vec::from_slice(alloc, &[None, None])?),
            areas: Row::of(Vec::from_slice(alloc, &[None])?),
            sets: Row::of(Vec::from_slice(alloc, &[None])?),
        },
        modes: Row::of(Vec::from_slice(alloc, &[Some(Mode::Update)])?),
        kept: Kept::of(Vec::new(alloc)),
    })
}

fn slot(alloc: Global, owner: Option<Owner>) -> Result<Cell, AllocError> {
    let mut slot = Slot::vacant();
    let owners = RecordOwners::of(alloc, &Owners::of(&[MaybeOwner::of(owner)]))?;
    slot.fill(NewRecord::new(alloc, 1, Shared::new(alloc, Row::of(Vec::new(alloc)))?, owners)?);
    Ok(Cell::Slot(slot))
}

// The room's ring, with its one lamp.
fn ring(alloc: Global, member: &DbKey) -> Result<Cell, AllocError> {
    let mut ring = Ring::absent(alloc);
    ring.open(Owner::Rec(room()));
    ring.reserve_place(*member)?;
    ring.place_last(*member, None);
    Ok(Cell::Ring(ring))
}

// The cell of a name, in the database that has the room with its lamp.
fn cell(alloc: Global, name: &CellName) -> Result<Cell, AllocError> {
    match name {
        CellName::Usage(_area) => Ok(Cell::Usage(Usage::new(alloc))),
        CellName::Extent(_rtype) => Ok(Cell::Extent(Extent::new(alloc, 4)?)),
        CellName::Ring(_set, _owner) => ring(alloc, &lamp()),
        CellName::Slot(rtype, _number) => {
            if rtype.index() == 0 {
                slot(alloc, None)
            } else {
                slot(alloc, Some(Owner::Rec(room())))
            }
        }
    }
}

// The cells that a DELETE of the room takes, in its order.
fn taken(alloc: Global, schema: &Schema, option: Erase) -> Result<Vec<CellName>, AllocError> {
    let unit = unit(alloc)?;
    let mut held = Held::new(alloc, Owners::none(1));
    held.push_area(AreaNo::new(0))?;
    let mut names = Vec::new(alloc);
    let mut course = None;
    for _ in 0..9 {
        match next_need(alloc, schema, 4, &unit, option, &held, &mut course)? {
            Need::Take(name) => {
                names.push(name)?;
                held.push_cell(name, cell(alloc, &name)?)?;
            }
            _ => return Ok(names),
        }
    }
    Ok(names)
}

fn taken_in_house(alloc: Global, option: Erase) -> Option<Vec<CellName>> {
    let house = Schema::read(alloc, HOUSE).ok()?;
    taken(alloc, &house, option).ok()
}

fn slot_of(key: &DbKey) -> CellName {
    CellName::Slot(key.rtype, key.number)
}

fn lights() -> CellName {
    CellName::Ring(SetNo::new(0), Some((RecordNo::new(0), 1)))
}

#[test]
fn all_takes_the_lamp(rt: HostRuntime) -> Result<(), Fail> {
    let names = taken_in_house(rt.alloc(), Erase::All).ok_or("memory")?;
    let extents = [
        CellName::Extent(RecordNo::new(0)),
        CellName::Extent(RecordNo::new(1)),
    ];
    let wanted = [
        slot_of(&room()),
        lights(),
        slot_of(&lamp()),
        extents[0],
        extents[1],
    ];
    assert_eq!(rt; names.as_slice(), wanted.as_slice());
    Ok(())
}

#[test]
fn only_leaves_the_lamp(rt: HostRuntime) -> Result<(), Fail> {
    let names = taken_in_house(rt.alloc(), Erase::Only).ok_or("memory")?;
    let wanted = [
        slot_of(&room()),
        lights(),
        slot_of(&lamp()),
        CellName::Extent(RecordNo::new(0)),
    ];
    assert_eq!(rt; names.as_slice(), wanted.as_slice());
    Ok(())
}

#[test]
fn plain_form_stops_at_the_lamp(rt: HostRuntime) -> Result<(), Fail> {
    let names = taken_in_house(rt.alloc(), Erase::Plain).ok_or("memory")?;
    let wanted = [slot_of(&room()), lights()];
    assert_eq!(rt; names.as_slice(), wanted.as_slice());
    Ok(())
}
