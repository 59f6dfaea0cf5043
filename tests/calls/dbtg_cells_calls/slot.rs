//! What a slot holds of its record.

use super::*;

/// The numbers of the record's items agree with these.
fn holds(rt: &HostRuntime, slot: &Slot, number: u64) -> Result<bool, AllocError> {
    let wanted = row(rt, number)?;
    match slot.record() {
        Some(record) => Ok(values_eq(
            record.items.share()?.get().as_slice(),
            wanted.as_slice(),
        )),
        None => Ok(false),
    }
}

fn version(slot: &Slot) -> Option<u64> {
    match slot.record() {
        Some(record) => Some(record.version),
        None => None,
    }
}

fn raise(rt: &impl Abort, slot: &mut Slot) {
    assert!(rt; slot.has_next_version());
    slot.raise_version();
}

// A new record has version 1; a number left and filled again is live in the new generation alone.
#[test]
fn a_slot_is_filled_changed_and_left(rt: HostRuntime) -> Result<(), Fail> {
    let mut slot = Slot::vacant();
    assert!(rt; !slot.is_live(3));
    let items = shared(&rt, 7)?;
    let owners = RecordOwners::of(rt.alloc(), &Owners::none(2))?;
    slot.fill(NewRecord::new(rt.alloc(), 3, items, owners)?);
    assert!(rt; slot.is_live(3));
    assert!(rt; !slot.is_live(2));
    assert!(rt; version(&slot) == Some(1));
    assert!(rt; holds(&rt, &slot, 7)?);
    let items = shared(&rt, 8)?;
    slot.set_items(items);
    assert!(rt; holds(&rt, &slot, 8)?);
    raise(&rt, &mut slot);
    assert!(rt; version(&slot) == Some(2));
    slot.vacate();
    assert!(rt; !slot.is_live(3));
    assert!(rt; version(&slot) == None);
    Ok(())
}

// A record has an owner in each of its sets alone.
#[test]
fn a_slot_knows_its_owner_in_each_set(rt: HostRuntime) -> Result<(), Fail> {
    let mut slot = Slot::vacant();
    let items = shared(&rt, 7)?;
    let owners = RecordOwners::of(rt.alloc(), &Owners::none(2))?;
    slot.fill(NewRecord::new(rt.alloc(), 1, items, owners)?);
    slot.set_owner(SetNo::new(1), NewOwner::of(rt.alloc(), Owner::System)?);
    assert!(rt; slot.owner(SetNo::new(1)) == Some(Owner::System));
    assert!(rt; slot.owner(SetNo::new(0)) == None);
    slot.set_owner(SetNo::new(1), NewOwner::none());
    assert!(rt; slot.owner(SetNo::new(1)) == None);
    Ok(())
}

fn owner(number: u32) -> Owner {
    Owner::Rec(DbKey {
        rtype: RecordNo::new(0),
        number,
        generation: 1,
    })
}

// The owners of a record of four sets, by set.
fn owners_of(rt: &HostRuntime, noted: &[(u8, Option<Owner>)]) -> Result<[Option<Owner>; 5], AllocError> {
    let mut owners = RecordOwners::of(rt.alloc(), &Owners::none(4))?;
    for (set, owner) in noted {
        let new = match owner {
            Some(owner) => NewOwner::of(rt.alloc(), *owner)?,
            None => NewOwner::none(),
        };
        owners.set(*set as usize, new);
    }
    let copy = owners.copy(rt.alloc())?;
    let all = copy.all();
    let again = RecordOwners::of(rt.alloc(), &all)?;
    Ok([again.get(0), again.get(1), again.get(2), again.get(3), again.get(4)])
}

// One owner stands alone; another stands beside it, and each can go.
#[test]
fn owners_come_and_go(rt: HostRuntime) -> Result<(), Fail> {
    let (one, other) = (Some(owner(1)), Some(owner(2)));
    assert!(rt; owners_of(&rt, &[(2, one)])? == [None, None, one, None, None]);
    assert!(rt; owners_of(&rt, &[(2, one), (2, other)])? == [None, None, other, None, None]);
    assert!(rt; owners_of(&rt, &[(2, one), (2, None), (0, other)])? == [other, None, None, None, None]);
    assert!(rt; owners_of(&rt, &[(2, one), (0, None)])? == [None, None, one, None, None]);
    assert!(rt; owners_of(&rt, &[(2, one), (0, other)])? == [other, None, one, None, None]);
    assert!(rt; owners_of(&rt, &[(2, one), (0, other), (2, None)])? == [other, None, None, None, None]);
    assert!(rt; owners_of(&rt, &[(2, one), (0, other), (3, one)])? == [other, None, one, one, None]);
    assert!(rt; owners_of(&rt, &[(2, one), (4, other)])? == [None, None, one, None, None]);
    Ok(())
}
