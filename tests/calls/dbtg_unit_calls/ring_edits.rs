//! Edits of the members of a ring, by docs/profile/placing.md.

use dbtg_cells::{Cell, DbKey, Owner, Ring, Slot, Value};
use dbtg_schema::{Duplicates, Order, RecordNo};
use dbtg_unit::{Edit, edit_cell};
use std::alloc::{AllocError, Global};
use std::process::Abort;
use std::test::*;

fn item(number: u32) -> DbKey {
    DbKey {
        rtype: RecordNo::new(2),
        number,
        generation: 1,
    }
}

fn sort_key(quantity: Option<u64>) -> Option<Value> {
    match quantity {
        Some(quantity) => Some(Value::Num(quantity)),
        None => None,
    }
}

fn empty(alloc: Global) -> Ring {
    let mut ring = Ring::absent(alloc);
    ring.open(Owner::System);
    ring
}

// One more member, behind the others.
fn stands_last(
    rt: &impl Abort,
    ring: &mut Ring,
    key: &DbKey,
    quantity: Option<u64>,
) -> Result<(), AllocError> {
    assert!(rt; ring.is_present() && !ring.contains(*key));
    ring.reserve_place(*key)?;
    ring.place_last(*key, sort_key(quantity));
    Ok(())
}

fn makes_room(rt: &impl Abort, ring: &mut Ring, key: &DbKey) -> Result<(), AllocError> {
    assert!(rt; !ring.contains(*key));
    ring.reserve_place(*key)
}

fn items(alloc: Global, numbers: &[u32]) -> Result<Vec<DbKey>, AllocError> {
    let mut items = Vec::new(alloc);
    for number in numbers {
        items.push(item(*number))?;
    }
    Ok(items)
}

// Are these the items of a ring, in this order?
fn lists(alloc: Global, cell: &Cell, numbers: &[u32]) -> Result<bool, AllocError> {
    let wanted = items(alloc, numbers)?;
    match cell {
        Cell::Ring(ring) => {
            let keys = ring.keys(alloc)?;
            Ok(keys.as_slice() == wanted.as_slice())
        }
        _ => Ok(false),
    }
}

// The list A B C, which are the items 1, 2 and 3, with room for M, which is item 4.
fn listed(rt: &impl Abort, alloc: Global) -> Result<Ring, AllocError> {
    let mut ring = empty(alloc);
    for number in 1..4 {
        stands_last(rt, &mut ring, &item(number), None)?;
    }
    makes_room(rt, &mut ring, &item(4))?;
    Ok(ring)
}

// M is placed with the position at the owner: is this the list afterwards?
fn goes_from_owner(
    rt: &impl Abort,
    alloc: Global,
    order: &Order,
    numbers: &[u32],
) -> Result<bool, AllocError> {
    let (ring, key) = (listed(rt, alloc)?, item(4));
    assert!(rt; ring.is_present() && ring.has_room(key));
    let mut cell = Cell::Ring(ring);
    let edit = Edit::PlaceMember {
        order: *order,
        position: None,
        key,
        sort_key: None,
    };
    edit_cell(&mut cell, edit);
    lists(alloc, &cell, numbers)
}

// M is placed with the position at a member: is this the list afterwards?
fn goes_from_member(
    rt: &impl Abort,
    alloc: Global,
    order: &Order,
    position: u32,
    numbers: &[u32],
) -> Result<bool, AllocError> {
    let (ring, position, key) = (listed(rt, alloc)?, item(position), item(4));
    assert!(rt; ring.is_present() && ring.contains(position) && ring.has_room(key));
    let mut cell = Cell::Ring(ring);
    let edit = Edit::PlaceMember {
        order: *order,
        position: Some(position),
        key,
        sort_key: None,
    };
    edit_cell(&mut cell, edit);
    lists(alloc, &cell, numbers)
}

#[test]
fn member_goes_from_the_owner(rt: HostRuntime) -> Result<(), Fail> {
    let alloc = rt.alloc();
    assert!(rt; goes_from_owner(&rt, alloc, &Order::First, &[4, 1, 2, 3])?);
    assert!(rt; goes_from_owner(&rt, alloc, &Order::Last, &[1, 2, 3, 4])?);
    assert!(rt; goes_from_owner(&rt, alloc, &Order::Next, &[4, 1, 2, 3])?);
    assert!(rt; goes_from_owner(&rt, alloc, &Order::Prior, &[1, 2, 3, 4])?);
    Ok(())
}

#[test]
fn member_goes_from_a_member(rt: HostRuntime) -> Result<(), Fail> {
    let alloc = rt.alloc();
    assert!(rt; goes_from_member(&rt, alloc, &Order::First, 2, &[4, 1, 2, 3])?);
    assert!(rt; goes_from_member(&rt, alloc, &Order::Last, 2, &[1, 2, 3, 4])?);
    assert!(rt; goes_from_member(&rt, alloc, &Order::Next, 1, &[1, 4, 2, 3])?);
    assert!(rt; goes_from_member(&rt, alloc, &Order::Next, 3, &[1, 2, 3, 4])?);
    assert!(rt; goes_from_member(&rt, alloc, &Order::Prior, 1, &[4, 1, 2, 3])?);
    assert!(rt; goes_from_member(&rt, alloc, &Order::Prior, 3, &[1, 2, 4, 3])?);
    Ok(())
}

// The list A=2 B=5 C=5 E=9.
fn ascending(
    rt: &impl Abort,
    alloc: Global,
    a: &DbKey,
    b: &DbKey,
    c: &DbKey,
    e: &DbKey,
) -> Result<Ring, AllocError> {
    let mut ring = empty(alloc);
    stands_last(rt, &mut ring, a, Some(2))?;
    stands_last(rt, &mut ring, b, Some(5))?;
    stands_last(rt, &mut ring, c, Some(5))?;
    stands_last(rt, &mut ring, e, Some(9))?;
    Ok(ring)
}

// The list E=9 B=5 C=5 A=2.
fn descending(
    rt: &impl Abort,
    alloc: Global,
    a: &DbKey,
    b: &DbKey,
    c: &DbKey,
    e: &DbKey,
) -> Result<Ring, AllocError> {
    let mut ring = empty(alloc);
    stands_last(rt, &mut ring, e, Some(9))?;
    stands_last(rt, &mut ring, b, Some(5))?;
    stands_last(rt, &mut ring, c, Some(5))?;
    stands_last(rt, &mut ring, a, Some(2))?;
    Ok(ring)
}

// M, which is item 4, goes by its quantity into a list: is this the list afterwards?
fn goes_into(
    rt: &impl Abort,
    alloc: Global,
    list: Ring,
    order: &Order,
    quantity: u64,
    numbers: &[u32],
) -> Result<bool, AllocError> {
    let (mut ring, key) = (list, item(4));
    makes_room(rt, &mut ring, &key)?;
    assert!(rt; ring.has_room(key));
    let mut cell = Cell::Ring(ring);
    let edit = Edit::PlaceMember {
        order: *order,
        position: None,
        key,
        sort_key: Some(Value::Num(quantity)),
    };
    edit_cell(&mut cell, edit);
    lists(alloc, &cell, numbers)
}

// Into the list A=2 B=5 C=5 E=9, of the items 1, 2, 3 and 5.
fn goes_up(
    rt: &impl Abort,
    alloc: Global,
    duplicates: Duplicates,
    quantity: u64,
    numbers: &[u32],
) -> Result<bool, AllocError> {
    let list = ascending(rt, alloc, &item(1), &item(2), &item(3), &item(5))?;
    let order = Order::Sorted {
        ascending: true,
        duplicates,
    };
    goes_into(rt, alloc, list, &order, quantity, numbers)
}

// Into the list E=9 B=5 C=5 A=2, of the same items.
fn goes_down(
    rt: &impl Abort,
    alloc: Global,
    duplicates: Duplicates,
    quantity: u64,
    numbers: &[u32],
) -> Result<bool, AllocError> {
    let list = descending(rt, alloc, &item(1), &item(2), &item(3), &item(5))?;
    let order = Order::Sorted {
        ascending: false,
        duplicates,
    };
    goes_into(rt, alloc, list, &order, quantity, numbers)
}

#[test]
fn member_goes_up_by_its_key(rt: HostRuntime) -> Result<(), Fail> {
    let (alloc, first, last) = (rt.alloc(), Duplicates::First, Duplicates::Last);
    assert!(rt; goes_up(&rt, alloc, first, 1, &[4, 1, 2, 3, 5])?);
    assert!(rt; goes_up(&rt, alloc, last, 1, &[4, 1, 2, 3, 5])?);
    assert!(rt; goes_up(&rt, alloc, first, 5, &[1, 4, 2, 3, 5])?);
    assert!(rt; goes_up(&rt, alloc, last, 5, &[1, 2, 3, 4, 5])?);
    assert!(rt; goes_up(&rt, alloc, first, 7, &[1, 2, 3, 4, 5])?);
    assert!(rt; goes_up(&rt, alloc, last, 7, &[1, 2, 3, 4, 5])?);
    Ok(())
}

#[test]
fn member_goes_down_by_its_key(rt: HostRuntime) -> Result<(), Fail> {
    let (alloc, first, last) = (rt.alloc(), Duplicates::First, Duplicates::Last);
    assert!(rt; goes_down(&rt, alloc, first, 1, &[5, 2, 3, 1, 4])?);
    assert!(rt; goes_down(&rt, alloc, last, 1, &[5, 2, 3, 1, 4])?);
    assert!(rt; goes_down(&rt, alloc, first, 5, &[5, 4, 2, 3, 1])?);
    assert!(rt; goes_down(&rt, alloc, last, 5, &[5, 2, 3, 4, 1])?);
    assert!(rt; goes_down(&rt, alloc, first, 7, &[5, 4, 2, 3, 1])?);
    assert!(rt; goes_down(&rt, alloc, last, 7, &[5, 4, 2, 3, 1])?);
    Ok(())
}

// In LINES the items 1, 2 and 3 have these numbers as their quantities, and then item 1 that of item 2.
fn replaces(rt: &impl Abort, alloc: Global) -> Result<bool, AllocError> {
    let (mut ring, key) = (empty(alloc), item(1));
    stands_last(rt, &mut ring, &key, Some(1))?;
    stands_last(rt, &mut ring, &item(2), Some(2))?;
    stands_last(rt, &mut ring, &item(3), Some(3))?;
    let mut cell = Cell::Ring(ring);
    let order = Order::Sorted {
        ascending: true,
        duplicates: Duplicates::Last,
    };
    let edit = Edit::ReplaceMember {
        order,
        position: None,
        key,
        sort_key: Some(Value::Num(2)),
    };
    edit_cell(&mut cell, edit);
    lists(alloc, &cell, &[2, 1, 3])
}

// As after a MODIFY: it goes behind that one.
#[test]
fn member_is_placed_anew(rt: HostRuntime) -> Result<(), Fail> {
    assert!(rt; replaces(&rt, rt.alloc())?);
    Ok(())
}

fn takes_out(
    rt: &impl Abort,
    alloc: Global,
    number: u32,
    numbers: &[u32],
) -> Result<bool, AllocError> {
    let (ring, key) = (listed(rt, alloc)?, item(number));
    assert!(rt; ring.contains(key));
    let mut cell = Cell::Ring(ring);
    edit_cell(&mut cell, Edit::TakeOut { key });
    lists(alloc, &cell, numbers)
}

#[test]
fn member_is_taken_out(rt: HostRuntime) -> Result<(), Fail> {
    assert!(rt; takes_out(&rt, rt.alloc(), 1, &[2, 3])?);
    assert!(rt; takes_out(&rt, rt.alloc(), 2, &[1, 3])?);
    assert!(rt; takes_out(&rt, rt.alloc(), 3, &[1, 2])?);
    Ok(())
}

// An edit of a slot leaves a ring as it was, and one of a ring a slot.
fn stay(rt: &impl Abort, alloc: Global) -> Result<bool, AllocError> {
    let mut ring = Cell::Ring(listed(rt, alloc)?);
    edit_cell(&mut ring, Edit::Vacate);
    let mut slot = Cell::Slot(Slot::vacant());
    edit_cell(&mut slot, Edit::TakeOut { key: item(1) });
    Ok(
        lists(alloc, &ring, &[1, 2, 3])?
            && matches!(&slot, Cell::Slot(slot) if slot.record().is_none()),
    )
}

#[test]
fn cell_of_another_kind_stays(rt: HostRuntime) -> Result<(), Fail> {
    assert!(rt; stay(&rt, rt.alloc())?);
    Ok(())
}
