//! What a record that was found makes current, by docs/profile/currency.md, and where a unit stands in a set.

use super::shop::{beginning, customer, item, opened, order, place, shop};
use dbtg_cells::{DbKey, MaybeOwner, Owner};
use dbtg_schema::{Schema, SetNo};
use dbtg_unit::{Place, Suppress, Unit};
use std::alloc::Global;
use std::test::*;

fn suppress(types: bool, areas: bool, sets: u16) -> Suppress {
    Suppress { types, areas, sets }
}

// Are these the currents of a unit?
fn stands(
    unit: &Unit,
    run_unit: DbKey,
    types: &[Option<DbKey>],
    areas: &[Option<DbKey>],
    sets: &[Option<Place>],
) -> bool {
    unit.currency.run_unit == Some(run_unit)
        && unit.currency.types.as_slice() == types
        && unit.currency.areas.as_slice() == areas
        && unit.currency.sets.as_slice() == sets
}

// An item of the first order, in no other list.
fn sees_item(shop: &Schema, unit: &mut Unit, number: u32, suppress: &Suppress) {
    let none = MaybeOwner::of(None);
    let owners = [none, MaybeOwner::of(Some(Owner::Rec(order(1)))), none];
    unit.see(shop, item(number), owners.as_slice(), suppress);
}

// An order of the first customer.
fn sees_order(shop: &Schema, unit: &mut Unit, number: u32) {
    let none = MaybeOwner::of(None);
    let owners = [MaybeOwner::of(Some(Owner::Rec(customer(1)))), none, none];
    let all = suppress(false, false, 0);
    unit.see(shop, order(number), owners.as_slice(), &all);
}

// The unit line of docs/profile/currency.md after the third item of the shop was stored.
fn stands_at_third_item(unit: &Unit) -> bool {
    let types = [Some(customer(1)), Some(order(1)), Some(item(3))];
    let areas = [Some(order(1)), Some(item(3))];
    let (has, lines) = (
        place(customer(1), Some(order(1))),
        place(order(1), Some(item(3))),
    );
    stands(unit, item(3), &types, &areas, &[has, lines, None])
}

// The unit that opened the shop, when it has seen the third item.
fn at_third_item(alloc: Global, suppress: &Suppress) -> Option<Unit> {
    let shop = shop(alloc)?;
    let mut unit = opened(alloc, None, None).ok()?;
    sees_item(&shop, &mut unit, 3, suppress);
    Some(unit)
}

#[test]
fn record_is_current(rt: HostRuntime) -> Result<(), Fail> {
    let unit = at_third_item(rt.alloc(), &suppress(false, false, 0)).ok_or("a unit")?;
    assert!(rt; stands_at_third_item(&unit));
    Ok(())
}

// All but the current of run-unit is as it was at the opening of the shop.
fn stands_as_at_opening(unit: &Unit) -> bool {
    let types = [Some(customer(1)), Some(order(1)), None];
    let areas = [Some(order(1)), None];
    let (has, lines) = (place(customer(1), Some(order(1))), place(order(1), None));
    stands(unit, item(3), &types, &areas, &[has, lines, None])
}

#[test]
fn all_is_suppressed_but_the_run_unit(rt: HostRuntime) -> Result<(), Fail> {
    let unit = at_third_item(rt.alloc(), &suppress(true, true, 7)).ok_or("a unit")?;
    assert!(rt; stands_as_at_opening(&unit));
    Ok(())
}

// An order was found, then an item of another order, with the current of LINES kept as it was.
fn stands_at_second_order(unit: &Unit) -> bool {
    let types = [None, Some(order(2)), Some(item(1))];
    let areas = [Some(order(2)), Some(item(1))];
    let (has, lines) = (place(customer(1), Some(order(2))), place(order(2), None));
    stands(unit, item(1), &types, &areas, &[has, lines, None])
}

fn at_order_and_item(alloc: Global) -> Option<Unit> {
    let shop = shop(alloc)?;
    let mut unit = beginning(alloc, None, None).ok()?;
    sees_order(&shop, &mut unit, 2);
    sees_item(&shop, &mut unit, 1, &suppress(false, false, 2));
    Some(unit)
}

#[test]
fn set_is_suppressed(rt: HostRuntime) -> Result<(), Fail> {
    let unit = at_order_and_item(rt.alloc()).ok_or("a unit")?;
    assert!(rt; stands_at_second_order(&unit));
    Ok(())
}

// At the order in HAS, at the order itself in LINES, and at SYSTEM in WATCH.
fn stands_in_sets(shop: &Schema, unit: &Unit) -> bool {
    let at_system = Some(Place {
        owner: Owner::System,
        at: None,
    });
    let (has, lines, watch) = (SetNo::new(0), SetNo::new(1), SetNo::new(2));
    unit.place_in(shop, has) == place(customer(1), Some(order(1)))
        && unit.place_in(shop, watch) == at_system
        && unit.key_in(shop, has) == Some(order(1))
        && unit.key_in(shop, lines) == Some(order(1))
        && unit.key_in(shop, watch).is_none()
}

fn stands_after_opening(alloc: Global) -> Option<bool> {
    let shop = shop(alloc)?;
    let unit = opened(alloc, None, None).ok()?;
    Some(stands_in_sets(&shop, &unit))
}

fn place_at_beginning(alloc: Global) -> Option<Place> {
    let shop = shop(alloc)?;
    let unit = beginning(alloc, None, None).ok()?;
    unit.place_in(&shop, SetNo::new(0))
}

#[test]
fn places_in_sets(rt: HostRuntime) {
    assert_eq!(rt; stands_after_opening(rt.alloc()), Some(true));
    assert!(rt; place_at_beginning(rt.alloc()).is_none());
}
