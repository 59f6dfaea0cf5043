//! What a finished statement changes of its unit and of the guesses, by docs/profile/currency.md and keeping.md.

use super::shop::{customer, item, opened, order, place, shop};
use dbtg_cells::{DbKey, MaybeOwner, Mode, Owner, Owners};
use dbtg_schema::{AreaNo, Row, Schema, SetNo};
use dbtg_unit::{Answer, Held, Kept, Prepared, Status, Suppress, Unit, UnitEdit, finish};
use std::alloc::{AllocError, Global};
use std::test::*;

// A statement that is done, and changes no cell.
fn prepared(alloc: Global, unit: UnitEdit) -> Prepared {
    let answer = Answer {
        status: Status::Done,
        key: None,
        items: None,
    };
    let (cells, versions) = (Row::of(Vec::new(alloc)), Row::of(Vec::new(alloc)));
    Prepared::new(answer, cells, versions, unit)
}

fn finishes(
    alloc: Global,
    shop: &Schema,
    held: &mut Held,
    unit: &mut Unit,
    edit: UnitEdit,
) -> bool {
    let prepared = prepared(alloc, edit);
    let answer = finish(shop, prepared, held, unit);
    answer.status == Status::Done
}

// The unit that opened the shop, which keeps its customer and its order.
fn keeping(alloc: Global) -> Result<Unit, AllocError> {
    let mut unit = opened(alloc, Some(Mode::Update), None)?;
    let kept = unit.kept.noted(alloc, customer(1), 1)?;
    unit.keep(kept);
    let kept = unit.kept.noted(alloc, order(1), 4)?;
    unit.keep(kept);
    Ok(unit)
}

// The owners of its order.
fn holding(alloc: Global) -> Held {
    let none = MaybeOwner::of(None);
    let has = MaybeOwner::of(Some(Owner::Rec(customer(1))));
    Held::new(alloc, Owners::of(&[has, none, none]))
}

fn has_guesses(held: &Held, has: Option<Owner>, lines: Option<Owner>) -> bool {
    held.guess(SetNo::new(0)) == has && held.guess(SetNo::new(1)) == lines
}

// An item in LINES was found: it is current there and of the run-unit, and its owners are the guesses.
fn sees(alloc: Global, shop: &Schema) -> Result<bool, AllocError> {
    let (mut held, mut unit) = (holding(alloc), keeping(alloc)?);
    let suppress = Suppress {
        types: false,
        areas: false,
        sets: 0,
    };
    let none = MaybeOwner::of(None);
    let lines = MaybeOwner::of(Some(Owner::Rec(order(1))));
    let see = UnitEdit::See {
        key: item(3),
        owners: Owners::of(&[none, lines, none]),
        suppress,
    };
    Ok(
        finishes(alloc, shop, &mut held, &mut unit, see)
            && unit.currency.run_unit == Some(item(3))
            && unit.place_in(shop, SetNo::new(1)) == place(order(1), Some(item(3)))
            && has_guesses(&held, None, Some(Owner::Rec(order(1)))),
    )
}

// REMOVE leaves every place as it was, and the unit knows of no owner there.
fn leaves(alloc: Global, shop: &Schema) -> Result<bool, AllocError> {
    let (mut held, mut unit) = (holding(alloc), keeping(alloc)?);
    let leave = UnitEdit::Leave { set: SetNo::new(0) };
    Ok(
        finishes(alloc, shop, &mut held, &mut unit, leave)
            && unit.place_in(shop, SetNo::new(0)) == place(customer(1), Some(order(1)))
            && unit.currency.run_unit == Some(order(1))
            && has_guesses(&held, None, None),
    )
}

#[test]
fn currents_and_guesses(rt: HostRuntime) -> Result<(), Fail> {
    let shop = shop(rt.alloc()).ok_or("a schema")?;
    assert!(rt; sees(rt.alloc(), &shop)?);
    assert!(rt; leaves(rt.alloc(), &shop)?);
    Ok(())
}

// MAIN is open already; SIDE is opened, or MAIN closed. Nothing else changes.
fn sets_modes(
    alloc: Global,
    shop: &Schema,
    area: u8,
    mode: &Option<Mode>,
    wanted: &[Option<Mode>],
) -> Result<bool, AllocError> {
    let (mut held, mut unit) = (holding(alloc), keeping(alloc)?);
    let set_mode = UnitEdit::SetMode {
        area: AreaNo::new(area),
        mode: *mode,
    };
    Ok(
        finishes(alloc, shop, &mut held, &mut unit, set_mode)
            && unit.modes.as_slice() == wanted
            && unit.currency.run_unit == Some(order(1)),
    )
}

#[test]
fn modes(rt: HostRuntime) -> Result<(), Fail> {
    let shop = shop(rt.alloc()).ok_or("a schema")?;
    let (update, none) = (Some(Mode::Update), None);
    assert!(rt; sets_modes(rt.alloc(), &shop, 1, &update, &[update, update])?);
    assert!(rt; sets_modes(rt.alloc(), &shop, 0, &none, &[none, none])?);
    Ok(())
}

// Of the records that a unit keeps, and of its current of run-unit, are these left?
fn leaves_kept(
    alloc: Global,
    shop: &Schema,
    edit: UnitEdit,
    customers: Option<u64>,
    orders: Option<u64>,
    run_unit: Option<DbKey>,
) -> Result<bool, AllocError> {
    let (mut held, mut unit) = (holding(alloc), keeping(alloc)?);
    Ok(
        finishes(alloc, shop, &mut held, &mut unit, edit)
            && unit.kept_version(customer(1)) == customers
            && unit.kept_version(order(1)) == orders
            && unit.currency.run_unit == run_unit
            && has_guesses(&held, Some(Owner::Rec(customer(1))), None),
    )
}

fn keep(alloc: Global) -> Result<UnitEdit, AllocError> {
    let kept = Kept::of(Vec::from_slice(alloc, &[(order(1), 5)])?);
    Ok(UnitEdit::Keep { kept })
}

fn frees(alloc: Global, shop: &Schema) -> Result<bool, AllocError> {
    let (key, current) = (order(1), Some(order(1)));
    let is_same = leaves_kept(alloc, shop, UnitEdit::Same, Some(1), Some(4), current)?;
    let is_kept = leaves_kept(alloc, shop, keep(alloc)?, None, Some(5), current)?;
    let is_free = leaves_kept(
        alloc,
        shop,
        UnitEdit::Forget { key },
        Some(1),
        None,
        current,
    )?;
    let are_free = leaves_kept(alloc, shop, UnitEdit::ForgetAll, None, None, current)?;
    Ok(is_same && is_kept && is_free && are_free)
}

// DELETE: no record is current, and that record is not kept any more.
fn deletes(alloc: Global, shop: &Schema) -> Result<bool, AllocError> {
    let lose = UnitEdit::LoseCurrent { key: order(1) };
    leaves_kept(alloc, shop, lose, Some(1), None, None)
}

#[test]
fn kept_records(rt: HostRuntime) -> Result<(), Fail> {
    let shop = shop(rt.alloc()).ok_or("a schema")?;
    assert!(rt; frees(rt.alloc(), &shop)?);
    assert!(rt; deletes(rt.alloc(), &shop)?);
    Ok(())
}
