//! Which areas the statements want in the shop, and in which order they take them, by docs/profile/statements.md.

use super::shop::{at_alone, customer, item, opened, order, shop};
use dbtg_cells::{DbKey, Owners};
use dbtg_schema::{AreaNo, Schema};
use dbtg_script::read_script;
use dbtg_unit::{Held, Unit, has_area, next_area};
use std::alloc::{AllocError, Global};
use std::test::*;

// For each statement of a script a number: 1 for MAIN alone, 2 for SIDE alone, 3 for both, 0 for none, 9 for another area.
fn areas(alloc: Global, shop: &Schema, unit: &Unit, script: &[u8]) -> Option<Vec<u8>> {
    let statements = read_script(alloc, shop, script).ok()?;
    let mut found = Vec::new(alloc);
    for statement in &statements {
        let main = has_area(shop, unit, statement, AreaNo::new(0));
        let side = has_area(shop, unit, statement, AreaNo::new(1));
        let other = has_area(shop, unit, statement, AreaNo::new(2));
        let number = match (main, side, other) {
            (false, false, false) => 0,
            (true, false, false) => 1,
            (false, true, false) => 2,
            (true, true, false) => 3,
            _ => 9,
        };
        found.push(number).ok()?;
    }
    Some(found)
}

fn areas_after_opening(alloc: Global, script: &[u8]) -> Option<Vec<u8>> {
    let shop = shop(alloc)?;
    let unit = opened(alloc, None, None).ok()?;
    areas(alloc, &shop, &unit, script)
}

fn areas_at_item(alloc: Global, script: &[u8]) -> Option<Vec<u8>> {
    let shop = shop(alloc)?;
    let unit = at_alone(alloc, item(1), None).ok()?;
    areas(alloc, &shop, &unit, script)
}

// The homes of HAS and LINES are MAIN, that of WATCH is SIDE; a FIND in a set also wants the areas of its member types.
#[test]
fn areas_of_finds(rt: HostRuntime) -> Result<(), Fail> {
    let script =
        b"FIND KEY ITEM:1\nFIND FIRST OF HAS SET\nFIND FIRST OF LINES SET\nFIND FIRST OF WATCH SET\nFIND LAST OF SIDE AREA\nFIND OWNER OF LINES SET\nFIND SORTED 2 OF LINES SET\nFIND CALC CUSTOMER RECORD USING CNO = 1\nFIND NEXT DUPLICATE OF ITEM RECORD";
    let found = areas_after_opening(rt.alloc(), script).ok_or("statements")?;
    assert_eq!(rt; found.as_slice(), [2, 1, 3, 2, 2, 1, 3, 1, 2].as_slice());
    Ok(())
}

// At the first order, as after the opening of the shop. STORE takes the homes of the sets in which it connects the record.
#[test]
fn areas_at_an_order(rt: HostRuntime) -> Result<(), Fail> {
    let script =
        b"OPEN AREA SIDE USAGE-MODE IS RETRIEVAL\nCLOSE AREA MAIN\nFREE ALL\nFIND CURRENT OF RUN-UNIT\nFIND CURRENT OF ITEM RECORD\nFIND CURRENT OF LINES SET\nFIND CURRENT OF MAIN AREA\nGET\nKEEP\nSTORE CUSTOMER\nSTORE ORDR\nSTORE ITEM";
    let found = areas_after_opening(rt.alloc(), script).ok_or("statements")?;
    assert_eq!(rt;
        found.as_slice(),
        [2, 1, 0, 1, 2, 1, 1, 1, 1, 1, 1, 3].as_slice()
    );
    Ok(())
}

// The part is the key of no set, the quantity is that of LINES.
#[test]
fn areas_at_an_item(rt: HostRuntime) -> Result<(), Fail> {
    let script =
        b"GET\nINSERT INTO LINES\nINSERT INTO WATCH\nREMOVE FROM LINES\nREMOVE FROM WATCH\nMODIFY ITEM PART = \"B\"\nMODIFY ITEM QTY = 5";
    let found = areas_at_item(rt.alloc(), script).ok_or("statements")?;
    assert_eq!(rt; found.as_slice(), [2, 3, 2, 3, 2, 2, 3].as_slice());
    Ok(())
}

fn areas_of_delete_at(alloc: Global, key: DbKey) -> Option<Vec<u8>> {
    let shop = shop(alloc)?;
    let unit = at_alone(alloc, key, None).ok()?;
    areas(alloc, &shop, &unit, b"DELETE\nDELETE ALL")
}

// Every DELETE in the shop takes both, also that of an item.
#[test]
fn areas_of_delete(rt: HostRuntime) -> Result<(), Fail> {
    for key in [customer(1), order(1), item(1)] {
        let found = areas_of_delete_at(rt.alloc(), key).ok_or("statements")?;
        assert_eq!(rt; found.as_slice(), [3, 3].as_slice(), "{key:?}");
    }
    Ok(())
}

// For each statement of a script the number of the next area, with these in hand already.
fn next_areas(
    alloc: Global,
    shop: &Schema,
    unit: &Unit,
    held: &Held,
    script: &[u8],
) -> Option<Vec<Option<u8>>> {
    let statements = read_script(alloc, shop, script).ok()?;
    let mut found = Vec::new(alloc);
    for statement in &statements {
        let next = match next_area(shop, unit, statement, held) {
            Some(area) => Some(area.index()),
            None => None,
        };
        found.push(next).ok()?;
    }
    Some(found)
}

fn holding(alloc: Global, areas: &[u8]) -> Result<Held, AllocError> {
    let mut held = Held::new(alloc, Owners::none(3));
    for area in areas {
        held.push_area(AreaNo::new(*area))?;
    }
    Ok(held)
}

// At an item a REMOVE FROM LINES takes MAIN and then SIDE, a GET takes SIDE alone, and a FREE none.
fn next_at_item(alloc: Global, areas: &[u8]) -> Option<Vec<Option<u8>>> {
    let shop = shop(alloc)?;
    let unit = at_alone(alloc, item(1), None).ok()?;
    let held = holding(alloc, areas).ok()?;
    next_areas(alloc, &shop, &unit, &held, b"REMOVE FROM LINES\nGET\nFREE")
}

#[test]
fn areas_in_turn(rt: HostRuntime) -> Result<(), Fail> {
    let found = next_at_item(rt.alloc(), &[]).ok_or("statements")?;
    assert_eq!(rt; found.as_slice(), [Some(0), Some(1), None].as_slice());
    let found = next_at_item(rt.alloc(), &[0]).ok_or("statements")?;
    assert_eq!(rt; found.as_slice(), [Some(1), Some(1), None].as_slice());
    let found = next_at_item(rt.alloc(), &[1]).ok_or("statements")?;
    assert_eq!(rt; found.as_slice(), [Some(0), None, None].as_slice());
    let found = next_at_item(rt.alloc(), &[0, 1]).ok_or("statements")?;
    assert_eq!(rt; found.as_slice(), [None, None, None].as_slice());
    Ok(())
}
