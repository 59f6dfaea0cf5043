//! Which statements are refused with no cell taken, by the first table of docs/profile/statements.md. Each refusal is shown by
//! its status, and 0 says that cells decide. The capacity is 100.

use super::shop::{at_alone, beginning, customer, item, opened, order, shop};
use dbtg_cells::{DbKey, Mode};
use dbtg_schema::Schema;
use dbtg_script::read_script;
use dbtg_unit::{Cause, Erase, Statement, Status, Unit, refused_at_once};
use std::alloc::{AllocError, Global};
use std::test::*;

// A status for each statement of a script.
fn statuses(alloc: Global, shop: &Schema, unit: &Unit, script: &[u8]) -> Option<Vec<u16>> {
    let statements = read_script(alloc, shop, script).ok()?;
    let mut found = Vec::new(alloc);
    for statement in &statements {
        let status = match refused_at_once(shop, 100, unit, statement) {
            Some(cause) => Status::Refused(cause).code(statement),
            None => 0,
        };
        found.push(status).ok()?;
    }
    Some(found)
}

fn statuses_at_beginning(
    alloc: Global,
    main: Option<Mode>,
    side: Option<Mode>,
    script: &[u8],
) -> Option<Vec<u16>> {
    let shop = shop(alloc)?;
    let unit = beginning(alloc, main, side).ok()?;
    statuses(alloc, &shop, &unit, script)
}

fn statuses_after_opening(
    alloc: Global,
    main: Option<Mode>,
    side: Option<Mode>,
    script: &[u8],
) -> Option<Vec<u16>> {
    let shop = shop(alloc)?;
    let unit = opened(alloc, main, side).ok()?;
    statuses(alloc, &shop, &unit, script)
}

// The unit of the opening, at an item.
fn statuses_at_item(
    alloc: Global,
    main: Option<Mode>,
    side: Option<Mode>,
    script: &[u8],
) -> Option<Vec<u16>> {
    let shop = shop(alloc)?;
    let mut unit = opened(alloc, main, side).ok()?;
    unit.currency.run_unit = Some(item(1));
    statuses(alloc, &shop, &unit, script)
}

// Both areas are open for updates.
fn statuses_alone(alloc: Global, key: DbKey, script: &[u8]) -> Option<Vec<u16>> {
    let shop = shop(alloc)?;
    let unit = at_alone(alloc, key, Some(Mode::Update)).ok()?;
    statuses(alloc, &shop, &unit, script)
}

// Before 06 and 01: the current of LINES is null, and no area is open.
#[test]
fn no_current_of_run_unit(rt: HostRuntime) -> Result<(), Fail> {
    let script =
        b"FIND CURRENT OF RUN-UNIT\nGET\nINSERT INTO LINES\nREMOVE FROM LINES\nMODIFY ITEM QTY = 5\nDELETE\nKEEP\nFREE\nFREE ALL";
    let found = statuses_at_beginning(rt.alloc(), None, None, script).ok_or("statements")?;
    assert_eq!(rt;
        found.as_slice(),
        [313, 413, 613, 713, 813, 913, 1013, 1113, 0].as_slice()
    );
    Ok(())
}

// An order is a member of HAS alone. Before 01: no area is open.
#[test]
fn other_record_type(rt: HostRuntime) -> Result<(), Fail> {
    let script =
        b"GET CUSTOMER\nGET ORDR\nINSERT INTO WATCH\nREMOVE FROM LINES\nMODIFY ITEM QTY = 5\nMODIFY ORDR ONO = 5";
    let found = statuses_after_opening(rt.alloc(), None, None, script).ok_or("statements")?;
    assert_eq!(rt; found.as_slice(), [420, 401, 620, 720, 820, 801].as_slice());
    Ok(())
}

// An order is MANDATORY AUTOMATIC in HAS and no member of LINES. Before 06, as LINES and HAS are null.
#[test]
fn at_an_order_alone(rt: HostRuntime) -> Result<(), Fail> {
    let script = b"INSERT INTO LINES\nINSERT INTO HAS\nREMOVE FROM HAS";
    let found = statuses_alone(rt.alloc(), order(1), script).ok_or("statements")?;
    assert_eq!(rt; found.as_slice(), [620, 614, 715].as_slice());
    Ok(())
}

// An item is no member of HAS, as in docs/profile/statuses.md. LINES has no owner at which the unit stands, WATCH has SYSTEM.
#[test]
fn at_an_item_alone(rt: HostRuntime) -> Result<(), Fail> {
    let script = b"INSERT INTO HAS\nINSERT INTO LINES\nINSERT INTO WATCH";
    let found = statuses_alone(rt.alloc(), item(1), script).ok_or("statements")?;
    assert_eq!(rt; found.as_slice(), [620, 606, 0].as_slice());
    Ok(())
}

// 14 and 15 come before 01: no area is open.
#[test]
fn mandatory_members(rt: HostRuntime) -> Result<(), Fail> {
    let script = b"INSERT INTO HAS\nREMOVE FROM HAS";
    let found = statuses_after_opening(rt.alloc(), None, None, script).ok_or("statements")?;
    assert_eq!(rt; found.as_slice(), [614, 715].as_slice());
    Ok(())
}

// An item is OPTIONAL AUTOMATIC in LINES and OPTIONAL MANUAL in WATCH.
#[test]
fn optional_members(rt: HostRuntime) -> Result<(), Fail> {
    let script = b"INSERT INTO LINES\nREMOVE FROM LINES\nINSERT INTO WATCH\nREMOVE FROM WATCH";
    let found = statuses_at_item(rt.alloc(), Some(Mode::Update), Some(Mode::Update), script).ok_or(
        "statements",
    )?;
    assert_eq!(rt; found.as_slice(), [0, 0, 0, 0].as_slice());
    Ok(())
}

#[test]
fn area_is_open_already(rt: HostRuntime) -> Result<(), Fail> {
    let script = b"OPEN AREA MAIN USAGE-MODE IS RETRIEVAL\nOPEN AREA SIDE USAGE-MODE IS RETRIEVAL";
    let found = statuses_at_beginning(rt.alloc(), Some(Mode::ExclusiveUpdate), None, script).ok_or(
        "statements",
    )?;
    assert_eq!(rt; found.as_slice(), [128, 0].as_slice());
    Ok(())
}

// What is null at the opening of the shop, before 01: no area is open. FIRST in an area needs no current, and a SYSTEM set has
// always one.
#[test]
fn no_current_at_the_opening(rt: HostRuntime) -> Result<(), Fail> {
    let script =
        b"FIND CURRENT OF ITEM RECORD\nFIND CURRENT OF WATCH SET\nFIND CURRENT OF SIDE AREA\nFIND NEXT DUPLICATE OF ITEM RECORD\nFIND NEXT OF SIDE AREA\nFIND PRIOR OF SIDE AREA\nFIND FIRST OF SIDE AREA\nFIND NEXT OF WATCH SET\nFIND CURRENT OF LINES SET";
    let found = statuses_after_opening(rt.alloc(), None, None, script).ok_or("statements")?;
    assert_eq!(rt;
        found.as_slice(),
        [306, 306, 306, 306, 306, 306, 301, 301, 301].as_slice()
    );
    Ok(())
}

#[test]
fn no_current_at_all(rt: HostRuntime) -> Result<(), Fail> {
    let script =
        b"FIND FIRST OF HAS SET\nFIND OWNER OF LINES SET\nFIND SORTED 2 OF LINES SET\nSTORE ORDR\nSTORE CUSTOMER";
    let found = statuses_at_beginning(rt.alloc(), None, None, script).ok_or("statements")?;
    assert_eq!(rt; found.as_slice(), [306, 306, 306, 506, 501].as_slice());
    Ok(())
}

// No FIND and no GET needs an UPDATE mode.
#[test]
fn cells_decide(rt: HostRuntime) -> Result<(), Fail> {
    let script =
        b"FIND CURRENT OF RUN-UNIT\nFIND CURRENT OF CUSTOMER RECORD\nFIND CURRENT OF HAS SET\nFIND CURRENT OF LINES SET\nFIND CURRENT OF MAIN AREA\nFIND NEXT OF LINES SET\nFIND SORTED 2 OF LINES SET\nFIND CALC ITEM RECORD USING PART = \"A\"\nGET ORDR\nKEEP\nCLOSE AREA SIDE";
    let found = statuses_after_opening(
        rt.alloc(),
        Some(Mode::Retrieval),
        Some(Mode::Retrieval),
        script,
    )
    .ok_or("statements")?;
    assert_eq!(rt; found.as_slice(), [0; 11].as_slice());
    Ok(())
}

// SIDE alone is open, to retrieve; so 01 comes before 09.
#[test]
fn main_is_not_open(rt: HostRuntime) -> Result<(), Fail> {
    let script =
        b"CLOSE AREA MAIN\nCLOSE AREA SIDE\nFIND KEY CUSTOMER:1\nFIND KEY ITEM:1\nFIND CALC CUSTOMER RECORD USING CNO = 1\nGET ORDR\nSTORE ITEM\nKEEP";
    let found = statuses_after_opening(rt.alloc(), None, Some(Mode::Retrieval), script).ok_or(
        "statements",
    )?;
    assert_eq!(rt;
        found.as_slice(),
        [201, 0, 301, 0, 301, 401, 501, 1001].as_slice()
    );
    Ok(())
}

// LINES is at home in MAIN, WATCH in SIDE; a DELETE of an item takes both areas. FREE needs no open area.
#[test]
fn home_of_lines_is_not_open(rt: HostRuntime) -> Result<(), Fail> {
    let script =
        b"GET\nFIND SORTED 2 OF LINES SET\nINSERT INTO LINES\nREMOVE FROM LINES\nINSERT INTO WATCH\nDELETE\nFREE";
    let found = statuses_at_item(rt.alloc(), None, Some(Mode::Retrieval), script).ok_or(
        "statements",
    )?;
    assert_eq!(rt;
        found.as_slice(),
        [0, 301, 601, 701, 609, 901, 1131].as_slice()
    );
    Ok(())
}

// MAIN is open to retrieve, and SIDE for updates. The quantity is the key of LINES, which is at home in MAIN; the part is the
// key of none.
#[test]
fn update_mode_is_needed(rt: HostRuntime) -> Result<(), Fail> {
    let script =
        b"STORE CUSTOMER\nSTORE ITEM\nINSERT INTO LINES\nREMOVE FROM LINES\nDELETE\nINSERT INTO WATCH\nMODIFY ITEM QTY = 5\nMODIFY ITEM PART = \"B\"";
    let found = statuses_at_item(
        rt.alloc(),
        Some(Mode::Retrieval),
        Some(Mode::Update),
        script,
    )
    .ok_or("statements")?;
    assert_eq!(rt;
        found.as_slice(),
        [509, 509, 609, 709, 909, 0, 809, 0].as_slice()
    );
    Ok(())
}

fn refusal_of_delete(
    alloc: Global,
    shop: &Schema,
    mode: Mode,
) -> Result<Option<Cause>, AllocError> {
    let unit = opened(alloc, Some(mode), Some(mode))?;
    let delete = Statement::Delete(Erase::Plain);
    Ok(refused_at_once(shop, 100, &unit, &delete))
}

// Three of the six modes let a unit change.
#[test]
fn modes_for_updates(rt: HostRuntime) -> Result<(), Fail> {
    let shop = shop(rt.alloc()).ok_or("a schema")?;
    let needed = Some(Cause::UpdateModeNeeded);
    for (mode, wanted) in [
        (Mode::Retrieval, needed),
        (Mode::Update, None),
        (Mode::ProtectedRetrieval, needed),
        (Mode::ProtectedUpdate, None),
        (Mode::ExclusiveRetrieval, needed),
        (Mode::ExclusiveUpdate, None),
    ] {
        assert_eq!(rt;
            refusal_of_delete(rt.alloc(), &shop, mode)?,
            wanted,
            "{mode:?}"
        );
    }
    Ok(())
}

// 01 comes before 26.
#[test]
fn number_above_the_capacity(rt: HostRuntime) -> Result<(), Fail> {
    let script = b"FIND KEY CUSTOMER:101\nFIND KEY CUSTOMER:100\nFIND KEY ITEM:101";
    let found = statuses_at_beginning(rt.alloc(), Some(Mode::Retrieval), None, script).ok_or(
        "statements",
    )?;
    assert_eq!(rt; found.as_slice(), [326, 0, 301].as_slice());
    Ok(())
}

// At the first order, with no area open, which FREE does not need; another record is kept, or the order itself.
fn statuses_keeping(alloc: Global, key: DbKey) -> Option<Vec<u16>> {
    let shop = shop(alloc)?;
    let mut unit = opened(alloc, None, None).ok()?;
    let kept = unit.kept.noted(alloc, key, 1).ok()?;
    unit.keep(kept);
    statuses(alloc, &shop, &unit, b"FREE\nFREE ALL")
}

#[test]
fn record_is_not_kept(rt: HostRuntime) -> Result<(), Fail> {
    let found = statuses_keeping(rt.alloc(), customer(1)).ok_or("statements")?;
    assert_eq!(rt; found.as_slice(), [1131, 0].as_slice());
    let found = statuses_keeping(rt.alloc(), order(1)).ok_or("statements")?;
    assert_eq!(rt; found.as_slice(), [0, 0].as_slice());
    Ok(())
}
