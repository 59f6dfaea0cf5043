//! What a MODIFY names in the shop, where a STORE connects, and the first two digits of each statement's refusals, by
//! docs/profile/statements.md and statuses.md.

use super::shop::shop;
use dbtg_schema::{ItemNo, RecordNo, Schema, SetNo};
use dbtg_script::read_script;
use dbtg_unit::{
    Statement, entry_at, is_automatic_in, is_rekeyed_in, names_calc, names_item, set_count,
    type_count,
};
use std::alloc::Global;
use std::test::*;

// For each MODIFY of a script: does it name the second item, a CALC item, the key of LINES, the key of WATCH?
fn named(alloc: Global, script: &[u8]) -> Option<Vec<(bool, bool, bool, bool)>> {
    let shop = shop(alloc)?;
    named_by(alloc, &shop, script)
}

fn named_by(alloc: Global, shop: &Schema, script: &[u8]) -> Option<Vec<(bool, bool, bool, bool)>> {
    let statements = read_script(alloc, shop, script).ok()?;
    let (lines, watch) = (SetNo::new(1), SetNo::new(2));
    let mut found = Vec::new(alloc);
    for statement in &statements {
        let Statement::Modify { rtype, changes } = statement else {
            return None;
        };
        let changes = changes.get().as_slice();
        let second = names_item(changes, ItemNo::new(1));
        let calc = names_calc(shop, *rtype, changes);
        let in_lines = is_rekeyed_in(shop, lines, *rtype, changes);
        let in_watch = is_rekeyed_in(shop, watch, *rtype, changes);
        found.push((second, calc, in_lines, in_watch)).ok()?;
    }
    Some(found)
}

// LINES is sorted by the quantity of an item, WATCH is not sorted; the CALC item of an item is its part.
#[test]
fn changes(rt: HostRuntime) -> Result<(), Fail> {
    let script =
        b"MODIFY ITEM QTY = 5\nMODIFY ITEM PART = \"B\"\nMODIFY ITEM PART = \"B\" QTY = 5\nMODIFY ORDR ONO = 5\nMODIFY CUSTOMER CNO = 5";
    let found = named(rt.alloc(), script).ok_or("statements")?;
    let wanted = [
        (true, false, true, false),
        (false, true, false, false),
        (true, true, true, false),
        (false, false, false, false),
        (false, true, false, false),
    ];
    assert_eq!(rt; found.as_slice(), wanted.as_slice());
    Ok(())
}

// A STORE of an item connects it to LINES, and not to WATCH, where it is MANUAL.
#[test]
fn automatic_sets(rt: HostRuntime) -> Result<(), Fail> {
    let shop = shop(rt.alloc()).ok_or("a schema")?;
    for (set, rtype, wanted) in [(0, 1, true), (1, 2, true), (2, 2, false), (0, 0, false)] {
        let connects = is_automatic_in(&shop, SetNo::new(set), RecordNo::new(rtype));
        assert_eq!(rt; connects, wanted, "set {set}");
    }
    assert_eq!(rt; (type_count(&shop), set_count(&shop)), (3, 3));
    Ok(())
}

#[test]
fn entries(rt: HostRuntime) {
    let entries = [Some(7), None];
    assert_eq!(rt; entry_at(&entries, 0), Some(7));
    assert_eq!(rt; entry_at(&entries, 1), None);
    assert_eq!(rt; entry_at(&entries, 2), None, "past the end");
}

fn codes(alloc: Global, script: &[u8]) -> Option<Vec<u8>> {
    let shop = shop(alloc)?;
    codes_by(alloc, &shop, script)
}

fn codes_by(alloc: Global, shop: &Schema, script: &[u8]) -> Option<Vec<u8>> {
    let statements = read_script(alloc, shop, script).ok()?;
    let mut found = Vec::new(alloc);
    for statement in &statements {
        found.push(statement.code()).ok()?;
    }
    Some(found)
}

#[test]
fn codes_of_statements(rt: HostRuntime) -> Result<(), Fail> {
    let script =
        b"OPEN AREA MAIN USAGE-MODE IS UPDATE\nCLOSE AREA MAIN\nFIND CURRENT OF RUN-UNIT\nGET\nSTORE CUSTOMER\nINSERT INTO HAS\nREMOVE FROM HAS\nMODIFY CUSTOMER CNO = 5\nDELETE ALL\nKEEP\nFREE";
    let found = codes(rt.alloc(), script).ok_or("statements")?;
    assert_eq!(rt;
        found.as_slice(),
        [1, 2, 3, 4, 5, 6, 7, 8, 9, 10, 11].as_slice()
    );
    Ok(())
}
