//! Which statements are of the shop: the numbers, names and values of docs/profile/scripts.md and data.md. Statements that are
//! not are read by another schema, or made where no script can state them.

use super::shop::shop;
use dbtg_cells::{DbKey, Shared, Value};
use dbtg_schema::{ItemNo, RecordNo, Row, Schema, SetNo};
use dbtg_script::read_script;
use dbtg_unit::{Change, Form, Statement, Suppress, Which};
use std::alloc::{AllocError, Global};
use std::test::*;

// The shop with more areas, record types and sets, and with other items, members and owners; IS and ARE are left out.
const OTHER: &[u8] =
    b"SCHEMA NAME OTHER.\nAREA NAME MAIN.\nAREA NAME SIDE.\nAREA NAME ATTIC.\nRECORD NAME CUSTOMER WITHIN MAIN.\n02 CNO PIC X(4).\nRECORD NAME ORDR LOCATION MODE CALC USING ONO DUPLICATES ALLOWED WITHIN MAIN.\n02 ONO PIC 9(5).\nRECORD NAME ITEM LOCATION MODE CALC USING PART QTY DUPLICATES ALLOWED WITHIN MAIN.\n02 PART PIC X(3).\n02 QTY PIC 9(4).\n02 COLOR PIC 9.\nRECORD NAME BOX WITHIN ATTIC.\n02 BNO PIC 9.\nSET NAME HAS ORDER SORTED ASCENDING DUPLICATES LAST OWNER CUSTOMER.\nMEMBER ORDR MANDATORY AUTOMATIC KEY ONO.\nSET NAME LINES ORDER SORTED ASCENDING DUPLICATES LAST OWNER ORDR.\nMEMBER ITEM OPTIONAL AUTOMATIC KEY QTY.\nSET NAME WATCH ORDER NEXT OWNER CUSTOMER.\nMEMBER ORDR OPTIONAL MANUAL.\nMEMBER ITEM OPTIONAL MANUAL.\nSET NAME MORE ORDER NEXT OWNER SYSTEM.\nMEMBER BOX OPTIONAL MANUAL.\n";

fn other(alloc: Global) -> Option<Schema> {
    Schema::read(alloc, OTHER).ok()
}

// Is each statement of a script, which is read by a schema, one of the shop?
fn fitting(alloc: Global, shop: &Schema, schema: &Schema, script: &[u8]) -> Option<Vec<bool>> {
    let statements = read_script(alloc, schema, script).ok()?;
    let mut found = Vec::new(alloc);
    for statement in &statements {
        found.push(statement.fits(shop)).ok()?;
    }
    Some(found)
}

fn fitting_of_shop(alloc: Global, script: &[u8]) -> Option<Vec<bool>> {
    let shop = shop(alloc)?;
    fitting(alloc, &shop, &shop, script)
}

// The statements of the other schema: a function to each schema, so that none owns two.
fn fitting_of_other(alloc: Global, script: &[u8]) -> Option<Vec<bool>> {
    let other = other(alloc)?;
    fitting_by_shop(alloc, &other, script)
}

fn fitting_by_shop(alloc: Global, schema: &Schema, script: &[u8]) -> Option<Vec<bool>> {
    let shop = shop(alloc)?;
    fitting(alloc, &shop, schema, script)
}

// A part has four bytes, and a quantity three digits.
#[test]
fn statements_of_the_shop(rt: HostRuntime) -> Result<(), Fail> {
    let script =
        b"FIND KEY CUSTOMER:1\nFIND NEXT DUPLICATE OF ITEM RECORD\nFIND LAST ITEM RECORD OF SIDE AREA\nFIND CALC ITEM RECORD USING PART = \"A\"\nSTORE ITEM PART = \"A\" QTY = 999\nSTORE ITEM PART = \" !#~\" QTY = 0";
    let found = fitting_of_shop(rt.alloc(), script).ok_or("statements")?;
    assert_eq!(rt; found.as_slice(), [true; 6].as_slice());
    Ok(())
}

#[test]
fn statements_of_both(rt: HostRuntime) -> Result<(), Fail> {
    let script =
        b"OPEN AREA SIDE USAGE-MODE IS UPDATE\nINSERT INTO WATCH\nGET ITEM\nFIND CURRENT OF RUN-UNIT SUPPRESS HAS LINES WATCH\nFIND KEY ITEM:999999.255\nFIND FIRST ITEM RECORD OF WATCH SET\nFIND 999999 OF LINES SET\nFIND -999999 OF LINES SET\nFIND OWNER OF LINES SET\nFIND SORTED 999 OF LINES SET\nSTORE ORDR ONO = 9999\nMODIFY ITEM QTY = 999";
    let found = fitting_of_other(rt.alloc(), script).ok_or("statements")?;
    assert_eq!(rt; found.as_slice(), [true; 12].as_slice());
    Ok(())
}

// In the shop LINES has items and no orders, SYSTEM owns WATCH, SIDE has the items, orders have no CALC, and LINES alone is
// sorted.
#[test]
fn numbers_and_names_of_the_other_alone(rt: HostRuntime) -> Result<(), Fail> {
    let script =
        b"OPEN AREA ATTIC USAGE-MODE IS UPDATE\nCLOSE AREA ATTIC\nINSERT INTO MORE\nGET BOX\nFIND KEY BOX:1\nFIND CURRENT OF RUN-UNIT SUPPRESS MORE\nFIND FIRST ORDR RECORD OF WATCH SET\nFIND LAST ITEM RECORD OF MAIN AREA\nFIND OWNER OF WATCH SET\nFIND NEXT DUPLICATE OF ORDR RECORD\nFIND SORTED 1 OF HAS SET";
    let found = fitting_of_other(rt.alloc(), script).ok_or("statements")?;
    assert_eq!(rt; found.as_slice(), [false; 11].as_slice());
    Ok(())
}

// Too large, too few, too large, too many, too many of CALC, too large, none of the items, too short, and a text for a number.
#[test]
fn values_of_the_other_alone(rt: HostRuntime) -> Result<(), Fail> {
    let script =
        b"FIND SORTED 1000 OF LINES SET\nSTORE CUSTOMER\nSTORE ORDR ONO = 10000\nSTORE ITEM\nFIND CALC ITEM RECORD USING PART = \"A\" QTY = 1\nMODIFY ITEM QTY = 1000\nMODIFY ITEM COLOR = 5\nMODIFY ITEM PART = \"ABC\"\nMODIFY CUSTOMER CNO = \"A\"";
    let found = fitting_of_other(rt.alloc(), script).ok_or("statements")?;
    assert_eq!(rt; found.as_slice(), [false; 9].as_slice());
    Ok(())
}

fn find_fits(shop: &Schema, form: Form) -> bool {
    let suppress = Suppress {
        types: false,
        areas: false,
        sets: 0,
    };
    let find = Statement::Find(suppress, form);
    find.fits(shop)
}

#[test]
fn keys(rt: HostRuntime) -> Result<(), Fail> {
    let shop = shop(rt.alloc()).ok_or("a schema")?;
    for (number, generation) in [(0, 1), (1_000_000, 1), (1, 0)] {
        let rtype = RecordNo::new(2);
        let key = DbKey {
            rtype,
            number,
            generation,
        };
        assert!(rt; !find_fits(&shop, Form::Key(key)), "{key:?}");
    }
    Ok(())
}

#[test]
fn counts(rt: HostRuntime) -> Result<(), Fail> {
    let shop = shop(rt.alloc()).ok_or("a schema")?;
    for n in [0, 1_000_000, -1_000_000] {
        let (which, set) = (Which::Nth(n), SetNo::new(1));
        let in_set = Form::InSet {
            which,
            rtype: None,
            set,
        };
        assert!(rt; !find_fits(&shop, in_set), "{n}");
    }
    Ok(())
}

fn part_fits(alloc: Global, shop: &Schema, part: &[u8]) -> Result<bool, AllocError> {
    let mut values = Vec::new(alloc);
    values.push(Value::Text(Row::of(Vec::from_slice(alloc, part)?)))?;
    let calc = Form::by_calc(alloc, RecordNo::new(2), Row::of(values))?;
    Ok(find_fits(shop, calc))
}

// A quote and a byte beyond ASCII are in no text.
#[test]
fn texts(rt: HostRuntime) -> Result<(), Fail> {
    let shop = shop(rt.alloc()).ok_or("a schema")?;
    assert!(rt; part_fits(rt.alloc(), &shop, b" !#~")?);
    assert!(rt; !part_fits(rt.alloc(), &shop, b"A\"  ")?);
    assert!(rt; !part_fits(rt.alloc(), &shop, b"A\x7f  ")?);
    Ok(())
}

// A MODIFY of items of an item record, each to 5.
fn changes_fit(alloc: Global, shop: &Schema, items: &[u8]) -> Result<bool, AllocError> {
    let mut changes = Vec::new(alloc);
    for item in items {
        let item = ItemNo::new(*item);
        let value = Value::Num(5);
        changes.push(Change { item, value })?;
    }
    let modify = Statement::Modify {
        rtype: RecordNo::new(2),
        changes: Shared::new(alloc, Row::of(changes))?,
    };
    Ok(modify.fits(shop))
}

// The quantity is the second item; it may be named once. The part is no number, and there is no third.
#[test]
fn changes(rt: HostRuntime) -> Result<(), Fail> {
    let shop = shop(rt.alloc()).ok_or("a schema")?;
    assert!(rt; changes_fit(rt.alloc(), &shop, &[1])?);
    assert!(rt; !changes_fit(rt.alloc(), &shop, &[1, 1])?);
    assert!(rt; !changes_fit(rt.alloc(), &shop, &[0])?);
    assert!(rt; !changes_fit(rt.alloc(), &shop, &[2])?);
    Ok(())
}
