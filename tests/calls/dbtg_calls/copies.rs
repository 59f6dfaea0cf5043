//! A copy of each kind, made with memory to spare, says what its original says.

use super::shop::{item, opened, order, shop};
use dbtg_cells::{Mode, Owner, Shared, Value};
use dbtg_schema::{AreaNo, ItemNo, RecordNo, Row, Schema, SetNo};
use dbtg_script::read_script;
use dbtg_unit::{
    Answer, Cause, Change, Currency, Entry, Form, Kept, Place, Statement, Status, Suppress, Unit,
    Which, has_area, refused_at_once,
};
use std::alloc::{AllocError, Global};
use std::test::*;

fn one_value(alloc: Global, value: Value) -> Result<Row<Value>, AllocError> {
    let mut values = Vec::new(alloc);
    values.push(value)?;
    Ok(Row::of(values))
}

fn suppress() -> Suppress {
    Suppress {
        types: true,
        areas: false,
        sets: 5,
    }
}

// Has each statement of a script the code of its copy, and are both refused alike, in SIDE or not?
fn copies_are_alike(alloc: Global, shop: &Schema, unit: &Unit, script: &[u8]) -> Option<bool> {
    let statements = read_script(alloc, shop, script).ok()?;
    let mut are_alike = true;
    for statement in &statements {
        let copy = statement.copy().ok()?;
        let refused = refused_at_once(shop, 100, unit, statement);
        let side = has_area(shop, unit, statement, AreaNo::new(1));
        are_alike &= copy.code() == statement.code()
            && copy.fits(shop)
            && refused_at_once(shop, 100, unit, &copy) == refused
            && has_area(shop, unit, &copy, AreaNo::new(1)) == side;
    }
    Some(are_alike)
}

fn copies_after_opening(alloc: Global, script: &[u8]) -> Option<bool> {
    let shop = shop(alloc)?;
    let unit = opened(alloc, None, None).ok()?;
    copies_are_alike(alloc, &shop, &unit, script)
}

#[test]
fn statements(rt: HostRuntime) {
    let script =
        b"OPEN AREA MAIN USAGE-MODE IS PROTECTED UPDATE\nCLOSE AREA SIDE\nFIND KEY ITEM:7.2 SUPPRESS RECORD HAS\nFIND CURRENT OF RUN-UNIT\nFIND CURRENT OF CUSTOMER RECORD\nFIND CURRENT OF WATCH SET\nFIND CURRENT OF SIDE AREA\nFIND -2 ITEM RECORD OF LINES SET\nFIND PRIOR OF MAIN AREA\nFIND OWNER OF LINES SET\nFIND CALC ITEM RECORD USING PART = \"A\"\nFIND NEXT DUPLICATE OF ITEM RECORD\nFIND SORTED 9 OF LINES SET\nGET CUSTOMER\nSTORE ITEM PART = \"A\" QTY = 8 SUPPRESS ALL\nINSERT INTO HAS\nREMOVE FROM LINES\nMODIFY ORDR ONO = 8\nDELETE SELECTIVE\nKEEP\nFREE ALL";
    assert_eq!(rt; copies_after_opening(rt.alloc(), script), Some(true));
}

#[test]
fn form_in_set(rt: HostRuntime) -> Result<(), Fail> {
    let form = Form::InSet {
        which: Which::Nth(-2),
        rtype: Some(RecordNo::new(3)),
        set: SetNo::new(4),
    }
    .copy()?;
    assert!(rt;
        matches!(&form, Form::InSet { which: Which::Nth(-2), rtype: Some(t), set } if t.index() == 3 && set.index() == 4)
    );
    Ok(())
}

#[test]
fn form_by_values(rt: HostRuntime) -> Result<(), Fail> {
    let rtype = RecordNo::new(2);
    let values = one_value(rt.alloc(), Value::Num(7))?;
    let form = Form::by_calc(rt.alloc(), rtype, values)?.copy()?;
    assert!(rt;
        matches!(&form, Form::Calc { rtype: t, values } if *t == rtype && matches!(values.get().as_slice(), [Value::Num(7)]))
    );
    Ok(())
}

#[test]
fn form_by_sort_key(rt: HostRuntime) -> Result<(), Fail> {
    let form = Form::by_sort_key(rt.alloc(), SetNo::new(4), Value::Num(7))?.copy()?;
    assert!(rt;
        matches!(&form, Form::Sorted { set, value } if set.index() == 4 && matches!(value.get(), Value::Num(7)))
    );
    Ok(())
}

#[test]
fn store(rt: HostRuntime) -> Result<(), Fail> {
    let store = Statement::Store {
        rtype: RecordNo::new(3),
        items: Shared::new(rt.alloc(), one_value(rt.alloc(), Value::Num(8))?)?,
        suppress: suppress(),
    }
    .copy()?;
    assert!(rt;
        matches!(&store, Statement::Store { rtype, items, suppress: s } if rtype.index() == 3 && *s == suppress() && matches!(items.get().as_slice(), [Value::Num(8)]))
    );
    Ok(())
}

#[test]
fn modify(rt: HostRuntime) -> Result<(), Fail> {
    let mut changes = Row::of(Vec::new(rt.alloc()));
    let (item, value) = (ItemNo::new(1), Value::Num(8));
    assert!(rt; changes.push(Change { item, value }).is_ok());
    let rtype = RecordNo::new(3);
    let changes = Shared::new(rt.alloc(), changes)?;
    let modify = Statement::Modify { rtype, changes }.copy()?;
    assert!(rt;
        matches!(&modify, Statement::Modify { rtype: t, changes } if *t == rtype && matches!(changes.get().as_slice(), [Change { item: i, value: Value::Num(8) }] if *i == item))
    );
    Ok(())
}

fn currency(alloc: Global) -> Result<Currency, AllocError> {
    let place = Place {
        owner: Owner::System,
        at: Some(item(2)),
    };
    Ok(Currency {
        run_unit: Some(item(1)),
        types: Row::of(Vec::from_slice(alloc, &[None, Some(item(2))])?),
        areas: Row::of(Vec::from_slice(alloc, &[Some(item(3))])?),
        sets: Row::of(Vec::from_slice(alloc, &[Some(place)])?),
    })
}

#[test]
fn currents(rt: HostRuntime) -> Result<(), Fail> {
    let copy = currency(rt.alloc())?.copy(rt.alloc())?;
    assert_eq!(rt; copy.run_unit, Some(item(1)));
    assert_eq!(rt; copy.types.as_slice(), [None, Some(item(2))].as_slice());
    assert_eq!(rt; copy.areas.as_slice(), [Some(item(3))].as_slice());
    let place = copy.sets.get(0).copied().flatten();
    let wanted = Some(Place {
        owner: Owner::System,
        at: Some(item(2)),
    });
    assert!(rt; place == wanted);
    Ok(())
}

#[test]
fn kept(rt: HostRuntime) -> Result<(), Fail> {
    let kept = Kept::of(Vec::from_slice(rt.alloc(), &[(order(1), 3), (item(4), 1)])?);
    let copy = kept.copy(rt.alloc())?;
    assert_eq!(rt; copy.as_slice(), [(order(1), 3), (item(4), 1)].as_slice());
    assert_eq!(rt; copy.into_vec().len(), 2);
    Ok(())
}

#[test]
fn unit(rt: HostRuntime) -> Result<(), Fail> {
    let unit = Unit {
        number: 3,
        currency: currency(rt.alloc())?,
        modes: Row::of(Vec::from_slice(rt.alloc(), &[Some(Mode::Update)])?),
        kept: Kept::of(Vec::from_slice(rt.alloc(), &[(item(1), 2)])?),
    };
    let copy = unit.copy(rt.alloc())?;
    assert_eq!(rt; copy.number, 3);
    assert_eq!(rt; copy.currency.run_unit, Some(item(1)));
    assert_eq!(rt; copy.modes.as_slice(), [Some(Mode::Update)].as_slice());
    assert_eq!(rt; copy.kept.as_slice(), [(item(1), 2)].as_slice());
    Ok(())
}

#[test]
fn answer(rt: HostRuntime) -> Result<(), Fail> {
    let answer = Answer {
        status: Status::Refused(Cause::End),
        key: Some(item(7)),
        items: Some(Shared::new(rt.alloc(), one_value(rt.alloc(), Value::Num(8))?)?),
    };
    let copy = answer.copy()?;
    assert_eq!(rt; copy.status, Status::Refused(Cause::End));
    assert_eq!(rt; copy.key, Some(item(7)));
    assert!(rt; matches!(&copy.items, Some(items) if matches!(items.get().as_slice(), [Value::Num(8)])));
    Ok(())
}

#[test]
fn entry(rt: HostRuntime) -> Result<(), Fail> {
    let answer = Answer {
        status: Status::Done,
        key: None,
        items: None,
    };
    let entry = Entry {
        ticket: 70000,
        unit: 4,
        statement: Statement::Keep,
        answer,
    };
    let copy = entry.copy()?;
    assert_eq!(rt; (copy.ticket, copy.unit), (70000, 4));
    assert!(rt; matches!(&copy.statement, Statement::Keep));
    assert_eq!(rt; copy.answer.status, Status::Done);
    assert!(rt; copy.answer.key.is_none() && copy.answer.items.is_none());
    Ok(())
}
