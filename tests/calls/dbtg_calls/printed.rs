//! Answers, units, images and moves as printed texts, by docs/profile/printed-texts.md.

use super::shop::shop;
use dbtg_cells::{DbKey, Mode, Owner, Shared, SharedItems, Value};
use dbtg_schema::{AreaNo, RecordNo, Row};
use dbtg_script::{answers_text, image_text, moves_text, units_text};
use dbtg_unit::{Answer, Cause, Currency, Entry, Image, Kept, Place, Statement, Status, Stepped, Unit};
use std::alloc::Global;
use std::test::*;

fn key(rtype: u8, number: u32, generation: u8) -> DbKey {
    DbKey {
        rtype: RecordNo::new(rtype),
        number,
        generation,
    }
}

fn found(rtype: u8) -> Option<DbKey> {
    Some(key(rtype, 1, 1))
}

fn at(owner: u8, member: Option<DbKey>) -> Option<Place> {
    Some(Place {
        owner: Owner::Rec(key(owner, 1, 1)),
        at: member,
    })
}

fn watched() -> Option<Place> {
    Some(Place {
        owner: Owner::System,
        at: found(2),
    })
}

fn row<T: Copy + Drop>(alloc: Global, items: &[T]) -> Option<Row<T>> {
    Some(Row::of(Vec::from_slice(alloc, items).ok()?))
}

// A customer's items: a number and a name.
fn items(alloc: Global, number: u64, name: &[u8]) -> Option<SharedItems> {
    let mut items = Vec::new(alloc);
    items.push(Value::Num(number)).ok()?;
    items.push(Value::Text(row(alloc, name)?)).ok()?;
    Shared::new(alloc, Row::of(items)).ok()
}

fn entry(
    ticket: u64,
    unit: u8,
    statement: Statement,
    status: Status,
    key: Option<DbKey>,
    items: Option<SharedItems>,
) -> Entry {
    Entry {
        ticket,
        unit,
        statement,
        answer: Answer { status, key, items },
    }
}

fn history(alloc: Global) -> Option<Vec<Entry>> {
    let (area, deleted) = (AreaNo::new(0), Status::Refused(Cause::Deleted));
    let got = Some(items(alloc, 7, b"ADA     ")?);
    let mut history = Vec::new(alloc);
    history
        .push(entry(0, 1, Statement::CloseArea(area), Status::Done, None, None))
        .ok()?;
    history
        .push(entry(12, 3, Statement::Keep, deleted, None, None))
        .ok()?;
    history
        .push(entry(13, 1, Statement::Get(None), Status::Done, found(0), got))
        .ok()?;
    let second = Some(key(2, 1, 2));
    history
        .push(entry(14, 1, Statement::Get(None), Status::Done, second, None))
        .ok()?;
    Some(history)
}

fn history_text(alloc: Global) -> Option<Vec<u8>> {
    let shop = shop(alloc)?;
    let history = history(alloc)?;
    answers_text(alloc, &shop, &history).ok()
}

#[test]
fn printed_answers(rt: HostRuntime) -> Result<(), Fail> {
    let printed = history_text(rt.alloc()).ok_or("memory")?;
    assert!(rt;
        printed.as_slice()
            == b"0 1 0000\n12 3 1017\n13 1 0000 CUSTOMER:1 CNO=7 CNAME=\"ADA     \"\n14 1 0000 ITEM:1.2\n".as_slice()
    );
    Ok(())
}

fn unit(alloc: Global, number: u8, currency: Currency, kept: &[(DbKey, u64)]) -> Option<Unit> {
    Some(Unit {
        number,
        currency,
        modes: row(alloc, &[None, None])?,
        kept: Kept::of(Vec::from_slice(alloc, kept).ok()?),
    })
}

fn at_an_order(alloc: Global) -> Option<Unit> {
    let currency = Currency {
        run_unit: found(1),
        types: row(alloc, &[found(0), found(1), None])?,
        areas: row(alloc, &[found(1), None])?,
        sets: row(alloc, &[at(0, found(1)), at(1, None), None])?,
    };
    unit(alloc, 1, currency, &[])
}

fn in_the_watched(alloc: Global) -> Option<Unit> {
    let currency = Currency {
        run_unit: None,
        types: row(alloc, &[None, None, None])?,
        areas: row(alloc, &[None, None])?,
        sets: row(alloc, &[None, None, watched()])?,
    };
    unit(alloc, 2, currency, &[(key(0, 1, 1), 1), (key(2, 3, 2), 40)])
}

fn text_of_units(alloc: Global) -> Option<Vec<u8>> {
    let shop = shop(alloc)?;
    let mut units = Vec::new(alloc);
    units.push(at_an_order(alloc)?).ok()?;
    units.push(in_the_watched(alloc)?).ok()?;
    units_text(alloc, &shop, &units).ok()
}

#[test]
fn printed_units(rt: HostRuntime) -> Result<(), Fail> {
    let printed = text_of_units(rt.alloc()).ok_or("memory")?;
    assert!(rt;
        printed.as_slice()
            == b"UNIT 1 RUN ORDR:1 RECORD CUSTOMER:1 ORDR:1 - SET CUSTOMER:1/ORDR:1 ORDR:1/OWNER - AREA ORDR:1 -\nUNIT 2 RUN - RECORD - - - SET - - SYSTEM/ITEM:1 AREA - - KEPT CUSTOMER:1/1 ITEM:3.2/40\n".as_slice()
    );
    Ok(())
}

fn records(alloc: Global) -> Option<Row<(DbKey, SharedItems)>> {
    let mut number = Vec::new(alloc);
    number.push(Value::Num(11)).ok()?;
    let mut records = Vec::new(alloc);
    records
        .push((key(0, 1, 1), items(alloc, 1, b"        ")?))
        .ok()?;
    let number = Shared::new(alloc, Row::of(number)).ok()?;
    records.push((key(1, 1, 1), number)).ok()?;
    Some(Row::of(records))
}

// The lists of a set that has one.
fn lists_of(alloc: Global, owner: Owner, members: &[DbKey]) -> Option<Row<(Owner, Row<DbKey>)>> {
    let mut lists = Vec::new(alloc);
    lists.push((owner, row(alloc, members)?)).ok()?;
    Some(Row::of(lists))
}

fn lists(alloc: Global) -> Option<Row<Row<(Owner, Row<DbKey>)>>> {
    let mut lists = Vec::new(alloc);
    lists
        .push(lists_of(alloc, Owner::Rec(key(0, 1, 1)), &[key(1, 1, 1)])?)
        .ok()?;
    lists
        .push(lists_of(alloc, Owner::Rec(key(1, 1, 1)), &[])?)
        .ok()?;
    lists.push(lists_of(alloc, Owner::System, &[])?).ok()?;
    Some(Row::of(lists))
}

fn usage(alloc: Global) -> Option<Row<Row<(u8, Mode)>>> {
    let mut usage = Vec::new(alloc);
    usage
        .push(row(alloc, &[(1u8, Mode::Update), (2, Mode::ExclusiveRetrieval)])?)
        .ok()?;
    usage.push(row(alloc, &[])?).ok()?;
    Some(Row::of(usage))
}

fn image(alloc: Global) -> Option<Image> {
    Some(Image {
        records: records(alloc)?,
        versions: Row::of(Vec::new(alloc)),
        lists: lists(alloc)?,
        next: row(alloc, &[2u32, 2, 1])?,
        last: Row::of(Vec::new(alloc)),
        usage: usage(alloc)?,
    })
}

fn text_of_image(alloc: Global) -> Option<Vec<u8>> {
    let shop = shop(alloc)?;
    let image = image(alloc)?;
    image_text(alloc, &shop, &image).ok()
}

#[test]
fn printed_image(rt: HostRuntime) -> Result<(), Fail> {
    let printed = text_of_image(rt.alloc()).ok_or("memory")?;
    assert!(rt;
        printed.as_slice()
            == b"CUSTOMER:1 CNO=1 CNAME=\"        \"\nORDR:1 ONO=11\nHAS CUSTOMER:1: ORDR:1\nLINES ORDR:1:\nWATCH SYSTEM:\nNEXT 2 2 1\nAREA MAIN 1:UPDATE 2:EXCLUSIVE-RETRIEVAL\nAREA SIDE\n".as_slice()
    );
    Ok(())
}

#[test]
fn printed_moves(rt: HostRuntime) {
    let none = moves_text(rt.alloc(), &[]).expect(&rt, "memory");
    assert!(rt; none.as_slice() == b"MOVES\n".as_slice());
    let some = moves_text(
        rt.alloc(),
        &[Stepped::Idle, Stepped::Moved, Stepped::Blocked],
    )
    .expect(&rt, "memory");
    assert!(rt; some.as_slice() == b"MOVES IMB\n".as_slice());
}
