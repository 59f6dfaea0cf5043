//! The types and calls of the first plan that no other test here uses: without one of them, or with a field, an argument or a result of
//! another type, this file is not compiled. Where docs/DECISIONS.md lists a difference, the landed form stands here.

use super::shop::{beginning, customer, shop};
use dbtg_cells::{Cell, CellName, DbKey, Mode, Owners, Shared, Usage, Value};
use dbtg_run::{Database, Outcome, RunUnit};
use dbtg_schema::{AreaNo, ItemNo, RecordNo, Row, Schema, SetNo};
use dbtg_script::read_script;
use dbtg_step::{Core, Image, Move, Run, Stepped, run, run_serial};
use dbtg_unit::{
    Answer, Cause, Change, Currency, Entry, Erase, Form, Held, Need, Prepared, Statement, Status, Suppress, Unit, Which, finish,
};
use std::alloc::{AllocError, Global};
use std::sync::Wait;
use std::test::*;

const CAPACITY: u16 = 10;

// STATEMENTS

fn each_which() -> [Which; 5] {
    [Which::First, Which::Last, Which::Next, Which::Prior, Which::Nth(-2)]
}

fn each_erase() -> [Erase; 4] {
    [Erase::Plain, Erase::Only, Erase::Selective, Erase::All]
}

fn each_mode() -> [Mode; 6] {
    [
        Mode::Retrieval,
        Mode::Update,
        Mode::ProtectedRetrieval,
        Mode::ProtectedUpdate,
        Mode::ExclusiveRetrieval,
        Mode::ExclusiveUpdate,
    ]
}

/// One of each kind of thing of the shop.
#[derive(Clone, Copy)]
struct Of {
    area: AreaNo,
    rtype: RecordNo,
    set: SetNo,
    item: ItemNo,
    key: DbKey,
}

/// MAIN, ORDR, HAS, ONO and a customer.
fn of_shop() -> Of {
    Of {
        area: AreaNo::new(0),
        rtype: RecordNo::new(1),
        set: SetNo::new(0),
        item: ItemNo::new(0),
        key: customer(1),
    }
}

fn each_form(alloc: Global, of: &Of) -> Result<Vec<Form>, AllocError> {
    let (rtype, set, area) = (of.rtype, of.set, of.area);
    let mut forms = Vec::new(alloc);
    for form in [
        Form::Key(of.key),
        Form::CurrentOfUnit,
        Form::CurrentOfType(rtype),
        Form::CurrentOfSet(set),
        Form::CurrentOfArea(area),
        Form::OwnerOf(set),
        Form::NextDuplicate(RecordNo::new(0)),
    ] {
        forms.push(form)?;
    }
    for which in each_which() {
        forms.push(Form::InSet { which, rtype: Some(rtype), set })?;
        forms.push(Form::InArea { which, rtype: None, area })?;
    }
    let mut values = Vec::new(alloc);
    values.push(Value::Num(7))?;
    let values: Shared<Row<Value>> = Shared::new(alloc, Row::of(values))?;
    forms.push(Form::Calc { rtype: RecordNo::new(0), values })?;
    let value: Shared<Value> = Shared::new(alloc, Value::Num(5))?;
    forms.push(Form::Sorted { set: SetNo::new(1), value })?;
    Ok(forms)
}

fn plain() -> Suppress {
    Suppress { types: false, areas: false, sets: 0 }
}

fn each_finding(alloc: Global, of: &Of) -> Result<Vec<Statement>, AllocError> {
    let mut statements = Vec::new(alloc);
    for form in each_form(alloc, of)? {
        statements.push(Statement::Find(plain(), form))?;
    }
    statements.push(Statement::Get(None))?;
    statements.push(Statement::Get(Some(of.rtype)))?;
    Ok(statements)
}

fn each_changing(alloc: Global, of: &Of) -> Result<Vec<Statement>, AllocError> {
    let (rtype, set, area) = (of.rtype, of.set, of.area);
    let mut values = Vec::new(alloc);
    values.push(Value::Num(1))?;
    let mut changes = Vec::new(alloc);
    changes.push(Change { item: of.item, value: Value::Num(2) })?;
    let mut statements = Vec::new(alloc);
    for mode in each_mode() {
        statements.push(Statement::OpenArea { area, mode })?;
    }
    for option in each_erase() {
        statements.push(Statement::Delete(option))?;
    }
    for statement in [
        Statement::CloseArea(area),
        Statement::Store { rtype, items: Shared::new(alloc, Row::of(values))?, suppress: plain() },
        Statement::Insert(set),
        Statement::Remove(set),
        Statement::Modify { rtype, changes: Shared::new(alloc, Row::of(changes))? },
        Statement::Keep,
        Statement::Free { all: true },
    ] {
        statements.push(statement)?;
    }
    Ok(statements)
}

/// How many of these fit the shop, as their copies do.
fn count_of_fitting(shop: &Schema, statements: &[Statement]) -> Result<usize, AllocError> {
    let mut count = 0;
    for statement in statements {
        let copy: Statement = statement.copy()?;
        if statement.fits(shop) && copy.fits(shop) {
            count += 1;
        }
    }
    Ok(count)
}

#[test]
fn each_statement_is_built(rt: HostRuntime) -> Result<(), Fail> {
    let (shop, of) = (shop(rt.alloc()).ok_or("a schema")?, of_shop());
    assert_eq!(rt; count_of_fitting(&shop, each_finding(rt.alloc(), &of)?.as_slice())?, 21);
    assert_eq!(rt; count_of_fitting(&shop, each_changing(rt.alloc(), &of)?.as_slice())?, 17);
    Ok(())
}

#[test]
fn parts_are_copied(rt: HostRuntime) -> Result<(), Fail> {
    let schema: Schema = shop(rt.alloc()).ok_or("a schema")?.copy(rt.alloc())?;
    assert!(rt; schema.name() == b"SHOP".as_slice());
    let value: Value = Value::Num(3).copy(rt.alloc())?;
    let items: Shared<Row<Value>> = Shared::new(rt.alloc(), Row::of(Vec::new(rt.alloc())))?.share()?;
    assert!(rt; matches!(value, Value::Num(3)) && items.get().is_empty());
    Ok(())
}

// PLANS

/// Takes what the statement needs, where cells are as at the beginning; how often guesses were made anew.
fn take_all(alloc: Global, shop: &Schema, unit: &Unit, statement: &Statement, held: &mut Held) -> Result<usize, AllocError> {
    let mut stale = 0;
    loop {
        let need: Need = dbtg_plan::next_need(shop, CAPACITY, unit, statement, held);
        match need {
            Need::Area(area) => held.push_area(area)?,
            Need::Take(CellName::Usage(area)) => {
                let cell = Cell::Usage(Usage::new(alloc));
                if held.push_cell(CellName::Usage(area), cell).is_err() {
                    return Err(AllocError);
                }
            }
            Need::Take(_) => return Err(AllocError),
            Need::Stale => {
                let guesses: Owners = dbtg_plan::true_guesses(shop, unit, statement, held);
                held.set_guesses(guesses);
                stale += 1;
            }
            Need::Ready => return Ok(stale),
        }
    }
}

#[test]
fn a_statement_is_planned_and_done(rt: HostRuntime) -> Result<(), Fail> {
    let shop = shop(rt.alloc()).ok_or("a schema")?;
    let mut unit = beginning(rt.alloc(), None, None)?;
    let open = Statement::OpenArea { area: AreaNo::new(0), mode: Mode::Update };
    let mut held = Held::new(rt.alloc(), Owners::none(3));
    assert_eq!(rt; take_all(rt.alloc(), &shop, &unit, &open, &mut held)?, 0);
    let prepared: Prepared = dbtg_plan::prepare(rt.alloc(), &shop, CAPACITY, &unit, &open, &mut held)?;
    let answer: &Answer = prepared.answer();
    assert_eq!(rt; answer.status, Status::Done);
    let answer: Answer = finish(&shop, prepared, &mut held, &mut unit);
    assert_eq!(rt; answer.status, Status::Done);
    assert_eq!(rt; unit.modes.as_slice(), [Some(Mode::Update), None].as_slice());
    Ok(())
}

#[test]
fn a_delete_is_planned(rt: HostRuntime) -> Result<(), Fail> {
    let shop = shop(rt.alloc()).ok_or("a schema")?;
    let unit = beginning(rt.alloc(), None, None)?;
    let held = Held::new(rt.alloc(), Owners::none(3));
    let mut course: Option<dbtg_erase::Course> = None;
    let need: Need = dbtg_erase::next_need(rt.alloc(), &shop, CAPACITY, &unit, Erase::All, &held, &mut course)?;
    assert!(rt; matches!(need, Need::Ready));
    let prepared: Prepared = dbtg_erase::prepare(rt.alloc(), &shop, CAPACITY, &unit, Erase::All, &held)?;
    assert_eq!(rt; prepared.answer().status, Status::Refused(Cause::NoCurrentOfRunUnit));
    Ok(())
}

// RUNS

/// Two scripts: the first opens and stores, the second opens.
fn scripts(alloc: Global, shop: &Schema) -> Option<Row<Row<Statement>>> {
    let first = b"OPEN AREA MAIN USAGE-MODE IS UPDATE\nSTORE CUSTOMER CNO = 7\n";
    let second = b"OPEN AREA SIDE USAGE-MODE IS RETRIEVAL\n";
    let mut scripts = Vec::new(alloc);
    for text in [first.as_slice(), second.as_slice()] {
        scripts.push(Row::of(read_script(alloc, shop, text).ok()?)).ok()?;
    }
    Some(Row::of(scripts))
}

fn is_event(stepped: Stepped) -> bool {
    match stepped {
        Stepped::Moved => true,
        Stepped::Blocked | Stepped::Idle | Stepped::NoMemory => false,
    }
}

/// What a core shows after the first unit went as far as it could, and the second did nothing.
fn shown_by_core(core: &Core, alloc: Global) -> Result<(usize, usize, bool), AllocError> {
    let image: Image = core.image(alloc)?;
    let history: &[Entry] = core.history();
    let unit: Option<&Unit> = core.unit(1);
    Ok((image.records.len(), history.len(), unit.is_some_and(|unit| unit.currency.run_unit == Some(customer(1)))))
}

#[test]
fn a_core_steps_and_quits(rt: HostRuntime) -> Result<(), Fail> {
    let shop = shop(rt.alloc()).ok_or("a schema")?;
    let scripts = scripts(rt.alloc(), &shop).ok_or("scripts")?;
    let mut core: Core = Core::new(rt.alloc(), &shop, CAPACITY, scripts)?;
    while is_event(core.step(1)) {}
    assert!(rt; !is_event(core.quit(2)));
    assert_eq!(rt; shown_by_core(&core, rt.alloc())?, (1, 2, true));
    Ok(())
}

#[test]
fn runs_are_made(rt: HostRuntime) -> Result<(), Fail> {
    let shop = shop(rt.alloc()).ok_or("a schema")?;
    let moves = [Move::Step(1), Move::Quit(1), Move::Step(3)];
    let by_moves: Run = run(rt.alloc(), &shop, CAPACITY, scripts(rt.alloc(), &shop).ok_or("scripts")?, moves.as_slice())?;
    let Run { results, image, history, units } = by_moves;
    assert!(rt; results.as_slice() == [Stepped::Moved, Stepped::Moved, Stepped::Idle].as_slice());
    assert_eq!(rt; (image.records.len(), history.len(), units.len()), (0, 0, 2));
    let serial: Run = run_serial(rt.alloc(), &shop, CAPACITY, scripts(rt.alloc(), &shop).ok_or("scripts")?)?;
    assert_eq!(rt; (serial.results.len(), serial.history.len(), serial.image.records.len()), (0, 3, 1));
    Ok(())
}

// THREADS

/// The name of what becomes of a statement on threads.
fn name_of(outcome: &Outcome) -> &'static str {
    match outcome {
        Outcome::Done(_answer) => "Done",
        Outcome::Busy => "Busy",
        Outcome::Spent => "Spent",
        Outcome::NoMemory => "NoMemory",
    }
}

/// The only unit of a database insists on opening MAIN: what becomes of it, and whether a record is current then.
fn insisted<R: Wait>(rt: &R, alloc: Global) -> Option<(&'static str, bool)> {
    let (db, mut units): (Database, Vec<RunUnit>) = Database::make(alloc, shop(alloc)?, CAPACITY, 1).ok()?;
    let mut unit = units.pop()?;
    let open = Statement::OpenArea { area: AreaNo::new(0), mode: Mode::Update };
    let outcome: Outcome = db.insist(rt, alloc, &mut unit, &open);
    let currency: &Currency = unit.currency();
    Some((name_of(&outcome), currency.run_unit.is_some()))
}

#[test]
fn a_unit_insists(rt: HostRuntime) {
    assert_eq!(rt; insisted(&rt, rt.alloc()), Some(("Done", false)));
}
