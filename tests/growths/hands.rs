//! Makes the statements of one unit by hand: what each needs is taken, room is made, and it is done. Each call that tells of want of
//! memory is made once more, and what is in hand must show the same.

use super::tell;
use dbtg_cells::{Cell, CellName, DbKey, Extent, Owner, Owners, Ring, Slot, Usage};
use dbtg_schema::{AreaNo, RecordNo, Row, Schema, SetNo};
use dbtg_script::{read_script, units_text};
use dbtg_step::{Run, next_need, opening_unit, prepare, run_serial, true_guesses};
use dbtg_unit::{
    Held, Need, Prepared, Statement, Status, Unit, finish, reserve_member, reserve_user,
};
use std::alloc::{AllocError, Global};
use std::slice;

const CAPACITY: u16 = 4;

// More needs than a statement of the script has.
const NEEDS: usize = 40;

// A room may have lamps; a lamp need not be in a room.
const HOUSE: &[u8] =
    b"SCHEMA NAME IS HOUSE.\nAREA NAME IS MAIN.\nRECORD NAME IS ROOM; WITHIN MAIN.\n  02 RNO PICTURE IS 9(4).\nRECORD NAME IS LAMP; WITHIN MAIN.\n  02 LNO PICTURE IS 9(4).\nSET NAME IS LIGHTS; ORDER IS LAST; OWNER IS ROOM.\n  MEMBER IS LAMP OPTIONAL AUTOMATIC.\n";

const SCRIPT: &[u8] = b"OPEN AREA MAIN USAGE-MODE IS UPDATE\nSTORE ROOM RNO = 1\nSTORE LAMP LNO = 1\nSTORE LAMP LNO = 2\nSTORE LAMP LNO = 3\nKEEP\nMODIFY LAMP LNO = 4\nREMOVE FROM LIGHTS\nINSERT INTO LIGHTS\nFIND KEY ROOM:1\nDELETE ALL\n";

// A unit with what it has in hand, and the cells that are at home; a cell in hand leaves its name there.
#[derive(Drop)]
struct Work {
    schema: Schema,
    unit: Unit,
    held: Held,
    home: Vec<(CellName, Option<Cell>)>,
}

// What a call gives, if need be when it is made again.
fn twice<T: Drop, F: Fn() -> Result<T, AllocError>>(rt: &HostRuntime, call: &str, make: &F) -> Option<T> {
    for _ in 0..2 {
        match make() {
            Ok(it) => return Some(it),
            Err(_) => tell(rt, call),
        }
    }
    None
}

fn push_shown(alloc: Global, cell: &Cell, out: &mut Vec<u64>) -> Result<(), AllocError> {
    match cell {
        Cell::Ring(ring) => {
            for key in &ring.keys(alloc)? {
                out.push(key.number as u64)?;
            }
        }
        Cell::Usage(usage) => out.push(usage.users().len() as u64)?,
        Cell::Extent(extent) => out.push(extent.count_live() as u64)?,
        Cell::Slot(slot) => out.push(if slot.is_live(1) { 1 } else { 0 })?,
    }
    Ok(())
}

// What the cells in hand show, as numbers.
fn shown(rt: &HostRuntime, held: &Held) -> Option<Vec<u64>> {
    twice(rt, "the cells in hand", &|| -> Result<Vec<u64>, AllocError> {
        let mut out = Vec::new(rt.alloc());
        for cell in held.cells() {
            push_shown(rt.alloc(), cell, &mut out)?;
        }
        Ok(out)
    })
}

fn see_the_same(rt: &HostRuntime, held: &Held, before: &Vec<u64>) -> Option<()> {
    if shown(rt, held)?.as_slice() != before.as_slice() {
        tell(rt, "a call without memory that changes what is in hand");
    }
    Some(())
}

fn opening_cell(alloc: Global, name: &CellName) -> Result<Cell, AllocError> {
    match name {
        CellName::Usage(_area) => Ok(Cell::Usage(Usage::new(alloc))),
        CellName::Extent(_rtype) => Ok(Cell::Extent(Extent::new(alloc, CAPACITY)?)),
        CellName::Ring(_set, _owner) => Ok(Cell::Ring(Ring::absent(alloc))),
        CellName::Slot(_rtype, _number) => Ok(Cell::Slot(Slot::vacant())),
    }
}

fn lent(home: &mut Vec<(CellName, Option<Cell>)>, name: &CellName) -> Option<Cell> {
    for entry in home.as_mut_slice() {
        if entry.0 == *name {
            return entry.1.take();
        }
    }
    None
}

// A cell that was never taken is as in the opening database; from then on its name has a place at home.
fn cell_of(rt: &HostRuntime, home: &mut Vec<(CellName, Option<Cell>)>, name: &CellName) -> Option<Cell> {
    if let Some(cell) = lent(home, name) {
        return Some(cell);
    }
    for _ in 0..2 {
        if home.push((*name, None)).is_ok() {
            return twice(rt, "Extent::new", &|| -> Result<Cell, AllocError> { opening_cell(rt.alloc(), name) });
        }
        tell(rt, "Vec::push");
    }
    None
}

fn put_home(home: &mut Vec<(CellName, Option<Cell>)>, name: &CellName, cell: Cell) {
    for entry in home.as_mut_slice() {
        if entry.0 == *name {
            entry.1 = Some(cell);
            return;
        }
    }
}

fn take(rt: &HostRuntime, held: &mut Held, name: CellName, cell: Cell) -> Option<()> {
    let back = match held.push_cell(name, cell) {
        Ok(()) => return Some(()),
        Err(back) => back,
    };
    tell(rt, "Held::push_cell");
    held.push_cell(name, back.value).ok()
}

fn take_area(rt: &HostRuntime, held: &mut Held, area: AreaNo) -> Option<()> {
    if held.push_area(area).is_ok() {
        return Some(());
    }
    tell(rt, "Held::push_area");
    held.push_area(area).ok()
}

fn give_cells_back(work: &mut Work) {
    while let Some((name, cell)) = work.held.pop_cell() {
        put_home(&mut work.home, &name, cell);
    }
}

// Takes what the statement needs, with how far a DELETE has come from one need to the next.
fn gather(rt: &HostRuntime, work: &mut Work, statement: &Statement) -> Option<()> {
    let mut course = None;
    for _ in 0..2 * NEEDS {
        match next_need(rt.alloc(), &work.schema, CAPACITY, &work.unit, statement, &work.held, &mut course) {
            Ok(Need::Area(area)) => take_area(rt, &mut work.held, area)?,
            Ok(Need::Take(name)) => {
                let cell = cell_of(rt, &mut work.home, &name)?;
                take(rt, &mut work.held, name, cell)?;
            }
            Ok(Need::Stale) => {
                let guesses = true_guesses(&work.schema, &work.unit, statement, &work.held);
                give_cells_back(work);
                work.held.set_guesses(guesses);
                course = None;
            }
            Ok(Need::Ready) => return Some(()),
            Err(_) => tell(rt, "next_need"),
        }
    }
    None
}

fn plan(rt: &HostRuntime, work: &mut Work, statement: &Statement) -> Option<Prepared> {
    let before = shown(rt, &work.held)?;
    for _ in 0..2 {
        match prepare(rt.alloc(), &work.schema, CAPACITY, &work.unit, statement, &mut work.held) {
            Ok(plan) => return Some(plan),
            Err(_) => tell(rt, "prepare"),
        }
        see_the_same(rt, &work.held, &before)?;
    }
    None
}

// The status of the statement, once it is done and all is given back.
fn make(rt: &HostRuntime, work: &mut Work, statement: &Statement) -> Option<Status> {
    gather(rt, work, statement)?;
    let plan = plan(rt, work, statement)?;
    let answer = finish(&work.schema, plan, &mut work.held, &mut work.unit);
    give_cells_back(work);
    while work.held.pop_area().is_some() {}
    Some(answer.status)
}

fn statements(rt: &HostRuntime, schema: &Schema) -> Option<Vec<Statement>> {
    twice(rt, "read_script", &|| -> Result<Vec<Statement>, AllocError> {
        read_script(rt.alloc(), schema, SCRIPT).map_err(|_| AllocError)
    })
}

fn work(rt: &HostRuntime) -> Option<Work> {
    let alloc = rt.alloc();
    let schema = twice(rt, "Schema::read", &|| -> Result<Schema, AllocError> {
        Schema::read(alloc, HOUSE).map_err(|_| AllocError)
    })?;
    let unit = twice(rt, "opening_unit", &|| -> Result<Unit, AllocError> { opening_unit(alloc, &schema, 1) })?;
    Some(Work {
        schema,
        unit,
        held: Held::new(alloc, Owners::none(1)),
        home: Vec::new(alloc),
    })
}

// What the core makes of the script.
fn on_the_core(rt: &HostRuntime, schema: &Schema) -> Option<Run> {
    for _ in 0..2 {
        let script = Row::of(statements(rt, schema)?);
        let mut scripts = Row::of(Vec::new(rt.alloc()));
        if scripts.push(script).is_err() {
            tell(rt, "Row::push");
            continue;
        }
        match run_serial(rt.alloc(), schema, CAPACITY, scripts) {
            Ok(run) => return Some(run),
            Err(_) => tell(rt, "run_serial"),
        }
    }
    None
}

fn unit_text(rt: &HostRuntime, schema: &Schema, unit: &Unit) -> Option<Vec<u8>> {
    twice(rt, "units_text", &|| -> Result<Vec<u8>, AllocError> {
        units_text(rt.alloc(), schema, slice::from_ref(unit))
    })
}

// Room for a lamp in the list of a room, and for a user of an area.
fn make_room(rt: &HostRuntime) -> Option<()> {
    let room = DbKey { rtype: RecordNo::new(0), number: 1, generation: 1 };
    let lamp = DbKey { rtype: RecordNo::new(1), number: 1, generation: 1 };
    let list = CellName::Ring(SetNo::new(0), Some((RecordNo::new(0), 1)));
    let users = CellName::Usage(AreaNo::new(0));
    let mut ring = Ring::absent(rt.alloc());
    ring.open(Owner::Rec(room));
    let mut held = Held::new(rt.alloc(), Owners::none(1));
    take(rt, &mut held, list, Cell::Ring(ring))?;
    take(rt, &mut held, users, Cell::Usage(Usage::new(rt.alloc())))?;
    let before = shown(rt, &held)?;
    if reserve_member(&mut held, &list, &lamp).is_err() {
        tell(rt, "reserve_member");
        see_the_same(rt, &held, &before)?;
        reserve_member(&mut held, &list, &lamp).ok()?;
    }
    if reserve_user(&mut held, &users).is_err() {
        tell(rt, "reserve_user");
        see_the_same(rt, &held, &before)?;
        reserve_user(&mut held, &users).ok()?;
    }
    see_the_same(rt, &held, &before)?;
    has_room(&held, &list, &users, lamp)
}

fn has_room(held: &Held, list: &CellName, users: &CellName, lamp: DbKey) -> Option<()> {
    match (held.cell(list)?, held.cell(users)?) {
        (Cell::Ring(ring), Cell::Usage(usage)) if ring.has_room(lamp) && usage.has_room() => Some(()),
        _ => None,
    }
}

/// Each statement of the script is done, and the unit ends as on the core.
pub fn by_hand(rt: &HostRuntime) -> Option<()> {
    make_room(rt)?;
    let mut work = work(rt)?;
    for statement in &statements(rt, &work.schema)? {
        if make(rt, &mut work, statement)? != Status::Done {
            tell(rt, "a statement that is not done");
        }
    }
    let run = on_the_core(rt, &work.schema)?;
    let wanted = unit_text(rt, &work.schema, run.units.as_slice().first()?)?;
    if unit_text(rt, &work.schema, &work.unit)?.as_slice() != wanted.as_slice() {
        tell(rt, "a unit that ends otherwise");
    }
    Some(())
}
