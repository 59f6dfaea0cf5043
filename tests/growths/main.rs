//! Makes the public calls of a run of two scripts by moves, one after another, and each that tells of want of memory once more: so a run
//! of which one growth of memory was refused ends as one of which none was. Prints what `dbtg check schema script.1 script.2` and
//! `dbtg replay --moves moves schema script.1 script.2` do, and on standard error the call that met the refusal, or how a call was not
//! as it must be. It stands in the place of the program's main file, whose modules are put beside `hands`. See tests/program/refuse-calls.
#![tactic(auto)]

mod hands;

use dbtg_command::check::check_bytes;
use dbtg_command::{Fault, Order};
use dbtg_running::threads_bytes;
use dbtg_schema::{Row, Schema, SchemaFault};
use dbtg_script::{
    MovesFault, ScriptFault, answers_text, image_text, moves_text, push_run, read_moves,
    read_script, units_text,
};
use dbtg_step::{Core, Run, audit, run, run_serial};
use dbtg_unit::{Entry, Move, Statement, Stepped};
use hands::by_hand;
use replay::replay_bytes;
use std::alloc::{AllocError, Global};
use std::io::{self, Write};
use std::process::ExitCode;
use std::sync::Wait;
use std::thread::Threads;
use std::{fs, slice};

const CAPACITY: u16 = 100;

fn tell(rt: &HostRuntime, call: &str) {
    let _ = eprintln!(rt; "{call}");
}

fn file(rt: &HostRuntime, path: &str) -> Option<Vec<u8>> {
    for _ in 0..2 {
        match fs::read(rt, path) {
            Ok(bytes) => return Some(bytes),
            Err(_) => tell(rt, "fs::read"),
        }
    }
    None
}

fn schema(rt: &HostRuntime) -> Option<Schema> {
    let text = file(rt, "schema")?;
    for _ in 0..2 {
        match Schema::read(rt.alloc(), text.as_slice()) {
            Ok(schema) => return Some(schema),
            Err(SchemaFault::Memory) => tell(rt, "Schema::read"),
            Err(_) => tell(rt, "a fault in place of want of memory"),
        }
    }
    None
}

fn statements(rt: &HostRuntime, schema: &Schema, text: &[u8]) -> Option<Vec<Statement>> {
    for _ in 0..2 {
        match read_script(rt.alloc(), schema, text) {
            Ok(statements) => return Some(statements),
            Err(ScriptFault::Memory) => tell(rt, "read_script"),
            Err(_) => tell(rt, "a fault in place of want of memory"),
        }
    }
    None
}

fn moves(rt: &HostRuntime) -> Option<Vec<Move>> {
    let text = file(rt, "moves")?;
    for _ in 0..2 {
        match read_moves(rt.alloc(), text.as_slice()) {
            Ok(moves) => return Some(moves),
            Err(MovesFault::Memory) => tell(rt, "read_moves"),
            Err(_) => tell(rt, "a fault in place of want of memory"),
        }
    }
    None
}

// The statements of both scripts. What finds no room is read again.
fn both_scripts(rt: &HostRuntime, schema: &Schema) -> Option<Row<Row<Statement>>> {
    let one = file(rt, "script.1")?;
    let two = file(rt, "script.2")?;
    for _ in 0..2 {
        let mut scripts = Row::of(Vec::new(rt.alloc()));
        let first = statements(rt, schema, one.as_slice())?;
        let second = statements(rt, schema, two.as_slice())?;
        if scripts.push(Row::of(first)).is_ok() && scripts.push(Row::of(second)).is_ok() {
            return Some(scripts);
        }
        tell(rt, "Row::push");
    }
    None
}

fn core(rt: &HostRuntime, schema: &Schema) -> Option<Core> {
    for _ in 0..2 {
        match Core::new(rt.alloc(), schema, CAPACITY, both_scripts(rt, schema)?) {
            Ok(core) => return Some(core),
            Err(_) => tell(rt, "Core::new"),
        }
    }
    None
}

// All that is shown of a core.
fn shown(alloc: Global, schema: &Schema, core: &Core) -> Result<Vec<u8>, AllocError> {
    let image = core.image(alloc)?;
    let mut out = answers_text(alloc, schema, core.history())?;
    out.extend_from_slice(image_text(alloc, schema, &image)?.as_slice())?;
    for number in 1..3 {
        if let Some(unit) = core.unit(number) {
            out.extend_from_slice(units_text(alloc, schema, slice::from_ref(unit))?.as_slice())?;
        }
    }
    Ok(out)
}

fn shows_the_same(alloc: Global, schema: &Schema, core: &Core, other: &Core) -> bool {
    match (shown(alloc, schema, core), shown(alloc, schema, other)) {
        (Ok(one), Ok(two)) => one.as_slice() == two.as_slice(),
        _ => false,
    }
}

fn make(core: &mut Core, one: Move) -> Stepped {
    match one {
        Move::Step(unit) => core.step(unit),
        Move::Quit(unit) => core.quit(unit),
    }
}

// Makes a move of a core; where a growth of it is refused the core is as the other one, which made the same moves before, and the same
// move is made again.
fn make_twice(rt: &HostRuntime, schema: &Schema, core: &mut Core, other: &Core, one: Move) -> Stepped {
    let stepped = make(core, one);
    if stepped != Stepped::NoMemory {
        return stepped;
    }
    tell(rt, "Core::step");
    if matches!(one, Move::Quit(_)) {
        tell(rt, "a quit that takes memory");
    }
    if !shows_the_same(rt.alloc(), schema, core, other) {
        tell(rt, "a step without memory that changes what is shown");
    }
    make(core, one)
}

fn results_of(rt: &HostRuntime, count: usize) -> Option<Vec<Stepped>> {
    for _ in 0..2 {
        match Vec::with_capacity(rt.alloc(), count) {
            Ok(results) => return Some(results),
            Err(_) => tell(rt, "Vec::with_capacity"),
        }
    }
    None
}

// Makes the moves in a core and in another, which is never ahead: each move comes to the same in both.
fn step(rt: &HostRuntime, schema: &Schema, moves: &[Move]) -> Option<(Core, Vec<Stepped>)> {
    let mut first = core(rt, schema)?;
    let mut second = core(rt, schema)?;
    let mut results = results_of(rt, moves.len())?;
    for one in moves {
        let stepped = make_twice(rt, schema, &mut first, &second, *one);
        let mut same = make(&mut second, *one);
        if same == Stepped::NoMemory {
            tell(rt, "Core::step");
            same = make(&mut second, *one);
        }
        if stepped != same {
            tell(rt, "a step that comes to something else");
        }
        results.push(stepped).ok()?;
    }
    Some((first, results))
}

// What is printed of a run, by its own results.
fn printed(alloc: Global, schema: &Schema, given: &Run) -> Result<Vec<u8>, AllocError> {
    let mut out = moves_text(alloc, given.results.as_slice())?;
    push_run(
        alloc,
        &mut out,
        schema,
        given.history.as_slice(),
        &given.image,
        given.units.as_slice(),
    )?;
    Ok(out)
}

fn text(rt: &HostRuntime, schema: &Schema, given: &Run) -> Option<Vec<u8>> {
    for _ in 0..2 {
        match printed(rt.alloc(), schema, given) {
            Ok(text) => return Some(text),
            Err(_) => tell(rt, "push_run"),
        }
    }
    None
}

// What the run that is stepped move by move comes to. Where taking it apart finds no memory it is made once more.
fn stepped(rt: &HostRuntime, schema: &Schema, moves: &[Move]) -> Option<Run> {
    for _ in 0..2 {
        let (core, results) = step(rt, schema, moves)?;
        match core.into_run(results) {
            Ok(run) => return Some(run),
            Err(_) => tell(rt, "Core::into_run"),
        }
    }
    None
}

fn run_whole(rt: &HostRuntime, schema: &Schema, moves: &[Move]) -> Option<Run> {
    for _ in 0..2 {
        match run(rt.alloc(), schema, CAPACITY, both_scripts(rt, schema)?, moves) {
            Ok(run) => return Some(run),
            Err(_) => tell(rt, "run"),
        }
    }
    None
}

fn run_in_turn(rt: &HostRuntime, schema: &Schema) -> Option<Run> {
    for _ in 0..2 {
        match run_serial(rt.alloc(), schema, CAPACITY, both_scripts(rt, schema)?) {
            Ok(run) => return Some(run),
            Err(_) => tell(rt, "run_serial"),
        }
    }
    None
}

// Whether the history of a run is audited to its image and its units.
fn is_audited(rt: &HostRuntime, schema: &Schema, given: &Run) -> Option<bool> {
    let alloc = rt.alloc();
    for _ in 0..2 {
        match audit(alloc, schema, CAPACITY, 2, given.history.as_slice()) {
            Ok(Some((image, units))) => {
                let same = image_text(alloc, schema, &image).ok()?.as_slice()
                    == image_text(alloc, schema, &given.image).ok()?.as_slice()
                    && units_text(alloc, schema, units.as_slice()).ok()?.as_slice()
                        == units_text(alloc, schema, given.units.as_slice()).ok()?.as_slice();
                return Some(same);
            }
            Ok(None) => return Some(false),
            Err(_) => tell(rt, "audit"),
        }
    }
    None
}

// Texts with a fault that is found before a statement is kept, with the fault's line: the answer is the fault, whatever is refused.
fn judge_texts(rt: &HostRuntime, schema: &Schema) {
    let texts = [
        (1, b"GOT\nGET".as_slice()),
        (3, b"* a note\n\nGOT".as_slice()),
        (2, b"* a note\nSTORE CUSTOMER CNAME = \"ADA".as_slice()),
        (1, b"GET\tCUSTOMER".as_slice()),
    ];
    for (at, text) in texts {
        match read_script(rt.alloc(), schema, text) {
            Err(ScriptFault::Refused { line, .. }) if line == at => {}
            _ => tell(rt, "a fault that is not told at once"),
        }
    }
}

// Lists whose tickets do not begin with 0, or whose units are not there: they are no histories, whatever is refused.
fn judge_lists(rt: &HostRuntime, schema: &Schema, history: &[Entry]) {
    for (units, list) in [(2, &history[1..]), (1, history)] {
        if !matches!(audit(rt.alloc(), schema, CAPACITY, units, list), Ok(None)) {
            tell(rt, "a list that is not judged at once");
        }
    }
}

// The bytes of both scripts.
fn script_bytes(rt: &HostRuntime) -> Option<Vec<Row<u8>>> {
    for _ in 0..2 {
        let mut scripts = Vec::new(rt.alloc());
        let one = Row::of(file(rt, "script.1")?);
        let two = Row::of(file(rt, "script.2")?);
        if scripts.push(one).is_ok() && scripts.push(two).is_ok() {
            return Some(scripts);
        }
        tell(rt, "Row::push");
    }
    None
}

fn call_bytes<F: Fn() -> Result<Vec<u8>, Fault>>(rt: &HostRuntime, call: &str, make: &F) -> Option<Vec<u8>> {
    for _ in 0..2 {
        match make() {
            Ok(text) => return Some(text),
            Err(Fault::Memory) => tell(rt, call),
            Err(_) => tell(rt, "a fault in place of want of memory"),
        }
    }
    None
}

// What `threads` prints of one script: what `replay` does of it alone, and the line of the audit.
fn one_on_threads<R: Threads + Wait + Sync>(
    rt: &HostRuntime,
    threads: &R,
    schema: &[u8],
    script: &[Row<u8>],
) -> Option<()> {
    let alloc = rt.alloc();
    let on_threads = call_bytes(rt, "threads_bytes", &|| -> Result<Vec<u8>, Fault> {
        match threads_bytes(threads, alloc, schema, script, CAPACITY) {
            Ok((text, true)) => Ok(text),
            Ok((_, false)) => Err(Fault::ScriptCount),
            Err(fault) => Err(fault),
        }
    })?;
    let alone = call_bytes(rt, "replay_bytes", &|| -> Result<Vec<u8>, Fault> {
        replay_bytes(alloc, schema, script, Order::Serial, CAPACITY)
    })?;
    let behind = on_threads.as_slice().strip_prefix(alone.as_slice());
    if behind != Some(b"AUDIT EQUAL\n".as_slice()) {
        tell(rt, "threads that come to something else");
    }
    Some(())
}

// What `check` and `replay` print, from bytes to bytes.
fn from_bytes<R: Threads + Wait + Sync>(rt: &HostRuntime, threads: &R) -> Option<(Vec<u8>, Vec<u8>)> {
    let alloc = rt.alloc();
    let schema = file(rt, "schema")?;
    let scripts = script_bytes(rt)?;
    let moves = file(rt, "moves")?;
    let checked = call_bytes(rt, "check_bytes", &|| -> Result<Vec<u8>, Fault> {
        check_bytes(alloc, schema.as_slice(), scripts.as_slice())
    })?;
    let replayed = call_bytes(rt, "replay_bytes", &|| -> Result<Vec<u8>, Fault> {
        replay_bytes(alloc, schema.as_slice(), scripts.as_slice(), Order::Moves(moves.as_slice()), CAPACITY)
    })?;
    one_on_threads(rt, threads, schema.as_slice(), &scripts.as_slice()[..1])?;
    Some((checked, replayed))
}

fn all<R: Threads + Wait + Sync>(rt: &HostRuntime, threads: &R) -> Option<(Vec<u8>, Vec<u8>)> {
    by_hand(rt)?;
    let (checked, replayed) = from_bytes(rt, threads)?;
    let schema = schema(rt)?;
    let moves = moves(rt)?;
    let whole = run_whole(rt, &schema, moves.as_slice())?;
    let given = stepped(rt, &schema, moves.as_slice())?;
    let in_turn = run_in_turn(rt, &schema)?;
    for run in [&whole, &given, &in_turn] {
        if is_audited(rt, &schema, run) == Some(false) {
            tell(rt, "a history that is none");
        }
    }
    judge_texts(rt, &schema);
    judge_lists(rt, &schema, given.history.as_slice());
    let out = text(rt, &schema, &given)?;
    if text(rt, &schema, &whole)?.as_slice() != out.as_slice() {
        tell(rt, "a run that comes to something else");
    }
    if replayed.as_slice() != out.as_slice() {
        tell(rt, "a replay that comes to something else");
    }
    Some((checked, out))
}

fn print(rt: &HostRuntime, texts: &(Vec<u8>, Vec<u8>)) -> io::Result<()> {
    io::writer(rt).write_all(texts.0.as_slice())?;
    io::writer(rt).write_all(texts.1.as_slice())
}

fn main(rt: HostRuntime) -> ExitCode {
    match all(&rt, &rt) {
        Some(texts) => match print(&rt, &texts) {
            Ok(()) => ExitCode::SUCCESS,
            Err(_) => ExitCode::FAILURE,
        },
        None => ExitCode::from(4),
    }
}
