//! A program's own error has the readers' faults by `?`, and shows their texts.

use super::shop::shop;
use dbtg_schema::{Schema, SchemaFault};
use dbtg_script::{MovesFault, ScriptFault, TurnsFault, read_moves, read_script, read_turns};
use std::alloc::{AllocError, Global};
use std::test::*;
use thiserror::Error;

#[derive(Debug, Drop, Error)]
enum Failure {
    #[error("the first text: {0}")]
    Schema(#[from] SchemaFault),
    #[error(transparent)]
    Script(#[from] ScriptFault),
    #[error("moves {0}")]
    Moves(#[from] MovesFault),
    #[error("turns {0}")]
    Turns(#[from] TurnsFault),
}

/// How many statements, moves and turns these texts have.
fn counts(alloc: Global, texts: [&str; 4]) -> Result<[usize; 3], Failure> {
    let [schema, script, moves, turns] = texts;
    let schema = Schema::read(alloc, schema.as_bytes())?;
    let statements = read_script(alloc, &schema, script.as_bytes())?;
    let moves = read_moves(alloc, moves.as_bytes())?;
    let turns = read_turns(alloc, turns.as_bytes())?;
    Ok([statements.len(), moves.len(), turns.len()])
}

/// What the failure of these texts shows; `none` if they are all read.
fn told(alloc: Global, texts: [&str; 4]) -> Result<String, AllocError> {
    match counts(alloc, texts) {
        Ok(_counts) => String::from_str(alloc, "none"),
        Err(failure) => failure.to_string(alloc),
    }
}

const SCHEMA: &str =
    "SCHEMA NAME S.\nAREA NAME A.\nRECORD NAME R WITHIN A.\n02 I PIC 9.\n";

#[test]
fn faults_are_handed_on_and_shown(rt: HostRuntime) {
    let two_areas = "SCHEMA NAME S.\nAREA NAME A.\nAREA NAME A.\n";
    let cases = [
        ([two_areas, "", "", ""], "the first text: schema fault 5 line 3"),
        ([SCHEMA, "GET\n* a note\nSTORE Q\n", "", ""], "fault 5 line 3"),
        ([SCHEMA, "GET", "1 Q1 Q", ""], "moves fault 1 word 3"),
        ([SCHEMA, "GET", "1", "1 1*1000000"], "turns fault 2 word 2"),
        ([SCHEMA, "GET", "1", "1"], "none"),
    ];
    for (texts, wanted) in cases {
        assert_eq!(rt; told(rt.alloc(), texts).expect(&rt, "memory").as_str(), wanted);
    }
}

#[test]
fn want_of_memory_is_shown_as_the_program_does(rt: HostRuntime) {
    let failures = [
        Failure::Script(ScriptFault::Memory),
        Failure::Schema(SchemaFault::Memory),
        Failure::Moves(MovesFault::Memory),
        Failure::Turns(TurnsFault::Memory),
    ];
    let texts = [
        "want of memory",
        "the first text: want of memory",
        "moves want of memory",
        "turns want of memory",
    ];
    for (failure, text) in failures.iter().zip(texts) {
        assert_eq!(rt; failure.to_string(rt.alloc()).expect(&rt, "memory").as_str(), text);
    }
}

#[test]
fn faults_show_the_same_for_their_debug(rt: HostRuntime) {
    let schema = shop(rt.alloc()).expect(&rt, "a schema");
    let fault = read_script(rt.alloc(), &schema, b"FETCH").err().expect(&rt, "a fault");
    let shown = format!(in rt.alloc(); "{fault:?}, {fault}").expect(&rt, "memory");
    assert_eq!(rt; shown.as_str(), "fault 2 line 1, fault 2 line 1");
}
