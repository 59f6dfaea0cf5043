//! Makes each public call of `dbtg_schema` as its callers do, with memory to spare: schemas as texts, and what is read or refused. The
//! answer of a text is its fault's number and line, or (0, 0).

use dbtg_schema::{Schema, SchemaFault};
use std::test::*;

mod calls;
mod faults;

/// The number of the first fault and its line; (0, 0) where a schema is read.
fn answer(rt: &HostRuntime, text: &[u8]) -> (u8, u64) {
    match Schema::read(rt.alloc(), text) {
        Ok(_) => (0, 0),
        Err(SchemaFault::Refused { line, cause }) => (cause.number(), line),
        Err(SchemaFault::Memory) => (99, 99),
    }
}

/// How a text begins: a schema's name (H), an area more (A), a record type more (B), two (T).
fn beginning(letter: &str) -> &'static str {
    match letter {
        "H" => "SCHEMA NAME IS A.\n",
        "A" => "SCHEMA NAME IS A.\nAREA NAME IS M.\n",
        "B" =>
            "SCHEMA NAME IS A.\nAREA NAME IS M.\nRECORD NAME IS R; WITHIN M.\n 02 I PICTURE IS 9(4).\n 02 J PIC X(8).\n",
        "T" =>
            "SCHEMA NAME IS A.\nAREA NAME IS M.\nRECORD NAME IS R; WITHIN M.\n 02 I PICTURE IS 9(4).\n 02 J PIC X(8).\nRECORD NAME IS Q; WITHIN M.\n 02 K PIC 9(4).\n",
        _ => "",
    }
}

fn joined(rt: &HostRuntime, first: &str, second: &str) -> Option<Vec<u8>> {
    let mut text = Vec::from_slice(rt.alloc(), first.as_bytes()).ok()?;
    text.extend_from_slice(second.as_bytes()).ok()?;
    Some(text)
}

/// Has the case, `name|number|line|beginning|text`, that answer?
fn is_right(rt: &HostRuntime, case: &str) -> Option<bool> {
    let (_, rest) = case.split_once('|')?;
    let (cause, rest) = rest.split_once('|')?;
    let (line, rest) = rest.split_once('|')?;
    let (letter, text) = rest.split_once('|')?;
    let cause = cause.parse::<u8>().ok()?;
    let line = line.parse::<u64>().ok()?;
    let text = joined(rt, beginning(letter), text)?;
    Some(answer(rt, text.as_slice()) == (cause, line))
}

/// The first case of a table that has another answer; none where all are right.
fn wrong_case<'a>(rt: &HostRuntime, table: &'a str) -> &'a str {
    for case in table.split('~') {
        if !is_right(rt, case).unwrap_or(false) {
            return case;
        }
    }
    ""
}
