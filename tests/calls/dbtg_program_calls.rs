//! Makes the public calls of `dbtg_program` as their callers do, with memory to spare: programs as texts, and what is read or refused.

use dbtg_program::{Program, ProgramFault, read_program};
use dbtg_schema::Schema;
use std::test::*;

mod faults;
mod limits;
mod sentences;
mod states;

/// Two areas, customers with their orders, and the items of an order, sorted by QTY; ORDR and ITEM both have an item QTY.
const SHOP: &[u8] =
    b"SCHEMA NAME IS SHOP.\nAREA NAME IS MAIN.\nAREA NAME IS SIDE.\nRECORD NAME IS CUSTOMER; LOCATION MODE IS CALC USING CNO DUPLICATES ARE NOT ALLOWED; WITHIN MAIN.\n  02 CNO PICTURE IS 9(4).\n  02 CNAME PICTURE IS X(8).\nRECORD NAME IS ORDR; WITHIN MAIN.\n  02 ONO PICTURE IS 9(4).\n  02 QTY PICTURE IS X(2).\nRECORD NAME IS ITEM; LOCATION MODE IS CALC USING PART DUPLICATES ARE ALLOWED; WITHIN SIDE.\n  02 PART PICTURE IS X(4).\n  02 QTY PICTURE IS 9(3).\nSET NAME IS HAS; ORDER IS LAST; OWNER IS CUSTOMER.\n  MEMBER IS ORDR MANDATORY AUTOMATIC.\nSET NAME IS LINES; ORDER IS SORTED ASCENDING DUPLICATES ARE LAST; OWNER IS ORDR.\n  MEMBER IS ITEM OPTIONAL AUTOMATIC; KEY IS QTY.\n";

/// The schema of the shop.
fn shop(rt: &HostRuntime) -> Option<Schema> {
    Schema::read(rt.alloc(), SHOP).ok()
}

/// The number of the first fault of a program and its line; (0, 0) where it is read, (99, 99) where memory is refused.
fn answer(rt: &HostRuntime, text: &[u8]) -> (u8, u64) {
    let Some(schema) = shop(rt) else { return (98, 98) };
    match read_program(rt.alloc(), &schema, text) {
        Ok(_) => (0, 0),
        Err(ProgramFault::Refused { line, cause }) => (cause.number(), line),
        Err(ProgramFault::Memory) => (99, 99),
    }
}

/// Has the case, `name|number|line|text`, that answer?
fn is_right(rt: &HostRuntime, case: &str) -> Option<bool> {
    let (_, rest) = case.split_once('|')?;
    let (cause, rest) = rest.split_once('|')?;
    let (line, text) = rest.split_once('|')?;
    let cause = cause.parse::<u8>().ok()?;
    let line = line.parse::<u64>().ok()?;
    Some(answer(rt, text.as_bytes()) == (cause, line))
}

/// The first case of a table that has another answer; none where all are right.
fn wrong_case<'a>(rt: &HostRuntime, table: &'a str) -> &'a str {
    for case in table.split('~') {
        if !is_right(rt, case).unwrap_or(false) {
            return case;
        }
    }
    ""
}

/// The program of a text that has no fault.
fn program(rt: &HostRuntime, text: &[u8]) -> Option<Program> {
    let schema = shop(rt)?;
    let read = read_program(rt.alloc(), &schema, text).ok();
    drop(schema);
    read
}
