//! Reads traces as callers of `dbtg_trace` do, with memory to spare: traces of SHOP with two units as texts. The answer of a text is its
//! fault's number and line, or 0 and how many entries it has.

use dbtg_schema::Schema;
use dbtg_trace::{TraceFault, Traced, read_trace};
use std::test::*;

mod faults;
mod hostile;
mod said;

const SHOP: &[u8] =
    b"SCHEMA NAME IS SHOP.\nAREA NAME IS MAIN.\nAREA NAME IS SIDE.\nRECORD NAME IS CUSTOMER; LOCATION MODE IS CALC USING CNO DUPLICATES ARE NOT ALLOWED; WITHIN MAIN.\n  02 CNO PICTURE IS 9(4).\n  02 CNAME PICTURE IS X(8).\nRECORD NAME IS ORDR; WITHIN MAIN.\n  02 ONO PICTURE IS 9(4).\nRECORD NAME IS ITEM; LOCATION MODE IS CALC USING PART DUPLICATES ARE ALLOWED; WITHIN SIDE.\n  02 PART PICTURE IS X(4).\n  02 QTY PICTURE IS 9(3).\nSET NAME IS LINES; ORDER IS SORTED ASCENDING DUPLICATES ARE LAST; OWNER IS ORDR.\n  MEMBER IS ITEM OPTIONAL AUTOMATIC; KEY IS QTY.\n";

fn read(rt: &HostRuntime, text: &[u8]) -> Option<Result<Vec<Traced>, TraceFault>> {
    let schema = Schema::read(rt.alloc(), SHOP).ok()?;
    Some(read_trace(rt.alloc(), &schema, 2, text))
}

/// The answer of a text that is read with this schema.
fn answer_with(rt: &HostRuntime, schema: &Schema, text: &[u8]) -> (u8, u64) {
    match read_trace(rt.alloc(), schema, 2, text) {
        Ok(entries) => (0, entries.len() as u64),
        Err(TraceFault::Refused { line, cause }) => (cause.number(), line),
        Err(TraceFault::Memory) => (99, 99),
    }
}

fn answer(rt: &HostRuntime, text: &[u8]) -> (u8, u64) {
    match Schema::read(rt.alloc(), SHOP) {
        Ok(schema) => answer_with(rt, &schema, text),
        Err(_) => (98, 98),
    }
}

/// Has the case, `number|line|text`, that answer?
fn is_right(rt: &HostRuntime, case: &str) -> Option<bool> {
    let (cause, rest) = case.split_once('|')?;
    let (line, text) = rest.split_once('|')?;
    let cause = cause.parse::<u8>().ok()?;
    let line = line.parse::<u64>().ok()?;
    Some(answer(rt, text.as_bytes()) == (cause, line))
}

/// The first case of a table that has another answer; none where all are right.
fn wrong_case<'a>(rt: &HostRuntime, table: &'a str) -> &'a str {
    for case in table.split('~') {
        if !is_right(rt, case).unwrap_or(false) {
            return case;
        }
    }
    ""
}
