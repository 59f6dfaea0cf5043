//! What a trace says, line by line.

use super::read;
use dbtg_cells::{DbKey, Value};
use dbtg_schema::RecordNo;
use dbtg_trace::Traced;
use dbtg_unit::Statement;
use std::test::*;

const TRACE: &[u8] = b"* a note\n1: KEEP => 0000\n\n2: GET ITEM => 0413\n1: GET => 0000 ITEM:7.2 PART=\"A\" QTY=005\n2: FIND KEY ITEM:1 => 0000 ITEM:1\n";

/// The entry of this number, if the trace is read and has it.
fn entry(rt: &HostRuntime, number: usize) -> Option<Traced> {
    let mut entries = read(rt, TRACE)?.ok()?;
    if number < entries.len() {
        Some(entries.remove(number))
    } else {
        None
    }
}

fn item(number: u32, generation: u8) -> Option<DbKey> {
    Some(DbKey {
        rtype: RecordNo::new(2),
        number,
        generation,
    })
}

fn place_of(entry: &Traced) -> (u64, u8, u16) {
    (entry.line, entry.unit, entry.said.status)
}

#[test]
fn a_status_alone(rt: HostRuntime) {
    let entry = entry(&rt, 0).unwrap();
    assert_eq!(rt; place_of(&entry), (2, 1, 0));
    assert!(rt; matches!(entry.statement, Statement::Keep));
    assert!(rt; entry.said.key.is_none());
    assert!(rt; entry.said.items.is_none());
}

#[test]
fn a_refusal(rt: HostRuntime) {
    let entry = entry(&rt, 1).unwrap();
    assert_eq!(rt; place_of(&entry), (4, 2, 413));
    assert!(rt; matches!(entry.statement, Statement::Get(Some(_))));
    assert!(rt; entry.said.key.is_none());
}

#[test]
fn a_key_and_items(rt: HostRuntime) {
    let entry = entry(&rt, 2).unwrap();
    assert_eq!(rt; place_of(&entry), (5, 1, 0));
    assert_eq!(rt; entry.said.key, item(7, 2));
    let items = entry.said.items.unwrap();
    match items.get().as_slice() {
        [Value::Text(part), Value::Num(quantity)] => {
            assert_eq!(rt; part.as_slice(), b"A   ".as_slice());
            assert_eq!(rt; *quantity, 5);
        }
        _ => assert!(rt; false),
    }
}

#[test]
fn a_key_alone(rt: HostRuntime) {
    let entry = entry(&rt, 3).unwrap();
    assert_eq!(rt; place_of(&entry), (6, 2, 0));
    assert_eq!(rt; entry.said.key, item(1, 1));
    assert!(rt; entry.said.items.is_none());
}

#[test]
fn no_entry_more(rt: HostRuntime) {
    assert!(rt; entry(&rt, 4).is_none());
}
