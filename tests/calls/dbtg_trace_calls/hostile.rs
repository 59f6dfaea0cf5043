//! Traces of any bytes: each byte in each place of a trace, and each beginning of one.

use super::{SHOP, answer, answer_with};
use dbtg_schema::Schema;
use std::test::*;

const LINE: &[u8] = b"1: STORE ITEM PART = \"A\" QTY = 5 => 0000 ITEM:1 PART=\"A   \" QTY=5";
const TRACE: &[u8] = b"1: KEEP => 0000\n* a note\n2: GET => 0000 ITEM:1 PART=\"=> \" QTY=5\n2: GET => 0413\n";

/// The line with one byte changed.
fn changed(rt: &HostRuntime, at: usize, byte: u8) -> Option<Vec<u8>> {
    let mut text = Vec::from_slice(rt.alloc(), LINE).ok()?;
    if at < text.len() {
        text[at] = byte;
    }
    Some(text)
}

/// Is this the answer to a line in which the byte stands? A byte that is not printable has fault 1, but for a line feed, and for a
/// carriage return at the line's end; with another byte the line is read, or has a fault of the ones that there are.
fn can_come(at: usize, byte: u8, told: (u8, u64)) -> bool {
    match byte {
        b'\n' => told.1 <= 2,
        b'\r' if at + 1 == LINE.len() => told == (33, 1),
        b' '..=b'~' => matches!(told, (0 | 2..=13 | 31..=33, 1)) || told == (0, 0),
        _ => told == (1, 1),
    }
}

/// The first byte whose answer cannot come in this place; none where there is no such. The schema is read once for all bytes, since
/// that takes far longer than reading a line.
fn wrong_byte(rt: &HostRuntime, at: usize) -> Option<u8> {
    let Ok(schema) = Schema::read(rt.alloc(), SHOP) else { return Some(0) };
    for byte in 0..=255u8 {
        let told = match changed(rt, at, byte) {
            None => (98, 98),
            Some(text) => answer_with(rt, &schema, text.as_slice()),
        };
        if !can_come(at, byte, told) {
            return Some(byte);
        }
    }
    None
}

#[test]
fn each_byte_in_each_place(rt: HostRuntime) {
    for at in 0..LINE.len() {
        assert_eq!(rt; (at, wrong_byte(&rt, at)), (at, None));
    }
}

#[test]
fn each_beginning(rt: HostRuntime) {
    for end in 0..=TRACE.len() {
        let text = &TRACE[..end];
        let lines = 1 + text.iter().filter(|b| **b == b'\n').count() as u64;
        let (cause, line) = answer(&rt, text);
        assert!(rt; matches!(cause, 0 | 3 | 31..=33));
        assert!(rt; line <= lines);
    }
}

#[test]
fn bytes_alone(rt: HostRuntime) {
    for byte in 0..=255u8 {
        let told = answer(&rt, &[byte]);
        let wanted = match byte {
            b'\n' | b'\r' | b'.' | b' ' | b'*' => (0, 0),
            b'!'..=b'~' => (31, 1),
            _ => (1, 1),
        };
        assert_eq!(rt; told, wanted);
    }
}
