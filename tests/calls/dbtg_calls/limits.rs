//! Texts one below each limit, just at it and one above, each read by a call.

use super::scripts::{moves_verdict, turns_verdict, verdict};
use super::shop::shop;
use dbtg_schema::{Schema, SchemaFault};
use std::alloc::{AllocError, Global};
use std::test::*;

// The number of the fault and its line; (0, 0) where the schema is read, and a number that no fault has where memory is refused.
fn schema_verdict(rt: &HostRuntime, text: &str) -> (u8, u64) {
    match Schema::read(rt.alloc(), text.as_bytes()) {
        Ok(_schema) => (0, 0),
        Err(SchemaFault::Refused { line, cause }) => (cause.number(), line),
        Err(SchemaFault::Memory) => (98, 0),
    }
}

// A text, a part as often as is asked for, and a text behind it.
fn repeated(
    alloc: Global,
    before: &str,
    part: &str,
    times: usize,
    behind: &str,
) -> Result<String, AllocError> {
    let mut text = String::new(alloc);
    text.push_str(before)?;
    for _ in 0..times {
        text.push_str(part)?;
    }
    text.push_str(behind)?;
    Ok(text)
}

/// How much of everything a schema has: members of its first set, items and CALC items of its first record type.
#[derive(Drop)]
struct Size {
    areas: usize,
    types: usize,
    items: usize,
    calc_items: usize,
    sets: usize,
    members: usize,
}

// A schema with little of everything, but enough for five members.
fn little() -> Size {
    Size {
        areas: 1,
        types: 6,
        items: 1,
        calc_items: 1,
        sets: 1,
        members: 1,
    }
}

fn push_records(alloc: Global, text: &mut String, size: &Size) -> Result<(), AllocError> {
    for number in 0..size.types {
        let first = number == 0;
        text.push_str(format!(in alloc; "RECORD NAME R{number} LOCATION MODE CALC USING")?.as_str())?;
        for item in 0..(if first { size.calc_items } else { 1 }) {
            text.push_str(format!(in alloc; " I{item}")?.as_str())?;
        }
        text.push_str(" DUPLICATES ALLOWED WITHIN A0.\n")?;
        for item in 0..(if first { size.items } else { 1 }) {
            text.push_str(format!(in alloc; "02 I{item} PIC 9.\n")?.as_str())?;
        }
    }
    Ok(())
}

fn push_sets(alloc: Global, text: &mut String, size: &Size) -> Result<(), AllocError> {
    for number in 0..size.sets {
        let first = number == 0;
        text.push_str(format!(in alloc; "SET NAME S{number} ORDER LAST OWNER R0.\n")?.as_str())?;
        for member in 0..(if first { size.members } else { 1 }) {
            text.push_str(format!(in alloc; "MEMBER R{} OPTIONAL MANUAL.\n", member + 1)?.as_str())?;
        }
    }
    Ok(())
}

// The schema in line 1, then a line for each area, each record type, each item, each set and each member.
fn schema_of(alloc: Global, size: &Size) -> Result<String, AllocError> {
    let mut text = String::new(alloc);
    text.push_str("SCHEMA NAME S.\n")?;
    for area in 0..size.areas {
        text.push_str(format!(in alloc; "AREA NAME A{area}.\n")?.as_str())?;
    }
    push_records(alloc, &mut text, size)?;
    push_sets(alloc, &mut text, size)?;
    Ok(text)
}

fn size_verdict(rt: &HostRuntime, size: Size) -> (u8, u64) {
    match schema_of(rt.alloc(), &size) {
        Ok(text) => schema_verdict(rt, text.as_str()),
        Err(_) => (98, 0),
    }
}

#[test]
fn areas_and_record_types(rt: HostRuntime) {
    for areas in 7..9 {
        assert_eq!(rt; size_verdict(&rt, Size { areas, ..little() }), (0, 0));
    }
    assert_eq!(rt; size_verdict(&rt, Size { areas: 9, ..little() }), (16, 10));
    for types in 15..17 {
        assert_eq!(rt; size_verdict(&rt, Size { types, ..little() }), (0, 0));
    }
    assert_eq!(rt; size_verdict(&rt, Size { types: 17, ..little() }), (16, 35));
}

#[test]
fn items_and_calc_items(rt: HostRuntime) {
    for items in 15..17 {
        assert_eq!(rt; size_verdict(&rt, Size { items, ..little() }), (0, 0));
    }
    assert_eq!(rt; size_verdict(&rt, Size { items: 17, ..little() }), (16, 20));
    for calc_items in 3..5 {
        assert_eq!(rt; size_verdict(&rt, Size { items: 5, calc_items, ..little() }), (0, 0));
    }
    assert_eq!(rt; size_verdict(&rt, Size { items: 5, calc_items: 5, ..little() }), (16, 3));
}

#[test]
fn sets_and_members(rt: HostRuntime) {
    for sets in 15..17 {
        assert_eq!(rt; size_verdict(&rt, Size { sets, ..little() }), (0, 0));
    }
    assert_eq!(rt; size_verdict(&rt, Size { sets: 17, ..little() }), (16, 47));
    for members in 3..5 {
        assert_eq!(rt; size_verdict(&rt, Size { members, ..little() }), (0, 0));
    }
    assert_eq!(rt; size_verdict(&rt, Size { members: 5, ..little() }), (16, 20));
}

#[test]
fn the_least_of_everything(rt: HostRuntime) {
    assert_eq!(rt; size_verdict(&rt, Size { sets: 0, ..little() }), (0, 0));
    assert_eq!(rt; size_verdict(&rt, Size { areas: 0, ..little() }), (3, 2));
    assert_eq!(rt; size_verdict(&rt, Size { types: 0, sets: 0, ..little() }), (3, 2));
    assert_eq!(rt; size_verdict(&rt, Size { items: 0, ..little() }), (17, 3));
    assert_eq!(rt; size_verdict(&rt, Size { members: 0, ..little() }), (3, 15));
}

// A schema with a name of this length behind `before`.
fn name_verdict(rt: &HostRuntime, before: &str, length: usize, behind: &str) -> (u8, u64) {
    match repeated(rt.alloc(), before, "N", length, behind) {
        Ok(text) => schema_verdict(rt, text.as_str()),
        Err(_) => (98, 0),
    }
}

#[test]
fn names(rt: HostRuntime) {
    let behind = ". AREA NAME A. RECORD NAME R WITHIN A. 02 I PIC 9.";
    let record = "SCHEMA NAME S.\nAREA NAME A.\nRECORD NAME ";
    let item = "SCHEMA NAME S.\nAREA NAME A.\nRECORD NAME R WITHIN A.\n02 ";
    for length in 29..32 {
        let wanted = |line| if length < 31 { (0, 0) } else { (4, line) };
        assert_eq!(rt; name_verdict(&rt, "SCHEMA NAME ", length, behind), wanted(1));
        assert_eq!(rt; name_verdict(&rt, record, length, " WITHIN A. 02 I PIC 9."), wanted(3));
        assert_eq!(rt; name_verdict(&rt, item, length, " PIC 9."), wanted(4));
    }
}

#[test]
fn pictures(rt: HostRuntime) {
    let before = "SCHEMA NAME S.\nAREA NAME A.\nRECORD NAME R WITHIN A.\n02 I PIC ";
    let of = |picture: &str, length| {
        let text = repeated(rt.alloc(), before, picture, length, ".").expect(&rt, "memory");
        schema_verdict(&rt, text.as_str())
    };
    assert_eq!(rt; of("9", 17), (0, 0));
    assert_eq!(rt; of("9", 18), (0, 0));
    assert_eq!(rt; of("9", 19), (11, 4));
    assert_eq!(rt; of("X", 63), (0, 0));
    assert_eq!(rt; of("X", 64), (0, 0));
    assert_eq!(rt; of("X", 65), (11, 4));
}

#[test]
fn bytes_of_a_schema(rt: HostRuntime) {
    let before = "SCHEMA NAME S. AREA NAME A. RECORD NAME R WITHIN A. 02 I PIC 9.";
    for length in 65_535..65_538 {
        let text = repeated(rt.alloc(), before, " ", length - before.len(), "").expect(&rt, "memory");
        let wanted = if length < 65_537 { (0, 0) } else { (2, 1) };
        assert_eq!(rt; schema_verdict(&rt, text.as_str()), wanted);
    }
}

#[test]
fn bytes_of_a_script(rt: HostRuntime) {
    let shop = shop(rt.alloc()).expect(&rt, "a schema");
    let line = repeated(rt.alloc(), "* ", "x", 997, "\n").expect(&rt, "memory");
    let lines = repeated(rt.alloc(), "", line.as_str(), 1048, "").expect(&rt, "memory");
    for length in 1_048_575..1_048_578 {
        let text = repeated(rt.alloc(), lines.as_str(), "\n", length - 1_048_000, "").expect(&rt, "memory");
        let wanted = if length < 1_048_577 { (0, 0) } else { (14, 1) };
        assert_eq!(rt; verdict(&rt, &shop, text.as_bytes()), wanted);
    }
}

#[test]
fn bytes_of_a_line(rt: HostRuntime) {
    let shop = shop(rt.alloc()).expect(&rt, "a schema");
    for length in 999..1_002 {
        let text = repeated(rt.alloc(), "\nGET", " ", length - 3, "\nGET").expect(&rt, "memory");
        let wanted = if length < 1_001 { (0, 0) } else { (1, 2) };
        assert_eq!(rt; verdict(&rt, &shop, text.as_bytes()), wanted);
    }
}

#[test]
fn statements(rt: HostRuntime) {
    let shop = shop(rt.alloc()).expect(&rt, "a schema");
    for count in 65_534..65_537 {
        let text = repeated(rt.alloc(), "* note\n", "GET\n", count, "").expect(&rt, "memory");
        let wanted = if count < 65_536 { (0, 0) } else { (14, 65_537) };
        assert_eq!(rt; verdict(&rt, &shop, text.as_bytes()), wanted);
    }
}

#[test]
fn moves(rt: HostRuntime) {
    assert_eq!(rt; moves_verdict(&rt, b"1*999999"), (0, 999_999));
    assert_eq!(rt; moves_verdict(&rt, b"1*1000000"), (0, 1_000_000));
    assert_eq!(rt; moves_verdict(&rt, b"1*1000001"), (1, 1));
    assert_eq!(rt; moves_verdict(&rt, b"1*999998 Q1"), (0, 999_999));
    assert_eq!(rt; moves_verdict(&rt, b"1*999998 Q1 2"), (0, 1_000_000));
    assert_eq!(rt; moves_verdict(&rt, b"1*999998 Q1 2 Q1"), (2, 4));
}

#[test]
fn turns(rt: HostRuntime) {
    assert_eq!(rt; turns_verdict(&rt, b"1*999999"), (0, 999_999));
    assert_eq!(rt; turns_verdict(&rt, b"1*1000000"), (0, 1_000_000));
    assert_eq!(rt; turns_verdict(&rt, b"1*1000001"), (1, 1));
    assert_eq!(rt; turns_verdict(&rt, b"1*999998 1"), (0, 999_999));
    assert_eq!(rt; turns_verdict(&rt, b"1*999998 1 2"), (0, 1_000_000));
    assert_eq!(rt; turns_verdict(&rt, b"1*999998 1 2 1"), (2, 4));
}

#[test]
fn numbers_of_units(rt: HostRuntime) {
    assert_eq!(rt; moves_verdict(&rt, b"98 Q98 99 Q99"), (0, 4));
    assert_eq!(rt; moves_verdict(&rt, b"99 100"), (1, 2));
    assert_eq!(rt; moves_verdict(&rt, b"99 Q100"), (1, 2));
    assert_eq!(rt; turns_verdict(&rt, b"98 99 100"), (1, 3));
}

// Numbers of units are from 1, as are numbers of moves in a row.
#[test]
fn noughts(rt: HostRuntime) {
    assert_eq!(rt; moves_verdict(&rt, b"1 0"), (1, 2));
    assert_eq!(rt; moves_verdict(&rt, b"1*1 1*0"), (1, 2));
    assert_eq!(rt; turns_verdict(&rt, b"1 0"), (1, 2));
    assert_eq!(rt; turns_verdict(&rt, b"1*1 1*0"), (1, 2));
}
