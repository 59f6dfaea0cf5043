//! The limits of a program, and texts of any bytes.

use super::answer;
use std::test::*;

/// A piece, repeated.
fn repeated(rt: &HostRuntime, piece: &[u8], times: usize) -> Option<Vec<u8>> {
    let mut text = Vec::new(rt.alloc());
    for _ in 0..times {
        text.extend_from_slice(piece).ok()?;
    }
    Some(text)
}

/// The answer of a text that is a piece, repeated.
fn answer_of(rt: &HostRuntime, piece: &[u8], times: usize) -> (u8, u64) {
    match repeated(rt, piece, times) {
        Some(text) => answer(rt, text.as_slice()),
        None => (97, 97),
    }
}

#[test]
fn sentences_are_counted(rt: HostRuntime) {
    assert_eq!(rt; answer_of(&rt, b"STOP\n", 65535), (0, 0));
    assert_eq!(rt; answer_of(&rt, b"\nSTOP\n", 65536), (14, 131072));
    assert_eq!(rt; answer_of(&rt, b"*\n", 65537), (0, 0));
}

#[test]
fn bytes_are_counted(rt: HostRuntime) {
    assert_eq!(rt; answer_of(&rt, b"\n", 1048576), (0, 0));
    assert_eq!(rt; answer_of(&rt, b"\n", 1048577), (14, 1));
    assert_eq!(rt; answer_of(&rt, b"*", 1000), (0, 0));
    assert_eq!(rt; answer_of(&rt, b"*", 1001), (1, 1));
    assert_eq!(rt; answer_of(&rt, b"IF <", 262144), (1, 1));
    assert_eq!(rt; answer_of(&rt, b"A\n", 300000), (2, 1));
    assert_eq!(rt; answer_of(&rt, b"\xff\x00\x80\n", 1000), (1, 1));
}

/// 01 and a name of two letters, this many times.
fn counters(rt: &HostRuntime, times: usize) -> Option<Vec<u8>> {
    let mut text = Vec::new(rt.alloc());
    for i in 0..times {
        text.extend_from_slice(b"01 ").ok()?;
        text.push(b'A' + (i / 26) as u8).ok()?;
        text.push(b'A' + (i % 26) as u8).ok()?;
        text.extend_from_slice(b" PIC 9\n").ok()?;
    }
    Some(text)
}

fn answer_of_counters(rt: &HostRuntime, times: usize) -> (u8, u64) {
    match counters(rt, times) {
        Some(text) => answer(rt, text.as_slice()),
        None => (97, 97),
    }
}

#[test]
fn counters_are_counted(rt: HostRuntime) {
    assert_eq!(rt; answer_of_counters(&rt, 64), (0, 0));
    assert_eq!(rt; answer_of_counters(&rt, 65), (27, 65));
    assert_eq!(rt; answer_of_counters(&rt, 300), (27, 65));
}

/// Paragraphs and jumps to them, many of each.
fn jumps(rt: &HostRuntime, times: usize) -> Option<Vec<u8>> {
    let mut text = Vec::new(rt.alloc());
    for i in 0..times {
        text.extend_from_slice(b"PA-").ok()?;
        text.push(b'A' + (i % 26) as u8).ok()?;
        text.push(b'A' + (i / 26 % 26) as u8).ok()?;
        text.push(b'A' + (i / 676 % 26) as u8).ok()?;
        text.extend_from_slice(b".\nGO TO PA-").ok()?;
        text.push(b'A' + (i % 26) as u8).ok()?;
        text.push(b'A' + (i / 26 % 26) as u8).ok()?;
        text.push(b'A' + (i / 676 % 26) as u8).ok()?;
        text.push(b'\n').ok()?;
    }
    Some(text)
}

#[test]
fn many_paragraphs(rt: HostRuntime) {
    match jumps(&rt, 3000) {
        Some(text) => assert_eq!(rt; answer(&rt, text.as_slice()), (0, 0)),
        None => assert_eq!(rt; 1, 0),
    }
}
