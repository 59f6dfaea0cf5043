//! What a program goes by: what it was told, and how its values compare. Some of the answers and values below no database gives and no text
//! says; the definitions speak of them too.

use super::program;
use dbtg_cells::{DbKey, Shared, Value};
use dbtg_program::{Condition, Due, End, Line, Operand, Program, Relation, Sentence, State, next};
use dbtg_schema::{RecordNo, Row, Schema};
use dbtg_unit::{Answer, Cause, Statement, Status};
use std::test::*;

/// A text as a value.
fn text(rt: &HostRuntime, bytes: &[u8]) -> Option<Value> {
    Some(Value::Text(Row::of(Vec::from_slice(rt.alloc(), bytes).ok()?)))
}

/// The answer to GET that has the items of customer 7.
fn customer(rt: &HostRuntime, status: Status) -> Option<Answer> {
    let mut items = Vec::new(rt.alloc());
    items.push(Value::Num(7)).ok()?;
    items.push(text(rt, b"ADA     ")?).ok()?;
    let key = DbKey {
        number: 1,
        rtype: RecordNo::new(0),
        generation: 1,
    };
    Some(Answer {
        status,
        key: Some(key),
        items: Some(Shared::new(rt.alloc(), Row::of(items)).ok()?),
    })
}

/// The state of a program, a GET alone, after the answer with this status.
fn told(rt: &HostRuntime, status: Status) -> Option<State> {
    let got = program(rt, b"GET\n")?;
    let mut state = State::beginning(rt.alloc(), &got).ok()?;
    let answer = customer(rt, status)?;
    state.told(rt.alloc(), &got, &Statement::Get(None), &answer).ok()?;
    Some(state)
}

/// Does the work area hold this customer?
fn holds(state: &State, number: u64, name: &[u8]) -> bool {
    match (&state.values()[0], &state.values()[1]) {
        (Value::Num(n), Value::Text(text)) => *n == number && text.as_slice() == name,
        _ => false,
    }
}

// A GET that was done fills the work area, with a text without the spaces at its end.
#[test]
fn a_get_fills_the_work_area(rt: HostRuntime) {
    let Some(state) = told(&rt, Status::Done) else {
        panic!(rt; "no state")
    };
    assert!(rt; holds(&state, 7, b"ADA"));
    assert!(rt; state.at() == 1);
    assert!(rt; state.status() == 0);
}

// One that was refused leaves it as it was, whatever its answer has.
#[test]
fn a_refused_get_fills_nothing(rt: HostRuntime) {
    let Some(state) = told(&rt, Status::Refused(Cause::NoSuchCurrent)) else {
        panic!(rt; "no state")
    };
    assert!(rt; holds(&state, 0, b""));
    assert!(rt; state.at() == 1);
    assert!(rt; state.status() != 0);
}

/// A program that asserts that one text is equal to another.
fn asserting(rt: &HostRuntime, left: &[u8], right: &[u8]) -> Option<Program> {
    let condition = Condition::Compare {
        left: Operand::Literal(text(rt, left)?),
        negated: false,
        relation: Relation::Equal,
        right: Operand::Literal(text(rt, right)?),
    };
    let mut lines = Vec::new(rt.alloc());
    lines
        .push(Line {
            number: 1,
            sentence: Sentence::Assert(Shared::new(rt.alloc(), condition).ok()?),
        })
        .ok()?;
    Some(Program {
        lines: Row::of(lines),
        fields: Row::of(Vec::new(rt.alloc())),
        records: Row::of(Vec::new(rt.alloc())),
    })
}

/// Does the assertion hold?
fn are_equal(rt: &HostRuntime, left: &[u8], right: &[u8]) -> Option<bool> {
    let schema: Schema = super::shop(rt)?;
    let asserting = asserting(rt, left, right)?;
    let mut state = State::beginning(rt.alloc(), &asserting).ok()?;
    match next(rt.alloc(), &schema, &asserting, &mut state).ok()? {
        Due::End(end) => Some(end == End::Stop),
        Due::Statement(_) => None,
    }
}

// The shorter text is compared as if it ended in spaces.
#[test]
fn a_shorter_text_ends_in_spaces(rt: HostRuntime) {
    assert!(rt; are_equal(&rt, b"A", b"A  ") == Some(true));
    assert!(rt; are_equal(&rt, b"A  ", b"A") == Some(true));
    assert!(rt; are_equal(&rt, b"A", b"A B") == Some(false));
    assert!(rt; are_equal(&rt, b"A", b"A\0") == Some(false));
}
