//! Audits, made with memory to spare. What is expected stands in docs/profile: OPEN in usage-modes.md, the image in
//! printed-texts.md.

use dbtg_cells::Mode;
use dbtg_schema::{AreaNo, Schema};
use dbtg_step::audit;
use dbtg_unit::{Answer, Cause, Entry, Statement, Status};
use std::alloc::Global;
use std::test::*;

const CARD: &[u8] =
    b"SCHEMA NAME IS CARD.\nAREA NAME IS MAIN.\nRECORD NAME IS CUSTOMER; WITHIN MAIN.\n  02 CNO PICTURE IS 9(4).\n";

// How many have the area open, the least free number, how many records and how many units there are.
type Seen = (usize, Option<u32>, usize, usize);

fn seen_with(alloc: Global, schema: &Schema, units: u8, history: &[Entry]) -> Option<Option<Seen>> {
    match audit(alloc, schema, 3, units, history) {
        Ok(Some((image, units))) => {
            let users = match image.usage.get(0) {
                Some(users) => users.len(),
                None => 99,
            };
            Some(Some((
                users,
                image.next.get(0).copied(),
                image.records.len(),
                units.len(),
            )))
        }
        Ok(None) => Some(None),
        Err(_) => None,
    }
}

// What an audit on CARD sees; none where memory is refused.
fn seen(alloc: Global, units: u8, history: &[Entry]) -> Option<Option<Seen>> {
    match Schema::read(alloc, CARD) {
        Ok(schema) => seen_with(alloc, &schema, units, history),
        Err(_) => None,
    }
}

fn opens(ticket: u64, unit: u8, area: u8, status: Status) -> Entry {
    Entry {
        ticket,
        unit,
        statement: Statement::OpenArea {
            area: AreaNo::new(area),
            mode: Mode::Update,
        },
        answer: Answer {
            status,
            key: None,
            items: None,
        },
    }
}

fn one(alloc: Global, entry: Entry) -> Option<Option<Seen>> {
    let mut history = Vec::new(alloc);
    match history.push(entry) {
        Ok(()) => seen(alloc, 1, &history),
        Err(_) => None,
    }
}

#[test]
fn empty_history(rt: HostRuntime) {
    assert_eq!(rt; seen(rt.alloc(), 2, &[]), Some(Some((0, Some(1), 0, 2))));
}

#[test]
fn right_answer(rt: HostRuntime) {
    let found = one(rt.alloc(), opens(0, 1, 0, Status::Done));
    assert_eq!(rt; found, Some(Some((1, Some(1), 0, 1))));
}

#[test]
fn wrong_answer(rt: HostRuntime) {
    let refused = Status::Refused(Cause::AreaAlreadyOpen);
    assert_eq!(rt; one(rt.alloc(), opens(0, 1, 0, refused)), Some(None));
}

#[test]
fn no_such_entry(rt: HostRuntime) {
    assert_eq!(rt; one(rt.alloc(), opens(1, 1, 0, Status::Done)), Some(None));
    assert_eq!(rt; one(rt.alloc(), opens(0, 0, 0, Status::Done)), Some(None));
    assert_eq!(rt; one(rt.alloc(), opens(0, 2, 0, Status::Done)), Some(None));
    assert_eq!(rt; one(rt.alloc(), opens(0, 1, 1, Status::Done)), Some(None));
}
