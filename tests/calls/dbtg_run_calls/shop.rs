//! The schema that tests of threads stand on, scripts of it, and what a settled database shows.

use dbtg_run::{Database, Outcome, Settled};
use dbtg_schema::{Row, Schema};
use dbtg_script::{image_text, read_script, units_text};
use dbtg_step::audit;
use dbtg_unit::{Image, Statement, Status, Unit};
use std::alloc::{AllocError, Global};

pub const SHOP: &[u8] =
    b"SCHEMA NAME IS SHOP.\nAREA NAME IS MAIN.\nAREA NAME IS SIDE.\nRECORD NAME IS CUSTOMER; LOCATION MODE IS CALC USING CNO DUPLICATES ARE NOT ALLOWED; WITHIN MAIN.\n  02 CNO PICTURE IS 9(4).\n  02 CNAME PICTURE IS X(8).\nRECORD NAME IS ORDR; WITHIN MAIN.\n  02 ONO PICTURE IS 9(4).\nRECORD NAME IS ITEM; LOCATION MODE IS CALC USING PART DUPLICATES ARE ALLOWED; WITHIN SIDE.\n  02 PART PICTURE IS X(4).\n  02 QTY PICTURE IS 9(3).\nSET NAME IS HAS; ORDER IS LAST; OWNER IS CUSTOMER.\n  MEMBER IS ORDR MANDATORY AUTOMATIC.\nSET NAME IS LINES; ORDER IS SORTED ASCENDING DUPLICATES ARE LAST; OWNER IS ORDR.\n  MEMBER IS ITEM OPTIONAL AUTOMATIC; KEY IS QTY.\nSET NAME IS WATCH; ORDER IS NEXT; OWNER IS SYSTEM.\n  MEMBER IS ITEM OPTIONAL MANUAL.\n";

// Two customers, each with an order of one line; the first line is current.
pub const FIRST: &[u8] = b"OPEN AREA MAIN USAGE-MODE IS UPDATE\nOPEN AREA SIDE USAGE-MODE IS UPDATE\nSTORE CUSTOMER CNO = 1\nSTORE ORDR ONO = 1\nSTORE ITEM PART = \"A\"\nSTORE CUSTOMER CNO = 2\nSTORE ORDR ONO = 2\nSTORE ITEM PART = \"B\"\nFIND KEY ITEM:1\n";
pub const SECOND: &[u8] =
    b"OPEN AREA MAIN USAGE-MODE IS UPDATE\nOPEN AREA SIDE USAGE-MODE IS UPDATE\nFIND KEY ITEM:2\n";
pub const REMOVE: &[u8] = b"REMOVE FROM LINES\n";
pub const DELETE: &[u8] = b"DELETE\n";

pub fn script(alloc: Global, db: &Database, text: &[u8]) -> Option<Vec<Statement>> {
    read_script(alloc, &db.schema, text).ok()
}

pub fn is_done(outcome: &Outcome) -> bool {
    match outcome {
        Outcome::Done(answer) => answer.status == Status::Done,
        _ => false,
    }
}

// The members of all lists of a set.
pub fn members(settled: &Settled, set: usize) -> Option<usize> {
    let mut count = 0;
    for (_, members) in settled.image.lists.get(set)?.as_slice() {
        count += members.len();
    }
    Some(count)
}

// Whether the tickets of the history are 0, 1, 2, .. up to this one.
pub fn ends_with_ticket(settled: &Settled, last: u64) -> bool {
    let mut next = 0;
    for entry in settled.history.as_slice() {
        if entry.ticket != next {
            return false;
        }
        next += 1;
    }
    next == last + 1
}

// A database and its units as they are printed.
fn printed(alloc: Global, schema: &Schema, image: &Image, units: &Row<Unit>) -> Result<Vec<u8>, AllocError> {
    let mut out = image_text(alloc, schema, image)?;
    out.extend_from_slice(units_text(alloc, schema, units.as_slice())?.as_slice())?;
    Ok(out)
}

// Whether the audit of the history gives the image and the units that were settled.
pub fn is_audited(alloc: Global, settled: &Settled, capacity: u16, units: u8) -> bool {
    let found = audit(alloc, &settled.schema, capacity, units, settled.history.as_slice());
    match (found, printed(alloc, &settled.schema, &settled.image, &settled.units)) {
        (Ok(Some((image, units))), Ok(text)) => match printed(alloc, &settled.schema, &image, &units) {
            Ok(again) => again.as_slice() == text.as_slice(),
            Err(_) => false,
        },
        _ => false,
    }
}
