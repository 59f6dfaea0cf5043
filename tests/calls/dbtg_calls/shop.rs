//! The shop of docs/profile/README.md: its schema, its keys, and the run-unit that opened it.

use dbtg_cells::{DbKey, Mode, Owner};
use dbtg_schema::{RecordNo, Row, Schema};
use dbtg_unit::{Currency, Kept, Place, Unit};
use std::alloc::{AllocError, Global};

const SHOP: &[u8] =
    b"SCHEMA NAME IS SHOP.\nAREA NAME IS MAIN.\nAREA NAME IS SIDE.\nRECORD NAME IS CUSTOMER; LOCATION MODE IS CALC USING CNO DUPLICATES ARE NOT ALLOWED; WITHIN MAIN.\n  02 CNO PICTURE IS 9(4).\n  02 CNAME PICTURE IS X(8).\nRECORD NAME IS ORDR; WITHIN MAIN.\n  02 ONO PICTURE IS 9(4).\nRECORD NAME IS ITEM; LOCATION MODE IS CALC USING PART DUPLICATES ARE ALLOWED; WITHIN SIDE.\n  02 PART PICTURE IS X(4).\n  02 QTY PICTURE IS 9(3).\nSET NAME IS HAS; ORDER IS LAST; OWNER IS CUSTOMER.\n  MEMBER IS ORDR MANDATORY AUTOMATIC.\nSET NAME IS LINES; ORDER IS SORTED ASCENDING DUPLICATES ARE LAST; OWNER IS ORDR.\n  MEMBER IS ITEM OPTIONAL AUTOMATIC; KEY IS QTY.\nSET NAME IS WATCH; ORDER IS NEXT; OWNER IS SYSTEM.\n  MEMBER IS ITEM OPTIONAL MANUAL.\n";

pub(super) fn shop(alloc: Global) -> Option<Schema> {
    Schema::read(alloc, SHOP).ok()
}

fn key_of(rtype: u8, number: u32) -> DbKey {
    DbKey {
        rtype: RecordNo::new(rtype),
        number,
        generation: 1,
    }
}

pub(super) fn customer(number: u32) -> DbKey {
    key_of(0, number)
}

pub(super) fn order(number: u32) -> DbKey {
    key_of(1, number)
}

pub(super) fn item(number: u32) -> DbKey {
    key_of(2, number)
}

pub(super) fn place(owner: DbKey, at: Option<DbKey>) -> Option<Place> {
    Some(Place {
        owner: Owner::Rec(owner),
        at,
    })
}

/// A unit at which nothing is current, with MAIN and SIDE open in these modes.
pub(super) fn beginning(
    alloc: Global,
    main: Option<Mode>,
    side: Option<Mode>,
) -> Result<Unit, AllocError> {
    Ok(Unit {
        number: 1,
        currency: Currency {
            run_unit: None,
            types: Row::of(Vec::from_slice(alloc, &[None, None, None])?),
            areas: Row::of(Vec::from_slice(alloc, &[None, None])?),
            sets: Row::of(Vec::from_slice(alloc, &[None, None, None])?),
        },
        modes: Row::of(Vec::from_slice(alloc, &[main, side])?),
        kept: Kept::of(Vec::new(alloc)),
    })
}

/// The currents after the opening of the shop, as docs/profile/currency.md shows them: a customer was stored, and an order.
pub(super) fn opened(
    alloc: Global,
    main: Option<Mode>,
    side: Option<Mode>,
) -> Result<Unit, AllocError> {
    let (owner, member) = (customer(1), order(1));
    let sets = [place(owner, Some(member)), place(member, None), None];
    Ok(Unit {
        number: 1,
        currency: Currency {
            run_unit: Some(member),
            types: Row::of(Vec::from_slice(alloc, &[Some(owner), Some(member), None])?),
            areas: Row::of(Vec::from_slice(alloc, &[Some(member), None])?),
            sets: Row::of(Vec::from_slice(alloc, &sets)?),
        },
        modes: Row::of(Vec::from_slice(alloc, &[main, side])?),
        kept: Kept::of(Vec::new(alloc)),
    })
}

/// A unit that stands at this record and nowhere else, with MAIN and SIDE open in this mode.
pub(super) fn at_alone(alloc: Global, key: DbKey, mode: Option<Mode>) -> Result<Unit, AllocError> {
    let mut unit = beginning(alloc, mode, mode)?;
    unit.currency.run_unit = Some(key);
    Ok(unit)
}
