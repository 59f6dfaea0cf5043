//! Makes each public call of `dbtg_cells` as its callers do, with memory to spare, and works out the lists of docs/profile.

use dbtg_cells::{
    CellName, DbKey, Extent, MaybeOwner, Mode, NewOwner, NewRecord, Owner, Owners, RecordOwners, Ring, Shared,
    SharedItems, Slot, Usage, Value, key_below, key_eq, name_below, name_eq, owner_below, owner_eq, values_eq,
};
use dbtg_schema::{AreaNo, Duplicates, ItemNo, RecordNo, Row, SetNo};
use std::alloc::{AllocError, Global};
use std::process::Abort;
use std::test::*;

mod both_rings;
mod extent;
mod plain_ring;
mod slot;
mod usage;
mod worked_lists;

fn key(number: u32, generation: u8) -> DbKey {
    DbKey {
        rtype: RecordNo::new(2),
        number,
        generation,
    }
}

/// A row of one number.
fn row(rt: &HostRuntime, number: u64) -> Result<Row<Value>, AllocError> {
    Ok(Row::of(vec![in rt.alloc(); Value::Num(number)]?))
}

fn shared(rt: &HostRuntime, number: u64) -> Result<SharedItems, AllocError> {
    Shared::new(rt.alloc(), row(rt, number)?)
}

fn system_ring() -> CellName {
    CellName::Ring(SetNo::new(1), None)
}

fn owned_ring() -> CellName {
    CellName::Ring(SetNo::new(1), Some((RecordNo::new(0), 1)))
}

// Keys go by type, number, generation, and SYSTEM stands before every record.
#[test]
fn keys_and_owners_are_ordered(rt: HostRuntime) {
    assert!(rt; key_below(key(1, 2), key(2, 1)));
    assert!(rt; key_below(key(1, 1), key(1, 2)));
    assert!(rt; !key_below(key(1, 2), key(1, 2)));
    assert!(rt; !key_eq(key(1, 2), key(1, 1)));
    assert!(rt; owner_below(Owner::System, Owner::Rec(key(1, 1))));
    assert!(rt; owner_eq(Owner::System, Owner::System));
}

// Names go by kind, and then by what they name; the ring of SYSTEM stands before a record's.
#[test]
fn names_are_ordered(rt: HostRuntime) {
    assert!(rt; name_below(system_ring(), owned_ring()));
    assert!(rt;
        name_below(
            CellName::Usage(AreaNo::new(9)),
            CellName::Extent(RecordNo::new(0))
        )
    );
    assert!(rt; name_below(CellName::Extent(RecordNo::new(9)), system_ring()));
    assert!(rt; name_below(owned_ring(), CellName::Slot(RecordNo::new(0), 1)));
    assert!(rt; name_eq(owned_ring(), owned_ring()));
    assert!(rt; !name_eq(owned_ring(), system_ring()));
}
