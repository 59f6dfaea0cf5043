//! Usage lists, as docs/profile/usage-modes.md says.

use super::*;

/// Whether a mode conflicts with each of the six, in the order of the table.
fn conflicts(mode: Mode) -> [bool; 6] {
    [
        mode.conflicts_with(Mode::Retrieval),
        mode.conflicts_with(Mode::Update),
        mode.conflicts_with(Mode::ProtectedRetrieval),
        mode.conflicts_with(Mode::ProtectedUpdate),
        mode.conflicts_with(Mode::ExclusiveRetrieval),
        mode.conflicts_with(Mode::ExclusiveUpdate),
    ]
}

// The six rows of the table of conflicts.
#[test]
fn modes_conflict_as_in_the_table(rt: HostRuntime) {
    for (mode, row) in [
        (Mode::Retrieval, [false, false, false, false, true, true]),
        (Mode::Update, [false, false, true, true, true, true]),
        (
            Mode::ProtectedRetrieval,
            [false, true, false, true, true, true],
        ),
        (Mode::ProtectedUpdate, [false, true, true, true, true, true]),
        (
            Mode::ExclusiveRetrieval,
            [true, true, true, true, true, true],
        ),
        (Mode::ExclusiveUpdate, [true, true, true, true, true, true]),
    ] {
        assert!(rt; conflicts(mode) == row, "{mode:?}");
    }
}

// The three modes that may change records.
#[test]
fn three_modes_are_for_updates(rt: HostRuntime) {
    for (mode, may) in [
        (Mode::Retrieval, false),
        (Mode::Update, true),
        (Mode::ProtectedRetrieval, false),
        (Mode::ProtectedUpdate, true),
        (Mode::ExclusiveRetrieval, false),
        (Mode::ExclusiveUpdate, true),
    ] {
        assert_eq!(rt; mode.is_update(), may, "{mode:?}");
    }
}

fn open(rt: &impl Abort, usage: &mut Usage, unit: u8, mode: Mode) -> Result<(), AllocError> {
    usage.reserve_user()?;
    assert!(rt; usage.has_room());
    usage.enter(unit, mode);
    Ok(())
}

// A PROTECTED UPDATE is refused for the UPDATE of unit 2, and is let in once that one is gone.
#[test]
fn every_unit_in_the_list_is_compared(rt: HostRuntime) -> Result<(), Fail> {
    let mut usage = Usage::new(rt.alloc());
    open(&rt, &mut usage, 1, Mode::Retrieval)?;
    open(&rt, &mut usage, 2, Mode::Update)?;
    assert!(rt; usage.conflicts_with(Mode::ProtectedUpdate));
    assert!(rt; !usage.conflicts_with(Mode::Retrieval));
    assert!(rt; usage.users() == [(1, Mode::Retrieval), (2, Mode::Update)].as_slice());
    usage.leave(2);
    assert!(rt; usage.mode_in(2) == None);
    assert!(rt; usage.mode_in(1) == Some(Mode::Retrieval));
    assert!(rt; !usage.conflicts_with(Mode::ProtectedUpdate));
    Ok(())
}
