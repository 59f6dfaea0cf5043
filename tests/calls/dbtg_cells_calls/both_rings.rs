//! The linked ring and the plain one, after each of many operations, read alike in every way.

use super::plain_ring::PlainRing;
use super::*;

/// A linked ring, and a plain one to which the same is done.
#[derive(Drop)]
pub(super) struct Both {
    pub(super) linked: Ring,
    pub(super) plain: PlainRing,
}

pub(super) fn opened(alloc: Global, owner: &Owner) -> Both {
    let mut both = Both {
        linked: Ring::absent(alloc),
        plain: PlainRing::absent(alloc),
    };
    both.linked.open(*owner);
    both.plain.owner = Some(*owner);
    both
}

pub(super) fn closed(both: &mut Both) -> bool {
    both.linked.close();
    both.plain.close();
    !both.linked.is_present()
}

/// Members of three types.
fn member(number: u32) -> DbKey {
    DbKey {
        rtype: RecordNo::new((number % 3) as u8),
        number,
        generation: 1,
    }
}

/// Each fifth member has no sort key; the others have one of four.
fn sort_of(number: u32) -> Option<u64> {
    if number % 5 == 0 {
        None
    } else {
        Some((number % 4) as u64)
    }
}

fn sort_key(sort: &Option<u64>) -> Option<Value> {
    sort.map(|n| Value::Num(n))
}

pub(super) fn reserve(rt: &impl Abort, both: &mut Both, key: &DbKey) -> Result<(), AllocError> {
    assert!(rt; !both.linked.contains(*key) && !both.plain.contains(*key));
    both.linked.reserve_place(*key)?;
    both.plain.reserve()
}

pub(super) fn first_in_both(rt: &impl Abort, both: &mut Both, key: &DbKey, sort: &Option<u64>) {
    assert!(rt; both.linked.is_present() && both.linked.has_room(*key));
    both.linked.place_first(*key, sort_key(sort));
    both.plain.put_in(0, *key, *sort);
}

pub(super) fn last_in_both(rt: &impl Abort, both: &mut Both, key: &DbKey, sort: &Option<u64>) {
    assert!(rt; both.linked.is_present() && both.linked.has_room(*key));
    both.linked.place_last(*key, sort_key(sort));
    let len = both.plain.len();
    both.plain.put_in(len, *key, *sort);
}

pub(super) fn after_in_both(
    rt: &impl Abort,
    both: &mut Both,
    other: &DbKey,
    key: &DbKey,
    sort: &Option<u64>,
) {
    assert!(rt; both.linked.contains(*other) && both.linked.has_room(*key));
    both.linked.place_after(*other, *key, sort_key(sort));
    let at = both.plain.place_of(*other) + 1;
    both.plain.put_in(at, *key, *sort);
}

fn before_in_both(
    rt: &impl Abort,
    both: &mut Both,
    other: &DbKey,
    key: &DbKey,
    sort: &Option<u64>,
) {
    assert!(rt; both.linked.contains(*other) && both.linked.has_room(*key));
    both.linked.place_before(*other, *key, sort_key(sort));
    let at = both.plain.place_of(*other);
    both.plain.put_in(at, *key, *sort);
}

pub(super) fn sorted_in_both(
    rt: &impl Abort,
    both: &mut Both,
    ascending: bool,
    duplicates: Duplicates,
    key: &DbKey,
    sort: &Option<u64>,
) {
    assert!(rt; both.linked.is_present() && both.linked.has_room(*key));
    both.linked
        .place_sorted(ascending, duplicates, *key, sort_key(sort));
    let at = both.plain.sorted_place(ascending, duplicates, *sort);
    both.plain.put_in(at, *key, *sort);
}

pub(super) fn out_of_both(rt: &impl Abort, both: &mut Both, key: &DbKey) {
    assert!(rt; both.linked.contains(*key));
    assert!(rt; both.plain.contains(*key));
    both.linked.take_out(*key);
    both.plain.take_out(*key);
}

/// Places a member beside another one, where that is there, and else at an end.
fn beside(rt: &impl Abort, both: &mut Both, op: u32, other: &DbKey, number: u32) {
    let key = member(number);
    let sort = sort_of(number);
    match (op, both.plain.contains(*other)) {
        (0, true) => after_in_both(rt, both, other, &key, &sort),
        (_, true) => before_in_both(rt, both, other, &key, &sort),
        (0, false) => first_in_both(rt, both, &key, &sort),
        (_, false) => last_in_both(rt, both, &key, &sort),
    }
}

fn place(rt: &impl Abort, both: &mut Both, op: u32, other: &DbKey, number: u32) {
    let key = member(number);
    let sort = sort_of(number);
    match op {
        0 | 1 => beside(rt, both, op, other, number),
        2 => first_in_both(rt, both, &key, &sort),
        3 => last_in_both(rt, both, &key, &sort),
        4 => sorted_in_both(rt, both, true, Duplicates::Last, &key, &sort),
        5 => sorted_in_both(rt, both, true, Duplicates::First, &key, &sort),
        6 => sorted_in_both(rt, both, false, Duplicates::Last, &key, &sort),
        _ => sorted_in_both(rt, both, false, Duplicates::NotAllowed, &key, &sort),
    }
}

/// Takes a member out, or places one that is none.
fn step(
    rt: &impl Abort,
    both: &mut Both,
    op: u32,
    other: &DbKey,
    number: u32,
) -> Result<(), AllocError> {
    if both.plain.contains(member(number)) {
        out_of_both(rt, both, &member(number));
        return Ok(());
    }
    reserve(rt, both, &member(number))?;
    place(rt, both, op, other, number);
    Ok(())
}

fn same_keys(alloc: Global, both: &Both) -> Result<bool, AllocError> {
    let forward = both.linked.keys(alloc)?;
    let wanted: Vec<DbKey> = both.plain.keys(None).collect(alloc)?;
    Ok(forward.as_slice() == wanted.as_slice())
}

fn same_keys_back(alloc: Global, both: &Both) -> Result<bool, AllocError> {
    let back = both.linked.keys_back(alloc)?;
    let wanted: Vec<DbKey> = both.plain.keys(None).rev().collect(alloc)?;
    Ok(back.as_slice() == wanted.as_slice())
}

fn same_ends(both: &Both, rtype: &Option<RecordNo>) -> bool {
    both.linked.first(*rtype) == both.plain.keys(*rtype).next()
        && both.linked.last(*rtype) == both.plain.keys(*rtype).next_back()
}

fn same_nth(both: &Both, rtype: &Option<RecordNo>, n: i32) -> bool {
    n == 0 || both.linked.nth(*rtype, n) == both.plain.nth(*rtype, n)
}

fn same_next(both: &Both, rtype: &Option<RecordNo>, key: &DbKey) -> bool {
    if both.linked.contains(*key) && both.plain.contains(*key) {
        both.linked.next_of(*rtype, *key) == both.plain.next_of(*rtype, *key)
    } else {
        !both.linked.contains(*key) && !both.plain.contains(*key)
    }
}

fn same_prior(both: &Both, rtype: &Option<RecordNo>, key: &DbKey) -> bool {
    if both.linked.contains(*key) && both.plain.contains(*key) {
        both.linked.prior_of(*rtype, *key) == both.plain.prior_of(*rtype, *key)
    } else {
        !both.linked.contains(*key) && !both.plain.contains(*key)
    }
}

fn same_sorts(both: &Both, sort: u64, left_out: &DbKey) -> bool {
    let key = Some(Value::Num(sort));
    both.linked.first_with_sort_key(&Value::Num(sort))
        == both.plain.with_sort_key(sort, None)
        && both.linked.has_sort_key(&key, None) == both.plain.with_sort_key(sort, None).is_some()
        && both.linked.has_sort_key(&key, Some(*left_out))
            == both.plain.with_sort_key(sort, Some(*left_out)).is_some()
}

fn same_reads(both: &Both, rtype: &Option<RecordNo>, other: &DbKey) -> bool {
    let n = (other.number % 9) as i32 - 4;
    same_ends(both, rtype)
        && same_nth(both, rtype, n)
        && same_next(both, rtype, other)
        && same_prior(both, rtype, other)
}

fn are_alike(alloc: Global, both: &Both, other: &DbKey) -> Result<bool, AllocError> {
    Ok(
        both.linked.len() == both.plain.len()
            && same_keys(alloc, both)?
            && same_keys_back(alloc, both)?
            && same_reads(both, &None, other)
            && same_reads(both, &Some(RecordNo::new((other.number % 4) as u8)), other)
            && same_sorts(both, (other.number % 5) as u64, other),
    )
}

// By a number that looks random a record of forty is placed, or else taken out: are both rings alike then?
fn stay_alike(
    rt: &impl Abort,
    alloc: Global,
    both: &mut Both,
    state: u32,
) -> Result<bool, AllocError> {
    let other = member((state >> 16) % 40);
    step(rt, both, (state >> 24) % 8, &other, (state >> 8) % 40)?;
    are_alike(alloc, both, &other)
}

#[test]
fn both_rings_stay_alike(rt: HostRuntime) -> Result<(), Fail> {
    let mut both = opened(rt.alloc(), &Owner::System);
    let mut state = 7u32;
    for turn in 0..20000u32 {
        state = state.wrapping_mul(1664525).wrapping_add(1013904223);
        assert!(rt;
            stay_alike(&rt, rt.alloc(), &mut both, state)?,
            "turn {turn}"
        );
    }
    assert!(rt; both.linked.owner() == both.plain.owner);
    assert!(rt; closed(&mut both));
    Ok(())
}
