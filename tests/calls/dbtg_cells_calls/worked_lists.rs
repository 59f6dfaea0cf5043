//! Runs of a shop whose lists were worked out by hand: what their statements do to one list, done to both rings, and
//! its members read both ways.

use super::both_rings::{
    Both, after_in_both, closed, first_in_both, last_in_both, opened, out_of_both, reserve,
    sorted_in_both,
};
use super::plain_ring::PlainRing;
use super::*;

fn item(number: u32) -> DbKey {
    key(number, 1)
}

fn order() -> DbKey {
    DbKey {
        rtype: RecordNo::new(1),
        number: 1,
        generation: 1,
    }
}

fn customer() -> DbKey {
    DbKey {
        rtype: RecordNo::new(0),
        number: 1,
        generation: 1,
    }
}

fn are_items(keys: &[DbKey], numbers: &[u32]) -> bool {
    for (i, key) in keys.iter().enumerate() {
        match numbers.get(i) {
            None => return false,
            Some(number) => {
                if *key != item(*number) {
                    return false;
                }
            }
        }
    }
    keys.len() == numbers.len()
}

fn linked_lists(alloc: Global, ring: &Ring, numbers: &[u32]) -> Result<bool, AllocError> {
    let forward = ring.keys(alloc)?;
    let mut back = ring.keys_back(alloc)?;
    back.reverse();
    Ok(are_items(forward.as_slice(), numbers) && are_items(back.as_slice(), numbers))
}

fn plain_list(alloc: Global, ring: &PlainRing, numbers: &[u32]) -> Result<bool, AllocError> {
    let keys: Vec<DbKey> = ring.keys(None).collect(alloc)?;
    Ok(are_items(keys.as_slice(), numbers))
}

/// Both rings have these members in this order, by next and backwards by prior.
fn both_list(alloc: Global, both: &Both, numbers: &[u32]) -> Result<bool, AllocError> {
    Ok(linked_lists(alloc, &both.linked, numbers)? && plain_list(alloc, &both.plain, numbers)?)
}

fn first_is(both: &Both, wanted: &Option<DbKey>) -> bool {
    both.linked.first(None) == *wanted && both.plain.keys(None).next() == *wanted
}

fn last_is(both: &Both, wanted: &Option<DbKey>) -> bool {
    both.linked.last(None) == *wanted && both.plain.keys(None).next_back() == *wanted
}

fn nth_is(both: &Both, n: i32, wanted: &Option<DbKey>) -> bool {
    n != 0 && both.linked.nth(None, n) == *wanted && both.plain.nth(None, n) == *wanted
}

fn next_is(both: &Both, here: &DbKey, wanted: &Option<DbKey>) -> bool {
    both.linked.contains(*here)
        && both.plain.contains(*here)
        && both.linked.next_of(None, *here) == *wanted
        && both.plain.next_of(None, *here) == *wanted
}

fn prior_is(both: &Both, here: &DbKey, wanted: &Option<DbKey>) -> bool {
    both.linked.contains(*here)
        && both.plain.contains(*here)
        && both.linked.prior_of(None, *here) == *wanted
        && both.plain.prior_of(None, *here) == *wanted
}

/// A line goes where its quantity wants it: ascending, and behind its equals.
fn put_line(rt: &impl Abort, both: &mut Both, number: u32, quantity: u64) {
    sorted_in_both(
        rt,
        both,
        true,
        Duplicates::Last,
        &item(number),
        &Some(quantity),
    );
}

fn add_line(
    rt: &impl Abort,
    both: &mut Both,
    number: u32,
    quantity: u64,
) -> Result<(), AllocError> {
    reserve(rt, both, &item(number))?;
    put_line(rt, both, number, quantity);
    Ok(())
}

/// An item is watched where the unit stands at SYSTEM: it comes first.
fn watch_first(rt: &impl Abort, both: &mut Both, number: u32) -> Result<(), AllocError> {
    reserve(rt, both, &item(number))?;
    first_in_both(rt, both, &item(number), &None);
    Ok(())
}

/// An item is watched where the unit stands at another: it comes directly behind it.
fn watch_behind(
    rt: &impl Abort,
    both: &mut Both,
    other: u32,
    number: u32,
) -> Result<(), AllocError> {
    reserve(rt, both, &item(number))?;
    after_in_both(rt, both, &item(other), &item(number), &None);
    Ok(())
}

fn watch_two(rt: &impl Abort, both: &mut Both) -> Result<(), AllocError> {
    watch_first(rt, both, 3)?;
    watch_behind(rt, both, 3, 1)
}

fn add_equal_lines(rt: &impl Abort, both: &mut Both) -> Result<(), AllocError> {
    add_line(rt, both, 1, 5)?;
    add_line(rt, both, 2, 5)?;
    add_line(rt, both, 3, 5)
}

// Three lines of one quantity stand in the order in which they came. NEXT behind the last and the fourth of three find
// nothing.
#[test]
fn equal_quantities_stand_as_they_came(rt: HostRuntime) -> Result<(), Fail> {
    let mut both = opened(rt.alloc(), &Owner::Rec(order()));
    add_equal_lines(&rt, &mut both)?;
    assert!(rt; both_list(rt.alloc(), &both, &[1, 2, 3])?);
    assert!(rt; first_is(&both, &Some(item(1))));
    assert!(rt; next_is(&both, &item(1), &Some(item(2))));
    assert!(rt; next_is(&both, &item(2), &Some(item(3))));
    assert!(rt; next_is(&both, &item(3), &None));
    assert!(rt; prior_is(&both, &item(3), &Some(item(2))));
    assert!(rt; last_is(&both, &Some(item(3))));
    assert!(rt; nth_is(&both, -3, &Some(item(1))));
    assert!(rt; nth_is(&both, 4, &None));
    Ok(())
}

// The first item that is watched stands alone.
#[test]
fn an_item_is_watched(rt: HostRuntime) -> Result<(), Fail> {
    let mut both = opened(rt.alloc(), &Owner::System);
    watch_first(&rt, &mut both, 3)?;
    assert!(rt; both_list(rt.alloc(), &both, &[3])?);
    Ok(())
}

// It is a member, so it is not taken again; the next one goes behind it.
#[test]
fn another_item_is_watched_behind_the_first(rt: HostRuntime) -> Result<(), Fail> {
    let mut both = opened(rt.alloc(), &Owner::System);
    watch_first(&rt, &mut both, 3)?;
    assert!(rt; both.linked.contains(item(3)) && both.plain.contains(item(3)));
    assert!(rt; !both.linked.contains(item(1)) && !both.plain.contains(item(1)));
    watch_behind(&rt, &mut both, 3, 1)?;
    assert!(rt; both_list(rt.alloc(), &both, &[3, 1])?);
    Ok(())
}

// The first is watched no longer.
#[test]
fn the_first_item_is_watched_no_longer(rt: HostRuntime) -> Result<(), Fail> {
    let mut both = opened(rt.alloc(), &Owner::System);
    watch_two(&rt, &mut both)?;
    out_of_both(&rt, &mut both, &item(3));
    assert!(rt; both_list(rt.alloc(), &both, &[1])?);
    Ok(())
}

// The position at the item that was taken out is lost, so nothing goes behind it; in front of the one that is left
// stands none.
#[test]
fn nothing_goes_behind_an_item_taken_out(rt: HostRuntime) -> Result<(), Fail> {
    let mut both = opened(rt.alloc(), &Owner::System);
    watch_two(&rt, &mut both)?;
    out_of_both(&rt, &mut both, &item(3));
    assert!(rt; !both.linked.contains(item(3)) && !both.plain.contains(item(3)));
    assert!(rt; first_is(&both, &Some(item(1))));
    assert!(rt; prior_is(&both, &item(1), &None));
    assert!(rt; both_list(rt.alloc(), &both, &[1])?);
    Ok(())
}

fn add_three_lines(rt: &impl Abort, both: &mut Both) -> Result<(), AllocError> {
    add_line(rt, both, 1, 1)?;
    add_line(rt, both, 2, 2)?;
    add_line(rt, both, 3, 3)
}

// A line whose quantity becomes that of another is taken out, and stands behind it.
#[test]
fn a_line_is_placed_anew(rt: HostRuntime) -> Result<(), Fail> {
    let mut both = opened(rt.alloc(), &Owner::Rec(order()));
    add_three_lines(&rt, &mut both)?;
    out_of_both(&rt, &mut both, &item(1));
    put_line(&rt, &mut both, 1, 2);
    assert!(rt; both_list(rt.alloc(), &both, &[2, 1, 3])?);
    assert!(rt; next_is(&both, &item(1), &Some(item(3))));
    Ok(())
}

// The lines of an order that is deleted are a list no longer, in each form of DELETE.
#[test]
fn the_lines_of_a_deleted_order_are_no_list(rt: HostRuntime) -> Result<(), Fail> {
    let mut both = opened(rt.alloc(), &Owner::Rec(order()));
    add_line(&rt, &mut both, 1, 1)?;
    add_line(&rt, &mut both, 2, 2)?;
    assert!(rt; both_list(rt.alloc(), &both, &[1, 2])?);
    assert!(rt; closed(&mut both));
    assert!(rt; both_list(rt.alloc(), &both, &[])?);
    Ok(())
}

// Its customer has a list still, and no order in it.
#[test]
fn the_customer_of_a_deleted_order_has_none(rt: HostRuntime) -> Result<(), Fail> {
    let mut both = opened(rt.alloc(), &Owner::Rec(customer()));
    reserve(&rt, &mut both, &order())?;
    last_in_both(&rt, &mut both, &order(), &None);
    assert!(rt; first_is(&both, &Some(order())));
    out_of_both(&rt, &mut both, &order());
    assert!(rt; both.linked.is_present());
    assert!(rt; both_list(rt.alloc(), &both, &[])?);
    Ok(())
}

// A watched line stays watched where DELETE is ONLY or SELECTIVE; where it is ALL, nothing is watched.
#[test]
fn a_watched_line_is_deleted_with_its_order(rt: HostRuntime) -> Result<(), Fail> {
    let mut both = opened(rt.alloc(), &Owner::System);
    watch_first(&rt, &mut both, 1)?;
    assert!(rt; both_list(rt.alloc(), &both, &[1])?);
    out_of_both(&rt, &mut both, &item(1));
    assert!(rt; both.linked.is_present());
    assert!(rt; both_list(rt.alloc(), &both, &[])?);
    Ok(())
}

/// The n-th of a thousand lines, from 0. Their quantities are the last digits of their numbers, and nought stands first.
fn nth_line(n: u32) -> u32 {
    if n < 100 {
        10 * (n + 1)
    } else {
        n / 100 + n % 100 * 10
    }
}

fn thousand_lines(alloc: Global) -> Result<Vec<u32>, AllocError> {
    let mut numbers = Vec::new(alloc);
    for n in 0..1000u32 {
        numbers.push(nth_line(n))?;
    }
    Ok(numbers)
}

// A thousand lines, a hundred of each quantity.
#[test]
fn a_thousand_lines_stand_by_quantity(rt: HostRuntime) -> Result<(), Fail> {
    let mut both = opened(rt.alloc(), &Owner::Rec(order()));
    for number in 1..1001u32 {
        add_line(&rt, &mut both, number, (number % 10) as u64)?;
    }
    let wanted = thousand_lines(rt.alloc())?;
    assert!(rt; both_list(rt.alloc(), &both, wanted.as_slice())?);
    assert!(rt; first_is(&both, &Some(item(10))));
    assert!(rt; nth_is(&both, 101, &Some(item(1))));
    assert!(rt; nth_is(&both, -100, &Some(item(9))));
    assert!(rt; last_is(&both, &Some(item(999))));
    assert!(rt; nth_is(&both, 1001, &None));
    Ok(())
}
