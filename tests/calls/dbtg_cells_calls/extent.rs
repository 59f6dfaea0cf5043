//! Numbers and their generations, as docs/profile/keys.md says, and the numbers found by their CALC items.

use super::*;

fn enter(rt: &impl Abort, extent: &mut Extent, number: u32, calc: Row<Value>) {
    assert!(rt; extent.is_free(number));
    extent.enter(number, calc);
}

fn leave(rt: &impl Abort, extent: &mut Extent, number: u32) {
    assert!(rt; extent.is_live(number));
    extent.leave(number);
}

// With capacity 2 the third record finds no number; a number that was left is given again, in the next generation.
#[test]
fn a_number_is_given_again(rt: HostRuntime) -> Result<(), Fail> {
    let mut extent = Extent::new(rt.alloc(), 2)?;
    assert_eq!(rt; extent.capacity(), 2);
    assert_eq!(rt; extent.generation(1), 0);
    assert!(rt; extent.least_free() == Some(1));
    enter(&rt, &mut extent, 1, row(&rt, 7)?);
    assert!(rt; extent.least_free() == Some(2));
    enter(&rt, &mut extent, 2, row(&rt, 7)?);
    assert!(rt; extent.least_free() == None);
    leave(&rt, &mut extent, 1);
    assert!(rt; extent.least_free() == Some(1));
    assert_eq!(rt; extent.generation(1), 1);
    enter(&rt, &mut extent, 1, row(&rt, 7)?);
    assert_eq!(rt; extent.generation(1), 2);
    assert_eq!(rt; extent.generation(2), 1);
    Ok(())
}

// The 255th record is the last with its number: then the number is spent.
#[test]
fn a_number_is_spent_after_255_records(rt: HostRuntime) -> Result<(), Fail> {
    let mut extent = Extent::new(rt.alloc(), 1)?;
    for _record in 0..255u32 {
        assert!(rt; extent.least_free() == Some(1));
        enter(&rt, &mut extent, 1, row(&rt, 7)?);
        leave(&rt, &mut extent, 1);
    }
    assert_eq!(rt; extent.generation(1), 255);
    assert!(rt; !extent.is_free(1));
    assert!(rt; !extent.is_live(1));
    assert!(rt; extent.least_free() == None);
    Ok(())
}

// Of the numbers 1 to 4, numbers 2 and 4 are live.
#[test]
fn live_numbers_are_read_both_ways(rt: HostRuntime) -> Result<(), Fail> {
    let mut extent = Extent::new(rt.alloc(), 4)?;
    enter(&rt, &mut extent, 2, row(&rt, 7)?);
    enter(&rt, &mut extent, 4, row(&rt, 8)?);
    assert!(rt; extent.first_live() == Some(2));
    assert!(rt; extent.last_live() == Some(4));
    assert!(rt; extent.next_live(2) == Some(4));
    assert!(rt; extent.next_live(4) == None);
    assert!(rt; extent.prior_live(4) == Some(2));
    assert!(rt; extent.prior_live(2) == None);
    assert!(rt; extent.nth_live(2) == Some(4));
    assert!(rt; extent.nth_live(-2) == Some(2));
    assert!(rt; extent.nth_live(3) == None);
    assert!(rt; extent.least_free() == Some(1));
    Ok(())
}

// Does a record have these one or two values, other than the one whose number is left out?
fn has_all_of(extent: &Extent, values: &[Value], left_out: Option<u32>) -> bool {
    let both = [ItemNo::new(0), ItemNo::new(1)];
    extent.has_picked(&both[..values.len()], values, left_out)
}

// Numbers 1 and 3 hold 7, number 2 holds 8; then number 3 is given 8.
#[test]
fn calc_items_find_their_numbers(rt: HostRuntime) -> Result<(), Fail> {
    let mut extent = Extent::new(rt.alloc(), 3)?;
    enter(&rt, &mut extent, 1, row(&rt, 7)?);
    enter(&rt, &mut extent, 2, row(&rt, 8)?);
    enter(&rt, &mut extent, 3, row(&rt, 7)?);
    let seven = row(&rt, 7)?;
    assert!(rt; extent.first_with(seven.as_slice()) == Some(1));
    assert!(rt; extent.next_with(seven.as_slice(), 1) == Some(3));
    assert!(rt; extent.next_with(seven.as_slice(), 3) == None);
    assert!(rt; has_all_of(&extent, seven.as_slice(), Some(1)));
    let eight = row(&rt, 8)?;
    assert!(rt; extent.is_live(3));
    extent.set_values(3, eight);
    assert!(rt; !has_all_of(&extent, seven.as_slice(), Some(1)));
    assert!(rt; has_all_of(&extent, seven.as_slice(), None));
    assert_eq!(rt; extent.generation(3), 1);
    Ok(())
}

fn text(rt: &HostRuntime, bytes: &str) -> Result<Row<Value>, AllocError> {
    let bytes = Row::of(Vec::from_slice(rt.alloc(), bytes.as_bytes())?);
    Ok(Row::of(vec![in rt.alloc(); Value::Text(bytes)]?))
}

fn pair(rt: &HostRuntime, first: u64, second: u64) -> Result<Row<Value>, AllocError> {
    Ok(Row::of(vec![in rt.alloc(); Value::Num(first), Value::Num(second)]?))
}

fn assert_only_at(rt: &impl Abort, extent: &Extent, values: &Row<Value>, number: u32) {
    let values = values.as_slice();
    assert!(rt; extent.first_with(values) == Some(number));
    assert!(rt; extent.next_with(values, number) == None);
    assert!(rt; has_all_of(extent, values, None));
    assert!(rt; !has_all_of(extent, values, Some(number)));
}

// Numbers, texts, rows that begin alike: each is found at its own number, whatever stands beside it.
#[test]
fn unlike_values_find_their_own_numbers(rt: HostRuntime) -> Result<(), Fail> {
    let mut extent = Extent::new(rt.alloc(), 8)?;
    enter(&rt, &mut extent, 4, text(&rt, "B ")?);
    enter(&rt, &mut extent, 7, row(&rt, 1)?);
    enter(&rt, &mut extent, 2, pair(&rt, 1, 2)?);
    enter(&rt, &mut extent, 8, text(&rt, "AB")?);
    enter(&rt, &mut extent, 1, pair(&rt, 1, 3)?);
    enter(&rt, &mut extent, 5, text(&rt, "A ")?);
    assert_only_at(&rt, &extent, &text(&rt, "B ")?, 4);
    assert_only_at(&rt, &extent, &row(&rt, 1)?, 7);
    assert_only_at(&rt, &extent, &pair(&rt, 1, 2)?, 2);
    assert_only_at(&rt, &extent, &text(&rt, "AB")?, 8);
    assert_only_at(&rt, &extent, &pair(&rt, 1, 3)?, 1);
    assert_only_at(&rt, &extent, &text(&rt, "A ")?, 5);
    let away = pair(&rt, 1, 1)?;
    assert!(rt; extent.first_with(away.as_slice()) == None);
    Ok(())
}

// Of the items 5, 1, 2 some are picked, in this or another order; where there is no such item, 0 stands for it.
#[test]
fn picked_items_find_their_numbers(rt: HostRuntime) -> Result<(), Fail> {
    let mut extent = Extent::new(rt.alloc(), 4)?;
    enter(&rt, &mut extent, 1, pair(&rt, 1, 2)?);
    enter(&rt, &mut extent, 3, row(&rt, 5)?);
    enter(&rt, &mut extent, 4, pair(&rt, 2, 0)?);
    let items = vec![in rt.alloc(); Value::Num(5), Value::Num(1), Value::Num(2)]?;
    let items = items.as_slice();
    assert!(rt; extent.has_picked(&[ItemNo::new(1), ItemNo::new(2)], items, None));
    assert!(rt; !extent.has_picked(&[ItemNo::new(1), ItemNo::new(2)], items, Some(1)));
    assert!(rt; !extent.has_picked(&[ItemNo::new(2), ItemNo::new(1)], items, None));
    assert!(rt; extent.has_picked(&[ItemNo::new(0)], items, Some(1)));
    assert!(rt; !extent.has_picked(&[ItemNo::new(1)], items, None));
    assert!(rt; extent.has_picked(&[ItemNo::new(2), ItemNo::new(9)], items, None));
    assert!(rt; !extent.has_picked(&[], items, None));
    Ok(())
}

// A thousand records, the highest number first: number n holds the last digit of n.
#[test]
fn a_full_extent_is_searched(rt: HostRuntime) -> Result<(), Fail> {
    let mut extent = Extent::new(rt.alloc(), 1000)?;
    for turn in 0..1000u32 {
        let number = 1000 - turn;
        enter(&rt, &mut extent, number, row(&rt, (number % 10) as u64)?);
    }
    assert!(rt; extent.least_free() == None);
    let three = row(&rt, 3)?;
    assert!(rt; extent.first_with(three.as_slice()) == Some(3));
    assert!(rt; extent.next_with(three.as_slice(), 3) == Some(13));
    assert!(rt; extent.next_with(three.as_slice(), 500) == Some(503));
    assert!(rt; extent.next_with(three.as_slice(), 993) == None);
    leave(&rt, &mut extent, 3);
    leave(&rt, &mut extent, 503);
    assert!(rt; extent.first_with(three.as_slice()) == Some(13));
    assert!(rt; extent.next_with(three.as_slice(), 500) == Some(513));
    assert!(rt; extent.least_free() == Some(3));
    assert!(rt; extent.next_live(2) == Some(4));
    assert!(rt; extent.prior_live(504) == Some(502));
    assert!(rt; extent.next_live(1000) == None);
    assert!(rt; extent.prior_live(1) == None);
    assert_eq!(rt; extent.count_live(), 998);
    Ok(())
}
