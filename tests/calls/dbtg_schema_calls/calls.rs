//! Each public call once, on the schema of a shop.

use dbtg_schema::{
    AreaNo, Class, Duplicates, ItemNo, Order, Picture, RecordNo, Row, Schema, SchemaFault, SetNo,
};
use std::test::*;

const SHOP: &[u8] =
    b"SCHEMA NAME IS SHOP.\nAREA NAME IS MAIN.\nAREA NAME IS SIDE.\nRECORD NAME IS CUSTOMER; LOCATION MODE IS CALC USING CNO DUPLICATES ARE NOT ALLOWED; WITHIN MAIN.\n  02 CNO PICTURE IS 9(4).\n  02 CNAME PICTURE IS X(8).\nRECORD NAME IS ORDR; WITHIN MAIN.\n  02 ONO PICTURE IS 9(4).\nRECORD NAME IS ITEM; LOCATION MODE IS CALC USING PART DUPLICATES ARE ALLOWED; WITHIN SIDE.\n  02 PART PICTURE IS X(4).\n  02 QTY PICTURE IS 9(3).\nSET NAME IS HAS; ORDER IS LAST; OWNER IS CUSTOMER.\n  MEMBER IS ORDR MANDATORY AUTOMATIC.\nSET NAME IS LINES; ORDER IS SORTED ASCENDING DUPLICATES ARE LAST; OWNER IS ORDR.\n  MEMBER IS ITEM OPTIONAL AUTOMATIC; KEY IS QTY.\nSET NAME IS WATCH; ORDER IS NEXT; OWNER IS SYSTEM.\n  MEMBER IS ITEM OPTIONAL MANUAL.\n";

/// The schema of the shop. It is read here alone, so that its text stands in one function; what is asked of it stands in
/// functions of its own, which own nothing.
fn shop(rt: &HostRuntime) -> Option<Schema> {
    Schema::read(rt.alloc(), SHOP).ok()
}

fn is_text(name: Option<&[u8]>, text: &[u8]) -> bool {
    match name {
        Some(name) => name == text,
        None => false,
    }
}

fn areas_are_named(shop: &Schema) -> bool {
    shop.name() == b"SHOP".as_slice()
        && shop.area(b"SIDE") == Some(AreaNo::new(1))
        && shop.area(b"ITEM").is_none()
        && is_text(shop.area_name(AreaNo::new(0)), b"MAIN")
        && shop.area_name(AreaNo::new(2)).is_none()
}

fn types_and_sets_are_named(shop: &Schema) -> bool {
    shop.rtype(b"ITEM") == Some(RecordNo::new(2))
        && shop.rtype(b"HAS").is_none()
        && shop.set(b"WATCH") == Some(SetNo::new(2))
        && is_text(shop.rtype_name(RecordNo::new(1)), b"ORDR")
        && is_text(shop.set_name(SetNo::new(1)), b"LINES")
}

fn items_are_named(shop: &Schema) -> bool {
    shop.item(RecordNo::new(2), b"QTY") == Some(ItemNo::new(1))
        && shop.item(RecordNo::new(1), b"QTY").is_none()
        && is_text(shop.item_name(RecordNo::new(0), ItemNo::new(1)), b"CNAME")
}

fn first_and_last_areas_are_found(shop: &Schema) -> bool {
    shop.area(b"MAIN") == Some(AreaNo::new(0))
        && shop.area(b"SIDE") == Some(AreaNo::new(1))
        && shop.area(b"MAI").is_none()
        && shop.area(b"MAINS").is_none()
        && shop.area(b"").is_none()
}

fn first_and_last_types_are_found(shop: &Schema) -> bool {
    shop.rtype(b"CUSTOMER") == Some(RecordNo::new(0))
        && shop.rtype(b"ITEM") == Some(RecordNo::new(2))
        && shop.rtype(b"CUSTOMERS").is_none()
        && shop.rtype(b"item").is_none()
}

fn first_and_last_sets_are_found(shop: &Schema) -> bool {
    shop.set(b"HAS") == Some(SetNo::new(0))
        && shop.set(b"WATCH") == Some(SetNo::new(2))
        && shop.set(b"WATC").is_none()
        && shop.set(b"ITEM").is_none()
}

fn first_and_last_items_are_found(shop: &Schema) -> bool {
    let (customer, item) = (RecordNo::new(0), RecordNo::new(2));
    shop.item(customer, b"CNO") == Some(ItemNo::new(0))
        && shop.item(customer, b"CNAME") == Some(ItemNo::new(1))
        && shop.item(customer, b"PART").is_none()
        && shop.item(item, b"PART") == Some(ItemNo::new(0))
        && shop.item(item, b"QTY") == Some(ItemNo::new(1))
        && shop.item(item, b"CNO").is_none()
        && shop.item(RecordNo::new(3), b"PART").is_none()
}

fn names_are_found(shop: &Schema) -> bool {
    first_and_last_areas_are_found(shop)
        && first_and_last_types_are_found(shop)
        && first_and_last_sets_are_found(shop)
        && first_and_last_items_are_found(shop)
}

#[test]
fn first_last_and_unknown_names(rt: HostRuntime) {
    let shop = shop(&rt).expect(&rt, "a schema");
    assert!(rt; names_are_found(&shop));
}

#[test]
fn names_and_numbers(rt: HostRuntime) {
    let shop = shop(&rt).expect(&rt, "a schema");
    assert!(rt; areas_are_named(&shop));
    assert!(rt; types_and_sets_are_named(&shop));
    assert!(rt; items_are_named(&shop));
}

fn has_its_parts(shop: &Schema) -> bool {
    (shop.areas().len(), shop.types().len(), shop.sets().len()) == (2, 3, 3)
        && shop.record_type(RecordNo::new(3)).is_none()
        && shop.set_type(SetNo::new(3)).is_none()
}

fn has_its_items(shop: &Schema) -> bool {
    shop.area_of(RecordNo::new(2)) == AreaNo::new(1)
        && shop.items(RecordNo::new(2)).len() == 2
        && shop.picture_of(RecordNo::new(0), ItemNo::new(1)) == Some(Picture::Text(8))
        && shop.picture_of(RecordNo::new(2), ItemNo::new(1)) == Some(Picture::Number(3))
}

fn is_found_by_calc(shop: &Schema) -> bool {
    match shop.calc_of(RecordNo::new(0)) {
        Some(calc) => {
            calc.items.as_slice() == [ItemNo::new(0)].as_slice()
                && !calc.duplicates_allowed
                && shop.calc_of(RecordNo::new(1)).is_none()
        }
        None => false,
    }
}

fn has_its_orders(shop: &Schema) -> bool {
    let by_key = Order::Sorted {
        ascending: true,
        duplicates: Duplicates::Last,
    };
    shop.order_of(SetNo::new(0)) == Order::Last && shop.order_of(SetNo::new(1)) == by_key
}

fn has_its_owners(shop: &Schema) -> bool {
    let (has, lines, watch) = (SetNo::new(0), SetNo::new(1), SetNo::new(2));
    shop.owner_type(lines) == Some(RecordNo::new(1))
        && shop.is_system(watch)
        && !shop.is_system(lines)
        && shop.owns(has, RecordNo::new(0))
        && !shop.owns(has, RecordNo::new(1))
}

#[test]
fn what_a_schema_says(rt: HostRuntime) {
    let shop = shop(&rt).expect(&rt, "a schema");
    assert!(rt; has_its_parts(&shop));
    assert!(rt; has_its_items(&shop));
    assert!(rt; is_found_by_calc(&shop));
    assert!(rt; has_its_orders(&shop));
    assert!(rt; has_its_owners(&shop));
}

fn has_its_members(shop: &Schema) -> bool {
    let (has, lines, item) = (SetNo::new(0), SetNo::new(1), RecordNo::new(2));
    match shop.member_clause(lines, item) {
        Some(member) => {
            (member.class, member.key) == (Class::OptionalAutomatic, Some(ItemNo::new(1)))
                && member.class.is_automatic()
                && !member.class.is_mandatory()
                && shop.member_clause(has, item).is_none()
                && shop.connects(lines, item)
                && !shop.connects(SetNo::new(2), item)
        }
        None => false,
    }
}

fn has_its_homes(shop: &Schema) -> bool {
    shop.home(SetNo::new(0)) == AreaNo::new(0) && shop.home(SetNo::new(2)) == AreaNo::new(1)
}

fn erases_in_its_areas(shop: &Schema) -> bool {
    let from_item = shop.erase_areas(RecordNo::new(2));
    let from_customer = shop.erase_areas(RecordNo::new(0));
    from_item.contains(AreaNo::new(0))
        && from_item.contains(AreaNo::new(1))
        && from_customer.contains(AreaNo::new(0))
        && from_customer.contains(AreaNo::new(1))
        && !from_customer.contains(AreaNo::new(2))
}

#[test]
fn what_a_schema_says_of_members(rt: HostRuntime) {
    let shop = shop(&rt).expect(&rt, "a schema");
    assert!(rt; has_its_members(&shop));
    assert!(rt; has_its_homes(&shop));
    assert!(rt; erases_in_its_areas(&shop));
}

fn is_like(copy: &Schema, shop: &Schema) -> bool {
    copy.name() == shop.name() && copy.sets().len() == 3 && names_are_found(copy)
}

#[test]
fn a_copy(rt: HostRuntime) {
    let shop = shop(&rt).expect(&rt, "a schema");
    let copy = shop.copy(rt.alloc()).expect(&rt, "memory");
    assert!(rt; is_like(&copy, &shop));
}

#[test]
fn the_text_of_a_fault(rt: HostRuntime) {
    match Schema::read(rt.alloc(), b"SCHEMA NAME IS SET.") {
        Ok(_) => assert!(rt; false, "read"),
        Err(fault) => {
            let text = format!(in rt.alloc(); "{fault}").expect(&rt, "memory");
            assert_eq!(rt; text.as_str(), "schema fault 4 line 1");
        }
    }
    let text = format!(in rt.alloc(); "{}", SchemaFault::Memory).expect(&rt, "memory");
    assert_eq!(rt; text.as_str(), "want of memory");
}

#[test]
fn a_row(rt: HostRuntime) {
    let mut row = Row::of(Vec::from_slice(rt.alloc(), &[3, 5]).expect(&rt, "memory"));
    assert!(rt; row.push(7).is_ok());
    row.set(0, 4);
    assert_eq!(rt;
        (
            row.len(),
            row.at(0),
            row.get(2).copied(),
            row.get(3).copied()
        ),
        (3, 4, Some(7), None)
    );
    let copy = row.copy(rt.alloc()).expect(&rt, "memory");
    row.clear();
    assert!(rt; row.is_empty());
    assert_eq!(rt; copy.into_vec().as_slice(), [4, 5, 7].as_slice());
}
