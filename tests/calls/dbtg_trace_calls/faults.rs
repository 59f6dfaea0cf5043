//! The lines of docs/profile/traces.md with their first faults; lines and limits around them.

use super::{answer, wrong_case};
use std::test::*;

#[test]
fn faults_in_front_of_the_arrow(rt: HostRuntime) {
    let table = "\
0|1|1: GET => 0000 ITEM:1 PART=\"A   \" QTY=5~\
0|1|02:KEEP.=>0000.~\
0|1|1: GET => 9999 ITEM:7.3~\
2|1|1: => 0000~\
2|1|1: * a note => 0000~\
2|1|1: FETCH => 0000~\
5|1|1: GET NOTHING => 0000~\
10|1|1: STORE ITEM QTY = 1000 => 0000~\
31|1|GET => 0000~\
31|1|0: GET => 0000~\
31|1|3: GET => 0000~\
31|1| 1: GET => 0000~\
31|1|1 : GET => 0000~\
32|1|1: GET 0000~\
32|1|1: STORE ITEM PART = \"A => 0000";
    assert_eq!(rt; wrong_case(&rt, table), "");
}

#[test]
fn faults_behind_the_arrow(rt: HostRuntime) {
    let table = "\
33|1|1: GET =>~\
33|1|1: GET => 307~\
33|1|1: GET => 00000~\
33|1|1: GET => 0000 NOTHING:1~\
33|1|1: GET => 0000 ITEM:0~\
33|1|1: GET => 0000 PART=\"A\" QTY=5~\
33|1|1: GET => 0000 ITEM:1 PART=\"A\"~\
33|1|1: GET => 0000 ITEM:1 QTY=5 PART=\"A\"~\
33|1|1: GET => 0000 ITEM:1 PART=\"A\" QTY=1000~\
33|1|1: GET => 0000 ORDR:1 PART=\"A\" QTY=5~\
33|1|1: GET => 0000 ITEM:1 PART=\"A\" QTY=5 => 0000~\
33|1|1: GET => 0000 ITEM:1 PART=\"A  ~\
31|1|3: FETCH 0000~\
32|1|1: FETCH 0000~\
2|1|1: FETCH => 307~\
33|1|1: GET => 307 => 0000";
    assert_eq!(rt; wrong_case(&rt, table), "");
}

#[test]
fn lines_and_their_numbers(rt: HostRuntime) {
    let table = "\
0|0|~\
0|0|* 9: a note => none\n\n   \n~\
0|2|1: KEEP => 0000\r\n\n2: FREE => 0000.\r\n~\
31|3|* a note\n1: KEEP => 0000\n * no note\n1: FETCH => 0000\n~\
1|2|1: KEEP => 0000\n*\ta note\n~\
1|1|1: KEEP =>\t0000~\
1|1|GET\t~\
33|2|1: KEEP => 0000\n2: KEEP => 1\n3: KEEP => 0000\n~\
0|1|1: STORE ITEM PART = \"=> 1\" => 0000~\
0|1|1: STORE ITEM PART=\": =>\"=>0000 ITEM:1";
    assert_eq!(rt; wrong_case(&rt, table), "");
}

/// Space, so often as is wanted, between two texts.
fn spaced(rt: &HostRuntime, front: &str, count: usize, back: &str) -> Option<Vec<u8>> {
    let mut text = Vec::from_slice(rt.alloc(), front.as_bytes()).ok()?;
    for _ in 0..count {
        text.push(b' ').ok()?;
    }
    text.extend_from_slice(back.as_bytes()).ok()?;
    Some(text)
}

fn spaced_answer(rt: &HostRuntime, front: &str, count: usize, back: &str) -> (u8, u64) {
    match spaced(rt, front, count, back) {
        None => (98, 98),
        Some(text) => answer(rt, text.as_slice()),
    }
}

#[test]
fn a_statement_has_a_thousand_bytes(rt: HostRuntime) {
    assert_eq!(rt; spaced_answer(&rt, "1: GET", 993, "ITEM => 0000"), (0, 1));
    assert_eq!(rt; spaced_answer(&rt, "1: GET", 994, "ITEM => 0000"), (1, 1));
    assert_eq!(rt; spaced_answer(&rt, "1: KEEP", 996, " => 0000"), (0, 1));
    assert_eq!(rt; spaced_answer(&rt, "1: KEEP", 997, " => 0000"), (1, 1));
    assert_eq!(rt; spaced_answer(&rt, "1: KEEP => 0000", 5000, ""), (0, 1));
    assert_eq!(rt; spaced_answer(&rt, "1: KEEP =>", 5000, "0000"), (0, 1));
    assert_eq!(rt; spaced_answer(&rt, "* a note", 993, ""), (1, 1));
}
