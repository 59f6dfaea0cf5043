//! Scripts and moves as texts, and what is read or refused.

use super::shop::shop;
use dbtg_schema::Schema;
use dbtg_script::{
    MovesFault, ScriptFault, TurnsFault, moves_words_text, read_moves, read_script, read_turns, turns_text,
};
use dbtg_unit::Move;
use std::test::*;

// The number of the fault and its line; (0, 0) where the script is read and each of its statements fits the schema.
pub(super) fn verdict(rt: &HostRuntime, schema: &Schema, script: &[u8]) -> (u8, u64) {
    match read_script(rt.alloc(), schema, script) {
        Ok(statements) => {
            for statement in &statements {
                if !statement.fits(schema) {
                    return (99, 0);
                }
            }
            (0, 0)
        }
        Err(ScriptFault::Refused { line, cause }) => (cause.number(), line),
        Err(ScriptFault::Memory) => (98, 0),
    }
}

// Has the case, a number, a bar and a script of one line, that fault?
fn is_right(rt: &HostRuntime, case: &str) -> Option<bool> {
    let shop = shop(rt.alloc())?;
    let (cause, script) = case.split_once('|')?;
    let wanted = cause.parse::<u8>().ok()?;
    let (found, line) = verdict(rt, &shop, script.as_bytes());
    Some(found == wanted && (found == 0 || line == 1))
}

// The cases of a table stand between tildes: the first case whose fault is another one, none where all are right.
fn wrong_case<'a>(rt: &HostRuntime, table: &'a str) -> &'a str {
    for case in table.split('~') {
        if !is_right(rt, case).unwrap_or(false) {
            return case;
        }
    }
    ""
}

#[test]
fn a_fault_of_each_kind(rt: HostRuntime) {
    let table =
        "1|GET\t~2|FETCH~3|FIND~3|STORE CUSTOMER CNAME = \"ADA~3|KEEP ALL~4|CLOSE AREA NOWHERE~5|GET NOTHING~6|INSERT INTO NOTHING~7|STORE CUSTOMER PRICE = 1~8|STORE CUSTOMER CNO = 1 CNO = 1~9|STORE CUSTOMER CNO = \"7\"~10|STORE CUSTOMER CNO = 10000~10|STORE CUSTOMER CNAME = \"ABCDEFGHI\"~12|FIND CALC CUSTOMER RECORD USING CNAME = \"ADA\"~13|FIND 0 OF MAIN AREA~13|FIND KEY CUSTOMER:1.256";
    assert_eq!(rt; wrong_case(&rt, table), "");
}

#[test]
fn faults_of_sets_and_areas(rt: HostRuntime) {
    let table =
        "11|FIND FIRST ORDR RECORD OF LINES SET~11|FIND FIRST ITEM RECORD OF MAIN AREA~12|FIND CALC ORDR RECORD USING ONO = 1~12|FIND NEXT DUPLICATE OF ORDR RECORD~12|FIND SORTED 1 OF HAS SET~12|FIND OWNER OF WATCH SET~10|FIND SORTED 1000 OF LINES SET~9|FIND SORTED \"1\" OF LINES SET~0|FIND SORTED 999 OF LINES SET";
    assert_eq!(rt; wrong_case(&rt, table), "");
}

#[test]
fn words_in_the_place_of_names(rt: HostRuntime) {
    let table =
        "6|FIND FIRST OF LINES SET SUPPRESS RECORD ALL~3|FIND FIRST OF LINES SET SUPPRESS ALL RECORD~7|MODIFY ITEM QTY = 1 SUPPRESS ALL~7|FIND CALC ITEM RECORD USING SUPPRESS~5|STORE SUPPRESS~5|GET SUPPRESS~4|OPEN AREA USAGE-MODE~3|FIND FIRST RECORD OF LINES SET~2| * a note~0|FIND KEY ITEM:101~0|* a note~0|STORE ITEM SUPPRESS ALL~3|STORE ITEM SUPPRESS";
    assert_eq!(rt; wrong_case(&rt, table), "");
}

#[test]
fn line_ends_keys_and_numbers(rt: HostRuntime) {
    let table =
        "2|GET..~0|GET.~0|GET.\r~1|GET\r.~0|FIND KEY ITEM:1.~0|FIND KEY ITEM:1.2.~3|FIND KEY ITEM:1.2.3~3|FIND KEY :1~3|FIND KEY ITEM:~3|FIND KEY ITEM~5|FIND KEY THING:0~13|FIND KEY ITEM:0~13|FIND KEY ITEM:1000000~13|FIND KEY ITEM:1.0~0|FIND KEY ITEM:000999999.0255~13|FIND -0 OF MAIN AREA~3|FIND - OF MAIN AREA~3|FIND +1 OF MAIN AREA~3|FIND 1A OF MAIN AREA~0|FIND -999999 OF MAIN AREA~13|FIND 99999999999999999999999 OF MAIN AREA~2|=~2|\"GET\"~0|~0|   ~0|.";
    assert_eq!(rt; wrong_case(&rt, table), "");
}

#[test]
fn faults_in_their_order(rt: HostRuntime) {
    let table =
        "1|GET NOTHING\t~3|FETCH \"~3|CLOSE AREA NOWHERE MORE \"~4|CLOSE AREA NOWHERE MORE~3|FIND FIRST OF LINES SET MORE~6|FIND SORTED 1000 OF LINES SET SUPPRESS NOTHING~11|FIND FIRST ORDR RECORD OF LINES SET SUPPRESS ALL~7|STORE ITEM PRICE = \"1\"~9|STORE ITEM QTY = \"1000\"~3|STORE ITEM QTY = -5~3|STORE ITEM QTY = A~3|STORE ITEM QTY 5~10|STORE ITEM QTY = 1000 QTY = 1~8|STORE ITEM QTY = 1 QTY = 1000~7|FIND CALC ITEM RECORD USING NAME = 1~12|FIND CALC ITEM RECORD USING PART = \"A\" QTY = 1~0|FIND CALC ITEM RECORD USING PART = \"A\" SUPPRESS LINES LINES RECORD AREA~3|FIND CALC NOTHING FOO~5|FIND CALC NOTHING RECORD USING X = 1~5|FIND FIRST NOTHING RECORD OF NOTHING SET~6|FIND FIRST ITEM RECORD OF NOTHING SET~6|FIND CURRENT OF MAIN SET~4|FIND CURRENT OF LINES AREA~3|OPEN AREA MAIN USAGE-MODE IS IS UPDATE~0|OPEN AREA MAIN USAGE-MODE EXCLUSIVE RETRIEVAL~3|OPEN AREA MAIN USAGE-MODE PROTECTED EXCLUSIVE UPDATE~0|DELETE SELECTIVE~0|FREE ALL~0|KEEP~3|FREE 1";
    assert_eq!(rt; wrong_case(&rt, table), "");
}

#[test]
fn lines_are_counted(rt: HostRuntime) {
    let shop = shop(rt.alloc()).expect(&rt, "a schema");
    assert_eq!(rt;
        verdict(&rt, &shop, b"GET\n\n* note\nFETCH\nGET NOTHING\n"),
        (2, 4)
    );
    assert_eq!(rt; verdict(&rt, &shop, b"GET\n*\t\nFETCH\n"), (1, 2));
    assert_eq!(rt; verdict(&rt, &shop, b"GET\r\nGET.\r\nGET"), (0, 0));
}

#[test]
fn a_script_has_65535_statements(rt: HostRuntime) {
    let shop = shop(rt.alloc()).expect(&rt, "a schema");
    let mut text = String::new(rt.alloc());
    for _ in 0..65535 {
        text.push_str("GET\n").expect(&rt, "memory");
    }
    assert_eq!(rt; verdict(&rt, &shop, text.as_bytes()), (0, 0));
    text.push_str("* note\n").expect(&rt, "memory");
    assert_eq!(rt; verdict(&rt, &shop, text.as_bytes()), (0, 0));
    text.push_str("FETCH\t").expect(&rt, "memory");
    assert_eq!(rt; verdict(&rt, &shop, text.as_bytes()), (14, 65537));
}

// The number of the fault and its word; (0, n) where n moves are read.
pub(super) fn moves_verdict(rt: &HostRuntime, text: &[u8]) -> (u8, u64) {
    match read_moves(rt.alloc(), text) {
        Ok(moves) => (0, moves.len() as u64),
        Err(MovesFault::Refused { word, cause }) => (cause.number(), word),
        Err(MovesFault::Memory) => (98, 0),
    }
}

#[test]
fn moves_and_their_faults(rt: HostRuntime) {
    assert_eq!(rt; moves_verdict(&rt, b"9 Q9 1*0"), (1, 3));
    assert_eq!(rt; moves_verdict(&rt, b"Q1*2"), (1, 1));
    assert_eq!(rt; moves_verdict(&rt, b"07"), (1, 1));
    assert_eq!(rt; moves_verdict(&rt, b"1*1000000 1"), (2, 2));
    assert_eq!(rt; moves_verdict(&rt, b"1*1000000"), (0, 1_000_000));
    assert_eq!(rt; moves_verdict(&rt, b"1*1000001"), (1, 1));
    assert_eq!(rt; moves_verdict(&rt, b"1*01"), (1, 1));
    assert_eq!(rt; moves_verdict(&rt, b"1 100"), (1, 2));
    assert_eq!(rt; moves_verdict(&rt, b"1 0"), (1, 2));
    assert_eq!(rt; moves_verdict(&rt, b"Q"), (1, 1));
    assert_eq!(rt; moves_verdict(&rt, b"1*"), (1, 1));
    assert_eq!(rt; moves_verdict(&rt, b" 9 Q9\tQ1\r\n1 Q1\n"), (0, 5));
    assert_eq!(rt; moves_verdict(&rt, b""), (0, 0));
}

#[test]
fn moves_are_those_of_the_words(rt: HostRuntime) {
    let moves = read_moves(rt.alloc(), b"2*2 Q1 99").ok().expect(&rt, "moves");
    assert!(rt;
        matches!(
            moves.as_slice(),
            [Move::Step(2), Move::Step(2), Move::Quit(1), Move::Step(99)]
        )
    );
}

// The number of the fault and its word; (0, n) where n turns are read.
pub(super) fn turns_verdict(rt: &HostRuntime, text: &[u8]) -> (u8, u64) {
    match read_turns(rt.alloc(), text) {
        Ok(units) => (0, units.len() as u64),
        Err(TurnsFault::Refused { word, cause }) => (cause.number(), word),
        Err(TurnsFault::Memory) => (98, 0),
    }
}

#[test]
fn turns_and_their_faults(rt: HostRuntime) {
    let units = read_turns(rt.alloc(), b"1 1 2\t1*3\r\n2").ok().expect(&rt, "turns");
    assert_eq!(rt; units.as_slice(), [1, 1, 2, 1, 1, 1, 2].as_slice());
    assert_eq!(rt; turns_verdict(&rt, b"9 Q9 1*0"), (1, 2));
    assert_eq!(rt; turns_verdict(&rt, b"9 1*0 Q9"), (1, 2));
    assert_eq!(rt; turns_verdict(&rt, b"07"), (1, 1));
    assert_eq!(rt; turns_verdict(&rt, b"1*1000000 1"), (2, 2));
    assert_eq!(rt; turns_verdict(&rt, b"1*1000000 Q1"), (1, 2));
    assert_eq!(rt; turns_verdict(&rt, b"1*1000000"), (0, 1_000_000));
    assert_eq!(rt; turns_verdict(&rt, b"99 100"), (1, 2));
    assert_eq!(rt; turns_verdict(&rt, b""), (0, 0));
}

#[test]
fn moves_and_turns_are_printed_in_few_words(rt: HostRuntime) {
    let moves = [
        Move::Step(1),
        Move::Step(1),
        Move::Step(2),
        Move::Quit(2),
        Move::Quit(2),
        Move::Step(2),
        Move::Step(99),
        Move::Step(99),
        Move::Step(99),
    ];
    let text = moves_words_text(rt.alloc(), moves.as_slice()).expect(&rt, "memory");
    assert_eq!(rt; text.as_slice(), b"1*2 2 Q2 Q2 2 99*3\n".as_slice());
    let units = [1, 1, 2, 1, 1, 1, 2];
    let turns = turns_text(rt.alloc(), units.as_slice()).expect(&rt, "memory");
    assert_eq!(rt; turns.as_slice(), b"1*2 2 1*3 2\n".as_slice());
    let none = turns_text(rt.alloc(), &[]).expect(&rt, "memory");
    assert_eq!(rt; none.as_slice(), b"".as_slice());
}

// Each beginning of a text is read or refused.
#[test]
fn beginnings_and_odd_bytes_end_in_an_answer(rt: HostRuntime) {
    let shop = shop(rt.alloc()).expect(&rt, "a schema");
    let script =
        b"OPEN AREA MAIN USAGE-MODE IS UPDATE.\r\nSTORE CUSTOMER CNO = 7 CNAME = \"ADA\" SUPPRESS RECORD HAS\n* note\nFIND KEY ITEM:1.2\nFIND -3 ITEM RECORD OF LINES SET\n\x00\xff\"=\n";
    for n in 0..script.len() {
        let answer = read_script(rt.alloc(), &shop, &script[..n]);
        assert!(rt; !matches!(answer, Err(ScriptFault::Memory)));
        let odd = read_script(rt.alloc(), &shop, &script[n..]);
        assert!(rt; !matches!(odd, Err(ScriptFault::Memory)));
        let moves = read_moves(rt.alloc(), &script[n..]);
        assert!(rt; !matches!(moves, Err(MovesFault::Memory)));
    }
}
