//! What is read of programs without a fault.

use super::program;
use dbtg_cells::Value;
use dbtg_program::{Condition, Operand, Program, Relation, Sentence, Word};
use dbtg_schema::Picture;
use std::test::*;

fn sentence_is(
    program: &Program,
    at: usize,
    number: u64,
    test: fn(&Sentence) -> bool,
) -> bool {
    match program.lines.get(at) {
        Some(line) => line.number == number && test(&line.sentence),
        None => false,
    }
}

fn is_number(operand: &Operand, number: u64) -> bool {
    match operand {
        Operand::Literal(Value::Num(n)) => *n == number,
        _ => false,
    }
}

fn is_text(operand: &Operand, text: &[u8]) -> bool {
    match operand {
        Operand::Literal(Value::Text(bytes)) => bytes.as_slice() == text,
        _ => false,
    }
}

fn is_field(operand: &Operand, number: usize) -> bool {
    match operand {
        Operand::Field(field) => *field == number,
        _ => false,
    }
}

fn is_heading(sentence: &Sentence) -> bool {
    matches!(sentence, Sentence::Heading)
}

fn is_statement(sentence: &Sentence) -> bool {
    matches!(sentence, Sentence::Statement(_))
}

const WALK: &[u8] =
    b"01 SUM PIC 9(4).\n01 COUNT PICTURE IS X(2)\nFIND FIRST OF LINES SET\nROUND.\nIF STATUS NOT = 0307 GO TO DONE\n* a note\nGET\nADD ITEM.QTY TO SUM\nSUBTRACT 1 FROM ORDR.ONO\nMOVE \"A  \" TO COUNT\nSTORE CUSTOMER CNO = SUM CNAME = \"A\"\nIF ORDR.QTY < \"B\" GO TO ROUND\nASSERT 1 NOT = SUM\nGO TO ROUND\nDONE.\nSTOP\n";

fn headings_and_statements(program: &Program) -> bool {
    sentence_is(program, 0, 1, is_heading)
        && sentence_is(program, 1, 2, is_heading)
        && sentence_is(program, 2, 3, is_statement)
        && sentence_is(program, 3, 4, is_heading)
        && sentence_is(program, 5, 7, is_statement)
        && sentence_is(program, 13, 15, is_heading)
        && program.lines.len() == 15
}

fn is_sum(sentence: &Sentence) -> bool {
    match sentence {
        Sentence::Add(operand, field) => is_field(operand.get(), 5) && *field == 6,
        _ => false,
    }
}

fn is_rest(sentence: &Sentence) -> bool {
    match sentence {
        Sentence::Subtract(operand, field) => is_number(operand.get(), 1) && *field == 2,
        _ => false,
    }
}

fn is_move(sentence: &Sentence) -> bool {
    match sentence {
        Sentence::Move(operand, field) => is_text(operand.get(), b"A") && *field == 7,
        _ => false,
    }
}

fn moves_and_sums(program: &Program) -> bool {
    sentence_is(program, 6, 8, is_sum)
        && sentence_is(program, 7, 9, is_rest)
        && sentence_is(program, 8, 10, is_move)
}

fn asks_for_status(condition: &Condition) -> bool {
    match condition {
        Condition::Status { negated, code } => *negated && *code == 307,
        _ => false,
    }
}

fn is_of_status(sentence: &Sentence) -> bool {
    match sentence {
        Sentence::If(condition, at) => asks_for_status(condition.get()) && *at == 13,
        _ => false,
    }
}

fn asks_for_less(condition: &Condition) -> bool {
    match condition {
        Condition::Compare { left, negated, relation, right } =>
            is_field(left, 3) && !*negated && *relation == Relation::Less && is_text(right, b"B"),
        _ => false,
    }
}

fn is_less(sentence: &Sentence) -> bool {
    match sentence {
        Sentence::If(condition, at) => asks_for_less(condition.get()) && *at == 3,
        _ => false,
    }
}

fn asks_for_another(condition: &Condition) -> bool {
    match condition {
        Condition::Compare { left, negated, relation, right } =>
            is_number(left, 1) && *negated && *relation == Relation::Equal && is_field(right, 6),
        _ => false,
    }
}

fn is_assertion(sentence: &Sentence) -> bool {
    match sentence {
        Sentence::Assert(condition) => asks_for_another(condition.get()),
        _ => false,
    }
}

fn is_jump(sentence: &Sentence) -> bool {
    match sentence {
        Sentence::GoTo(at) => *at == 3,
        _ => false,
    }
}

fn is_stop(sentence: &Sentence) -> bool {
    matches!(sentence, Sentence::Stop)
}

fn jumps_and_conditions(program: &Program) -> bool {
    sentence_is(program, 4, 5, is_of_status)
        && sentence_is(program, 10, 12, is_less)
        && sentence_is(program, 11, 13, is_assertion)
        && sentence_is(program, 12, 14, is_jump)
        && sentence_is(program, 14, 16, is_stop)
}

fn is_word(word: Option<&Word>, text: &[u8]) -> bool {
    match word {
        Some(Word::Plain(bytes)) => bytes.as_slice() == text,
        _ => false,
    }
}

fn is_filled(sentence: &Sentence) -> bool {
    match sentence {
        Sentence::Filled(words) =>
            words.len() == 8
                && is_word(words.get(0), b"STORE")
                && is_word(words.get(2), b"CNO")
                && matches!(words.get(3), Some(Word::Equals))
                && matches!(words.get(4), Some(Word::Field(6)))
                && matches!(words.get(7), Some(Word::Literal(_))),
        _ => false,
    }
}

fn fields_are_numbered(program: &Program) -> bool {
    program.fields.len() == 8
        && program.records.as_slice() == [0, 2, 4].as_slice()
        && program.fields.as_slice()[3].name.as_slice() == b"ORDR.QTY".as_slice()
        && program.fields.as_slice()[5].picture == Picture::Number(3)
        && program.fields.as_slice()[7].name.as_slice() == b"COUNT".as_slice()
        && program.fields.as_slice()[7].picture == Picture::Text(2)
}

#[test]
fn a_walk_is_read(rt: HostRuntime) {
    match program(&rt, WALK) {
        Some(program) => {
            assert_eq!(rt; headings_and_statements(&program), true);
            assert_eq!(rt; moves_and_sums(&program), true);
            assert_eq!(rt; jumps_and_conditions(&program), true);
            assert_eq!(rt; sentence_is(&program, 9, 11, is_filled), true);
            assert_eq!(rt; fields_are_numbered(&program), true);
        }
        None => assert_eq!(rt; 1, 0),
    }
}
