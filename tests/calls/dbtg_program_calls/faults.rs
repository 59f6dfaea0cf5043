//! Tables of texts with their first faults: the case, the number of the fault, its line, and the text.

use super::wrong_case;
use std::test::*;

#[test]
fn faultless_texts(rt: HostRuntime) {
    let table = "\
nothing|0|0|~\
a line feed|0|0|\n~\
a note|0|0|* any words\n~\
a statement|0|0|GET\n~\
a carriage return and a period|0|0|GET.\r\n~\
a counter, a paragraph, a jump|0|0|01 N PIC 9(4).\nA.\nADD 1 TO N\nIF N < 3 GO TO A\n~\
a jump downwards|0|0|GO TO OUT\nGET\nOUT.\n~\
a paragraph and a counter of one name|0|0|01 N PIC 9\nN.\nGO TO N\nADD 1 TO N\n~\
PICTURE and IS|0|0|01 N PICTURE IS 9(4)\n01 M PIC X(3)\n~\
fields in a STORE|0|0|01 N PIC 9(4)\nSTORE CUSTOMER CNO = N CNAME = CUSTOMER.CNAME\n~\
fields in a FIND by CALC|0|0|FIND CALC CUSTOMER RECORD USING CNO = CUSTOMER.CNO\n~\
a field in a FIND by sort key|0|0|FIND SORTED ITEM.QTY OF LINES SET\n~\
STOP with a period|0|0|STOP.\nSTOP.\n~\
signs apart|0|0|ASSERT 1<2\nIF CUSTOMER.CNO>3 GO TO A\nA.\n~\
leading zeros|0|0|MOVE 0000000000000000000007 TO CUSTOMER.CNO\n~\
spaces at the end of a literal|0|0|MOVE \"12345678     \" TO CUSTOMER.CNAME\n~\
STATUS|0|0|IF STATUS = 0307 GO TO A\nASSERT STATUS NOT = 0000\nA.\n~\
NOT|0|0|ASSERT CUSTOMER.CNO NOT = 3\nASSERT CUSTOMER.CNAME NOT > \"A\"\n";
    assert_eq!(rt; wrong_case(&rt, table), "");
}

#[test]
fn lines_as_a_whole(rt: HostRuntime) {
    let table = "\
a tab|1|2|GET\nGET\t\n~\
a byte above|1|1|GO TO \u{e9}\n~\
a note with a tab|1|1|*\tnote\nGO TO NOWHERE\n~\
an open text|3|1|MOVE \"A TO CUSTOMER.CNAME\n~\
an open text before an unknown field|3|1|STORE CUSTOMER CNO = NO CNAME = \"A\n~\
an open text before an unknown verb|3|1|FOO \"\n~\
the first line counts|21|1|GO TO NOWHERE\nGET\t\n";
    assert_eq!(rt; wrong_case(&rt, table), "");
}

#[test]
fn words_that_are_not_wanted(rt: HostRuntime) {
    let table = "\
no statement word|2|1|AGAIN\n~\
two periods|2|1|AGAIN..\n~\
two words and a period|2|1|A B.\n~\
a name of the language|3|1|MOVE.\n~\
STATUS is no paragraph|2|1|STATUS.\n~\
TO is no paragraph|2|1|TO.\n~\
another word than TO|3|1|MOVE 1 INTO CUSTOMER.CNO\n~\
the end of the line|3|2|STOP\nADD 1 TO\n~\
a word more|3|1|STOP NOW\n~\
another picture|3|1|01 N PIC 9(19)\n~\
three digits|3|1|ASSERT STATUS = 307\n~\
STATUS less than|3|1|ASSERT STATUS < 0307\n~\
less than zero|3|1|MOVE -5 TO CUSTOMER.CNO\n~\
a literal in a field's place|3|1|MOVE 5 TO 6\n~\
NOT twice|3|1|ASSERT 1 NOT NOT = 2\n~\
a sign in a word|3|1|STORE CUSTOMER CNO = 1<2\n~\
a sign in a MOVE|3|1|MOVE 1<2 TO CUSTOMER.CNO\n~\
a text in a paragraph's place|3|1|GO TO \"A\"\nA.\n";
    assert_eq!(rt; wrong_case(&rt, table), "");
}

#[test]
fn paragraphs_and_fields(rt: HostRuntime) {
    let table = "\
KEEP with a period is a statement|21|2|KEEP.\nGO TO KEEP\n~\
a paragraph twice|22|4|A.\nGO TO B\nB.\nA.\n~\
an unknown paragraph|21|1|IF 1 = 1 GO TO A\n~\
a paragraph without a period|21|1|GO TO A\nGET\n~\
an item of another record type|23|1|MOVE 1 TO CUSTOMER.QTY\n~\
an item without its record type|23|1|MOVE 1 TO CNO\n~\
a fraction|23|1|MOVE 1.5 TO CUSTOMER.CNO\n~\
a field word before the words in front of it|23|1|STORE CUSTOMR CNO = N\n~\
a field word and a byte|1|1|STORE CUSTOMER CNO = N\t\n~\
two field words|23|1|STORE CUSTOMER CNO = CUSTOMER.CNO CNAME = NO\n~\
an unknown value of a FIND|23|1|FIND SORTED NO OF LINES SET\n~\
a counter behind its use|26|2|ADD 1 TO CUSTOMER.CNO\n01 N PIC 9\n";
    assert_eq!(rt; wrong_case(&rt, table), "");
}

#[test]
fn counters(rt: HostRuntime) {
    let table = "\
twice|24|2|01 N PIC 9\n01 N PIC X\n~\
as a record type|24|1|01 CUSTOMER PIC 9\n~\
as a record type behind notes|24|4|* a\n\n01 N PIC 9\n01 ITEM PIC 9\n~\
as an item|0|0|01 CNO PIC 9\n~\
as a set|0|0|01 HAS PIC 9\n~\
without a name|24|1|01 STATUS PIC 9\n~\
with a reserved word|24|1|01 RECORD PIC 9\n~\
behind another sentence|26|2|GET\n01 STATUS PIC 9\n~\
behind a paragraph|26|2|A.\n01 N PIC 9\n~\
a text as a name|3|1|01 \"N\" PIC 9\n";
    assert_eq!(rt; wrong_case(&rt, table), "");
}

#[test]
fn kinds_and_room(rt: HostRuntime) {
    let table = "\
a number to a text|25|1|MOVE 1 TO CUSTOMER.CNAME\n~\
a text to a number|25|1|MOVE \"1\" TO CUSTOMER.CNO\n~\
a number and a text|25|1|ASSERT CUSTOMER.CNO = \"7\"\n~\
two fields of two kinds|25|1|ASSERT ORDR.QTY = ITEM.QTY\n~\
an item of one name in two record types|0|0|MOVE \"1\" TO ORDR.QTY\nMOVE 1 TO ITEM.QTY\n~\
an added text before an unknown field|25|1|ADD \"7\" TO NOTHING\n~\
a field of texts that is added|25|1|ADD CUSTOMER.CNAME TO CUSTOMER.CNO\n~\
added to a text|25|1|ADD 7 TO CUSTOMER.CNAME\n~\
a stored kind|9|1|STORE CUSTOMER CNO = CUSTOMER.CNAME\n~\
no room|10|1|MOVE 10000 TO CUSTOMER.CNO\n~\
room|0|0|MOVE 9999 TO CUSTOMER.CNO\n~\
a long text|10|1|MOVE \"123456789\" TO CUSTOMER.CNAME\n~\
a sum needs no room|0|0|ADD 10000 TO CUSTOMER.CNO\n~\
19 digits|10|1|ASSERT CUSTOMER.CNO < 1000000000000000000\n~\
18 digits|0|0|ASSERT CUSTOMER.CNO < 999999999999999999\n~\
64 bytes|0|0|ASSERT CUSTOMER.CNAME = \"1234567890123456789012345678901234567890123456789012345678901234\"\n~\
65 bytes|10|1|ASSERT CUSTOMER.CNAME = \"12345678901234567890123456789012345678901234567890123456789012345\"\n~\
64 bytes and a space|0|0|ASSERT CUSTOMER.CNAME = \"1234567890123456789012345678901234567890123456789012345678901234 \"\n~\
a number of too many digits in a STORE|10|1|STORE CUSTOMER CNO = 12345\n";
    assert_eq!(rt; wrong_case(&rt, table), "");
}
