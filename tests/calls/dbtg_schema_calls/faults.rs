//! Tables of texts with their first faults: the case, the number of the fault, its line, how the text begins, and the rest of it.

use super::wrong_case;
use std::test::*;

#[test]
fn words_gaps_and_lines_1(rt: HostRuntime) {
    let table = "\
schema and nothing else|3|1|H|~\
no text|3|1|-|~\
one line feed|3|1|-|\n~\
two line feeds|3|2|-|\n\n~\
a space behind a line feed|3|2|-|SCHEMA\n ~\
the final line feed begins no line|3|2|A|~\
CR LF|0|0|-|SCHEMA NAME IS A.\r\nAREA NAME IS M.\r\nRECORD NAME IS R; WITHIN M.\r\n 02 I PICTURE IS 9(4).\r\n 02 J PIC X(8).\r\nRECORD NAME IS Q; WITHIN M.\r\n 02 K PIC 9(4).\r\nSET NAME IS S; ORDER IS LAST; OWNER IS R.\r\n MEMBER IS Q MANDATORY AUTOMATIC.\r\n";
    assert_eq!(rt; wrong_case(&rt, table), "");
}

#[test]
fn words_gaps_and_lines_2(rt: HostRuntime) {
    let table = "\
tabs|0|0|-|SCHEMA\tNAME\tIS\tA.\nAREA\tNAME\tIS\tM.\nRECORD\tNAME\tIS\tR;\tWITHIN\tM.\n\t02\tI\tPICTURE\tIS\t9(4).\n\t02\tJ\tPIC\tX(8).\nRECORD\tNAME\tIS\tQ;\tWITHIN\tM.\n\t02\tK\tPIC\t9(4).\nSET\tNAME\tIS\tS;\tORDER\tIS\tLAST;\tOWNER\tIS\tR.\n\tMEMBER\tIS\tQ\tMANDATORY\tAUTOMATIC.\n";
    assert_eq!(rt; wrong_case(&rt, table), "");
}

#[test]
fn words_gaps_and_lines_3(rt: HostRuntime) {
    let table = "\
commas and semicolons|0|0|-|SCHEMA,; NAME,; IS,; A.\nAREA,; NAME,; IS,; M.\nRECORD,; NAME,; IS,; R;,; WITHIN,; M.\n,; 02,; I,; PICTURE,; IS,; 9(4).\n,; 02,; J,; PIC,; X(8).\nRECORD,; NAME,; IS,; Q;,; WITHIN,; M.\n,; 02,; K,; PIC,; 9(4).\nSET,; NAME,; IS,; S;,; ORDER,; IS,; LAST;,; OWNER,; IS,; R.\n,; MEMBER,; IS,; Q,; MANDATORY,; AUTOMATIC.\n";
    assert_eq!(rt; wrong_case(&rt, table), "");
}

#[test]
fn words_gaps_and_lines_4(rt: HostRuntime) {
    let table = "\
one line|0|0|-|SCHEMA NAME IS A. AREA NAME IS M. RECORD NAME IS R; WITHIN M.  02 I PICTURE IS 9(4).  02 J PIC X(8). RECORD NAME IS Q; WITHIN M.  02 K PIC 9(4). SET NAME IS S; ORDER IS LAST; OWNER IS R.  MEMBER IS Q MANDATORY AUTOMATIC. ";
    assert_eq!(rt; wrong_case(&rt, table), "");
}

#[test]
fn words_gaps_and_lines_5(rt: HostRuntime) {
    let table = "\
no space at periods|0|0|-|SCHEMA NAME IS A.AREA NAME IS M.RECORD NAME IS R; WITHIN M. 02 I PICTURE IS 9(4). 02 J PIC X(8).RECORD NAME IS Q; WITHIN M. 02 K PIC 9(4).SET NAME IS S; ORDER IS LAST; OWNER IS R. MEMBER IS Q MANDATORY AUTOMATIC.";
    assert_eq!(rt; wrong_case(&rt, table), "");
}

#[test]
fn words_gaps_and_lines_6(rt: HostRuntime) {
    let table = "\
IS and ARE anywhere|0|0|-|IS SCHEMA ARE NAME IS IS A ARE . IS AREA NAME IS M.\nRECORD NAME IS R; WITHIN M.\n 02 I PICTURE IS 9(4).\n 02 J PIC X(8).\nRECORD NAME IS Q; WITHIN M.\n 02 K PIC 9(4).\nSET NAME IS S; ORDER IS LAST; OWNER IS R.\n MEMBER IS Q MANDATORY AUTOMATIC.\n ARE IS";
    assert_eq!(rt; wrong_case(&rt, table), "");
}

#[test]
fn words_gaps_and_lines_7(rt: HostRuntime) {
    let table = "\
no IS at all|0|0|-|SCHEMA NAME A.\nAREA NAME M.\nRECORD NAME R; WITHIN M.\n 02 I PICTURE 9(4).\n 02 J PIC X(8).\nRECORD NAME Q; WITHIN M.\n 02 K PIC 9(4).\nSET NAME S; ORDER LAST; OWNER R.\n MEMBER Q MANDATORY AUTOMATIC.\n~\
IS does not end a name|3|2|H|AREA NAME IS IS.\n~\
a small letter|3|1|-|schema NAME A.~\
a small letter in a name|4|1|-|SCHEMA NAME a.~\
a bad byte inside a word|1|2|-|SCHEMA\nNAME A\x01B.~\
a bad byte behind a bad word|3|1|-|FOO \x01";
    assert_eq!(rt; wrong_case(&rt, table), "");
}

#[test]
fn words_gaps_and_lines_8(rt: HostRuntime) {
    let table = "\
a bad byte at a bad word|1|1|-|\x01FOO~\
vertical tab|1|1|-|SCHEMA\x0bNAME A.~\
form feed|1|1|-|SCHEMA \x0c NAME A.~\
delete|1|1|-|SCHEMA NAME A\x7f.~\
a letter beyond ASCII|1|1|-|SCHEMA NAME é.~\
zero byte|1|1|-|\x00~\
a bad byte before the period|1|1|-|SCHEMA NAME IS A\x02.\n~\
a bad byte where a type without items ends|1|4|A|RECORD NAME R WITHIN M.\n\x01~\
a bad word before a bad byte|3|4|A|RECORD NAME R WITHIN M.\nFOO \x01~\
a period too many|3|2|H|.";
    assert_eq!(rt; wrong_case(&rt, table), "");
}

#[test]
fn words_gaps_and_lines_9(rt: HostRuntime) {
    let table = "\
a word left over|3|10|T|SET NAME IS S; ORDER IS LAST; OWNER IS R.\n MEMBER IS Q MANDATORY AUTOMATIC.\nFOO";
    assert_eq!(rt; wrong_case(&rt, table), "");
}

#[test]
fn names_and_where_they_are_known_1(rt: HostRuntime) {
    let table = "\
a keyword as a name|4|1|-|SCHEMA NAME IS SET.~\
KEEP is reserved|4|1|-|SCHEMA NAME KEEP.~\
USAGE-MODE is reserved|4|1|-|SCHEMA NAME USAGE-MODE.~\
30 characters|3|1|-|SCHEMA NAME AAAAAAAAAAAAAAAAAAAAAAAAAAAAAA.\n~\
31 characters|4|1|-|SCHEMA NAME AAAAAAAAAAAAAAAAAAAAAAAAAAAAAAA.\n~\
a digit first|4|1|-|SCHEMA NAME 9A.~\
a hyphen first|4|1|-|SCHEMA NAME -A.~\
a hyphen last|4|1|-|SCHEMA NAME A-.~\
hyphens inside|3|1|-|SCHEMA NAME A--9.~\
an underline|4|1|-|SCHEMA NAME A_B.";
    assert_eq!(rt; wrong_case(&rt, table), "");
}

#[test]
fn names_and_where_they_are_known_2(rt: HostRuntime) {
    let table = "\
a period where a name is wanted|3|1|-|SCHEMA NAME .~\
the end where a name is wanted|3|1|-|SCHEMA NAME~\
02 is no name|4|3|A|RECORD NAME 02~\
the schema's name may be an area's|0|0|H|AREA NAME IS A.\nRECORD NAME IS R; WITHIN A.\n 02 I PICTURE IS 9(4).\n 02 J PIC X(8).\nRECORD NAME IS Q; WITHIN A.\n 02 K PIC 9(4).\nSET NAME IS S; ORDER IS LAST; OWNER IS R.\n MEMBER IS Q MANDATORY AUTOMATIC.\n~\
two areas of a name|5|4|A|AREA NAME\nM.";
    assert_eq!(rt; wrong_case(&rt, table), "");
}

#[test]
fn names_and_where_they_are_known_3(rt: HostRuntime) {
    let table = "\
a record type and an area|5|3|A|RECORD NAME IS M; WITHIN M.~\
a set and a record type|5|9|T|SET NAME IS\nR;~\
a set and an area|5|8|T|SET NAME IS M;~\
two record types|5|6|B|RECORD NAME IS R~\
two sets|5|10|T|SET NAME IS S; ORDER IS LAST; OWNER IS R.\n MEMBER IS Q MANDATORY AUTOMATIC.\nSET NAME S~\
a keyword before a name that is taken|4|3|A|AREA NAME SET~\
an item twice|6|6|B| 02 I PIC 9.~\
an item of another type|0|0|B|RECORD NAME Q WITHIN M. 02 I PIC 9.";
    assert_eq!(rt; wrong_case(&rt, table), "");
}

#[test]
fn names_and_where_they_are_known_4(rt: HostRuntime) {
    let table = "\
an item as its record type|0|0|A|RECORD NAME IS R; WITHIN M.\n 02 R PIC 9.\n~\
unknown area|7|3|A|RECORD NAME R WITHIN N.~\
unknown owner|8|9|T|SET NAME S ORDER LAST OWNER\nM.~\
unknown member|8|9|T|SET NAME S ORDER LAST OWNER R.\nMEMBER S OPTIONAL MANUAL.~\
a keyword as an owner|4|8|T|SET NAME S ORDER LAST OWNER MEMBER.~\
a period for an owner|3|8|T|SET NAME S ORDER LAST OWNER .~\
no owner|3|8|T|SET NAME S ORDER LAST OWNER";
    assert_eq!(rt; wrong_case(&rt, table), "");
}

#[test]
fn names_and_where_they_are_known_5(rt: HostRuntime) {
    let table = "\
SYSTEM is no member|4|8|T|SET NAME S ORDER LAST OWNER SYSTEM. MEMBER SYSTEM";
    assert_eq!(rt; wrong_case(&rt, table), "");
}

#[test]
fn pictures_1(rt: HostRuntime) {
    let table = "\
picture 9|0|0|A|RECORD NAME R WITHIN M.\n02 I PIC 9.~\
picture 99|0|0|A|RECORD NAME R WITHIN M.\n02 I PIC 99.~\
picture 999999999999999999|0|0|A|RECORD NAME R WITHIN M.\n02 I PIC 999999999999999999.~\
picture 9999999999999999999|11|4|A|RECORD NAME R WITHIN M.\n02 I PIC 9999999999999999999.~\
picture X|0|0|A|RECORD NAME R WITHIN M.\n02 I PIC X.";
    assert_eq!(rt; wrong_case(&rt, table), "");
}

#[test]
fn pictures_2(rt: HostRuntime) {
    let table = "\
picture XXXXXXXXXXXXXXXXXXXXXXXXXXXXXXXXXXXXXXXXXXXXXXXXXXXXXXXXXXXXXXXX|0|0|A|RECORD NAME R WITHIN M.\n02 I PIC XXXXXXXXXXXXXXXXXXXXXXXXXXXXXXXXXXXXXXXXXXXXXXXXXXXXXXXXXXXXXXXX.~\
picture XXXXXXXXXXXXXXXXXXXXXXXXXXXXXXXXXXXXXXXXXXXXXXXXXXXXXXXXXXXXXXXXX|11|4|A|RECORD NAME R WITHIN M.\n02 I PIC XXXXXXXXXXXXXXXXXXXXXXXXXXXXXXXXXXXXXXXXXXXXXXXXXXXXXXXXXXXXXXXXX.~\
picture 9(1)|0|0|A|RECORD NAME R WITHIN M.\n02 I PIC 9(1).";
    assert_eq!(rt; wrong_case(&rt, table), "");
}

#[test]
fn pictures_3(rt: HostRuntime) {
    let table = "\
picture 9(01)|0|0|A|RECORD NAME R WITHIN M.\n02 I PIC 9(01).~\
picture 9(04)|0|0|A|RECORD NAME R WITHIN M.\n02 I PIC 9(04).~\
picture 9(18)|0|0|A|RECORD NAME R WITHIN M.\n02 I PIC 9(18).~\
picture 9(19)|11|4|A|RECORD NAME R WITHIN M.\n02 I PIC 9(19).~\
picture 9(0)|11|4|A|RECORD NAME R WITHIN M.\n02 I PIC 9(0).~\
picture 9(00)|11|4|A|RECORD NAME R WITHIN M.\n02 I PIC 9(00).~\
picture 9(004)|11|4|A|RECORD NAME R WITHIN M.\n02 I PIC 9(004).";
    assert_eq!(rt; wrong_case(&rt, table), "");
}

#[test]
fn pictures_4(rt: HostRuntime) {
    let table = "\
picture X(64)|0|0|A|RECORD NAME R WITHIN M.\n02 I PIC X(64).~\
picture X(65)|11|4|A|RECORD NAME R WITHIN M.\n02 I PIC X(65).~\
picture X(0)|11|4|A|RECORD NAME R WITHIN M.\n02 I PIC X(0).~\
picture X(99)|11|4|A|RECORD NAME R WITHIN M.\n02 I PIC X(99).~\
picture X(5|11|4|A|RECORD NAME R WITHIN M.\n02 I PIC X(5.~\
picture X5)|11|4|A|RECORD NAME R WITHIN M.\n02 I PIC X5).~\
picture X()|11|4|A|RECORD NAME R WITHIN M.\n02 I PIC X().";
    assert_eq!(rt; wrong_case(&rt, table), "");
}

#[test]
fn pictures_5(rt: HostRuntime) {
    let table = "\
picture 99X|11|4|A|RECORD NAME R WITHIN M.\n02 I PIC 99X.~\
picture 9X|11|4|A|RECORD NAME R WITHIN M.\n02 I PIC 9X.~\
picture A|11|4|A|RECORD NAME R WITHIN M.\n02 I PIC A.~\
picture A(4)|11|4|A|RECORD NAME R WITHIN M.\n02 I PIC A(4).~\
picture 9(4)9|11|4|A|RECORD NAME R WITHIN M.\n02 I PIC 9(4)9.~\
picture SET|11|4|A|RECORD NAME R WITHIN M.\n02 I PIC SET.~\
picture 9 (4)|3|4|A|RECORD NAME R WITHIN M.\n02 I PIC 9 (4).";
    assert_eq!(rt; wrong_case(&rt, table), "");
}

#[test]
fn pictures_6(rt: HostRuntime) {
    let table = "\
picture 9,(4)|3|4|A|RECORD NAME R WITHIN M.\n02 I PIC 9,(4).~\
picture 9;|0|0|A|RECORD NAME R WITHIN M.\n02 I PIC 9;.~\
picture ..|3|4|A|RECORD NAME R WITHIN M.\n02 I PIC ...~\
picture 9(A)|11|4|A|RECORD NAME R WITHIN M.\n02 I PIC 9(A).~\
picture x|11|4|A|RECORD NAME R WITHIN M.\n02 I PIC x.~\
no picture|3|3|A|RECORD NAME R WITHIN M. 02 I PIC~\
a period for a picture|3|4|A|RECORD NAME R WITHIN M. 02 I PIC\n.";
    assert_eq!(rt; wrong_case(&rt, table), "");
}

#[test]
fn record_types_1(rt: HostRuntime) {
    let table = "\
calc|0|0|A|RECORD NAME R LOCATION MODE CALC USING I DUPLICATES ALLOWED WITHIN M.\n 02 I PIC 9.\n 02 J PIC 9.\n 02 K PIC 9.\n 02 L PIC 9.\n~\
four calc items|0|0|A|RECORD NAME R LOCATION MODE CALC USING L K J I DUPLICATES ALLOWED WITHIN M.\n 02 I PIC 9.\n 02 J PIC 9.\n 02 K PIC 9.\n 02 L PIC 9.\n~\
not allowed|0|0|A|RECORD NAME R LOCATION MODE CALC USING I DUPLICATES NOT ALLOWED WITHIN M.\n 02 I PIC 9.\n 02 J PIC 9.\n 02 K PIC 9.\n 02 L PIC 9.\n";
    assert_eq!(rt; wrong_case(&rt, table), "");
}

#[test]
fn record_types_2(rt: HostRuntime) {
    let table = "\
five calc items|16|4|A|RECORD NAME R LOCATION MODE CALC USING I J K L\nI DUPLICATES ALLOWED WITHIN M.\n 02 I PIC 9.\n 02 J PIC 9.\n 02 K PIC 9.\n 02 L PIC 9.\n~\
a fifth word that is no name|16|4|A|RECORD NAME R LOCATION MODE CALC USING I J K L\n)  WITHIN M.\n 02 I PIC 9.\n 02 J PIC 9.\n 02 K PIC 9.\n 02 L PIC 9.\n";
    assert_eq!(rt; wrong_case(&rt, table), "");
}

#[test]
fn record_types_3(rt: HostRuntime) {
    let table = "\
a fifth word that is reserved|16|4|A|RECORD NAME R LOCATION MODE CALC USING I J K L\nRECORD WITHIN M.\n 02 I PIC 9.\n 02 J PIC 9.\n 02 K PIC 9.\n 02 L PIC 9.\n~\
a period fifth|3|4|A|RECORD NAME R LOCATION MODE CALC USING I J K L\n. WITHIN M.\n 02 I PIC 9.\n 02 J PIC 9.\n 02 K PIC 9.\n 02 L PIC 9.\n~\
a bad byte fifth|1|4|A|RECORD NAME R LOCATION MODE CALC USING I J K L\n\x01 WITHIN M.\n 02 I PIC 9.\n 02 J PIC 9.\n 02 K PIC 9.\n 02 L PIC 9.\n";
    assert_eq!(rt; wrong_case(&rt, table), "");
}

#[test]
fn record_types_4(rt: HostRuntime) {
    let table = "\
the end fifth|3|3|A|RECORD NAME R LOCATION MODE CALC USING I J K L~\
DUPLICATES first|4|3|A|RECORD NAME R LOCATION MODE CALC USING DUPLICATES WITHIN M.\n 02 I PIC 9.\n 02 J PIC 9.\n 02 K PIC 9.\n 02 L PIC 9.\n~\
a period first|3|3|A|RECORD NAME R LOCATION MODE CALC USING . WITHIN M.\n 02 I PIC 9.\n 02 J PIC 9.\n 02 K PIC 9.\n 02 L PIC 9.\n";
    assert_eq!(rt; wrong_case(&rt, table), "");
}

#[test]
fn record_types_5(rt: HostRuntime) {
    let table = "\
a keyword second|4|4|A|RECORD NAME R LOCATION MODE CALC USING I\nWITHIN WITHIN M.\n 02 I PIC 9.\n 02 J PIC 9.\n 02 K PIC 9.\n 02 L PIC 9.\n~\
a period second|3|4|A|RECORD NAME R LOCATION MODE CALC USING I\n. WITHIN M.\n 02 I PIC 9.\n 02 J PIC 9.\n 02 K PIC 9.\n 02 L PIC 9.\n~\
a picture second|4|4|A|RECORD NAME R LOCATION MODE CALC USING I\n9(4) WITHIN M.\n 02 I PIC 9.\n 02 J PIC 9.\n 02 K PIC 9.\n 02 L PIC 9.\n";
    assert_eq!(rt; wrong_case(&rt, table), "");
}

#[test]
fn record_types_6(rt: HostRuntime) {
    let table = "\
an unknown calc item|9|4|A|RECORD NAME R LOCATION MODE CALC USING I\nX DUPLICATES ALLOWED WITHIN M.\n 02 I PIC 9.\n 02 J PIC 9.\n 02 K PIC 9.\n 02 L PIC 9.\nRECORD NAME IS Q; WITHIN M.\n 02 K PIC 9(4).\n~\
an unknown calc item before SET|9|4|A|RECORD NAME R LOCATION MODE CALC USING I\nX DUPLICATES ALLOWED WITHIN M.\n 02 I PIC 9.\n 02 J PIC 9.\n 02 K PIC 9.\n 02 L PIC 9.\nSET";
    assert_eq!(rt; wrong_case(&rt, table), "");
}

#[test]
fn record_types_7(rt: HostRuntime) {
    let table = "\
an unknown calc item at the end|9|4|A|RECORD NAME R LOCATION MODE CALC USING I\nX DUPLICATES ALLOWED WITHIN M.\n 02 I PIC 9.\n 02 J PIC 9.\n 02 K PIC 9.\n 02 L PIC 9.\n~\
a calc item twice|18|4|A|RECORD NAME R LOCATION MODE CALC USING I\nI DUPLICATES ALLOWED WITHIN M.\n 02 I PIC 9.\n 02 J PIC 9.\n 02 K PIC 9.\n 02 L PIC 9.\n";
    assert_eq!(rt; wrong_case(&rt, table), "");
}

#[test]
fn record_types_8(rt: HostRuntime) {
    let table = "\
an unknown calc item, then one twice|9|3|A|RECORD NAME R LOCATION MODE CALC USING X\nI\nI DUPLICATES ALLOWED WITHIN M.\n 02 I PIC 9.\n 02 J PIC 9.\n 02 K PIC 9.\n 02 L PIC 9.\n~\
a calc item twice, then an unknown one|18|4|A|RECORD NAME R LOCATION MODE CALC USING I\nI\nX DUPLICATES ALLOWED WITHIN M.\n 02 I PIC 9.\n 02 J PIC 9.\n 02 K PIC 9.\n 02 L PIC 9.\n";
    assert_eq!(rt; wrong_case(&rt, table), "");
}

#[test]
fn record_types_9(rt: HostRuntime) {
    let table = "\
an unknown calc item twice|9|3|A|RECORD NAME R LOCATION MODE CALC USING X\nX DUPLICATES ALLOWED WITHIN M.\n 02 I PIC 9.\n 02 J PIC 9.\n 02 K PIC 9.\n 02 L PIC 9.\n~\
no items at the end|17|3|A|RECORD NAME R WITHIN M.\n~\
no items before a record type|17|3|A|RECORD NAME\nR WITHIN M.\nRECORD NAME~\
no items before a set|17|3|A|RECORD NAME R WITHIN M.\n\nSET";
    assert_eq!(rt; wrong_case(&rt, table), "");
}

#[test]
fn record_types_10(rt: HostRuntime) {
    let table = "\
no items and an unknown calc item|17|3|A|RECORD NAME R LOCATION MODE CALC USING\nX DUPLICATES ALLOWED WITHIN M.\n~\
no items and an unknown set|17|3|A|RECORD NAME R LOCATION MODE VIA S SET WITHIN M.\n~\
the end inside the sentence of a type without items|3|3|A|RECORD NAME R WITHIN M~\
the end inside an item|3|4|A|RECORD NAME R LOCATION MODE CALC USING X DUPLICATES ALLOWED WITHIN M.\n02 I PIC 9~\
the end inside a later item|3|6|B|02 Z\n";
    assert_eq!(rt; wrong_case(&rt, table), "");
}

#[test]
fn record_types_11(rt: HostRuntime) {
    let table = "\
another word behind a type without items|3|4|A|RECORD NAME R WITHIN M.\nAREA~\
a period behind a type without items|3|3|A|RECORD NAME R WITHIN M..~\
RECORD inside a sentence|3|4|A|RECORD NAME R\nRECORD~\
RECORD for an area|4|4|A|RECORD NAME R WITHIN\nRECORD~\
an area behind a record type|3|6|B|AREA NAME N.";
    assert_eq!(rt; wrong_case(&rt, table), "");
}

#[test]
fn record_types_12(rt: HostRuntime) {
    let table = "\
via|0|0|A|RECORD NAME R LOCATION MODE VIA S SET WITHIN M. 02 I PIC 9.\nRECORD NAME IS Q; WITHIN M.\n 02 K PIC 9(4).\nSET NAME IS S; ORDER IS LAST; OWNER IS R.\n MEMBER IS Q MANDATORY AUTOMATIC.\n~\
via an unknown set|10|4|A|RECORD NAME R LOCATION MODE VIA\nX SET WITHIN M. 02 I PIC 9.\nRECORD NAME IS Q; WITHIN M.\n 02 K PIC 9(4).\nSET NAME IS S; ORDER IS LAST; OWNER IS R.\n MEMBER IS Q MANDATORY AUTOMATIC.\n";
    assert_eq!(rt; wrong_case(&rt, table), "");
}

#[test]
fn record_types_13(rt: HostRuntime) {
    let table = "\
via an area|10|3|A|RECORD NAME R LOCATION MODE VIA M SET WITHIN M. 02 I PIC 9.\n~\
via two unknown sets|10|4|A|RECORD NAME R LOCATION MODE VIA\nX SET WITHIN M. 02 I PIC 9.\nRECORD NAME Q LOCATION MODE VIA Y SET WITHIN M. 02 I PIC 9.\n~\
a later fault comes before via|17|4|A|RECORD NAME R LOCATION MODE VIA X SET WITHIN M. 02 I PIC 9.\nRECORD NAME Q WITHIN M.\n~\
the end comes before via|3|3|A|RECORD NAME R LOCATION MODE VIA X SET WITHIN M. 02 I PIC 9\n";
    assert_eq!(rt; wrong_case(&rt, table), "");
}

#[test]
fn record_types_14(rt: HostRuntime) {
    let table = "\
a keyword for a set behind via|4|3|A|RECORD NAME R LOCATION MODE VIA SET";
    assert_eq!(rt; wrong_case(&rt, table), "");
}

#[test]
fn sets_and_members_1(rt: HostRuntime) {
    let table = "\
two record types and a set|0|0|T|SET NAME IS S; ORDER IS LAST; OWNER IS R.\n MEMBER IS Q MANDATORY AUTOMATIC.\n~\
SYSTEM|0|0|T|SET NAME S ORDER NEXT OWNER SYSTEM. MEMBER R OPTIONAL MANUAL.~\
selection|0|0|T|SET NAME S ORDER PRIOR OWNER R. MEMBER Q OPTIONAL AUTOMATIC SET OCCURRENCE SELECTION IS THRU CURRENT OF SET.~\
the owner is a member|12|9|T|SET NAME S ORDER LAST OWNER R.\n MEMBER R\nMANDATORY\nAUTOMATIC\n.";
    assert_eq!(rt; wrong_case(&rt, table), "");
}

#[test]
fn sets_and_members_2(rt: HostRuntime) {
    let table = "\
the owner is a member and its key is missing|12|9|T|SET NAME IS S; ORDER IS SORTED ASCENDING DUPLICATES ARE LAST; OWNER IS R.\n MEMBER R MANDATORY AUTOMATIC.\n~\
a member twice|13|10|T|SET NAME IS S; ORDER IS LAST; OWNER IS R.\n MEMBER IS Q MANDATORY AUTOMATIC.\n MEMBER Q MANDATORY AUTOMATIC.\n";
    assert_eq!(rt; wrong_case(&rt, table), "");
}

#[test]
fn sets_and_members_3(rt: HostRuntime) {
    let table = "\
a member twice and its key is not wanted|13|10|T|SET NAME IS S; ORDER IS LAST; OWNER IS R.\n MEMBER IS Q MANDATORY AUTOMATIC.\n MEMBER Q MANDATORY AUTOMATIC KEY K.\n~\
the owner is a member twice|13|11|T|SET NAME S ORDER LAST OWNER SYSTEM.\n MEMBER R MANDATORY AUTOMATIC.\n MEMBER Q MANDATORY AUTOMATIC.\n MEMBER R MANDATORY AUTOMATIC.\n";
    assert_eq!(rt; wrong_case(&rt, table), "");
}

#[test]
fn sets_and_members_4(rt: HostRuntime) {
    let table = "\
no key in a sorted set|15|9|T|SET NAME IS S; ORDER IS SORTED ASCENDING DUPLICATES ARE LAST; OWNER IS R.\n MEMBER Q MANDATORY AUTOMATIC.\n~\
a key in another set|15|9|T|SET NAME S ORDER LAST OWNER R.\n MEMBER Q MANDATORY AUTOMATIC KEY K.\n~\
a key in a sorted set|0|0|T|SET NAME IS S; ORDER IS SORTED ASCENDING DUPLICATES ARE LAST; OWNER IS R.\n MEMBER Q MANDATORY AUTOMATIC KEY K.\n";
    assert_eq!(rt; wrong_case(&rt, table), "");
}

#[test]
fn sets_and_members_5(rt: HostRuntime) {
    let table = "\
an unknown key item|9|10|T|SET NAME IS S; ORDER IS SORTED ASCENDING DUPLICATES ARE LAST; OWNER IS R.\n MEMBER Q MANDATORY AUTOMATIC KEY\nI.~\
an unknown key item in an unsorted set|9|9|T|SET NAME S ORDER LAST OWNER R.\n MEMBER Q OPTIONAL MANUAL KEY I.";
    assert_eq!(rt; wrong_case(&rt, table), "");
}

#[test]
fn sets_and_members_6(rt: HostRuntime) {
    let table = "\
keys of one picture|0|0|T|RECORD NAME P WITHIN M.\n 02 K PIC 99.\n 02 X PIC X(4).\n 02 Z PIC 9(2).\nSET NAME IS S; ORDER IS SORTED ASCENDING DUPLICATES ARE LAST; OWNER IS R.\n MEMBER P MANDATORY AUTOMATIC KEY K.\n";
    assert_eq!(rt; wrong_case(&rt, table), "");
}

#[test]
fn sets_and_members_7(rt: HostRuntime) {
    let table = "\
keys of equal pictures|0|0|B|RECORD NAME Q WITHIN M. 02 K PIC 9(2).\nRECORD NAME P WITHIN M.\n 02 K PIC 99.\n 02 X PIC X(4).\n 02 Z PIC 9(2).\nSET NAME IS S; ORDER IS SORTED ASCENDING DUPLICATES ARE LAST; OWNER IS R.\n MEMBER Q MANDATORY AUTOMATIC KEY K.\n MEMBER P MANDATORY AUTOMATIC KEY K.\n";
    assert_eq!(rt; wrong_case(&rt, table), "");
}

#[test]
fn sets_and_members_8(rt: HostRuntime) {
    let table = "\
keys of unequal length|14|14|T|RECORD NAME P WITHIN M.\n 02 K PIC 99.\n 02 X PIC X(4).\n 02 Z PIC 9(2).\nSET NAME IS S; ORDER IS SORTED ASCENDING DUPLICATES ARE LAST; OWNER IS R.\n MEMBER Q MANDATORY AUTOMATIC KEY K.\n MEMBER P MANDATORY AUTOMATIC KEY K.\n";
    assert_eq!(rt; wrong_case(&rt, table), "");
}

#[test]
fn sets_and_members_9(rt: HostRuntime) {
    let table = "\
keys of unequal kind|14|14|T|RECORD NAME P WITHIN M.\n 02 K PIC 99.\n 02 X PIC X(4).\n 02 Z PIC 9(2).\nSET NAME IS S; ORDER IS SORTED ASCENDING DUPLICATES ARE LAST; OWNER IS R.\n MEMBER Q MANDATORY AUTOMATIC KEY K.\n MEMBER P MANDATORY AUTOMATIC KEY X.\n";
    assert_eq!(rt; wrong_case(&rt, table), "");
}

#[test]
fn sets_and_members_10(rt: HostRuntime) {
    let table = "\
a missing key comes before unequal keys|15|14|T|RECORD NAME P WITHIN M.\n 02 K PIC 99.\n 02 X PIC X(4).\n 02 Z PIC 9(2).\nSET NAME IS S; ORDER IS SORTED ASCENDING DUPLICATES ARE LAST; OWNER IS R.\n MEMBER Q MANDATORY AUTOMATIC KEY K.\n MEMBER P MANDATORY AUTOMATIC.\n~\
a set without members|3|9|T|SET NAME S ORDER LAST OWNER R.\nSET~\
a set without members at the end|3|8|T|SET NAME S ORDER LAST OWNER R.\n";
    assert_eq!(rt; wrong_case(&rt, table), "");
}

#[test]
fn sets_and_members_11(rt: HostRuntime) {
    let table = "\
no class|3|8|T|SET NAME S ORDER LAST OWNER R. MEMBER Q AUTOMATIC~\
sorted without duplicates|3|8|T|SET NAME S ORDER SORTED ASCENDING OWNER~\
a record type behind a set|3|10|T|SET NAME IS S; ORDER IS LAST; OWNER IS R.\n MEMBER IS Q MANDATORY AUTOMATIC.\nRECORD";
    assert_eq!(rt; wrong_case(&rt, table), "");
}

#[test]
fn limits_1(rt: HostRuntime) {
    let table = "\
eight areas|0|0|H|AREA NAME A0.\nAREA NAME A1.\nAREA NAME A2.\nAREA NAME A3.\nAREA NAME A4.\nAREA NAME A5.\nAREA NAME A6.\nAREA NAME A7.\nRECORD NAME R WITHIN A7. 02 I PIC 9.~\
nine areas|16|10|H|AREA NAME A0.\nAREA NAME A1.\nAREA NAME A2.\nAREA NAME A3.\nAREA NAME A4.\nAREA NAME A5.\nAREA NAME A6.\nAREA NAME A7.\nAREA";
    assert_eq!(rt; wrong_case(&rt, table), "");
}

#[test]
fn limits_2(rt: HostRuntime) {
    let table = "\
16 record types|0|0|A|RECORD NAME R0 WITHIN M. 02 I PIC 9.\nRECORD NAME R1 WITHIN M. 02 I PIC 9.\nRECORD NAME R2 WITHIN M. 02 I PIC 9.\nRECORD NAME R3 WITHIN M. 02 I PIC 9.\nRECORD NAME R4 WITHIN M. 02 I PIC 9.\nRECORD NAME R5 WITHIN M. 02 I PIC 9.\nRECORD NAME R6 WITHIN M. 02 I PIC 9.\nRECORD NAME R7 WITHIN M. 02 I PIC 9.\nRECORD NAME R8 WITHIN M. 02 I PIC 9.\nRECORD NAME R9 WITHIN M. 02 I PIC 9.\nRECORD NAME R10 WITHIN M. 02 I PIC 9.\nRECORD NAME R11 WITHIN M. 02 I PIC 9.\nRECORD NAME R12 WITHIN M. 02 I PIC 9.\nRECORD NAME R13 WITHIN M. 02 I PIC 9.\nRECORD NAME R14 WITHIN M. 02 I PIC 9.\nRECORD NAME R15 WITHIN M. 02 I PIC 9.\n";
    assert_eq!(rt; wrong_case(&rt, table), "");
}

#[test]
fn limits_3(rt: HostRuntime) {
    let table = "\
17 record types|16|19|A|RECORD NAME R0 WITHIN M. 02 I PIC 9.\nRECORD NAME R1 WITHIN M. 02 I PIC 9.\nRECORD NAME R2 WITHIN M. 02 I PIC 9.\nRECORD NAME R3 WITHIN M. 02 I PIC 9.\nRECORD NAME R4 WITHIN M. 02 I PIC 9.\nRECORD NAME R5 WITHIN M. 02 I PIC 9.\nRECORD NAME R6 WITHIN M. 02 I PIC 9.\nRECORD NAME R7 WITHIN M. 02 I PIC 9.\nRECORD NAME R8 WITHIN M. 02 I PIC 9.\nRECORD NAME R9 WITHIN M. 02 I PIC 9.\nRECORD NAME R10 WITHIN M. 02 I PIC 9.\nRECORD NAME R11 WITHIN M. 02 I PIC 9.\nRECORD NAME R12 WITHIN M. 02 I PIC 9.\nRECORD NAME R13 WITHIN M. 02 I PIC 9.\nRECORD NAME R14 WITHIN M. 02 I PIC 9.\nRECORD NAME R15 WITHIN M. 02 I PIC 9.\nRECORD";
    assert_eq!(rt; wrong_case(&rt, table), "");
}

#[test]
fn limits_4(rt: HostRuntime) {
    let table = "\
a 17th record type behind one without items|17|18|A|RECORD NAME R0 WITHIN M. 02 I PIC 9.\nRECORD NAME R1 WITHIN M. 02 I PIC 9.\nRECORD NAME R2 WITHIN M. 02 I PIC 9.\nRECORD NAME R3 WITHIN M. 02 I PIC 9.\nRECORD NAME R4 WITHIN M. 02 I PIC 9.\nRECORD NAME R5 WITHIN M. 02 I PIC 9.\nRECORD NAME R6 WITHIN M. 02 I PIC 9.\nRECORD NAME R7 WITHIN M. 02 I PIC 9.\nRECORD NAME R8 WITHIN M. 02 I PIC 9.\nRECORD NAME R9 WITHIN M. 02 I PIC 9.\nRECORD NAME R10 WITHIN M. 02 I PIC 9.\nRECORD NAME R11 WITHIN M. 02 I PIC 9.\nRECORD NAME R12 WITHIN M. 02 I PIC 9.\nRECORD NAME R13 WITHIN M. 02 I PIC 9.\nRECORD NAME R14 WITHIN M. 02 I PIC 9.\nRECORD NAME R WITHIN M.\nRECORD";
    assert_eq!(rt; wrong_case(&rt, table), "");
}

#[test]
fn limits_5(rt: HostRuntime) {
    let table = "\
16 items|0|0|A|RECORD NAME R WITHIN M.\n02 I0 PIC 9.\n02 I1 PIC 9.\n02 I2 PIC 9.\n02 I3 PIC 9.\n02 I4 PIC 9.\n02 I5 PIC 9.\n02 I6 PIC 9.\n02 I7 PIC 9.\n02 I8 PIC 9.\n02 I9 PIC 9.\n02 I10 PIC 9.\n02 I11 PIC 9.\n02 I12 PIC 9.\n02 I13 PIC 9.\n02 I14 PIC 9.\n02 I15 PIC 9.\n";
    assert_eq!(rt; wrong_case(&rt, table), "");
}

#[test]
fn limits_6(rt: HostRuntime) {
    let table = "\
17 items|16|20|A|RECORD NAME R WITHIN M.\n02 I0 PIC 9.\n02 I1 PIC 9.\n02 I2 PIC 9.\n02 I3 PIC 9.\n02 I4 PIC 9.\n02 I5 PIC 9.\n02 I6 PIC 9.\n02 I7 PIC 9.\n02 I8 PIC 9.\n02 I9 PIC 9.\n02 I10 PIC 9.\n02 I11 PIC 9.\n02 I12 PIC 9.\n02 I13 PIC 9.\n02 I14 PIC 9.\n02 I15 PIC 9.\n02 I0";
    assert_eq!(rt; wrong_case(&rt, table), "");
}

#[test]
fn limits_7(rt: HostRuntime) {
    let table = "\
16 sets|0|0|T|SET NAME S0 ORDER LAST OWNER R. MEMBER Q OPTIONAL MANUAL.\nSET NAME S1 ORDER LAST OWNER R. MEMBER Q OPTIONAL MANUAL.\nSET NAME S2 ORDER LAST OWNER R. MEMBER Q OPTIONAL MANUAL.\nSET NAME S3 ORDER LAST OWNER R. MEMBER Q OPTIONAL MANUAL.\nSET NAME S4 ORDER LAST OWNER R. MEMBER Q OPTIONAL MANUAL.\nSET NAME S5 ORDER LAST OWNER R. MEMBER Q OPTIONAL MANUAL.\nSET NAME S6 ORDER LAST OWNER R. MEMBER Q OPTIONAL MANUAL.\nSET NAME S7 ORDER LAST OWNER R. MEMBER Q OPTIONAL MANUAL.\nSET NAME S8 ORDER LAST OWNER R. MEMBER Q OPTIONAL MANUAL.\nSET NAME S9 ORDER LAST OWNER R. MEMBER Q OPTIONAL MANUAL.\nSET NAME S10 ORDER LAST OWNER R. MEMBER Q OPTIONAL MANUAL.\nSET NAME S11 ORDER LAST OWNER R. MEMBER Q OPTIONAL MANUAL.\nSET NAME S12 ORDER LAST OWNER R. MEMBER Q OPTIONAL MANUAL.\nSET NAME S13 ORDER LAST OWNER R. MEMBER Q OPTIONAL MANUAL.\nSET NAME S14 ORDER LAST OWNER R. MEMBER Q OPTIONAL MANUAL.\nSET NAME S15 ORDER LAST OWNER R. MEMBER Q OPTIONAL MANUAL.\n";
    assert_eq!(rt; wrong_case(&rt, table), "");
}

#[test]
fn limits_8(rt: HostRuntime) {
    let table = "\
17 sets|16|24|T|SET NAME S0 ORDER LAST OWNER R. MEMBER Q OPTIONAL MANUAL.\nSET NAME S1 ORDER LAST OWNER R. MEMBER Q OPTIONAL MANUAL.\nSET NAME S2 ORDER LAST OWNER R. MEMBER Q OPTIONAL MANUAL.\nSET NAME S3 ORDER LAST OWNER R. MEMBER Q OPTIONAL MANUAL.\nSET NAME S4 ORDER LAST OWNER R. MEMBER Q OPTIONAL MANUAL.\nSET NAME S5 ORDER LAST OWNER R. MEMBER Q OPTIONAL MANUAL.\nSET NAME S6 ORDER LAST OWNER R. MEMBER Q OPTIONAL MANUAL.\nSET NAME S7 ORDER LAST OWNER R. MEMBER Q OPTIONAL MANUAL.\nSET NAME S8 ORDER LAST OWNER R. MEMBER Q OPTIONAL MANUAL.\nSET NAME S9 ORDER LAST OWNER R. MEMBER Q OPTIONAL MANUAL.\nSET NAME S10 ORDER LAST OWNER R. MEMBER Q OPTIONAL MANUAL.\nSET NAME S11 ORDER LAST OWNER R. MEMBER Q OPTIONAL MANUAL.\nSET NAME S12 ORDER LAST OWNER R. MEMBER Q OPTIONAL MANUAL.\nSET NAME S13 ORDER LAST OWNER R. MEMBER Q OPTIONAL MANUAL.\nSET NAME S14 ORDER LAST OWNER R. MEMBER Q OPTIONAL MANUAL.\nSET NAME S15 ORDER LAST OWNER R. MEMBER Q OPTIONAL MANUAL.\nSET";
    assert_eq!(rt; wrong_case(&rt, table), "");
}

#[test]
fn limits_9(rt: HostRuntime) {
    let table = "\
four members|0|0|A|RECORD NAME R0 WITHIN M. 02 I PIC 9.\nRECORD NAME R1 WITHIN M. 02 I PIC 9.\nRECORD NAME R2 WITHIN M. 02 I PIC 9.\nRECORD NAME R3 WITHIN M. 02 I PIC 9.\nRECORD NAME R4 WITHIN M. 02 I PIC 9.\nRECORD NAME R5 WITHIN M. 02 I PIC 9.\nSET NAME S ORDER LAST OWNER R0.\n MEMBER R1 MANDATORY AUTOMATIC.\n MEMBER R2 MANDATORY AUTOMATIC.\n MEMBER R3 MANDATORY AUTOMATIC.\n MEMBER R4 MANDATORY AUTOMATIC.\n";
    assert_eq!(rt; wrong_case(&rt, table), "");
}

#[test]
fn limits_10(rt: HostRuntime) {
    let table = "\
five members|16|14|A|RECORD NAME R0 WITHIN M. 02 I PIC 9.\nRECORD NAME R1 WITHIN M. 02 I PIC 9.\nRECORD NAME R2 WITHIN M. 02 I PIC 9.\nRECORD NAME R3 WITHIN M. 02 I PIC 9.\nRECORD NAME R4 WITHIN M. 02 I PIC 9.\nRECORD NAME R5 WITHIN M. 02 I PIC 9.\nSET NAME S ORDER LAST OWNER R0.\n MEMBER R1 MANDATORY AUTOMATIC.\n MEMBER R2 MANDATORY AUTOMATIC.\n MEMBER R3 MANDATORY AUTOMATIC.\n MEMBER R4 MANDATORY AUTOMATIC.\nMEMBER R0";
    assert_eq!(rt; wrong_case(&rt, table), "");
}
