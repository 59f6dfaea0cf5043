//! The text of a schema with each kind of line, worked out by hand from docs/profile/diagrams.md.

use dbtg_draw::{dot_text, schema_lines};
use dbtg_schema::Schema;
use std::test::*;

const SCHEMA: &[u8] = b"SCHEMA NAME IS A.\nAREA NAME IS M.\nAREA NAME IS N.\nRECORD NAME IS R; LOCATION MODE IS CALC USING I J DUPLICATES ARE NOT ALLOWED; WITHIN M.\n  02 I PICTURE IS 9(1).\n  02 J PICTURE IS X(2).\nRECORD NAME IS Q; WITHIN N.\n  02 K PICTURE IS 9(3).\nSET NAME IS S; ORDER IS SORTED DESCENDING DUPLICATES ARE FIRST; OWNER IS R.\n  MEMBER IS Q OPTIONAL MANUAL; KEY IS K.\nSET NAME IS W; ORDER IS PRIOR; OWNER IS SYSTEM.\n  MEMBER IS R MANDATORY AUTOMATIC.\n";

const DOT: &[u8] = b"digraph \"A\" {\ngraph [rankdir=TB labelloc=t bgcolor=white nodesep=0.2 ranksep=0.35 splines=polyline fontname=monospace fontsize=10]\nnode [shape=record style=filled colorscheme=pastel28 height=0 margin=\"0.06,0.03\" fontname=monospace fontsize=10]\nedge [arrowsize=0.7 fontname=monospace fontsize=10]\nlabel=<<table border=\"0\" cellborder=\"1\" cellspacing=\"4\">\n<tr><td border=\"0\" colspan=\"2\"><b>SCHEMA A</b></td></tr>\n<tr>\n<td bgcolor=\"/pastel28/1\">M</td>\n<td bgcolor=\"/pastel28/2\">N</td>\n</tr>\n<tr><td border=\"0\" colspan=\"2\" balign=\"left\">MA, MM, OA, OM: MANDATORY or OPTIONAL, AUTOMATIC or MANUAL<br/>CALC .. DA, DN: DUPLICATES ALLOWED, NOT ALLOWED<br/>SORTED .. DF, DL, DN: DUPLICATES FIRST, LAST, NOT ALLOWED<br/></td></tr>\n</table>>\n\"R\" [fillcolor=1 label=\"{R|CALC (I, J) DN\\lM\\l|I 9(1)\\lJ X(2)\\l}\"]\n\"Q\" [fillcolor=2 label=\"{Q|N\\l|K 9(3)\\l}\"]\n\"R\" -> \"Q\" [label=<<table border=\"0\"><tr><td balign=\"left\">S OM<br/>SORTED DES (K) DF<br/></td></tr></table>>]\n\"SYSTEM W\" [shape=plaintext style=\"\" width=0 label=SYSTEM]\n\"SYSTEM W\" -> \"R\" [label=<<table border=\"0\"><tr><td balign=\"left\">W MA<br/>PRIOR<br/></td></tr></table>>]\n}\n";

const LINES: &[u8] = b"SCHEMA A\nAREA M\nAREA N\nRECORD R WITHIN M, I 9(1), J X(2), CALC (I, J) DN\nRECORD Q WITHIN N, K 9(3)\nSET S OWNER R, MEMBER Q OM SORTED DES (K) DF\nSET W OWNER SYSTEM, MEMBER R MA PRIOR\n";

fn is_dot(rt: &HostRuntime) -> bool {
    match Schema::read(rt.alloc(), SCHEMA) {
        Ok(schema) => match dot_text(rt.alloc(), &schema) {
            Ok(text) => text.as_slice() == DOT,
            Err(_) => false,
        },
        Err(_) => false,
    }
}

#[test]
fn a_schema_is_drawn_for_graphviz(rt: HostRuntime) {
    assert!(rt; is_dot(&rt));
}

fn is_listed(rt: &HostRuntime) -> bool {
    match Schema::read(rt.alloc(), SCHEMA) {
        Ok(schema) => match schema_lines(rt.alloc(), &schema) {
            Ok(text) => text.as_slice() == LINES,
            Err(_) => false,
        },
        Err(_) => false,
    }
}

#[test]
fn a_schema_is_shown_in_lines(rt: HostRuntime) {
    assert!(rt; is_listed(&rt));
}
