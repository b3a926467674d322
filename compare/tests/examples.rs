//! Document 01's examples, held to the second program: the table's example, the program's, and "Examples, both sides".

use compare::second::answers::{pack, reading, Table};
use compare::second::limits::{SLOT_ROOM, TABLE_ROOM, TEXT_ROOM};
use compare::second::program::printed;

fn table(text: &[u8]) -> Vec<u8> {
    let read = reading(text, TABLE_ROOM);
    assert_eq!(read.packed, pack(0, read.written.len(), 0, 0), "{} is read", text.escape_ascii());
    read.written
}

fn refused(text: &[u8], number: usize, place: usize) {
    let read = reading(text, TABLE_ROOM);
    assert_eq!((read.packed, read.written.len()), (pack(number, place, 0, 0), 0), "{}", text.escape_ascii());
}

#[test]
fn the_table_of_house_and_line() {
    let bytes = [
        0x00, 0x05, 0x00, 0x02, 0x40, 0x02, 0x20, 0x00, 0x50, 0x02, 0x00, 0x01, 0x20, 0x00, 0x05, 0x68, 0x6F, 0x75,
        0x73, 0x65, 0x04, 0x6C, 0x69, 0x6E, 0x65,
    ];
    assert_eq!(table(b"(house*,(line,house*)?)"), bytes);
    assert_eq!(table(b" ( house*\t, (\nline,house* )? )\n"), bytes);
    assert_eq!(Table::new(&bytes).writing(TEXT_ROOM).written, b"(house*,(line,house*)?)");
    assert_eq!(Table::new(&bytes).counting().packed, pack(0, 5, 3, 2));
}

#[test]
fn the_program() {
    assert_eq!(printed(b"(house*,line?,house*)\nhouse house\n"), b"model 4 3 2\nambiguous 0 1 3 house\n");
    assert_eq!(printed(b"(a,b)\na b a"), b"model 3 2 2\ndeterministic\nstopped 3 2 a\n");
    assert_eq!(printed(b"(a,b)"), b"model 3 2 2\ndeterministic\nshort 0 0\n");
    assert_eq!(printed(b"(a,b)\na\tb\n"), b"model 3 2 2\ndeterministic\nallowed 2\n");
    assert_eq!(printed(b"(a,b)\na #"), b"model 3 2 2\ndeterministic\nchildren refused 22 2\n");
    assert_eq!(printed(b"(#PCDATA)\n"), b"refused 3 1\n");
    assert_eq!(printed(b""), b"refused 4 0\n");
}

#[test]
fn verdicts() {
    let ambiguous: [(&[u8], usize, usize, usize); 6] = [
        (b"(a,b*,b)", 1, 2, 3),
        (b"(a?,a)", 0, 1, 2),
        (b"((a,b)|(a,c))", 0, 1, 3),
        (b"((a|b)*,a)", 0, 1, 3),
        (b"(a,a?)*", 1, 1, 2),
        (b"(house*,line?,house*)", 0, 1, 3),
    ];
    for (text, p, x, y) in ambiguous {
        assert_eq!(Table::new(&table(text)).judging().packed, pack(24, p, x, y), "{}", text.escape_ascii());
    }
    for text in [&b"((a*)*)"[..], b"(a,(b|c)+,d)", b"(house*,(line,house*)?)"] {
        assert_eq!(Table::new(&table(text)).judging().packed, 0, "{}", text.escape_ascii());
    }
}

#[test]
fn child_lists() {
    let houses = table(b"(house*,(line,house*)?)");
    let allowed = Table::new(&houses).matching(b"house house line house", SLOT_ROOM);
    assert_eq!((allowed.packed, allowed.written), (pack(0, 4, 0, 0), vec![1, 1, 2, 3]));
    assert_eq!(Table::new(&houses).matching(b"", SLOT_ROOM).packed, pack(0, 0, 0, 0));
    let bytes = table(b"(a,b)");
    let pair = Table::new(&bytes);
    assert_eq!(pair.matching(b"", SLOT_ROOM).packed, pack(2, 0, 0, 0));
    assert_eq!(pair.parting(b"").packed, pack(2, 0, 0, 0));
    let stopped = pair.matching(b"a b a", SLOT_ROOM);
    assert_eq!((stopped.packed, stopped.written), (pack(1, 3, 2, 0), vec![1, 2]));
    assert_eq!(pair.parting(b"a b a").packed, pack(0, 4, 1, 0));
    assert_eq!(pair.parting(b"a").packed, pack(1, 11, 1, 0));
    // Judged over the whole child text before any answer.
    assert_eq!(pair.matching(b"c #", SLOT_ROOM).packed, pack(22, 2, 0, 0));
    assert_eq!(pair.stepping(1, b"b").packed, pack(0, 2, 0, 0));
    assert_eq!(pair.stepping(1, b"").packed, pack(1, 0, 0, 0));
    assert_eq!(pair.stepping(3, b"").packed, pack(26, 0, 0, 0));
}

#[test]
fn texts_refused() {
    refused(b"(a|b,c)", 4, 4);
    refused(b"()", 4, 1);
    refused(b"(a", 4, 2);
    refused(b"(a *)", 4, 3);
    refused(b"(a**)", 4, 3);
    refused(b"(#PCDATA)", 3, 1);
    refused(b"", 4, 0);
    // The open points: 3 shows only by a tie; misplaced name bytes meet 4; a limit met before the text breaks wins.
    refused(b"(a)b#", 4, 3);
    refused(b" \n", 4, 2);
    refused(b"(1a)", 4, 1);
    refused(b"(a\r)", 3, 2);
    refused(b"(a)**", 4, 4);
    refused(b"a", 4, 0);
    refused(&[b"(".as_slice(), &[b'a'; 65]].concat(), 5, 65);
    refused(&[b"(".as_slice(), &[b'a'; 64], b"#"].concat(), 3, 65);
    refused(&[b' '; 4097], 1, 4096);
}

#[test]
fn limits_of_nodes_and_groups() {
    let nests = |last: &str| format!("({}{last})", "(((a))),".repeat(127)).into_bytes();
    refused(&nests("(((a)))"), 8, 1020);
    assert_eq!(Table::new(&table(&nests("((a))"))).counting().packed, pack(0, 512, 128, 1));
    let around = |groups: usize| format!("{}a{}", "(".repeat(groups), ")".repeat(groups)).into_bytes();
    table(&around(32));
    refused(&around(33), 6, 32);
    // The 129th slot is the 513th node: the lower number on a tie.
    refused(&nests("((a)),a"), 7, 1023);
}
