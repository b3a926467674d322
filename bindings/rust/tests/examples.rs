//! Document 01's examples, through the wrapper.

use slots::*;

/// The table of a model that is read.
fn table(text: &[u8]) -> Vec<u8> {
    let mut room = [0; TABLE_ROOM];
    let Read::Table(length) = read(text, &mut room) else { panic!("{} is read", text.escape_ascii()) };
    room[..length].to_vec()
}

fn clash(p: usize, x: usize, y: usize) -> Clash {
    Clash { p: Slot(p), x: Slot(x), y: Slot(y) }
}

#[test]
fn reading_and_writing() {
    let houses = table(b" (house*, (line,house*)? )");
    assert_eq!(houses.len(), 25);
    assert_eq!(count(&houses), Counted::Counts { nodes: 5, slots: 3, names: 2 });
    let mut room = [b'#'; TEXT_ROOM];
    assert_eq!(write(&houses, &mut room), Written::Text(23));
    assert_eq!(&room[..24], b"(house*,(line,house*)?)#");
    assert_eq!(write(&houses, &mut room[1..]), Written::Refused(Refusal::TextRoom));
}

#[test]
fn refusals() {
    let mut room = [0; TABLE_ROOM];
    let mut refused = |text: &[u8], number: u8, place: usize| {
        let Read::Refused(refusal) = read(text, &mut room) else { panic!("{} is refused", text.escape_ascii()) };
        assert_eq!((refusal.number(), refusal.place()), (number, place));
    };
    refused(b"(a|b,c)", 4, 4);
    refused(b"()", 4, 1);
    refused(b"(a", 4, 2);
    refused(b"(a *)", 4, 3);
    refused(b"(a**)", 4, 3);
    refused(b"(#PCDATA)", 3, 1);
    refused(b"", 4, 0);
    refused(&[b' '; 4097], 1, 4096);
    refused(format!("({}(((a))))", "(((a))),".repeat(127)).as_bytes(), 8, 1020);
    refused(format!("{}a{}", "(".repeat(33), ")".repeat(33)).as_bytes(), 6, 32);
    assert_eq!(read(b"(a)", &mut [0; 5]), Read::Refused(Refusal::TableRoom));
    assert_eq!(judge(b""), Verdict::Refused(Refusal::TableTooShort));
    assert_eq!(count(&[0; 4]), Counted::Refused(Refusal::BadCounts));
}

#[test]
fn verdicts() {
    assert_eq!(judge(&table(b"(a,b*,b)")), Verdict::Ambiguous(clash(1, 2, 3)));
    assert_eq!(judge(&table(b"(a?,a)")), Verdict::Ambiguous(clash(0, 1, 2)));
    assert_eq!(judge(&table(b"((a,b)|(a,c))")), Verdict::Ambiguous(clash(0, 1, 3)));
    assert_eq!(judge(&table(b"((a|b)*,a)")), Verdict::Ambiguous(clash(0, 1, 3)));
    assert_eq!(judge(&table(b"(a,a?)*")), Verdict::Ambiguous(clash(1, 1, 2)));
    assert_eq!(judge(&table(b"((a*)*)")), Verdict::Deterministic);
    assert_eq!(judge(&table(b"(a,(b|c)+,d)")), Verdict::Deterministic);
}

#[test]
fn matching_and_steps() {
    let mut slots = [9; SLOT_ROOM];
    let houses = table(b"(house*,(line,house*)?)");
    assert_eq!(match_children(&houses, b"house house line house", &mut slots), Matched::Allowed(4));
    assert_eq!(slots[..5], [1, 1, 2, 3, 9]);
    assert_eq!(match_children(&houses, b"", &mut slots), Matched::Allowed(0));
    let pair = table(b"(a,b)");
    assert_eq!(match_children(&pair, b"", &mut slots), Matched::Short { n: 0, slot: Slot(0) });
    assert_eq!(match_children(&pair, b"a b a", &mut slots), Matched::Stopped { k: 3, slot: Slot(2) });
    assert_eq!(match_children(&pair, b"c #", &mut slots), Matched::Refused(Refusal::ChildByte(2)));
    assert_eq!(match_children(&pair, b"", &mut slots[1..]), Matched::Refused(Refusal::SlotRoom));
    let ambiguous = table(b"(a?,a)");
    let refused = Refusal::Ambiguous(clash(0, 1, 2));
    assert_eq!(match_children(&ambiguous, b"", &mut slots), Matched::Refused(refused));
    assert_eq!(step(&ambiguous, Slot(9), b"a"), Stepped::Refused(refused));
    assert_eq!(step(&pair, Slot(1), b"b"), Stepped::Next(Slot(2)));
    assert_eq!(step(&pair, Slot(1), b""), Stepped::Nowhere);
    assert_eq!(step(&pair, Slot(3), b"b"), Stepped::Refused(Refusal::NoSuchSlot));
}

#[test]
fn a_name_part_is_a_part_of_what_was_lent() {
    let pair = table(b"(a,b)");
    let children = b"a b a";
    assert_eq!(name_part(&pair, children).as_ptr_range(), children[4..5].as_ptr_range());
    assert_eq!(name_part(&pair, &children[..1]).as_ptr_range(), pair[11..12].as_ptr_range());
    assert_eq!(name_part(&pair, &children[..3]).as_ptr_range(), children[3..3].as_ptr_range());
    assert_eq!(name_part(&pair[1..], children).as_ptr_range(), children[5..].as_ptr_range());
}
