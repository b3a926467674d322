//! The second program held to itself and to plainer accounts of document 01: texts by completing and by rewriting,
//! lists by writing all of them out.

use std::collections::BTreeSet;

use compare::harness::chance::Chance;
use compare::harness::generate;
use compare::second::answers::{pack, reading, Table};
use compare::second::derivatives::States;
use compare::second::grammar::{in_name, is_white, standing, starts_name};
use compare::second::limits::{SLOT_ROOM, TABLE_ROOM, TEXT_ROOM};
use compare::second::table::{distinct, encode, load};
use compare::second::tree::{Body, Mark, Tree};
use compare::second::Clash;

/// Whether a text is a model, by rewriting: white space goes where it may stand, names with their marks become
/// particles, and an innermost group with its mark becomes a particle, until one group is left.
fn is_model(text: &[u8]) -> bool {
    let mut short = String::new();
    let mut before = b'(';
    for run in text.chunk_by(|one, other| class(*one) == class(*other) && class(*one) < 2) {
        let after = text.get(run.as_ptr() as usize - text.as_ptr() as usize + run.len()).copied().unwrap_or(b')');
        match class(run[0]) {
            0 if b"(,|".contains(&before) || b"),|".contains(&after) => continue,
            0 => return false,
            1 if !starts_name(run[0]) => return false,
            1 => short.push('n'),
            _ => short.push(run[0] as char),
        }
        before = run[0];
    }
    for name in ["n?", "n*", "n+", "n"] {
        short = short.replace(name, "p");
    }
    loop {
        let Some(close) = short.find(')') else { return short == "P" };
        let Some(open) = short[..close].rfind('(') else { return false };
        let particles = |joint: char| short[open + 1..close].split(joint).all(|one| one == "p" || one == "P");
        if !particles(',') && !particles('|') {
            return false;
        }
        let marked = short[close + 1..].starts_with(['?', '*', '+']) as usize;
        short = format!("{}P{}", &short[..open], &short[close + 1 + marked..]);
    }
}

/// White space, bytes of names, and others.
fn class(byte: u8) -> usize {
    if is_white(byte) {
        0
    } else if in_name(byte) {
        1
    } else {
        2
    }
}

/// Whether a text begins a model, by completing it: perhaps a name, then every open group is closed.
fn begins(text: &[u8]) -> bool {
    let open = text.iter().filter(|byte| **byte == b'(').count() as isize;
    let open = open - text.iter().filter(|byte| **byte == b')').count() as isize;
    if open < 0 {
        return false;
    }
    [&b""[..], b"a", b"(a)"].iter().any(|next| is_model(&[text, next, &b")".repeat(open as usize)].concat()))
}

#[test]
fn texts_by_completing_and_rewriting() {
    for case in 0..6_000 {
        let mut chance = Chance::of_case(11, case);
        let text = generate::text(&mut chance);
        if text.len() > 60 {
            continue;
        }
        let longest = (0..=text.len()).take_while(|end| begins(&text[..*end])).last();
        let standing = standing(&text);
        assert_eq!((Some(standing.begins), standing.model), (longest, is_model(&text)), "{}", text.escape_ascii());
    }
}

#[test]
fn reading_and_writing_give_each_other_back() {
    let mut read = 0;
    for case in 0..6_000 {
        let mut chance = Chance::of_case(12, case);
        let text = generate::text(&mut chance);
        let table = reading(&text, TABLE_ROOM).written;
        if !table.is_empty() {
            read += 1;
            let written = Table::new(&table).writing(TEXT_ROOM).written;
            assert_eq!(written, text.iter().copied().filter(|byte| !is_white(*byte)).collect::<Vec<u8>>());
            assert_eq!(reading(&written, TABLE_ROOM).written, table);
        }
    }
    assert!(read > 1_000);
}

#[test]
fn a_table_loads_exactly_if_a_model_gives_it() {
    let (mut loaded, mut refused) = (0, 0);
    for case in 0..12_000 {
        let mut chance = Chance::of_case(13, case);
        let bytes = generate::table(&mut chance);
        match load(&bytes) {
            Ok(table) => {
                loaded += 1;
                assert_eq!(encode(&table.tree), bytes);
                assert_eq!(reading(&table.tree.text(), TABLE_ROOM).written, bytes);
            }
            Err(refusal) => {
                refused += 1;
                assert!((11..=17).contains(&refusal.number) && refusal.place == 0);
            }
        }
    }
    assert!(loaded > 2_000 && refused > 2_000);
}

/// All lists of at most `most` slots that a tree allows, from the sentences of "Meaning"; slots are given in order.
fn lists(tree: &Tree, slot: &mut usize, most: usize) -> BTreeSet<Vec<usize>> {
    let once: BTreeSet<Vec<usize>> = match &tree.body {
        Body::Name(_) => {
            *slot += 1;
            BTreeSet::from([vec![*slot]])
        }
        Body::Sequence(members) => {
            let start = BTreeSet::from([Vec::new()]);
            members.iter().fold(start, |before, member| joined(&before, &lists(member, slot, most), most))
        }
        Body::Choice(members) => members.iter().flat_map(|member| lists(member, slot, most)).collect(),
    };
    let empty = BTreeSet::from([Vec::new()]);
    let mut any = empty.clone();
    loop {
        let more: BTreeSet<Vec<usize>> = any.union(&joined(&any, &once, most)).cloned().collect();
        if more == any {
            break;
        }
        any = more;
    }
    match tree.mark {
        Mark::Plain => once,
        Mark::Optional => once.union(&empty).cloned().collect(),
        Mark::Star => any,
        Mark::Plus => joined(&once, &any, most),
    }
}

fn joined(firsts: &BTreeSet<Vec<usize>>, seconds: &BTreeSet<Vec<usize>>, most: usize) -> BTreeSet<Vec<usize>> {
    let join = |first: &Vec<usize>| {
        let first = first.clone();
        seconds.iter().map(move |second| [first.as_slice(), second].concat())
    };
    firsts.iter().flat_map(join).filter(|list| list.len() <= most).collect()
}

/// A small tree with names of one letter, from few or from many.
fn small_tree(chance: &mut Chance, slots: usize) -> Tree {
    let mut tree = generate::tree(chance, &mut generate::Names::fresh(), slots, 3);
    let letters: &[u8] = if chance.once_in(2) { b"ab" } else { b"abcd" };
    rename(&mut tree, chance, letters);
    tree
}

fn rename(tree: &mut Tree, chance: &mut Chance, letters: &[u8]) {
    match &mut tree.body {
        Body::Name(name) => *name = vec![chance.pick(letters)],
        Body::Sequence(members) | Body::Choice(members) => {
            members.iter_mut().for_each(|member| rename(member, chance, letters))
        }
    }
}

/// The smallest clash between two of the lists, by Definition 1.
fn smallest_clash(lists: &BTreeSet<Vec<usize>>, names: &[&[u8]]) -> Option<Clash> {
    // Every beginning of a list, with the slots that come next.
    let mut next: std::collections::BTreeMap<&[usize], BTreeSet<usize>> = Default::default();
    for list in lists {
        for at in 0..list.len() {
            next.entry(&list[..at]).or_default().insert(list[at]);
        }
    }
    let mut smallest = None;
    for (beginning, slots) in next {
        let p = beginning.last().copied().unwrap_or(0);
        for x in &slots {
            for y in slots.range(x + 1..) {
                if names[x - 1] == names[y - 1] {
                    let clash = Clash { p, x: *x, y: *y };
                    smallest = Some(smallest.map_or(clash, |known: Clash| known.min(clash)));
                }
            }
        }
    }
    smallest
}

#[test]
fn verdicts_and_matches_by_writing_all_lists_out() {
    let (mut ambiguous, mut matched) = (0, 0);
    for case in 0..1_500 {
        let mut chance = Chance::of_case(14, case);
        let slots = chance.within(1, 3);
        let tree = small_tree(&mut chance, slots);
        let names = tree.leaves();
        // A slot is reached within `slots` steps, and from the next one an end within as many.
        let all = lists(&tree, &mut 0, 2 * slots + 1);
        let numbers: Vec<usize> =
            names.iter().map(|name| distinct(&tree).iter().position(|other| other == name).unwrap()).collect();
        let states = States::explore(&tree, &numbers);
        let what = String::from_utf8(tree.text()).unwrap();
        assert_eq!(states.clash, smallest_clash(&all, &names), "{what}");
        let bytes = encode(&tree);
        let table = Table::new(&bytes);
        if states.clash.is_some() {
            ambiguous += 1;
            continue;
        }
        // Every list of at most slots + 1 letters: beginnings of allowed lists of at most 2 * slots + 1 are all
        // beginnings.
        let letters: Vec<&[u8]> = distinct(&tree).into_iter().chain([&b"q"[..]]).collect();
        let mut words: Vec<Vec<&[u8]>> = vec![Vec::new()];
        let mut from = 0;
        for _ in 0..=slots {
            let to = words.len();
            for word in from..to {
                for letter in &letters {
                    words.push([words[word].as_slice(), &[*letter]].concat());
                }
            }
            from = to;
        }
        for word in words {
            matched += 1;
            let named = |list: &[usize]| list.iter().map(|slot| names[slot - 1]).collect::<Vec<_>>();
            let held = |length: usize| {
                let begins = |list: &&Vec<usize>| list.len() >= length && named(&list[..length]) == word[..length];
                all.iter().find(begins).map(|list| list[..length].to_vec())
            };
            let placed = (0..=word.len()).rev().find(|length| held(*length).is_some()).unwrap();
            let slots = held(placed).unwrap();
            let slot = slots.last().copied().unwrap_or(0);
            let expected = if placed < word.len() {
                pack(1, placed + 1, slot, 0)
            } else if all.contains(&slots) {
                pack(0, placed, 0, 0)
            } else {
                pack(2, placed, slot, 0)
            };
            let text = word.join(&b' ');
            let answer = table.matching(&text, SLOT_ROOM);
            let written: Vec<usize> = answer.written.iter().map(|slot| *slot as usize).collect();
            assert_eq!((answer.packed, written), (expected, slots.clone()), "{what} {}", text.escape_ascii());
            // A whole list equals its steps, each from the slot before.
            let mut before = 0;
            for (at, name) in word.iter().enumerate().take(placed + 1) {
                let step = table.stepping(before, name).packed;
                assert_eq!(step, slots.get(at).map_or(pack(1, 0, 0, 0), |slot| pack(0, *slot, 0, 0)));
                before = slots.get(at).copied().unwrap_or(0);
            }
        }
    }
    assert!(ambiguous > 150 && matched > 5_000);
}
