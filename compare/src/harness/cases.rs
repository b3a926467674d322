//! The cases of a run. Each is made from the run's seed and its own number alone, so that it can be made again.

use super::chance::Chance;
use super::generate;
use super::lent::Pattern;
use super::library::Library;
use super::questions::{Difference, Questions};
use super::tally::Tally;
use crate::second::answers::Table;
use crate::second::children::Checked;
use crate::second::limits;

/// Runs one case.
pub fn run(library: Library, pattern: &Pattern, tally: &mut Tally, seed: u64, case: u64) -> Result<(), Difference> {
    let mut ask = Questions { library, pattern, chance: Chance::of_case(seed, case), tally };
    match case % 8 {
        0..=3 => model(&mut ask),
        4..=6 => {
            ask.tally.tables += 1;
            let bytes = generate::table(&mut ask.chance);
            table(&mut ask, &Table::new(&bytes), 1)
        }
        _ if ask.chance.once_in(500) => {
            ask.tally.lists += 1;
            let (bytes, children) = generate::most_children(&mut ask.chance);
            let table = Table::new(&bytes);
            ask.matching(&table, &children, limits::SLOT_ROOM)?;
            ask.part(&table, &children)
        }
        _ => {
            let bytes = generate::deterministic_table(&mut ask.chance);
            table(&mut ask, &Table::new(&bytes), 3)
        }
    }
}

/// A room's length: mostly what is asked for, often one byte less, else any.
fn room(chance: &mut Chance, asked: usize) -> usize {
    match chance.below(32) {
        0 | 1 => asked - 1,
        2 => chance.below(asked),
        3 => asked + chance.below(200),
        _ => asked,
    }
}

/// A model text; if it is read, then now and then its table too.
fn model(ask: &mut Questions) -> Result<(), Difference> {
    ask.tally.models += 1;
    let text = generate::text(&mut ask.chance);
    let room = room(&mut ask.chance, limits::TABLE_ROOM);
    let bytes = ask.read(&text, room)?;
    if bytes.is_empty() || !ask.chance.once_in(3) {
        return Ok(());
    }
    let read = Table::new(&bytes);
    if let Ok(checked) = &read.checked {
        // Reading the text written from a table gives the table back.
        ask.read(&checked.loaded.tree.text(), limits::TABLE_ROOM)?;
    }
    table(ask, &read, 1)
}

/// Every question of a table, with so many child lists.
fn table(ask: &mut Questions, table: &Table, lists: usize) -> Result<(), Difference> {
    let text_room = room(&mut ask.chance, limits::TEXT_ROOM);
    ask.write(table, text_room)?;
    ask.judge(table)?;
    ask.count(table)?;
    for _ in 0..lists {
        ask.tally.lists += 1;
        let children = match &table.checked {
            Ok(checked) => generate::children(&mut ask.chance, &checked.states, &names(checked, table)),
            Err(_) => generate::any_children(&mut ask.chance),
        };
        let slot_room = room(&mut ask.chance, limits::SLOT_ROOM);
        ask.matching(table, &children, slot_room)?;
        ask.part(table, &children)?;
    }
    steps(ask, table)
}

/// The names of a model, by number.
fn names(checked: &Checked, table: &Table) -> Vec<Vec<u8>> {
    checked.loaded.names.iter().map(|place| table.bytes[place.start..place.start + place.length].to_vec()).collect()
}

/// Single steps: from every slot and one above the last by every name, if the model is small; else some. Then steps
/// from any number by any bytes.
fn steps(ask: &mut Questions, table: &Table) -> Result<(), Difference> {
    let Ok(checked) = &table.checked else {
        return ask.step(table, 0, b"a");
    };
    let (slots, names) = (checked.states.numbers.len(), names(checked, table));
    if checked.states.clash.is_some() {
        return ask.step(table, slots + 1, &names[0]);
    }
    if slots <= 4 {
        for slot in 0..=slots + 1 {
            for name in &names {
                ask.step(table, slot, name)?;
            }
        }
    }
    for _ in 0..4 {
        let slot = match ask.chance.below(8) {
            0 => ask.chance.pick(&[slots + 1, 128, 129, 255, 256, 65536, 1 << 32, usize::MAX]),
            1 => slots,
            _ => ask.chance.within(0, slots),
        };
        let name = generate::step_name(&mut ask.chance, &names);
        ask.step(table, slot, &name)?;
    }
    // A step that leads somewhere, to the highest slot or any.
    let state = &checked.states.states[ask.chance.below(checked.states.states.len())];
    let highest = ask.chance.once_in(2);
    let any = ask.chance.below(state.next.len().max(1));
    let to = if highest { state.next.keys().next_back() } else { state.next.keys().nth(any) };
    match to {
        Some(to) => ask.step(table, state.last, &names[checked.states.name(*to)]),
        None => Ok(()),
    }
}

/// Standard input for the program `slots`: a model, mostly without line feeds, then mostly a line feed and child text; now
/// and then more than the program has to read.
pub fn program_input(seed: u64, case: u64) -> Vec<u8> {
    let mut chance = Chance::of_case(seed, case);
    let mut input = if chance.once_in(2) {
        generate::text(&mut chance)
    } else {
        let bytes = generate::deterministic_table(&mut chance);
        Table::new(&bytes).writing(limits::TEXT_ROOM).written
    };
    if !chance.once_in(8) {
        input.retain(|byte| *byte != b'\n');
    }
    let read = crate::second::answers::reading(&input, limits::TABLE_ROOM).written;
    if chance.once_in(8) {
        return input;
    }
    input.push(b'\n');
    let table = Table::new(&read);
    if let Ok(checked) = &table.checked {
        input.extend(generate::children(&mut chance, &checked.states, &names(checked, &table)));
    }
    if chance.once_in(50) {
        // More than the program has to read.
        input.extend(vec![chance.pick(b" a\n#"); chance.pick(&[17_000, 21_000, 65_536, 70_000, 200_000])]);
    }
    input
}
