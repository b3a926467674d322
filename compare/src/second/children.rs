//! Child text, matching, a single step and the name part, over the states that derivatives give.

use std::collections::BTreeSet;

use super::derivatives::States;
use super::grammar::{in_name, is_white, starts_name};
use super::table::{load, Loaded};
use super::{limits, refuse, Clash, Refusal};

/// A table that is not refused, with its states.
pub struct Checked {
    pub loaded: Loaded,
    pub states: States,
}

impl Checked {
    /// 11 to 17.
    pub fn new(table: &[u8]) -> Result<Checked, Refusal> {
        let loaded = load(table)?;
        let states = States::explore(&loaded.tree, &loaded.numbers);
        Ok(Checked { loaded, states })
    }

    /// 24, met only where matching or a step was wanted.
    fn deterministic(&self) -> Result<(), Refusal> {
        match self.states.clash {
            Some(Clash { p, x, y }) => Err(Refusal { number: 24, place: 0, clash: Some(Clash { p, x, y }) }),
            None => Ok(()),
        }
    }

    /// The number of a name, if it is one of the model's.
    fn number(&self, table: &[u8], name: &[u8]) -> Option<usize> {
        self.loaded.names.iter().position(|place| &table[place.start..place.start + place.length] == name)
    }

    /// The states that a name leads to, from several; all of one slot, as the model is not ambiguous.
    fn by_name(&self, from: &BTreeSet<usize>, number: usize) -> BTreeSet<usize> {
        let next = from.iter().flat_map(|state| &self.states.states[*state].next);
        let to: BTreeSet<usize> =
            next.filter(|(slot, _)| self.states.name(**slot) == number).map(|(_, state)| *state).collect();
        assert!(to.iter().map(|state| self.states.states[*state].last).collect::<BTreeSet<_>>().len() <= 1);
        to
    }

    fn held(&self, states: &BTreeSet<usize>) -> usize {
        self.states.states[*states.first().expect("some state is held")].last
    }
}

/// A child's name: where it starts in the child text, and its bytes.
#[derive(Clone, Copy, Debug, PartialEq, Eq)]
pub struct Child<'a> {
    pub start: usize,
    pub name: &'a [u8],
}

/// The names between runs of white space: 21, then the least place of 22 and 23 over the whole text.
pub fn children(text: &[u8]) -> Result<Vec<Child<'_>>, Refusal> {
    if text.len() > limits::CHILDREN {
        return refuse(21, limits::CHILDREN);
    }
    let mut start = 0;
    let mut found = Vec::new();
    for name in text.split(|byte| is_white(*byte)) {
        if let Some(&first) = name.first() {
            let wrong = if starts_name(first) { name.iter().position(|byte| !in_name(*byte)) } else { Some(0) };
            if wrong.unwrap_or(name.len()) > limits::NAME {
                return refuse(23, start + limits::NAME);
            }
            if let Some(wrong) = wrong {
                return refuse(22, start + wrong);
            }
            found.push(Child { start, name });
        }
        start += name.len() + 1;
    }
    Ok(found)
}

/// One of the three answers of matching.
#[derive(Clone, Copy, Debug, PartialEq, Eq)]
pub enum Matched {
    Allowed(usize),
    Stopped(usize, usize),
    Short(usize, usize),
}

/// Matches children and gives the slots of those placed: 24, 25, 21, then the least place of 22 and 23. `room` is the
/// slot room's length; without one there is no 25.
pub fn matched(
    checked: &Checked,
    table: &[u8],
    text: &[u8],
    room: Option<usize>,
) -> Result<(Matched, Vec<u8>), Refusal> {
    checked.deterministic()?;
    if room.is_some_and(|room| room < limits::SLOT_ROOM) {
        return refuse(25, 0);
    }
    let children = children(text)?;
    let mut states = BTreeSet::from([0]);
    let mut slots = Vec::new();
    for (placed, child) in children.iter().enumerate() {
        let to = checked.number(table, child.name).map(|number| checked.by_name(&states, number)).unwrap_or_default();
        if to.is_empty() {
            return Ok((Matched::Stopped(placed + 1, checked.held(&states)), slots));
        }
        slots.push(checked.held(&to) as u8);
        states = to;
    }
    if states.iter().any(|state| checked.states.states[*state].may_end) {
        return Ok((Matched::Allowed(children.len()), slots));
    }
    Ok((Matched::Short(children.len(), checked.held(&states)), slots))
}

/// A name as a part of what was lent.
#[derive(Clone, Copy, Debug, PartialEq, Eq)]
pub enum NamePart {
    OfChildren { start: usize, length: usize },
    OfTable { start: usize, length: usize },
    ChildrenEnd,
}

/// For stopped the child's name in the child text; for short the held slot's name in the table, if it is not 0; else
/// the empty part at the child text's end.
pub fn name_part(checked: &Checked, table: &[u8], text: &[u8]) -> NamePart {
    match matched(checked, table, text, None) {
        Ok((Matched::Stopped(k, _), _)) => {
            let child = children(text).expect("matching took it")[k - 1];
            NamePart::OfChildren { start: child.start, length: child.name.len() }
        }
        Ok((Matched::Short(_, slot), _)) if slot > 0 => {
            let place = checked.loaded.names[checked.states.name(slot)];
            NamePart::OfTable { start: place.start, length: place.length }
        }
        _ => NamePart::ChildrenEnd,
    }
}

/// A single step: 24, 26, then the next slot or none. The next slot is one that comes after some list that ends in
/// `slot`.
pub fn step(checked: &Checked, table: &[u8], slot: usize, name: &[u8]) -> Result<Option<usize>, Refusal> {
    checked.deterministic()?;
    if slot > checked.states.numbers.len() {
        return refuse(26, 0);
    }
    let Some(number) = checked.number(table, name) else {
        return Ok(None);
    };
    let states = &checked.states.states;
    let from: BTreeSet<usize> = (0..states.len()).filter(|state| states[*state].last == slot).collect();
    let to = checked.by_name(&from, number);
    Ok((!to.is_empty()).then(|| checked.held(&to)))
}
