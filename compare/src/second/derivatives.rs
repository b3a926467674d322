//! The numbered meaning by partial derivatives (Antimirov's): what may still come after a numbered list is a set of
//! terms, and a term is a list of parts of the model to be met one after the other. All terms that can be reached are
//! explored, and a clash is read off them as Definition 1 says it. No first, last or follow set is made.

use std::collections::{BTreeMap, BTreeSet, HashMap, VecDeque};

use super::tree::{Body, Mark, Tree};
use super::Clash;

/// A part of the numbered model. A marked part is two: the mark, and what it is put on.
#[derive(Clone, Debug)]
enum Part {
    Slot(usize),
    Sequence(Vec<usize>),
    Choice(Vec<usize>),
    Optional(usize),
    Star(usize),
    /// One list of the first, then lists of the second, which is the star of the first.
    Plus(usize, usize),
}

/// A term by its number; number 0 is the empty list alone.
type Term = usize;

const NOTHING_MORE: Term = 0;

struct Parts {
    parts: Vec<Part>,
    may_be_empty: Vec<bool>,
    slots: usize,
    /// The terms: the first part and the term after it. Equal terms have one number.
    terms: Vec<(usize, Term)>,
    numbers: HashMap<(usize, Term), Term>,
    /// The derivatives of each term found so far: by which slot, and what is left.
    derived: HashMap<Term, BTreeSet<(usize, Term)>>,
}

impl Parts {
    fn add(&mut self, part: Part, may_be_empty: bool) -> usize {
        self.parts.push(part);
        self.may_be_empty.push(may_be_empty);
        self.parts.len() - 1
    }

    /// Adds a tree with slots for names, numbered from left to right.
    fn number(&mut self, tree: &Tree) -> usize {
        let members: Vec<usize> = tree.members().iter().map(|member| self.number(member)).collect();
        let mut empty = members.iter().map(|member| self.may_be_empty[*member]);
        let bare = match tree.body {
            Body::Name(_) => {
                self.slots += 1;
                self.add(Part::Slot(self.slots), false)
            }
            Body::Sequence(_) => {
                let all = empty.all(|one| one);
                self.add(Part::Sequence(members), all)
            }
            Body::Choice(_) => {
                let any = empty.any(|one| one);
                self.add(Part::Choice(members), any)
            }
        };
        match tree.mark {
            Mark::Plain => bare,
            Mark::Optional => self.add(Part::Optional(bare), true),
            Mark::Star => self.add(Part::Star(bare), true),
            Mark::Plus => {
                let more = self.add(Part::Star(bare), true);
                self.add(Part::Plus(bare, more), self.may_be_empty[bare])
            }
        }
    }

    fn term(&mut self, first: usize, after: Term) -> Term {
        let next = self.terms.len();
        let number = *self.numbers.entry((first, after)).or_insert(next);
        if number == next {
            self.terms.push((first, after));
        }
        number
    }

    /// Whether a term allows the empty list.
    fn may_end(&self, mut term: Term) -> bool {
        while term != NOTHING_MORE {
            let (first, after) = self.terms[term];
            if !self.may_be_empty[first] {
                return false;
            }
            term = after;
        }
        true
    }

    /// The derivatives of a term by every slot: those of its first part, and past it if that may be empty.
    fn derive(&mut self, term: Term) -> BTreeSet<(usize, Term)> {
        if term == NOTHING_MORE {
            return BTreeSet::new();
        }
        if let Some(known) = self.derived.get(&term) {
            return known.clone();
        }
        let (first, after) = self.terms[term];
        let mut found = if self.may_be_empty[first] { self.derive(after) } else { BTreeSet::new() };
        self.derive_part(first, after, &mut found);
        self.derived.insert(term, found.clone());
        found
    }

    /// The derivatives of a part followed by a term, but not past the part.
    fn derive_part(&mut self, part: usize, after: Term, found: &mut BTreeSet<(usize, Term)>) {
        match self.parts[part].clone() {
            Part::Slot(slot) => {
                found.insert((slot, after));
            }
            Part::Sequence(members) => {
                let mut afters = vec![after];
                for member in members[1..].iter().rev() {
                    let term = self.term(*member, *afters.last().expect("never empty"));
                    afters.push(term);
                }
                for (member, after) in members.iter().zip(afters.iter().rev()) {
                    self.derive_part(*member, *after, found);
                    if !self.may_be_empty[*member] {
                        break;
                    }
                }
            }
            Part::Choice(members) => {
                for member in members {
                    self.derive_part(member, after, found);
                }
            }
            Part::Optional(inner) => self.derive_part(inner, after, found),
            Part::Star(inner) => {
                let again = self.term(part, after);
                self.derive_part(inner, again, found);
            }
            Part::Plus(inner, more) => {
                let again = self.term(more, after);
                self.derive_part(inner, again, found);
            }
        }
    }
}

/// What may come after some numbered lists that end in the same slot.
pub struct State {
    /// The last slot of the lists, 0 for the empty one.
    pub last: usize,
    /// Whether they are allowed as they stand.
    pub may_end: bool,
    /// The slots that may come next, each with the state after it.
    pub next: BTreeMap<usize, usize>,
}

/// All states that can be reached; state 0 is the start.
pub struct States {
    pub states: Vec<State>,
    /// The name number of each slot, from slot 1 on.
    pub numbers: Vec<usize>,
    /// The smallest clash, if the model is ambiguous.
    pub clash: Option<Clash>,
}

impl States {
    /// Explores a model whose slots have these name numbers.
    pub fn explore(tree: &Tree, numbers: &[usize]) -> States {
        let mut parts = Parts {
            parts: Vec::new(),
            may_be_empty: Vec::new(),
            slots: 0,
            terms: vec![(0, NOTHING_MORE)],
            numbers: HashMap::new(),
            derived: HashMap::new(),
        };
        let root = parts.number(tree);
        let start = (0, BTreeSet::from([parts.term(root, NOTHING_MORE)]));
        let mut known: HashMap<(usize, BTreeSet<Term>), usize> = HashMap::from([(start.clone(), 0)]);
        let mut waiting = VecDeque::from([start]);
        let mut states = Vec::new();
        while let Some((last, terms)) = waiting.pop_front() {
            let mut left: BTreeMap<usize, BTreeSet<Term>> = BTreeMap::new();
            for term in &terms {
                for (slot, after) in parts.derive(*term) {
                    left.entry(slot).or_default().insert(after);
                }
            }
            let mut next = BTreeMap::new();
            for (slot, after) in left {
                let fresh = known.len();
                let state = *known.entry((slot, after.clone())).or_insert(fresh);
                if state == fresh {
                    waiting.push_back((slot, after));
                }
                next.insert(slot, state);
            }
            states.push(State { last, may_end: terms.iter().any(|term| parts.may_end(*term)), next });
        }
        let clash = states.iter().filter_map(|state| clash(state, numbers)).min();
        States { states, numbers: numbers.to_vec(), clash }
    }

    /// The name number of a slot that is not 0.
    pub fn name(&self, slot: usize) -> usize {
        self.numbers[slot - 1]
    }
}

/// The smallest clash after the lists of one state: two slots of one name that may both come next.
fn clash(state: &State, numbers: &[usize]) -> Option<Clash> {
    let next = || state.next.keys().copied();
    let clashes = next().flat_map(|x| {
        let same_name = move |y: &usize| x < *y && numbers[x - 1] == numbers[*y - 1];
        next().filter(same_name).map(move |y| Clash { p: state.last, x, y })
    });
    clashes.min()
}
