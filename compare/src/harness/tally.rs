//! How many questions met each answer, so that a thin spot shows.

use std::fmt;

#[derive(Clone, Copy, Debug, PartialEq, Eq)]
pub enum Function {
    Read,
    Write,
    Judge,
    Count,
    Match,
    Step,
    Part,
}

pub const FUNCTIONS: [Function; 7] = [
    Function::Read,
    Function::Write,
    Function::Judge,
    Function::Count,
    Function::Match,
    Function::Step,
    Function::Part,
];

const TABLE: [usize; 7] = [11, 12, 13, 14, 15, 16, 17];

impl Function {
    pub fn name(self) -> &'static str {
        ["slots_read", "slots_write", "slots_judge", "slots_count", "slots_match", "slots_step", "slots_part"]
            [self as usize]
    }

    /// The sorts that are no refusals, by name.
    fn plain(self) -> &'static [&'static str] {
        match self {
            Function::Read => &["table"],
            Function::Write => &["text"],
            Function::Judge => &["deterministic"],
            Function::Count => &["counts"],
            Function::Match => &["allowed", "stopped", "short"],
            Function::Step => &["next", "none"],
            Function::Part => &["of children", "of table", "children's end"],
        }
    }

    /// The refusals that the function can meet, in their order.
    fn refusals(self) -> Vec<usize> {
        let table = |more: &[usize]| [&TABLE, more].concat();
        match self {
            Function::Read => (1..=8).collect(),
            Function::Write => table(&[18]),
            Function::Judge => table(&[24]),
            Function::Count => table(&[]),
            Function::Match => table(&[24, 25, 21, 22, 23]),
            Function::Step => table(&[24, 26]),
            Function::Part => Vec::new(),
        }
    }
}

#[derive(Clone, Default)]
pub struct Tally {
    /// For each function and sort, how often.
    met: [[u64; 32]; 7],
    pub models: u64,
    pub tables: u64,
    pub lists: u64,
}

impl Tally {
    pub fn count(&mut self, function: Function, sort: usize) {
        self.met[function as usize][sort.min(31)] += 1;
    }

    pub fn add(&mut self, other: &Tally) {
        for (here, there) in self.met.iter_mut().flatten().zip(other.met.iter().flatten()) {
            *here += there;
        }
        self.models += other.models;
        self.tables += other.tables;
        self.lists += other.lists;
    }

    pub fn questions(&self) -> u64 {
        self.met.iter().flatten().sum()
    }

    /// The answers that were met fewer than so many times, and how often.
    pub fn thin(&self, least: u64) -> Vec<(String, u64)> {
        let mut thin = Vec::new();
        for function in FUNCTIONS {
            let plain = function.plain().iter().enumerate().map(|(sort, name)| (sort, name.to_string()));
            let refusals = function.refusals().into_iter().map(|number| (number, number.to_string()));
            for (sort, answer) in plain.chain(refusals) {
                let met = self.met[function as usize][sort];
                if met < least {
                    thin.push((format!("{} {answer}", function.name()), met));
                }
            }
        }
        thin
    }
}

impl fmt::Display for Tally {
    fn fmt(&self, out: &mut fmt::Formatter<'_>) -> fmt::Result {
        for function in FUNCTIONS {
            let met = self.met[function as usize];
            write!(out, "{:<12}", function.name())?;
            for (sort, name) in function.plain().iter().enumerate() {
                write!(out, " {name} {}", met[sort])?;
            }
            for number in function.refusals() {
                write!(out, " | {number}: {}", met[number])?;
            }
            writeln!(out)?;
        }
        write!(out, "{:<12}", "refusals")?;
        for number in (1..=8).chain(11..=18).chain(21..=26) {
            let of = |function: Function| function.refusals().contains(&number);
            let sum: u64 = FUNCTIONS.iter().filter(|f| of(**f)).map(|f| self.met[*f as usize][number]).sum();
            write!(out, " {number}: {sum}")?;
        }
        writeln!(out)
    }
}
