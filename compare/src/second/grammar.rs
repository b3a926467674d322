//! The grammar as data: XML 1.0's productions 47 to 50, between the white space of production 45. A set of
//! configurations is kept after each byte (Earley's method): a configuration is a production, how much of it is met,
//! and where it began. As every symbol of the grammar has some text, the set after a text is empty exactly when no
//! model begins with it.

/// A production: a symbol and what it stands for. Capitals are symbols; ` ` is a byte of white space, `n` a byte that
/// starts a name, `l` one that stands later in a name, and the others are themselves.
const PRODUCTIONS: [(u8, &[u8]); 21] = [
    (b'T', b"SKS"),    // the whole text: white space before and after the model
    (b'S', b""),       // S?: no white space, or more of it
    (b'S', b"S "),     //
    (b'K', b"HM"),     // 47: children ::= (choice | seq) ('?' | '*' | '+')?
    (b'K', b"QM"),     //
    (b'M', b""),       //     the mark
    (b'M', b"?"),      //
    (b'M', b"*"),      //
    (b'M', b"+"),      //
    (b'P', b"NM"),     // 48: cp ::= (Name | choice | seq) ('?' | '*' | '+')?
    (b'P', b"HM"),     //
    (b'P', b"QM"),     //
    (b'H', b"(SPBS)"), // 49: choice ::= '(' S? cp ( S? '|' S? cp )+ S? ')'
    (b'B', b"S|SP"),   //     the repeated part, one or more times
    (b'B', b"BS|SP"),  //
    (b'Q', b"(SPCS)"), // 50: seq ::= '(' S? cp ( S? ',' S? cp )* S? ')'
    (b'C', b""),       //     the repeated part, any number of times
    (b'C', b"CS,SP"),  //
    (b'N', b"n"),      // a name: a byte that starts one, then later bytes
    (b'N', b"Nn"),     //
    (b'N', b"Nl"),     //
];

/// White space: space, tab and line feed.
pub fn is_white(byte: u8) -> bool {
    matches!(byte, b' ' | b'\t' | b'\n')
}

/// A name starts with a letter, `_` or `:`.
pub fn starts_name(byte: u8) -> bool {
    matches!(byte, b'A'..=b'Z' | b'a'..=b'z' | b'_' | b':')
}

/// Later bytes may also be digits, `-` or `.`.
pub fn in_name(byte: u8) -> bool {
    starts_name(byte) || matches!(byte, b'0'..=b'9' | b'-' | b'.')
}

/// Whether the grammar uses a byte anywhere.
pub fn is_used(byte: u8) -> bool {
    is_white(byte) || in_name(byte) || b"(),|?*+".contains(&byte)
}

/// Whether what comes next in a production takes the byte; a symbol takes none itself.
fn takes(next: u8, byte: u8) -> bool {
    match next {
        b'A'..=b'Z' => false,
        b' ' => is_white(byte),
        b'n' => starts_name(byte),
        b'l' => in_name(byte) && !starts_name(byte),
        itself => itself == byte,
    }
}

/// A production, how many of its symbols are met, and the offset where it began.
#[derive(Clone, Copy, PartialEq, Eq)]
struct Configuration {
    production: u8,
    met: u8,
    from: u32,
}

impl Configuration {
    /// The symbol that comes next, if the production is not whole.
    fn next(self) -> Option<u8> {
        PRODUCTIONS[self.production as usize].1.get(self.met as usize).copied()
    }

    fn moved(self) -> Configuration {
        Configuration { met: self.met + 1, ..self }
    }
}

/// The symbols that may have no text at all.
fn may_be_empty(symbol: u8) -> bool {
    PRODUCTIONS.contains(&(symbol, b""))
}

/// How a text stands to the grammar, with no limit.
#[derive(Clone, Copy, Debug, PartialEq, Eq)]
pub struct Standing {
    /// The longest beginning of the text that begins some model.
    pub begins: usize,
    /// Whether the whole text is a model.
    pub model: bool,
}

/// The configurations after each byte so far.
struct Sets(Vec<Vec<Configuration>>);

impl Sets {
    fn add(set: &mut Vec<Configuration>, one: Configuration) {
        if !set.contains(&one) {
            set.push(one);
        }
    }

    /// Closes the set at offset `at`: opens each symbol that comes next, and hands each whole production to those that
    /// waited for its symbol.
    fn close(&mut self, at: usize, mut set: Vec<Configuration>) {
        let mut index = 0;
        while index < set.len() {
            let one = set[index];
            index += 1;
            match one.next() {
                Some(symbol) if symbol.is_ascii_uppercase() => {
                    for (production, (left, _)) in PRODUCTIONS.iter().enumerate() {
                        if *left == symbol {
                            let opened = Configuration { production: production as u8, met: 0, from: at as u32 };
                            Self::add(&mut set, opened);
                        }
                    }
                    if may_be_empty(symbol) {
                        Self::add(&mut set, one.moved());
                    }
                }
                Some(_) => {}
                None if one.from as usize == at => {} // an empty production: its symbol was passed when it was opened
                None => {
                    let symbol = PRODUCTIONS[one.production as usize].0;
                    for waiting in &self.0[one.from as usize] {
                        if waiting.next() == Some(symbol) {
                            Self::add(&mut set, waiting.moved());
                        }
                    }
                }
            }
        }
        self.0.push(set);
    }
}

/// Runs the configurations over the text, as far as it begins a model.
pub fn standing(text: &[u8]) -> Standing {
    let mut sets = Sets(Vec::with_capacity(text.len() + 1));
    sets.close(0, vec![Configuration { production: 0, met: 0, from: 0 }]);
    for (at, &byte) in text.iter().enumerate() {
        let next: Vec<Configuration> = sets.0[at]
            .iter()
            .filter(|one| one.next().is_some_and(|symbol| takes(symbol, byte)))
            .map(|one| one.moved())
            .collect();
        if next.is_empty() {
            return Standing { begins: at, model: false };
        }
        sets.close(at + 1, next);
    }
    let whole = Configuration { production: 0, met: PRODUCTIONS[0].1.len() as u8, from: 0 };
    Standing { begins: text.len(), model: sets.0[text.len()].contains(&whole) }
}
