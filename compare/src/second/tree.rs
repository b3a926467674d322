//! A model as a tree of names, and its text without white space.

#[derive(Clone, Copy, Debug, PartialEq, Eq, Hash)]
pub enum Mark {
    Plain,
    Optional,
    Star,
    Plus,
}

/// The marks in the order of their numbers in a table.
pub const MARKS: [Mark; 4] = [Mark::Plain, Mark::Optional, Mark::Star, Mark::Plus];

impl Mark {
    /// The mark's byte in a text, if it has one.
    pub fn text(self) -> &'static [u8] {
        match self {
            Mark::Plain => b"",
            Mark::Optional => b"?",
            Mark::Star => b"*",
            Mark::Plus => b"+",
        }
    }
}

#[derive(Clone, Debug, PartialEq, Eq)]
pub enum Body {
    Name(Vec<u8>),
    Sequence(Vec<Tree>),
    Choice(Vec<Tree>),
}

#[derive(Clone, Debug, PartialEq, Eq)]
pub struct Tree {
    pub body: Body,
    pub mark: Mark,
}

impl Tree {
    pub fn members(&self) -> &[Tree] {
        match &self.body {
            Body::Name(_) => &[],
            Body::Sequence(members) | Body::Choice(members) => members,
        }
    }

    /// The nodes in preorder.
    pub fn preorder(&self) -> Vec<&Tree> {
        let (mut nodes, mut waiting) = (Vec::new(), vec![self]);
        while let Some(node) = waiting.pop() {
            nodes.push(node);
            waiting.extend(node.members().iter().rev());
        }
        nodes
    }

    /// The names of the slots, from slot 1 on.
    pub fn leaves(&self) -> Vec<&[u8]> {
        let name = |node: &'_ &Tree| matches!(node.body, Body::Name(_));
        let leaf = |node| match node {
            &Tree { body: Body::Name(ref name), .. } => name.as_slice(),
            _ => unreachable!("only names are left"),
        };
        self.preorder().into_iter().filter(name).map(leaf).collect()
    }

    /// How many groups are nested, counting this one.
    pub fn depth(&self) -> usize {
        let (mut deepest, mut waiting) = (0, vec![(self, 0)]);
        while let Some((node, above)) = waiting.pop() {
            let depth = above + !matches!(node.body, Body::Name(_)) as usize;
            deepest = deepest.max(depth);
            waiting.extend(node.members().iter().map(|member| (member, depth)));
        }
        deepest
    }

    /// The text without white space.
    pub fn text(&self) -> Vec<u8> {
        self.spaced(&mut Vec::new)
    }

    /// The text with what `space` gives wherever productions 47 to 50 allow white space.
    pub fn spaced(&self, space: &mut dyn FnMut() -> Vec<u8>) -> Vec<u8> {
        let mut text = Vec::new();
        self.print(space, &mut text);
        text
    }

    fn print(&self, space: &mut dyn FnMut() -> Vec<u8>, text: &mut Vec<u8>) {
        let joint = if matches!(self.body, Body::Choice(_)) { b'|' } else { b',' };
        match &self.body {
            Body::Name(name) => text.extend(name),
            Body::Sequence(members) | Body::Choice(members) => {
                text.push(b'(');
                text.extend(space());
                for (index, member) in members.iter().enumerate() {
                    if index > 0 {
                        text.extend(space());
                        text.push(joint);
                        text.extend(space());
                    }
                    member.print(space, text);
                }
                text.extend(space());
                text.push(b')');
            }
        }
        text.extend(self.mark.text());
    }
}
