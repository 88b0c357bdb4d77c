//! Memory drawn as text: "1(2 3(4)) | 5 free 7 6" has the nodes 1 and 5, each a chain of its own, 2 and 3 under 1 and 4 under 3, and
//! the slots 7 and 6 on the free chain. Numbers are slots; slots that are not named up to the highest are removed and off the chain.

pub const STAMP: usize = 0;
pub const NUMBER: usize = 1;
pub const PARENT: usize = 2;
pub const PREVIOUS: usize = 3;
pub const NEXT: usize = 4;
pub const FIRST: usize = 5;
pub const LAST: usize = 6;

/// A free slot: kind 1, stamp -1.
pub const FREED: u32 = 65_536 + 65_535;
/// A spent slot: kind 1, stamp -32,768.
pub const SPENT: u32 = 65_536 + 32_768;

#[derive(Clone)]
pub struct Tree {
    pub slot: u32,
    pub kids: Vec<Tree>,
}

/// Words, header, and how many scratch words are lent.
#[derive(Clone)]
pub struct Memory {
    pub words: Vec<u32>,
    pub header: [u32; 3],
    pub scratch: usize,
}

impl Memory {
    pub fn empty(used: u32) -> Self {
        let mut words = vec![0; used as usize * 7];
        for slot in words.chunks_mut(7) {
            slot[STAMP] = FREED;
        }
        Memory { words, header: [used, 0, 0], scratch: 2 * used as usize + 2 }
    }

    /// Of a drawing, every stamp 0.
    pub fn drawn(text: &str) -> Self {
        Self::stamped(text, |_| 0)
    }

    /// Of a drawing, with a stamp for each slot that holds a node.
    pub fn stamped(text: &str, stamp: impl Fn(u32) -> u32) -> Self {
        let (nodes, free) = text.split_once("free").unwrap_or((text, ""));
        let chains: Vec<Vec<Tree>> = nodes.split('|').map(|part| chain(&mut part.trim().chars().peekable())).collect();
        let free: Vec<u32> = free.split_whitespace().map(|s| s.parse().unwrap()).collect();
        let used = text.split(|c: char| !c.is_ascii_digit()).filter_map(|s| s.parse().ok()).max().unwrap_or(0);
        let mut m = Self::empty(used);
        m.plant(&chains, &stamp);
        m.free(&free);
        m
    }

    /// Puts chains of nodes into the memory.
    pub fn plant(&mut self, chains: &[Vec<Tree>], stamp: &impl Fn(u32) -> u32) {
        for chain in chains {
            self.seed(chain, stamp);
        }
        for chain in chains {
            self.link(chain, 0);
        }
    }

    fn seed(&mut self, chain: &[Tree], stamp: &impl Fn(u32) -> u32) {
        for tree in chain {
            *self.at(tree.slot, STAMP) = stamp(tree.slot);
            *self.at(tree.slot, NUMBER) = 10 * tree.slot;
            self.seed(&tree.kids, stamp);
        }
    }

    fn link(&mut self, chain: &[Tree], parent: u32) {
        for (i, tree) in chain.iter().enumerate() {
            *self.at(tree.slot, PARENT) = parent;
            *self.at(tree.slot, PREVIOUS) = if i == 0 { 0 } else { self.id(chain[i - 1].slot) };
            *self.at(tree.slot, NEXT) = chain.get(i + 1).map_or(0, |next| self.id(next.slot));
            *self.at(tree.slot, FIRST) = tree.kids.first().map_or(0, |kid| self.id(kid.slot));
            *self.at(tree.slot, LAST) = tree.kids.last().map_or(0, |kid| self.id(kid.slot));
            self.link(&tree.kids, self.id(tree.slot));
        }
    }

    /// Makes these slots the free chain.
    pub fn free(&mut self, slots: &[u32]) {
        for (i, &slot) in slots.iter().enumerate() {
            *self.at(slot, NUMBER) = slots.get(i + 1).copied().unwrap_or(0);
        }
        self.header[1] = slots.first().copied().unwrap_or(0);
        self.header[2] = slots.last().copied().unwrap_or(0);
    }

    pub fn at(&mut self, slot: u32, k: usize) -> &mut u32 {
        &mut self.words[(slot as usize - 1) * 7 + k]
    }

    pub fn id(&self, slot: u32) -> u32 {
        slot * 65_536 + self.words[(slot as usize - 1) * 7] % 65_536
    }

    /// A word of a slot replaced.
    pub fn with(mut self, slot: u32, k: usize, word: u32) -> Self {
        *self.at(slot, k) = word;
        self
    }

    /// A link of a slot replaced by another slot's identifier.
    pub fn linked(self, slot: u32, k: usize, to: u32) -> Self {
        let id = self.id(to);
        self.with(slot, k, id)
    }

    pub fn headed(mut self, header: [u32; 3]) -> Self {
        self.header = header;
        self
    }

    /// That many scratch words.
    pub fn lent(mut self, scratch: usize) -> Self {
        self.scratch = scratch;
        self
    }

    /// Further words behind those there are.
    pub fn and(mut self, words: &[u32]) -> Self {
        self.words.extend(words);
        self
    }
}

fn chain(text: &mut std::iter::Peekable<std::str::Chars>) -> Vec<Tree> {
    let mut trees = Vec::new();
    while let Some(&c) = text.peek() {
        if c == ' ' {
            text.next();
            continue;
        }
        if c == ')' {
            break;
        }
        let mut slot = 0;
        while let Some(d) = text.peek().and_then(|c| c.to_digit(10)) {
            slot = slot * 10 + d;
            text.next();
        }
        let mut kids = Vec::new();
        if text.peek() == Some(&'(') {
            text.next();
            kids = chain(text);
            text.next();
        }
        trees.push(Tree { slot, kids });
    }
    trees
}
