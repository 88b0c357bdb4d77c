//! The forest that ready memory holds: root chains, and each node's children, by slots; the free chain. And the memory of a forest.

use super::Header;

#[derive(Clone, Copy, PartialEq, Eq)]
pub enum Home {
    /// The chain with this number.
    Root(usize),
    /// The children of this slot.
    Child(u32),
}

pub struct Forest {
    pub chains: Vec<Vec<u32>>,
    /// By slot; slot 0 is not used.
    pub children: Vec<Vec<u32>>,
    pub free: Vec<u32>,
}

fn slot_of(link: u32) -> u32 {
    link / 65_536
}

fn along_next(words: &[u32], first: u32) -> Vec<u32> {
    std::iter::successors(Some(first).filter(|&s| s != 0), |&s| Some(slot_of(words[(s as usize - 1) * 7 + 4])).filter(|&s| s != 0))
        .collect()
}

impl Forest {
    /// Of ready memory.
    pub fn read(words: &[u32], header: &Header) -> Self {
        let used = header[0];
        let word = |slot: u32, k: usize| words[(slot as usize - 1) * 7 + k];
        let live: Vec<u32> = (1..=used).filter(|&s| word(s, 0) < 32_768).collect();
        let mut children = vec![Vec::new(); used as usize + 1];
        for &s in &live {
            children[s as usize] = along_next(words, slot_of(word(s, 5)));
        }
        let starts = live.iter().filter(|&&s| word(s, 2) == 0 && word(s, 3) == 0);
        let chains = starts.map(|&s| along_next(words, s)).collect();
        let free = std::iter::successors(Some(header[1]).filter(|&s| s != 0), |&s| Some(word(s, 1)).filter(|&s| s != 0)).collect();
        Forest { chains, children, free }
    }

    /// The chain that a slot is on, and its place there.
    pub fn home(&self, slot: u32) -> (Home, usize) {
        let at = |chain: &Vec<u32>| chain.iter().position(|&s| s == slot);
        for (i, chain) in self.chains.iter().enumerate() {
            if let Some(place) = at(chain) {
                return (Home::Root(i), place);
            }
        }
        for (parent, chain) in self.children.iter().enumerate() {
            if let Some(place) = at(chain) {
                return (Home::Child(parent as u32), place);
            }
        }
        unreachable!("each live slot is on one chain")
    }

    pub fn chain(&mut self, home: Home) -> &mut Vec<u32> {
        match home {
            Home::Root(i) => &mut self.chains[i],
            Home::Child(parent) => &mut self.children[parent as usize],
        }
    }

    /// The proper ancestors of a slot, nearest first.
    pub fn ancestors(&self, slot: u32) -> Vec<u32> {
        let parent = |s: u32| match self.home(s).0 {
            Home::Child(parent) => Some(parent),
            Home::Root(_) => None,
        };
        std::iter::successors(parent(slot), |&s| parent(s)).collect()
    }

    /// The subtree of a slot in preorder, with depths.
    pub fn preorder(&self, slot: u32) -> Vec<(u32, usize)> {
        let (mut order, mut open) = (Vec::new(), vec![(slot, 0)]);
        while let Some((s, depth)) = open.pop() {
            order.push((s, depth));
            open.extend(self.children[s as usize].iter().rev().map(|&c| (c, depth + 1)));
        }
        order
    }

    /// Children first, left to right, the slot last.
    pub fn postorder(&self, slot: u32) -> Vec<u32> {
        let (mut order, mut open) = (Vec::new(), vec![slot]);
        while let Some(s) = open.pop() {
            order.push(s);
            open.extend(&self.children[s as usize]);
        }
        order.reverse();
        order
    }

    /// Writes the links of every live slot.
    pub fn write_links(&self, words: &mut [u32]) {
        let ids: Vec<u32> =
            (0..self.children.len() as u32).map(|s| if s == 0 { 0 } else { s * 65_536 + words[(s as usize - 1) * 7] % 65_536 }).collect();
        let roots = self.chains.iter().map(|chain| (0, chain));
        let below = self.children.iter().enumerate().map(|(parent, chain)| (parent as u32, chain));
        for (parent, chain) in roots.chain(below) {
            for (i, &s) in chain.iter().enumerate() {
                let at = (s as usize - 1) * 7;
                words[at + 2] = ids[parent as usize];
                words[at + 3] = if i == 0 { 0 } else { ids[chain[i - 1] as usize] };
                words[at + 4] = chain.get(i + 1).map_or(0, |&n| ids[n as usize]);
                let kids = &self.children[s as usize];
                words[at + 5] = kids.first().map_or(0, |&c| ids[c as usize]);
                words[at + 6] = kids.last().map_or(0, |&c| ids[c as usize]);
            }
        }
    }
}
