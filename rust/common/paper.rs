//! Document 01 on sound and ready memory, read slowly and apart from the proved code: each sentence is tested by itself, over any words
//! and any header. Where a sentence follows a link that is not found, it stops there; the sentence on links speaks of that.

// Not every program here uses all of it.
#![allow(dead_code)]

/// The sentences of the list, in its order.
#[derive(Clone, Copy, Debug, PartialEq, Eq, PartialOrd, Ord)]
pub enum Sentence {
    /// Every live slot has kind 0,
    Kind,
    /// and each link it holds is none or found.
    Links,
    /// First and last child are both none or both present.
    Both,
    /// The child chain starts at the first, has no previous there,
    Starts,
    /// ends at the last,
    Ends,
    /// and all on it name this parent.
    Named,
    /// Next and previous agree mutually;
    Agree,
    /// siblings share a parent or have none.
    Share,
    /// From the starts of parentless chains, along first child and next, each live slot is reached exactly once.
    Once,
    /// First and last free are both none or both present.
    FreeBoth,
    /// The chain visits distinct slots
    FreeDistinct,
    /// within used,
    FreeWithin,
    /// each removed
    FreeRemoved,
    /// and of kind 1,
    FreeKind,
    /// and ends at last free.
    FreeEnds,
}

const PARENT: usize = 2;
const PREVIOUS: usize = 3;
const NEXT: usize = 4;
const FIRST: usize = 5;
const LAST: usize = 6;

/// What is read: the sentences that do not hold, in the list's order, and whether a spent slot is on the chain.
#[derive(Default)]
pub struct Reading {
    pub broken: Vec<Sentence>,
    pub spent: bool,
}

impl Reading {
    pub fn sound(&self) -> bool {
        self.broken.is_empty()
    }

    pub fn ready(&self) -> bool {
        self.sound() && !self.spent
    }
}

/// Whole slots lent, at most 65,535.
pub fn capacity(words: &[u32]) -> usize {
    (words.len() / 7).min(65_535)
}

/// The number that is answered before soundness is examined: FRAME, SCRATCH, or 0 for neither.
pub fn unfit(words: &[u32], header: [u32; 3], scratch: usize) -> u32 {
    let used = header[0] as usize;
    if used > capacity(words) {
        1
    } else if scratch < 2 * used {
        2
    } else {
        0
    }
}

struct Memory<'a> {
    words: &'a [u32],
    used: u32,
}

impl Memory<'_> {
    fn word(&self, slot: u32, k: usize) -> u32 {
        self.words[(slot as usize - 1) * 7 + k]
    }

    fn stamp(&self, slot: u32) -> u32 {
        self.word(slot, 0) % 65_536
    }

    fn kind(&self, slot: u32) -> u32 {
        self.word(slot, 0) / 65_536
    }

    fn live(&self, slot: u32) -> bool {
        self.stamp(slot) < 32_768
    }

    fn id(&self, slot: u32) -> u32 {
        slot * 65_536 + self.stamp(slot)
    }

    fn found(&self, id: u32) -> bool {
        let (slot, low) = (id / 65_536, id % 65_536);
        1 <= slot && slot <= self.used && low <= 32_767 && self.stamp(slot) == low && self.kind(slot) == 0
    }

    /// The slot that a link leads to.
    fn to(&self, slot: u32, k: usize) -> Option<u32> {
        let id = self.word(slot, k);
        (id != 0 && self.found(id)).then_some(id / 65_536)
    }

    fn live_slots(&self) -> impl Iterator<Item = u32> {
        (1..=self.used).filter(|&s| self.live(s))
    }

    /// The chain from a slot along next, at most one slot more than are used.
    fn along_next(&self, slot: u32) -> Vec<u32> {
        std::iter::successors(Some(slot), |&s| self.to(s, NEXT)).take(self.used as usize + 1).collect()
    }

    /// The sentences on the child chain of a slot that has a first child.
    fn child_chain(&self, parent: u32, broken: &mut dyn FnMut(Sentence)) {
        let Some(first) = self.to(parent, FIRST) else { return };
        if self.word(first, PREVIOUS) != 0 {
            broken(Sentence::Starts);
        }
        let chain = self.along_next(first);
        let end = chain[chain.len() - 1];
        if chain.len() > self.used as usize || self.id(end) != self.word(parent, LAST) {
            broken(Sentence::Ends);
        }
        if chain.iter().any(|&s| self.word(s, PARENT) != self.id(parent)) {
            broken(Sentence::Named);
        }
    }

    fn siblings(&self, slot: u32, broken: &mut dyn FnMut(Sentence)) {
        for (k, back) in [(NEXT, PREVIOUS), (PREVIOUS, NEXT)] {
            if let Some(other) = self.to(slot, k) {
                if self.word(other, back) != self.id(slot) {
                    broken(Sentence::Agree);
                }
                if self.word(other, PARENT) != self.word(slot, PARENT) {
                    broken(Sentence::Share);
                }
            }
        }
    }

    /// How often each slot is reached; of a slot reached twice no further way is gone.
    fn reached(&self) -> Vec<u32> {
        let mut times = vec![0; self.used as usize + 1];
        let mut open: Vec<u32> = self.live_slots().filter(|&s| self.word(s, PARENT) == 0 && self.word(s, PREVIOUS) == 0).collect();
        while let Some(slot) = open.pop() {
            times[slot as usize] += 1;
            if times[slot as usize] == 1 {
                open.extend([NEXT, FIRST].iter().filter_map(|&k| self.to(slot, k)));
            }
        }
        times
    }

    /// The sentences on the free chain; answers whether a spent slot is on it.
    fn free_chain(&self, first: u32, last: u32, broken: &mut dyn FnMut(Sentence)) -> bool {
        if (first == 0) != (last == 0) {
            broken(Sentence::FreeBoth);
        }
        let mut met = vec![false; self.used as usize + 1];
        let (mut slot, mut end, mut spent) = (first, 0, false);
        while slot != 0 {
            if slot > self.used {
                broken(Sentence::FreeWithin);
                return spent;
            }
            if met[slot as usize] {
                broken(Sentence::FreeDistinct);
                return spent;
            }
            if self.live(slot) {
                broken(Sentence::FreeRemoved);
            }
            if self.kind(slot) != 1 {
                broken(Sentence::FreeKind);
            }
            spent |= self.stamp(slot) == 32_768;
            met[slot as usize] = true;
            end = slot;
            slot = self.word(slot, 1);
        }
        if end != last {
            broken(Sentence::FreeEnds);
        }
        spent
    }
}

/// Reads memory whose used slots lie within its words.
pub fn read(words: &[u32], header: [u32; 3]) -> Reading {
    let [used, first, last] = header;
    let m = Memory { words, used };
    let mut reading = Reading::default();
    let mut broken = |s: Sentence| {
        if !reading.broken.contains(&s) {
            reading.broken.push(s);
        }
    };
    for slot in m.live_slots() {
        if m.kind(slot) != 0 {
            broken(Sentence::Kind);
        }
        if (PARENT..=LAST).any(|k| m.word(slot, k) != 0 && !m.found(m.word(slot, k))) {
            broken(Sentence::Links);
        }
        if (m.word(slot, FIRST) == 0) != (m.word(slot, LAST) == 0) {
            broken(Sentence::Both);
        }
        m.child_chain(slot, &mut broken);
        m.siblings(slot, &mut broken);
    }
    let times = m.reached();
    if m.live_slots().any(|s| times[s as usize] != 1) {
        broken(Sentence::Once);
    }
    let spent = m.free_chain(first, last, &mut broken);
    reading.spent = spent;
    reading.broken.sort();
    reading
}
