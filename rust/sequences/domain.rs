//! Random sequences in the domain of comparison, the crate and the library side by side.

use crate::dice::Dice;
use crate::ours;
use crate::theirs::{self, ARGUMENTS, Command, found};
use indextree::{Arena, NodeEdge, NodeId};
use lift::face::{self, Header};
use std::time::{Duration, Instant};

#[derive(Default)]
pub struct Tally {
    sequences: u64,
    /// Commands of the crate, by code; 0 for calls that have none.
    calls: [u64; 25],
    refused: u64,
    lists: u64,
    edges: u64,
    batched: u64,
    images: u64,
    highest_stamp: u32,
}

impl Tally {
    pub fn print(&self) {
        let changes: u64 = (1..25).map(|c| self.calls[c]).sum();
        let all = changes + self.batched + self.lists + self.edges + self.calls[0];
        println!("in the domain: {} sequences, {all} operations; highest stamp {}", self.sequences, self.highest_stamp);
        println!("  {changes} calls by code, {} of them refused; {} commands again in batches", self.refused, self.batched);
        println!("  {} lists, {} edges of walks, {} other calls; {} images", self.lists, self.edges, self.calls[0], self.images);
        let by_code: Vec<String> = (1..25).map(|c| format!("{c}: {}", self.calls[c])).collect();
        println!("  by code {}", by_code.join(", "));
    }
}

/// What a scratch word holds before a call.
const BEFORE: u32 = 0xa5a5_a5a5;

/// Where the commands that led to a difference go.
const DIFFERENCE: &str = "target/rust/difference";

/// The two sides, and identifiers to choose from.
struct Pair {
    capacity: usize,
    /// Each command by its own call, before it comes in a batch; left out where memory is large, since each call examines it.
    each: bool,
    theirs: Arena<u32>,
    words: Vec<u32>,
    header: Header,
    scratch: Vec<u32>,
    live: Vec<u32>,
    stale: Vec<u32>,
    trace: Vec<u8>,
    answers: Vec<u32>,
}

impl Pair {
    fn new(capacity: usize) -> Self {
        Pair {
            capacity,
            each: true,
            theirs: Arena::new(),
            // What stands in fresh slots is never read.
            words: vec![0x1_0001; 7 * capacity + capacity % 7],
            header: [0; 3],
            scratch: vec![BEFORE; 2 * capacity],
            live: Vec::new(),
            stale: Vec::new(),
            trace: Vec::new(),
            answers: Vec::new(),
        }
    }

    /// Writes the commands so far to a file, for tools/trace.
    fn explain(&self) -> String {
        let written = std::fs::write(DIFFERENCE, &self.trace).map_or("not written", |()| "see tools/trace unpack");
        format!("capacity {}, {} commands: {DIFFERENCE} ({written})", self.capacity, self.trace.len() / 12)
    }

    /// One command on both sides.
    fn command(&mut self, t: &mut Tally, c: Command, whole: bool) -> (u32, u32) {
        self.trace.extend(c.bytes());
        if whole {
            self.scratch.fill(BEFORE);
        }
        let used = 2 * self.header[0] as usize;
        let want = theirs::command(&mut self.theirs, self.capacity, c);
        self.answers.extend([want.0, want.1]);
        if !self.each {
            return want;
        }
        let got = ours::command(&mut self.words, &mut self.header, &mut self.scratch, c);
        t.calls[c.code as usize] += 1;
        t.refused += u64::from(want.0 != 0);
        assert!(got == want, "{c:?}: the library answers {got:?}, the crate {want:?}; {}", self.explain());
        if whole {
            self.memory();
            let examined = !matches!(c.code, 2 | 3 | 13..=17);
            let zero = if examined { used } else { 0 };
            let kept = self.scratch[zero..].iter().all(|&w| w == BEFORE) && self.scratch[..zero].iter().all(|&w| w == 0);
            assert!(kept, "{c:?}: scratch is {:?}; {}", self.scratch, self.explain());
        }
        want
    }

    /// Every word and the header.
    fn memory(&self) {
        if !self.theirs.has_words(&self.words, self.header) {
            let (words, header) = self.theirs.to_words();
            panic!(
                "memory: the library {:?} {:?}, the crate {header:?} {words:?}; {}",
                self.header,
                &self.words[..words.len()],
                self.explain()
            );
        }
        // Fresh slots stay as they are.
        assert!(self.words[7 * self.header[0] as usize..].iter().all(|&w| w == 0x1_0001), "a fresh slot is written; {}", self.explain());
    }

    fn pick(&self, d: &mut Dice, stale: bool) -> u32 {
        if stale && !self.stale.is_empty() { d.one_of(&self.stale) } else { d.one_of(&self.live) }
    }

    /// A command on found identifiers; now and then a stale one, where the crate looks at the stamp.
    fn any(&mut self, d: &mut Dice, t: &mut Tally, whole: bool, grow: bool) {
        let room = self.live.len() < self.capacity;
        let code = if self.live.is_empty() || grow && room && d.below(3) > 0 {
            d.one_of(&[1, 21, 22, 23, 24])
        } else {
            d.one_of(&[1, 1, 2, 3, 4, 5, 6, 7, 8, 9, 10, 10, 11, 12, 13, 14, 15, 16, 17, 18, 19, 20, 21, 22, 23, 24])
        };
        let creates = code == 1 || code >= 21;
        let code = if self.live.is_empty() { 1 } else { code };
        if creates && !room {
            return;
        }
        let stale = d.below(40) == 0 && matches!(code, 2 | 4..=12);
        let both = d.below(2) == 0;
        let a = match ARGUMENTS[code as usize] {
            0 => 0,
            _ if code == 1 => d.next() as u32,
            _ => self.pick(d, stale),
        };
        let b = match code {
            3 | 21.. => d.next() as u32,
            4..=7 => self.pick(d, stale && both),
            _ => 0,
        };
        let (no, result) = self.command(t, Command { code, a, b }, whole);
        if no == 0 && creates {
            self.live.push(result);
            t.highest_stamp = t.highest_stamp.max(result % 65_536);
        }
        if no == 0 && matches!(code, 10..=12) {
            let (theirs, stale) = (&self.theirs, &mut self.stale);
            self.live.retain(|&id| {
                let lives = found(theirs, id).is_some();
                if !lives && stale.len() < 64 {
                    stale.push(id);
                } else if !lives {
                    let at = d.below(stale.len());
                    stale[at] = id;
                }
                lives
            });
        }
    }

    fn node(&self, id: u32) -> NodeId {
        found(&self.theirs, id).expect("a found identifier")
    }

    /// One list from a node, with a place more than it needs.
    fn list(&mut self, d: &mut Dice, t: &mut Tally) {
        let id = d.one_of(&self.live);
        let (node, arena) = (self.node(id), &self.theirs);
        let kind = d.below(8);
        let want: Vec<u32> = match kind {
            0 => node.descendants(arena).map(NodeId::number).collect(),
            1 => node.breadth_first(arena).map(NodeId::number).collect(),
            2 => node.leaves(arena).map(NodeId::number).collect(),
            3 => node.ancestors(arena).map(NodeId::number).collect(),
            4 => node.children(arena).map(NodeId::number).collect(),
            5 => node.following_siblings(arena).map(NodeId::number).collect(),
            6 => node.preceding_siblings(arena).map(NodeId::number).collect(),
            _ => node.predecessors(arena).map(NodeId::number).collect(),
        };
        let mut list = vec![BEFORE; want.len() + d.below(2)];
        let got = ours::LISTS[kind](&self.words, &self.header, &mut self.scratch, id, &mut list);
        let n = want.len();
        let same = got == (0, n as u32) && list[..n] == want && list[n..].iter().all(|&w| w == BEFORE);
        assert!(same, "list {kind} of {id}: the library {got:?} {list:?}, the crate {want:?}; {}", self.explain());
        t.lists += 1;
    }

    /// A walk in pieces.
    fn walk(&mut self, d: &mut Dice, t: &mut Tally) {
        let root = d.one_of(&self.live);
        let want: Vec<u32> = self
            .node(root)
            .traverse(&self.theirs)
            .map(|edge| match edge {
                NodeEdge::Start(id) => id.number(),
                NodeEdge::End(id) => id.number() + 32_768,
            })
            .collect();
        let mut state = [0; 3];
        assert_eq!(face::walk_start(&self.words, &self.header, root, &mut state), 0, "walk from {root}; {}", self.explain());
        let mut edges: Vec<u32> = Vec::new();
        while edges.len() < want.len() {
            let budget = 1 + d.below(6);
            let mut list = vec![BEFORE; budget + d.below(2)];
            let (no, n) = face::walk(&self.words, &self.header, &mut state, budget as u32, &mut list);
            let left = want.len() - edges.len();
            let mark = u32::from(left <= budget);
            let same = no == 0 && n as usize == left.min(budget) && state[2] == mark && state[0] == root;
            assert!(same, "walk from {root}, budget {budget}, {left} left: {no} {n} {state:?}; {}", self.explain());
            edges.extend(&list[..n as usize]);
        }
        assert!(edges == want, "walk from {root}: the library {edges:?}, the crate {want:?}; {}", self.explain());
        t.edges += edges.len() as u64;
    }

    /// `subtree_eq` of two nodes, of one with itself, and with the same nodes of a copy in which a number may be another.
    fn subtree_eq(&mut self, d: &mut Dice, t: &mut Tally) {
        let (a, b, c) = (d.one_of(&self.live), d.one_of(&self.live), d.one_of(&self.live));
        let (mut copy, mut words) = (self.theirs.clone(), self.words.clone());
        *copy[self.node(c)].get_mut() ^= d.below(2) as u32;
        assert_eq!(face::set(&mut words, &self.header, c, *copy[self.node(c)].get()), (0, 0));
        for (a, b, copied) in [(a, b, false), (a, a, false), (a, b, true), (a, a, true)] {
            let (theirs, ours) = if copied { (&copy, &words) } else { (&self.theirs, &self.words) };
            let want = self.node(a).subtree_eq(self.node(b), &self.theirs, theirs);
            let got = face::subtree_eq(&self.words, &self.header, a, ours, &self.header, b, &mut self.scratch);
            assert!(got == (0, u32::from(want)), "subtree_eq {a} {b}: the library {got:?}, the crate {want}; {}", self.explain());
            t.calls[0] += 1;
        }
    }

    /// Save, load into other memory, and save again.
    fn image(&mut self, t: &mut Tally) {
        let length = 11 + 28 * self.header[0] as usize;
        let (mut bytes, mut again) = (vec![0xee; length + 3], vec![0xee; length + 3]);
        let saved = face::save(&self.words, &self.header, &mut self.scratch, &mut bytes);
        let (mut words, mut header) = (vec![3; self.words.len()], [9; 3]);
        let loaded = face::load(&bytes[..length], &mut words, &mut header, &mut self.scratch);
        let resaved = face::save(&words, &header, &mut self.scratch, &mut again);
        let same =
            saved == (0, length as u32) && loaded == (0, 0) && resaved == saved && self.theirs.has_words(&words, header) && bytes == again;
        assert!(same, "image: {saved:?} {loaded:?} {resaved:?} {header:?}; {}", self.explain());
        t.images += 1;
        t.calls[0] += 3;
    }

    fn census(&mut self, t: &mut Tally) {
        let live = self.theirs.live_count() as u32;
        let want = [live, self.header[0] - live, 0, self.capacity as u32 - self.header[0]];
        let got = face::census(&self.words, &self.header, &mut self.scratch);
        assert!(got == (0, want), "census {got:?}, by the crate {want:?}; {}", self.explain());
        t.calls[0] += 1;
    }

    fn look(&mut self, d: &mut Dice, t: &mut Tally) {
        match d.below(12) {
            _ if self.live.is_empty() => self.census(t),
            0..=5 => self.list(d, t),
            6..=8 => self.walk(d, t),
            9 => self.subtree_eq(d, t),
            10 => self.image(t),
            _ => self.census(t),
        }
    }

    /// The whole sequence again, in batches of up to so many commands.
    fn batches(&self, d: &mut Dice, t: &mut Tally, most: usize) {
        let (mut words, mut header) = (vec![0x1_0001; self.words.len()], [0; 3]);
        let mut scratch = vec![BEFORE; 2 * self.capacity];
        let mut at = 0;
        while 12 * at < self.trace.len() {
            let count = (1 + d.below(most)).min(self.trace.len() / 12 - at);
            let mut answers = vec![BEFORE; 2 * count + 1];
            let got = face::batch(&mut words, &mut header, &mut scratch, &self.trace[12 * at..12 * (at + count)], &mut answers);
            let same =
                got == (0, count as u32) && answers[..2 * count] == self.answers[2 * at..2 * (at + count)] && answers[2 * count] == BEFORE;
            if !same {
                let first = (0..count).find(|i| answers[2 * i..2 * i + 2] != self.answers[2 * (at + i)..2 * (at + i) + 2]);
                panic!("batch from command {at}: {got:?}, first other answer at {first:?}; {}", self.explain());
            }
            at += count;
        }
        assert!(self.theirs.has_words(&words, header), "memory after batches; {}", self.explain());
        t.batched += at as u64;
    }
}

/// A sequence over a small arena, everything compared after each call.
fn small(d: &mut Dice, t: &mut Tally) {
    let mut pair = Pair::new(d.one_of(&[1, 2, 3, 4, 6, 8, 8, 12, 16, 24, 40]));
    let calls = d.one_of(&[30, 100, 300, 1_000]);
    let mut grow = true;
    for i in 0..calls {
        if i % 16 == 0 {
            grow = d.below(2) == 0;
        }
        pair.any(d, t, true, grow);
        if d.below(4) == 0 {
            pair.look(d, t);
        }
    }
    pair.batches(d, t, 900);
}

/// One slot or two, handed out again and again, up to the stamp before which the crate gives a slot up (F1).
fn long(d: &mut Dice, t: &mut Tally) {
    let mut pair = Pair::new(1 + d.below(2));
    for _ in 0..100_000 {
        let code = if pair.live.len() < pair.capacity { 1 } else { d.one_of(&[10, 11]) };
        let c = Command { code, a: if code == 1 { 5 } else { d.one_of(&pair.live) }, b: 0 };
        let (_, id) = pair.command(t, c, true);
        if code == 1 {
            pair.live.push(id);
            t.highest_stamp = t.highest_stamp.max(id % 65_536);
            if id % 65_536 == 32_766 {
                break;
            }
        } else {
            pair.live.retain(|&x| x != c.a);
        }
    }
    pair.batches(d, t, 900);
}

/// A large arena: the commands are done by the crate, and by batches; memory is compared now and then.
fn large(d: &mut Dice, t: &mut Tally, capacity: usize, calls: usize) {
    let mut pair = Pair::new(capacity);
    let mut grow = true;
    for i in 0..calls {
        if i % 512 == 0 {
            grow = i < calls / 2 || d.below(2) == 0;
        }
        pair.any(d, t, i % 512 == 511, grow);
        if d.below(256) == 0 {
            pair.look(d, t);
        }
    }
    pair.memory();
    pair.batches(d, t, 900);
}

/// The largest arena: the crate, and batches.
fn largest(d: &mut Dice, t: &mut Tally) {
    let mut pair = Pair::new(65_535);
    pair.each = false;
    // Codes 18 to 20 look at every slot; they are in the batches of smaller arenas.
    let (mut i, calls) = (0, 300_000);
    while i < calls {
        let code = if pair.live.len() < 65_535 && (i < 70_000 || d.below(2) == 0) {
            d.one_of(&[1, 21, 22, 23, 24])
        } else {
            d.one_of(&[2, 3, 4, 6, 8, 10, 13, 17])
        };
        let code = if pair.live.is_empty() { 1 } else { code };
        let a = if code == 1 { 5 } else { d.one_of(&pair.live) };
        let b = if (4..=7).contains(&code) { d.one_of(&pair.live) } else { i * u32::from(code == 3 || code > 20) };
        let (no, id) = pair.command(t, Command { code, a, b }, false);
        if no == 0 && (code == 1 || code > 20) {
            pair.live.push(id);
        } else if code == 10 {
            let at = pair.live.iter().rposition(|&x| x == a).expect("a live one");
            pair.live.swap_remove(at);
        }
        i += 1;
    }
    pair.batches(d, t, 150_000);
}

pub fn some(d: &mut Dice, t: &mut Tally, time: Duration) {
    let start = Instant::now();
    while start.elapsed() < time {
        t.sequences += 1;
        if d.below(30_000) == 0 {
            largest(d, t);
        }
        match d.below(4_000) {
            0 => long(d, t),
            1..=3 => large(d, t, 2_048, 6_000),
            4..=40 => large(d, t, 200, 2_000),
            _ => small(d, t),
        }
    }
}
