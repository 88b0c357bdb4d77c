//! Any memory, any identifiers, short lists, short scratch, damaged images and traces: the library against the reading of document 01
//! in common/model. Compared are the number, the result and everything that a call could write.

use crate::damage::{damage, lent, random_words};
use crate::dice::Dice;
use crate::model::{self, CHANGES, LISTS, PLACES};
use crate::ours;
use crate::shapes::random_calls;
use lift::face;
use std::hint::black_box;
use std::time::{Duration, Instant};

#[derive(Default)]
pub struct Tally {
    memories: u64,
    /// Calls compared, by kind and number answered.
    calls: [[u64; 14]; KINDS.len()],
}

const KINDS: [&str; 16] = [
    "reads",
    "set",
    "validate",
    "live count",
    "census",
    "new",
    "value forms",
    "moves",
    "removals and detaching",
    "descendant count",
    "lists",
    "subtree_eq",
    "walks",
    "save",
    "load",
    "batch",
];

const NUMBERS: [&str; 14] =
    ["DONE", "FRAME", "SCRATCH", "INVALID", "REMOVED", "SELF", "ANCESTOR", "FULL", "ROOM", "COMMAND", "PART", "MARK", "VERSION", "LENGTH"];

impl Tally {
    pub fn print(&self) {
        let all: u64 = self.calls.iter().flatten().sum();
        println!("hostile: {} memories, {all} calls", self.memories);
        for (kind, counts) in KINDS.iter().zip(&self.calls) {
            let said: Vec<String> = NUMBERS.iter().zip(counts).filter(|c| *c.1 > 0).map(|(name, n)| format!("{name} {n}")).collect();
            println!("  {kind}: {}", said.join(", "));
        }
    }
}

/// What is lent to a call, and what it could write.
#[derive(Clone, PartialEq, Debug)]
struct Lent {
    words: Vec<u32>,
    header: [u32; 3],
    scratch: Vec<u32>,
    list: Vec<u32>,
    bytes: Vec<u8>,
    state: [u32; 3],
    counts: [u32; 4],
}

/// The same call on two copies: answers and all that is written must be equal.
fn same(
    t: &mut Tally,
    kind: usize,
    lent: &Lent,
    what: &dyn Fn() -> String,
    got: impl FnOnce(&mut Lent) -> (u32, u32),
    want: impl FnOnce(&mut Lent) -> (u32, u32),
) -> Lent {
    let (mut a, mut b) = (lent.clone(), lent.clone());
    let (got, want) = (got(&mut a), want(&mut b));
    // That a call only reads is looked at, not believed.
    black_box(&mut a);
    if got != want || a != b {
        panic!("{}\nbefore  {lent:?}\nlibrary {got:?} {a:?}\nreading {want:?} {b:?}", what());
    }
    t.calls[kind][want.0 as usize] += 1;
    a
}

/// An identifier: one that may be found, a link's word, a stale one, any number.
fn identifier(d: &mut Dice, words: &[u32], used: usize) -> u32 {
    let slots = used.min(words.len() / 7);
    if slots == 0 || d.below(12) == 0 {
        return d.one_of(&[0, 5, 65_536, 65_537, 98_304, 131_071, 0xffff_0000, u32::MAX, d.0 as u32]);
    }
    let slot = d.below(slots);
    let id = (slot as u32 + 1) << 16 | words[7 * slot] & 0xffff;
    match d.below(16) {
        0 => id ^ 1 << d.below(17),
        1 => words[7 * slot + 2 + d.below(5)],
        2 => id & 0xffff_7fff,
        3 => ((slots + 1) as u32) << 16,
        _ => id,
    }
}

/// Lengths around what is needed.
fn around(d: &mut Dice, need: usize) -> usize {
    match d.below(6) {
        0 => need.saturating_sub(1),
        1 => d.below(need + 2),
        2 => need + 1 + d.below(4),
        _ => need,
    }
}

fn calls(d: &mut Dice, t: &mut Tally, lent: &mut Lent) {
    let used = lent.header[0] as usize;
    let (a, b) = (identifier(d, &lent.words, used), identifier(d, &lent.words, used));
    let b = if d.below(12) == 0 { a } else { b };
    let n = d.next() as u32;
    let fit = used.min(lent.words.len() / 7);
    let need = d.one_of(&[0, 1, 2, 3, fit, fit]);
    let places = around(d, need);
    lent.list = vec![0xbbbb_bbbb; places];
    let k = d.below(8);
    let kind = d.below(16);
    let what = || format!("{}, {k}, {a}, {b}, {n}", KINDS[kind]);
    let after = match kind {
        0 => {
            let (read, word): (ours::Read, usize) = if k < 3 { (face::get, 1) } else { (ours::LINKS[k - 3], [2, 5, 6, 4, 3][k - 3]) };
            same(t, kind, lent, &what, |l| read(&l.words, &l.header, a), |l| model::read(&l.words, &l.header, a, word))
        }
        1 => same(t, kind, lent, &what, |l| face::set(&mut l.words, &l.header, a, n), |l| model::set(&mut l.words, &l.header, a, n)),
        2 => same(
            t,
            kind,
            lent,
            &what,
            |l| face::validate(&l.words, &l.header, &mut l.scratch),
            |l| model::validate(&l.words, &l.header, &mut l.scratch),
        ),
        3 => same(
            t,
            kind,
            lent,
            &what,
            |l| face::live_count(&l.words, &l.header, &mut l.scratch),
            |l| model::live_count(&l.words, &l.header, &mut l.scratch),
        ),
        4 => {
            let counted = |l: &mut Lent, (number, counts): (u32, [u32; 4])| {
                l.counts = counts;
                (number, 0)
            };
            let got = |l: &mut Lent| {
                let c = face::census(&l.words, &l.header, &mut l.scratch);
                counted(l, c)
            };
            let want = |l: &mut Lent| {
                let c = model::census(&l.words, &l.header, &mut l.scratch);
                counted(l, c)
            };
            same(t, kind, lent, &what, got, want)
        }
        5 => same(
            t,
            kind,
            lent,
            &what,
            |l| face::new_node(&mut l.words, &mut l.header, &mut l.scratch, n),
            |l| model::new_node(&mut l.words, &mut l.header, &mut l.scratch, n),
        ),
        6 => same(
            t,
            kind,
            lent,
            &what,
            |l| ours::VALUES[k % 4](&mut l.words, &mut l.header, &mut l.scratch, a, n),
            |l| model::value(PLACES[k % 4], &mut l.words, &mut l.header, &mut l.scratch, a, n),
        ),
        7 => same(
            t,
            kind,
            lent,
            &what,
            |l| ours::MOVES[k % 4](&mut l.words, &mut l.header, &mut l.scratch, a, b),
            |l| model::moved(PLACES[k % 4], &mut l.words, &l.header, &mut l.scratch, a, b),
        ),
        8 => same(
            t,
            kind,
            lent,
            &what,
            |l| ours::CHANGES[k % 5](&mut l.words, &mut l.header, &mut l.scratch, a),
            |l| model::change(CHANGES[k % 5], &mut l.words, &mut l.header, &mut l.scratch, a),
        ),
        9 => same(
            t,
            kind,
            lent,
            &what,
            |l| face::descendant_count(&l.words, &l.header, &mut l.scratch, a),
            |l| model::descendant_count(&l.words, &l.header, &mut l.scratch, a),
        ),
        10 => same(
            t,
            kind,
            lent,
            &what,
            |l| ours::LISTS[k](&l.words, &l.header, &mut l.scratch, a, &mut l.list),
            |l| model::list(LISTS[k], &l.words, &l.header, &mut l.scratch, a, &mut l.list),
        ),
        11 => {
            let other = if d.below(2) == 0 { (lent.words.clone(), lent.header) } else { memory(d) };
            let b = identifier(d, &other.0, other.1[0] as usize);
            same(
                t,
                kind,
                lent,
                &what,
                |l| face::subtree_eq(&l.words, &l.header, a, &other.0, &other.1, b, &mut l.scratch),
                |l| model::subtree_eq((&l.words, &l.header, a), (&other.0, &other.1, b), &mut l.scratch),
            )
        }
        12 => return walks(d, t, lent, a),
        13 => {
            lent.bytes = vec![0xcc; around(d, 11 + 28 * fit)];
            same(
                t,
                kind,
                lent,
                &what,
                |l| face::save(&l.words, &l.header, &mut l.scratch, &mut l.bytes),
                |l| model::save(&l.words, &l.header, &mut l.scratch, &mut l.bytes),
            )
        }
        14 => return loads(d, t, lent),
        _ => return batches(d, t, lent),
    };
    // Changes go on from what they made, so that later calls see it.
    if d.below(2) == 0 {
        (lent.words, lent.header) = (after.words, after.header);
    }
}

/// A start and some steps; now and then from a state that no walk came to.
fn walks(d: &mut Dice, t: &mut Tally, lent: &mut Lent, root: u32) {
    let what = || format!("walk from {root}");
    lent.state = [1, 2, 3];
    *lent = same(
        t,
        12,
        lent,
        &what,
        |l| (face::walk_start(&l.words, &l.header, root, &mut l.state), 0),
        |l| (model::walk_start(&l.words, &l.header, root, &mut l.state), 0),
    );
    for _ in 0..4 {
        if d.below(6) == 0 {
            let used = lent.header[0] as usize;
            lent.state[d.below(2)] = identifier(d, &lent.words, used) ^ d.one_of(&[0, 0x8000]);
            lent.state[2] = d.one_of(&[0, 0, 0, 1, 2, 3, u32::MAX]);
        }
        let budget = d.one_of(&[0, 1, 1, 2, 3, 5, 9, 40]);
        lent.list = vec![0xbbbb_bbbb; around(d, budget as usize)];
        let what = || format!("walk from {root}, budget {budget}, state {:?}", lent.state);
        let after = same(
            t,
            12,
            lent,
            &what,
            |l| face::walk(&l.words, &l.header, &mut l.state, budget, &mut l.list),
            |l| model::walk(&l.words, &l.header, &mut l.state, budget, &mut l.list),
        );
        lent.state = after.state;
    }
}

/// The image of a memory as it is, sound or not, with a byte or the length changed.
fn image(d: &mut Dice, words: &[u32], header: [u32; 3]) -> Vec<u8> {
    let used = (header[0] as usize).min(words.len() / 7);
    let halves = [if d.below(12) > 0 { 1 } else { d.one_of(&[0, 2, 257]) }, used as u32, header[1], header[2]];
    let mut bytes: Vec<u8> = b"LFT".iter().copied().chain(halves.into_iter().flat_map(|n| (n as u16).to_le_bytes())).collect();
    bytes.extend(words[..7 * used].iter().flat_map(|w| w.to_le_bytes()));
    for _ in 0..d.one_of(&[0, 0, 0, 1, 2]) {
        let at = d.below(bytes.len());
        bytes[at] = d.next() as u8;
    }
    match d.below(10) {
        0 => bytes.truncate(d.below(bytes.len() + 1)),
        1 => bytes.extend(vec![0; 1 + d.below(29)]),
        _ => {}
    }
    bytes
}

fn loads(d: &mut Dice, t: &mut Tally, lent: &Lent) {
    let (words, mut header) = memory(d);
    if d.below(3) == 0 {
        header = [(words.len() / 7) as u32, header[1], header[2]];
    }
    let bytes = image(d, &words, header);
    let need = if bytes.len() < 11 { 3 } else { (bytes.len() - 11) / 28 };
    let mut lent = lent.clone();
    lent.words = vec![0xdddd_dddd; 7 * around(d, need) + d.below(7)];
    lent.scratch = vec![0xeeee_eeee; around(d, 2 * need)];
    let what = || format!("load {bytes:?}");
    same(
        t,
        14,
        &lent,
        &what,
        |l| face::load(&bytes, &mut l.words, &mut l.header, &mut l.scratch),
        |l| model::load(&bytes, &mut l.words, &mut l.header, &mut l.scratch),
    );
}

/// A trace of commands, some of them none, some cut off.
fn trace(d: &mut Dice, lent: &Lent) -> Vec<u8> {
    let mut bytes = Vec::new();
    for _ in 0..d.below(12) {
        let used = lent.header[0] as usize;
        let code = d.below(25);
        let a = if code == 1 { 7 } else { identifier(d, &lent.words, used) };
        let b = if code >= 21 { 8 } else { identifier(d, &lent.words, used) };
        let arguments = crate::theirs::ARGUMENTS[code];
        let keep = |n: u8, x: u32| if arguments >= n { x } else { 0 };
        let mut command = crate::theirs::Command { code: code as u8, a: keep(1, a), b: keep(2, b) }.bytes();
        if d.below(12) == 0 {
            command[d.below(12)] = d.next() as u8;
        }
        bytes.extend(command);
    }
    if d.below(4) == 0 {
        bytes.truncate(bytes.len() - d.below(12).min(bytes.len()));
    }
    bytes
}

fn batches(d: &mut Dice, t: &mut Tally, lent: &mut Lent) {
    let trace = trace(d, lent);
    lent.list = vec![0xbbbb_bbbb; around(d, 2 * trace.len().div_ceil(12))];
    let what = || format!("batch {trace:?}");
    let after = same(
        t,
        15,
        lent,
        &what,
        |l| face::batch(&mut l.words, &mut l.header, &mut l.scratch, &trace, &mut l.list),
        |l| model::batch(&mut l.words, &mut l.header, &mut l.scratch, &trace, &mut l.list),
    );
    if d.below(2) == 0 {
        (lent.words, lent.header) = (after.words, after.header);
    }
}

/// A memory of the crate's own calls, most often damaged, or random words.
fn memory(d: &mut Dice) -> (Vec<u32>, [u32; 3]) {
    if d.below(12) == 0 {
        return random_words(d);
    }
    let size = d.one_of(&[1, 2, 3, 5, 8, 14]);
    let calls = 1 + d.below(size * 6);
    let (mut words, mut header) = random_calls(d, size, calls).to_words();
    // The last handings-out of a slot.
    for slot in words.chunks_mut(7) {
        if d.below(10) > 0 {
        } else if slot[0] > 98_303 {
            slot[0] = d.one_of(&[98_304, 98_305, 98_306]);
        } else if slot[2..] == [0; 5] {
            slot[0] = d.one_of(&[32_765, 32_766, 32_767]);
        }
    }
    for _ in 0..d.one_of(&[0, 0, 0, 1, 2, 3]) {
        damage(d, &mut words, &mut header);
    }
    (words, header)
}

pub fn some(d: &mut Dice, t: &mut Tally, time: Duration) {
    let start = Instant::now();
    while start.elapsed() < time {
        t.memories += 1;
        let (words, header) = memory(d);
        let (mut words, header, scratch) = lent(d, &words, header);
        if d.below(3) > 0 {
            // Fresh slots behind those in use.
            words.extend((0..7 * d.below(4)).map(|_| 0x1_0001));
        }
        let scratch = vec![0xeeee_eeee; if d.below(4) > 0 { scratch + 8 } else { scratch }];
        let mut lent = Lent { words, header, scratch, list: vec![], bytes: vec![], state: [0; 3], counts: [0; 4] };
        for _ in 0..12 {
            calls(d, t, &mut lent);
        }
    }
}
