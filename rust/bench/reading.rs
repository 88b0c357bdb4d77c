//! Walks and lists against the crate's iterators, one checked append with its examination, and the image against a copy.

use crate::dice::Dice;
use crate::ours::LISTS;
use crate::shapes::{chain, churned, random_tree};
use crate::timing::{Aims, interleaved, micro, time};
use indextree::{Arena, NodeEdge, NodeId};
use lift::face;
use std::hint::black_box;

struct Sides {
    name: String,
    arena: Arena<u32>,
    words: Vec<u32>,
    header: [u32; 3],
    scratch: Vec<u32>,
    root: NodeId,
    calls: usize,
}

/// One tree of all slots, of three shapes.
fn sides(slots: usize) -> Vec<Sides> {
    let d = &mut Dice(0x9e37_79b9_7f4a_7c15);
    let mut one_tree = churned(d, slots);
    let roots: Vec<NodeId> = one_tree.roots().collect();
    for &id in &roots[1..] {
        roots[0].append(id, &mut one_tree);
    }
    let forests = [("random", random_tree(d, slots).0), ("churned", one_tree), ("deep, shuffled", chain(d, slots, true, true))];
    let calls = if slots > 10_000 { 1 } else { 20 };
    forests
        .into_iter()
        .map(|(name, arena)| {
            let (words, header) = arena.to_words();
            let root = arena.roots().next().expect("a root");
            Sides { name: format!("{slots} slots, {name}"), arena, words, header, scratch: vec![0; 2 * slots], root, calls }
        })
        .collect()
}

fn row(what: &str, of: &str, (theirs, ours): (f64, f64)) {
    println!("| {what} | {of} | {} | {} | {:.2} |", micro(theirs), micro(ours), ours / theirs);
}

/// An edge as document 01 writes it.
fn word(edge: NodeEdge) -> u32 {
    match edge {
        NodeEdge::Start(id) => id.number(),
        NodeEdge::End(id) => id.number() + 32_768,
    }
}

/// The whole walk, 256 edges at a time, against `traverse`: both sum up what they see.
fn walk(s: &Sides, rounds: usize) -> (f64, f64) {
    let theirs = || {
        black_box(s.root.traverse(&s.arena).fold(0u32, |sum, edge| sum.wrapping_add(word(edge))));
    };
    let mut list = [0; 256];
    let mut ours = || {
        let (mut state, mut sum) = ([0; 3], 0u32);
        assert_eq!(face::walk_start(&s.words, &s.header, s.root.number(), &mut state), 0);
        while state[2] == 0 {
            let (_, n) = face::walk(&s.words, &s.header, &mut state, 256, &mut list);
            sum = list[..n as usize].iter().fold(sum, |sum, &edge| sum.wrapping_add(edge));
        }
        black_box(sum);
    };
    interleaved(rounds, || time(s.calls, theirs), || time(s.calls, &mut ours))
}

mod plain {
    unsafe extern "C" {
        fn plain_walk(words: *const u32, used: u32, root: u32, next: *mut u32, budget: u32, list: *mut u32) -> u32;
    }

    /// Edges of the walk in plain C, as many as there are places.
    pub fn walk(words: &[u32], used: u32, root: u32, next: &mut u32, list: &mut [u32]) -> u32 {
        assert!(words.len() >= 7 * used as usize);
        // It reads slots in use, and writes at most so many words.
        unsafe { plain_walk(words.as_ptr(), used, root, next, list.len() as u32, list.as_mut_ptr()) }
    }
}

/// The same walk in plain C, with the same tests of each edge, against `traverse`.
fn plainly(s: &Sides, rounds: usize) -> (f64, f64) {
    let theirs = || {
        black_box(s.root.traverse(&s.arena).fold(0u32, |sum, edge| sum.wrapping_add(word(edge))));
    };
    let mut list = [0; 256];
    let mut plain = || {
        let (mut next, mut sum) = (s.root.number(), 0u32);
        while next != 0 {
            let n = plain::walk(&s.words, s.header[0], s.root.number(), &mut next, &mut list);
            sum = list[..n as usize].iter().fold(sum, |sum, &edge| sum.wrapping_add(edge));
        }
        black_box(sum)
    };
    assert_eq!(
        plain(),
        s.root.traverse(&s.arena).fold(0u32, |sum, edge| sum.wrapping_add(word(edge))),
        "the walk in plain C does something else"
    );
    interleaved(
        rounds,
        || time(s.calls, theirs),
        || {
            time(s.calls, || {
                plain();
            })
        },
    )
}

/// A list from the root, or from the last node in preorder for those that go up: with its examination, against the crate's iterator, and
/// perhaps its `validate` before that. Both write to memory that is there already.
fn list(s: &Sides, kind: usize, validated: bool, rounds: usize) -> (f64, f64) {
    let from = if kind == 3 || kind == 7 { s.root.descendants(&s.arena).last().expect("some") } else { s.root };
    let mut theirs = Vec::with_capacity(s.arena.len());
    let mut iterated = || {
        assert!(!validated || black_box(&s.arena).validate());
        let arena = black_box(&s.arena);
        theirs.clear();
        match kind {
            0 => theirs.extend(from.descendants(arena)),
            1 => theirs.extend(from.breadth_first(arena)),
            2 => theirs.extend(from.leaves(arena)),
            3 => theirs.extend(from.ancestors(arena)),
            4 => theirs.extend(from.children(arena)),
            _ => theirs.extend(from.predecessors(arena)),
        }
        black_box(&theirs);
    };
    let (mut scratch, mut ours) = (s.scratch.clone(), vec![0; s.arena.len()]);
    let mut listed = || {
        assert_eq!(LISTS[kind](black_box(&s.words), &s.header, &mut scratch, from.number(), &mut ours).0, 0);
        black_box(&ours);
    };
    interleaved(rounds, || time(s.calls, &mut iterated), || time(s.calls, &mut listed))
}

/// A leaf to and fro between two nodes, each time with its examination, against `validate` and `checked_append`.
fn append(s: &mut Sides, rounds: usize) -> (f64, f64) {
    let leaf = s.root.descendants(&s.arena).last().expect("some");
    let targets: Vec<NodeId> = s.root.descendants(&s.arena).take(2).collect();
    assert!(targets.len() == 2 && !targets.contains(&leaf), "the last node is to be moved between the first two");
    let (mut arena, calls) = (s.arena.clone(), 2 * s.calls);
    let (mut words, mut header, mut scratch) = (s.words.clone(), s.header, s.scratch.clone());
    let (mut i, mut j) = (0, 0);
    interleaved(
        rounds,
        || {
            time(calls, || {
                i += 1;
                assert!(black_box(&arena).validate());
                assert!(targets[i % 2].checked_append(leaf, &mut arena).is_ok());
            })
        },
        || {
            time(calls, || {
                j += 1;
                assert_eq!(face::checked_append(&mut words, &mut header, &mut scratch, targets[j % 2].number(), leaf.number()), (0, 0));
            })
        },
    )
}

/// Save and load against copying the words, and against a plain loop of bytes.
fn image(s: &Sides, slots: usize, rounds: usize, aims: &mut Aims) {
    let length = 11 + 4 * s.words.len();
    let mut bytes = vec![0u8; length];
    let mut scratch = s.scratch.clone();
    let mut save = || time(s.calls, || assert_eq!(face::save(black_box(&s.words), &s.header, &mut scratch, &mut bytes).0, 0));
    let (mut copied, mut looped) = (vec![0u32; s.words.len()], vec![0u8; length]);
    let (copy, saved) = interleaved(rounds, || time(s.calls, || black_box(&mut copied).copy_from_slice(black_box(&s.words))), &mut save);
    row("save, against a copy of the words", &s.name, (copy, saved));
    let mut to_bytes = || {
        time(s.calls, || {
            for (out, word) in black_box(&mut looped)[11..].chunks_exact_mut(4).zip(black_box(&s.words)) {
                out.copy_from_slice(&word.to_le_bytes());
            }
        })
    };
    row("save, against `to_le_bytes` in a loop", &s.name, interleaved(rounds, &mut to_bytes, &mut save));
    row(
        "save, against `validate` and `to_le_bytes`",
        &s.name,
        interleaved(rounds, || to_bytes() + time(s.calls, || assert!(black_box(&s.arena).validate())), &mut save),
    );
    let mut examined = s.scratch.clone();
    let mut examine = || time(s.calls, || assert_eq!(face::validate(black_box(&s.words), &s.header, &mut examined), (0, 1)));
    let beyond = interleaved(rounds, &mut to_bytes, || save() - examine());
    row("save less its examination, against `to_le_bytes` in a loop", &s.name, beyond);
    aims.add(&format!("save beyond its examination, {slots} slots"), 1.5, beyond.1 / beyond.0);
    let (mut words, mut header, mut scratch) = (vec![0u32; s.words.len()], [0; 3], s.scratch.clone());
    let mut load = || time(s.calls, || assert_eq!(face::load(black_box(&bytes), &mut words, &mut header, &mut scratch), (0, 0)));
    let (copy, loaded) = interleaved(rounds, || time(s.calls, || black_box(&mut copied).copy_from_slice(black_box(&s.words))), &mut load);
    row("load, against a copy of the words", &s.name, (copy, loaded));
    let mut from_bytes = || {
        time(s.calls, || {
            for (word, bytes) in black_box(&mut copied).iter_mut().zip(black_box(&looped)[11..].chunks_exact(4)) {
                *word = u32::from_le_bytes([bytes[0], bytes[1], bytes[2], bytes[3]]);
            }
        })
    };
    row("load, against `from_le_bytes` in a loop", &s.name, interleaved(rounds, &mut from_bytes, &mut load));
    let beyond = interleaved(rounds, &mut from_bytes, || load() - examine());
    row("load less its examination, against `from_le_bytes` in a loop", &s.name, beyond);
    aims.add(&format!("load beyond its examination, {slots} slots"), 1.5, beyond.1 / beyond.0);
    row(
        "load, against `from_le_bytes` and `validate`",
        &s.name,
        interleaved(rounds, || from_bytes() + time(s.calls, || assert!(black_box(&s.arena).validate())), &mut load),
    );
}

/// The lists that are measured, by their place in LISTS.
const MEASURED: [(usize, &str); 6] =
    [(0, "descendants"), (1, "breadth first"), (2, "leaves"), (3, "ancestors"), (4, "children"), (7, "predecessors")];

pub fn tables(rounds: usize, aims: &mut Aims) {
    println!("\n| what | of | indextree or copy, µs | library, µs | ratio |");
    println!("|---|---|---|---|---|");
    for slots in [2_048, 65_535] {
        for mut s in sides(slots) {
            let walked = walk(&s, rounds);
            row("walk, 256 edges at a time, against `traverse`", &s.name, walked);
            row("the same walk in plain C, against `traverse`", &s.name, plainly(&s, rounds));
            aims.add(&format!("stepped walk, {slots} slots"), 0.8, walked.1 / walked.0);
            for (kind, name) in MEASURED {
                if kind < 3 {
                    row(&format!("{name}, with its examination, against the iterator"), &s.name, list(&s, kind, false, rounds));
                }
                let both = list(&s, kind, true, rounds);
                row(&format!("{name}, with its examination, against `validate` and the iterator"), &s.name, both);
                if kind == 0 {
                    aims.add(&format!("descendants list against `validate` and the iterator, {slots} slots"), 0.6, both.1 / both.0);
                }
            }
            let appended = append(&mut s, rounds);
            row("checked append, with its examination, against `validate` and `checked_append`", &s.name, appended);
            aims.add(&format!("checked append with its examination, {slots} slots"), 1.0, appended.1 / appended.0);
            if s.name.contains("churned") {
                image(&s, slots, rounds, aims);
            }
        }
    }
}
