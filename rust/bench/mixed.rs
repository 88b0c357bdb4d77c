//! Mixed commands: a batch against the same operations called directly on the crate's arena, with its own identifiers; and what a command
//! costs by the slots in use. Beside it what a batch in plain C takes, of the same design and with nothing tested: what the machine allows.

use crate::dice::Dice;
use crate::shapes::churned;
use crate::theirs::{self, ARGUMENTS, Command, found, number};
use crate::timing::{Aims, interleaved, median, micro, time, time_on};
use indextree::{Arena, NodeId};
use lift::face;
use std::hint::black_box;

/// Codes by share. Live count and validate look at every slot, descendant count at a subtree: the first two mixes are without them.
pub const DISPATCH: &[u8] = &[1, 21, 21, 21, 22, 23, 24, 10, 10, 10, 10, 11, 4, 5, 6, 7, 8, 2, 2, 2, 3, 3, 13, 13, 14, 14, 15, 16, 16, 17];
pub const EVERY: &[u8] = &[1, 2, 3, 4, 5, 6, 7, 8, 9, 10, 10, 10, 11, 12, 13, 14, 15, 16, 17, 21, 22, 23, 24, 1, 21, 22, 23];
pub const ALL: &[u8] = &[1, 2, 3, 4, 5, 6, 7, 8, 9, 10, 10, 10, 11, 12, 13, 14, 15, 16, 17, 18, 19, 20, 21, 22, 23, 24, 1, 21, 22, 23];

/// A forest, and commands on found identifiers that leave about as many nodes as there were.
pub struct Mix {
    pub start: Arena<u32>,
    pub capacity: usize,
    pub commands: Vec<Command>,
}

/// The codes that free slots, and those that take one.
fn frees(code: u8) -> bool {
    (10..=12).contains(&code)
}

fn takes(code: u8) -> bool {
    code == 1 || code >= 21
}

pub fn mixed(d: &mut Dice, start: Arena<u32>, capacity: usize, codes: &[u8], count: usize) -> Mix {
    let mut arena = start.clone();
    let target = arena.live_count();
    // Nodes by place, so that one is found quickly; a place may hold one that is gone.
    let mut live: Vec<u32> = arena.iter_node_ids().map(NodeId::number).collect();
    let mut commands = Vec::with_capacity(count);
    while commands.len() < count {
        let mut code = d.one_of(codes);
        let n = arena.live_count();
        if takes(code) && n >= capacity.min(target + target / 8 + 1) || n == 0 {
            code = if n == 0 { 1 } else { 10 };
        }
        let mut pick = |d: &mut Dice, arena: &Arena<u32>| loop {
            let at = d.below(live.len());
            if found(arena, live[at]).is_some() {
                return live[at];
            }
            live.swap_remove(at);
        };
        let a = match ARGUMENTS[code as usize] {
            _ if code == 1 => d.next() as u32,
            0 => 0,
            _ => pick(d, &arena),
        };
        // A subtree that is removed or taken apart is a small one, or the forest would be gone at once.
        if matches!(code, 9 | 11 | 12) && found(&arena, a).is_some_and(|id| id.descendants(&arena).nth(12).is_some()) {
            continue;
        }
        if frees(code) && n + target / 8 < target {
            continue;
        }
        let b = match code {
            3 | 21.. => d.next() as u32,
            4..=7 => pick(d, &arena),
            _ => 0,
        };
        let c = Command { code, a, b };
        let (no, result) = theirs::command(&mut arena, capacity, c);
        if takes(code) && no == 0 {
            live.push(result);
        }
        commands.push(c);
    }
    Mix { start, capacity, commands }
}

/// An operation with the crate's own identifiers.
#[derive(Clone, Copy)]
struct Direct {
    code: u8,
    a: NodeId,
    b: NodeId,
    number: u32,
}

fn directs(commands: &[Command]) -> Vec<Direct> {
    let id = |x: u32| NodeId::of_number(x | 0x1_0000).expect("slot not 0");
    commands
        .iter()
        .map(|c| match c.code {
            1 => Direct { code: 1, a: id(0), b: id(0), number: c.a },
            4..=7 => {
                Direct { code: c.code, a: NodeId::of_number(c.a).expect("found"), b: NodeId::of_number(c.b).expect("found"), number: 0 }
            }
            code => Direct { code, a: NodeId::of_number(c.a).unwrap_or(id(0)), b: id(0), number: c.b },
        })
        .collect()
}

#[inline]
fn direct(arena: &mut Arena<u32>, op: Direct) -> u32 {
    let refused = |r: Result<(), indextree::NodeError>| u32::from(r.is_err());
    match op.code {
        1 => arena.new_node(op.number).number(),
        2 => *arena[op.a].get(),
        3 => {
            *arena[op.a].get_mut() = op.number;
            0
        }
        4 => refused(op.a.checked_append(op.b, arena)),
        5 => refused(op.a.checked_prepend(op.b, arena)),
        6 => refused(op.a.checked_insert_after(op.b, arena)),
        7 => refused(op.a.checked_insert_before(op.b, arena)),
        8 => refused(op.a.checked_detach(arena)),
        9 => refused(op.a.checked_detach_children(arena)),
        10 => refused(op.a.checked_remove(arena)),
        11 => refused(op.a.checked_remove_subtree(arena)),
        12 => refused(op.a.checked_remove_children(arena)),
        13 => number(op.a.parent(arena)),
        14 => number(op.a.first_child(arena)),
        15 => number(op.a.last_child(arena)),
        16 => number(op.a.next_sibling(arena)),
        17 => number(op.a.previous_sibling(arena)),
        18 => arena.live_count() as u32,
        19 => op.a.descendant_count(arena) as u32,
        20 => u32::from(arena.validate()),
        21 => op.a.append_value(op.number, arena).number(),
        22 => op.a.prepend_value(op.number, arena).number(),
        23 => op.a.insert_after_value(op.number, arena).number(),
        _ => op.a.insert_before_value(op.number, arena).number(),
    }
}

mod plain {
    unsafe extern "C" {
        fn plain_batch(words: *mut u32, words_len: usize, header: *mut u32, trace: *const u8, count: usize, answers: *mut u32) -> u32;
    }

    /// The batch in plain C, of the codes without counts and validate, on ready memory.
    pub fn batch(words: &mut [u32], header: &mut [u32; 3], trace: &[u8], answers: &mut [u32]) {
        let count = trace.len() / 12;
        assert!(answers.len() >= 2 * count);
        // It writes the words, the header and two words for each command.
        assert_eq!(
            unsafe { plain_batch(words.as_mut_ptr(), words.len(), header.as_mut_ptr(), trace.as_ptr(), count, answers.as_mut_ptr()) },
            0
        );
    }
}

/// How much of the library's time the batch in plain C takes; its answers and words are the library's.
fn plainly(mix: &Mix, rounds: usize) -> f64 {
    let trace: Vec<u8> = mix.commands.iter().flat_map(|c| c.bytes()).collect();
    let (start, header) = mix.start.to_words();
    let mut words = vec![0; 7 * mix.capacity];
    words[..start.len()].copy_from_slice(&start);
    let count = mix.commands.len();
    let (mut scratch, mut ours, mut answers) = (vec![0; 2 * mix.capacity], vec![0; 2 * count], vec![0; 2 * count]);
    let (mut by_ours, mut by_plain) = ((words.clone(), header), (words.clone(), header));
    face::batch(&mut by_ours.0, &mut by_ours.1, &mut scratch, &trace, &mut ours);
    plain::batch(&mut by_plain.0, &mut by_plain.1, &trace, &mut answers);
    assert!(ours == answers && by_ours == by_plain, "the batch in plain C does something else");
    let make = || (words.clone(), header);
    let (library, plain) = interleaved(
        rounds,
        || time_on(make, |(words, header)| assert_eq!(face::batch(words, header, &mut scratch, &trace, &mut ours).0, 0)),
        || time_on(make, |(words, header)| plain::batch(words, header, &trace, &mut answers)),
    );
    plain / library
}

/// Seconds for a command: the crate's, the batch's.
fn compare(mix: &Mix, rounds: usize) -> (f64, f64) {
    let count = mix.commands.len();
    let ops = directs(&mix.commands);
    let trace: Vec<u8> = mix.commands.iter().flat_map(|c| c.bytes()).collect();
    let (start, header) = mix.start.to_words();
    let mut words = vec![0; 7 * mix.capacity];
    words[..start.len()].copy_from_slice(&start);
    let (mut scratch, mut answers) = (vec![0; 2 * mix.capacity], vec![0; 2 * count]);
    let (theirs, ours) = interleaved(
        rounds,
        || {
            let make = || {
                let mut arena = mix.start.clone();
                arena.reserve(mix.capacity - arena.len());
                arena
            };
            time_on(make, |arena| {
                for &op in &ops {
                    black_box(direct(arena, op));
                }
            })
        },
        || {
            time_on(
                || (words.clone(), header),
                |(words, header)| assert_eq!(face::batch(words, header, &mut scratch, &trace, &mut answers), (0, count as u32)),
            )
        },
    );
    (theirs / count as f64, ours / count as f64)
}

/// Commands of one kind, at 2,000 slots in use: where the time goes.
pub fn kinds(rounds: usize) {
    println!("\n| kind of command | direct calls on indextree, µs each | lift_batch, µs each | ratio |");
    println!("|---|---|---|---|");
    let kinds: [(&str, &[u8]); 9] = [
        ("get", &[2]),
        ("the five links", &[13, 14, 15, 16, 17]),
        ("set", &[3]),
        ("append", &[4]),
        ("prepend, insert after, insert before", &[5, 6, 7]),
        ("detach, append", &[8, 4]),
        ("new, remove", &[1, 10]),
        ("value forms, remove", &[21, 22, 23, 24, 10, 10, 10, 10]),
        ("append value, remove subtree", &[21, 11]),
    ];
    for (name, codes) in kinds {
        let d = &mut Dice(0x2545_f491_4f6c_dd1d);
        let start = churned(d, 2_000);
        let mix = mixed(d, start, 2_048, codes, 100_000);
        let (theirs, ours) = compare(&mix, rounds);
        println!("| {name} | {} | {} | {:.2} |", micro(theirs), micro(ours), ours / theirs);
    }
    // What decoding, refusing and answering cost: commands of code 0, on nothing.
    let (trace, mut answers) = (vec![0u8; 12 * 100_000], vec![0; 200_000]);
    let mut unknown = || time(1, || assert_eq!(face::batch(&mut [], &mut [0; 3], &mut [], black_box(&trace), &mut answers), (0, 100_000)));
    let mut times: Vec<f64> = (0..rounds).map(|_| unknown()).collect();
    println!("\nA command of an unknown code, decoded, refused and answered by lift_batch: {} µs.", micro(median(&mut times) / 1e5));
}

pub fn table(rounds: usize, aims: &mut Aims) {
    println!("\n| slots in use | mix | commands | direct calls on indextree, µs each | lift_batch, µs each | ratio | plain C, ratio |");
    println!("|---|---|---|---|---|---|---|");
    let d = &mut Dice(0x2545_f491_4f6c_dd1d);
    let mut costs = Vec::new();
    for (name, codes) in [("dispatch", DISPATCH), ("every change and read", EVERY), ("all codes", ALL)] {
        for (slots, capacity, count) in [(256, 512, 400_000), (2_000, 2_048, 400_000), (65_000, 65_535, 2_000_000)] {
            if name == "all codes" && slots > 10_000 {
                continue;
            }
            let start = churned(d, slots);
            let mix = mixed(d, start, capacity, codes, count);
            let (theirs, ours) = compare(&mix, rounds);
            let plain = if name == "all codes" { String::new() } else { format!("{:.2}", plainly(&mix, rounds) * ours / theirs) };
            println!("| {slots} | {name} | {count} | {} | {} | {:.2} | {plain} |", micro(theirs), micro(ours), ours / theirs);
            costs.push((name, slots, ours, theirs));
            if name != "all codes" {
                aims.add(&format!("batch without counts and validate, {slots} slots"), 0.7, ours / theirs);
            }
        }
    }
    for name in ["dispatch", "every change and read"] {
        let of = |slots: usize| costs.iter().find(|c| c.0 == name && c.1 == slots).expect("measured");
        let (small, large) = (of(256), of(65_000));
        let growth = large.2 / small.2;
        println!(
            "\nGrowth of a command's cost, {name}, from 256 to 65,000 slots in use: the batch {growth:.2}, indextree {:.2}.",
            large.3 / small.3
        );
        aims.add("growth of a command's cost, 256 to 65,000 slots", 3.0, growth);
    }
}
