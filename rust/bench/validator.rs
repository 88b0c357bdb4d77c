//! The validator against the crate's `validate`. The validator's time has the clearing of its scratch in it, and the crate's that of the
//! memory that it makes for itself.

use crate::dice::Dice;
use crate::shapes::*;
use crate::timing::{Aims, interleaved, micro, time};
use indextree::Arena;
use lift::face;
use std::hint::black_box;

/// Slots, calls in a row, and the ratio aimed at.
const SIZES: [(usize, usize, f64); 2] = [(2_048, 30, 0.9), (65_535, 1, 0.5)];

fn forests(slots: usize) -> Vec<(&'static str, Arena<u32>)> {
    let d = &mut Dice(0x9e37_79b9_7f4a_7c15);
    vec![
        ("random", random_tree(d, slots).0),
        ("churned", churned(d, slots)),
        ("deep", chain(d, slots, true, false)),
        ("deep, shuffled", chain(d, slots, true, true)),
        ("wide", chain(d, slots, false, false)),
        ("wide, shuffled", chain(d, slots, false, true)),
        ("half removed", removed(d, slots)),
        ("single", single(slots)),
    ]
}

/// Medians in seconds: the crate's, the validator's.
fn compare(arena: &Arena<u32>, rounds: usize, calls: usize) -> (f64, f64) {
    let (words, header) = arena.to_words();
    let mut scratch = vec![1; 2 * header[0] as usize];
    assert_eq!(face::validate(&words, &header, &mut scratch), (0, 1));
    interleaved(
        rounds,
        || time(calls, || assert!(black_box(arena).validate())),
        || time(calls, || assert_eq!(face::validate(black_box(&words), &header, &mut scratch).1, 1)),
    )
}

pub fn table(rounds: usize, aims: &mut Aims) {
    println!("\n| slots | forest | indextree, µs | lift_validate, µs | ratio |");
    println!("|---|---|---|---|---|");
    for (slots, calls, aim) in SIZES {
        let (mut worst, mut logs) = (0.0, Vec::new());
        for (name, arena) in forests(slots) {
            let (theirs, ours) = compare(&arena, rounds, calls);
            let ratio = ours / theirs;
            worst = f64::max(worst, ratio);
            logs.push(ratio.ln());
            println!("| {slots} | {name} | {} | {} | {ratio:.2} |", micro(theirs), micro(ours));
        }
        let mean = (logs.iter().sum::<f64>() / logs.len() as f64).exp();
        println!("| {slots} | geometric mean | | | {mean:.2} |");
        println!("| {slots} | worst | | | {worst:.2} |");
        aims.add(&format!("validator, {slots} slots"), aim, worst);
    }
}
