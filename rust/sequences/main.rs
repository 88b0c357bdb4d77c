//! The crate indextree and the proved library side by side: sequences [SECONDS [SEED]]. It stops at the first difference.
//! - each row of docs/DIFFERENCES.md, on its smallest input;
//! - long random sequences in the domain of comparison: answers, identifiers, every word (links, numbers, free order), header, scratch
//!   after each call; lists, edges, counts, `subtree_eq`, images; the same commands again as batches;
//! - hostile memories, damaged images, short lists and scratch, any identifiers: the library against a reading of document 01 that is
//!   written apart from it (common/model).

#[path = "../common/damage.rs"]
mod damage;
#[path = "../common/dice.rs"]
mod dice;
mod domain;
mod hostile;
#[path = "../common/model/mod.rs"]
mod model;
#[path = "../common/ours.rs"]
mod ours;
#[path = "../common/paper.rs"]
mod paper;
mod rows;
#[path = "../common/shapes.rs"]
mod shapes;
#[path = "../common/theirs.rs"]
mod theirs;

use dice::Dice;
use std::time::{Duration, Instant};

fn main() {
    let arguments: Vec<String> = std::env::args().skip(1).collect();
    let seconds: f64 = arguments.first().map_or(60.0, |a| a.parse().expect("SECONDS is a number"));
    let seed = arguments.get(1).map_or(88_172_645_463_325_252, |a| a.parse().expect("SEED is a number, not 0"));
    let d = &mut Dice(seed);
    rows::all();
    let (mut inside, mut outside) = (domain::Tally::default(), hostile::Tally::default());
    let start = Instant::now();
    while start.elapsed() < Duration::from_secs_f64(seconds) {
        // Two thirds of the time in the domain.
        domain::some(d, &mut inside, Duration::from_millis(200));
        hostile::some(d, &mut outside, Duration::from_millis(100));
    }
    println!("seed {seed}, {:.0} seconds, no difference", start.elapsed().as_secs_f64());
    inside.print();
    outside.print();
}
