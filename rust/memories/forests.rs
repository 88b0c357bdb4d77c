//! Every forest of some nodes: sets of chains of ordered trees.

use crate::sketch::{Memory, Tree};
use std::collections::BTreeSet;

/// Every chain of n nodes, slots 1 to n in preorder behind `base`.
fn chains(n: u32, base: u32) -> Vec<Vec<Tree>> {
    if n == 0 {
        return vec![Vec::new()];
    }
    let mut all = Vec::new();
    for size in 1..=n {
        for kids in chains(size - 1, base + 1) {
            for rest in chains(n - size, base + size) {
                let mut chain = vec![Tree { slot: base + 1, kids: kids.clone() }];
                chain.extend(rest);
                all.push(chain);
            }
        }
    }
    all
}

/// Every list of chains with n nodes in all, none empty; `least` bounds the sizes from below, so that each set of sizes comes once.
fn lists(n: u32, base: u32, least: u32) -> Vec<Vec<Vec<Tree>>> {
    if n == 0 {
        return vec![Vec::new()];
    }
    let mut all = Vec::new();
    for size in least..=n {
        for chain in chains(size, base) {
            for rest in lists(n - size, base + size, size) {
                let mut list = vec![chain.clone()];
                list.extend(rest);
                all.push(list);
            }
        }
    }
    all
}

fn moved(chain: &[Tree], slots: &[u32]) -> Vec<Tree> {
    chain.iter().map(|t| Tree { slot: slots[t.slot as usize - 1], kids: moved(&t.kids, slots) }).collect()
}

fn arrangements(n: u32) -> Vec<Vec<u32>> {
    if n == 0 {
        return vec![Vec::new()];
    }
    let shorter = arrangements(n - 1);
    (0..n as usize).flat_map(|at| shorter.iter().map(move |a| [&a[..at], &[n], &a[at..]].concat())).collect()
}

fn planted(list: &[Vec<Tree>], used: u32, slots: &[u32], stamp: &impl Fn(u32) -> u32) -> Memory {
    let mut m = Memory::empty(used);
    let moved: Vec<Vec<Tree>> = list.iter().map(|chain| moved(chain, slots)).collect();
    m.plant(&moved, stamp);
    m
}

/// Every forest of n nodes in n slots, in every arrangement, once each.
pub fn arranged(n: u32) -> Vec<Memory> {
    let mut seen = BTreeSet::new();
    let all = arrangements(n);
    lists(n, 0, 1)
        .iter()
        .flat_map(|list| all.iter().map(|slots| planted(list, n, slots, &|_| 0)))
        .filter(|m| seen.insert(m.words.clone()))
        .collect()
}

/// Every shape of n nodes, each in these slots of `used`, with these stamps; the slots of `free` are the free chain.
pub fn shapes(n: u32, used: u32, slots: &[u32], free: &[u32], stamp: impl Fn(u32) -> u32) -> Vec<Memory> {
    let mut seen = BTreeSet::new();
    let shape = |list: &[Vec<Tree>]| {
        let mut texts: Vec<String> = list.iter().map(|chain| drawn(chain)).collect();
        texts.sort();
        texts
    };
    let mut all = Vec::new();
    for list in lists(n, 0, 1).iter().filter(|list| seen.insert(shape(list))) {
        let mut m = planted(list, used, slots, &stamp);
        m.free(free);
        all.push(m);
    }
    all
}

fn drawn(chain: &[Tree]) -> String {
    chain.iter().map(|t| format!("({})", drawn(&t.kids))).collect()
}
