//! Forests, made with the crate's own calls.

// Not every program here uses all of it.
#![allow(dead_code)]

use crate::dice::Dice;
use indextree::{Arena, NodeId};

/// Random calls from empty, at most `most` slots in use.
pub fn random_calls(d: &mut Dice, most: usize, calls: usize) -> Arena<u32> {
    let mut a = Arena::new();
    let mut ids: Vec<NodeId> = Vec::new();
    for i in 0..calls {
        let room = a.len() - ids.len() > 0 || a.len() < most;
        let pick = |d: &mut Dice, ids: &Vec<NodeId>| ids[d.below(ids.len())];
        match d.below(12) {
            0..=4 if room => {
                let id = a.new_node(i as u32);
                if !ids.is_empty() && d.below(4) > 0 {
                    let t = pick(d, &ids);
                    let _ = match d.below(4) {
                        0 => t.checked_append(id, &mut a),
                        1 => t.checked_prepend(id, &mut a),
                        2 => t.checked_insert_after(id, &mut a),
                        _ => t.checked_insert_before(id, &mut a),
                    };
                }
                ids.push(id);
            }
            5..=8 if !ids.is_empty() => {
                let (t, x) = (pick(d, &ids), pick(d, &ids));
                let _ = match d.below(4) {
                    0 => t.checked_append(x, &mut a),
                    1 => t.checked_prepend(x, &mut a),
                    2 => t.checked_insert_after(x, &mut a),
                    _ => t.checked_insert_before(x, &mut a),
                };
            }
            9 if !ids.is_empty() => pick(d, &ids).detach(&mut a),
            10 if !ids.is_empty() => pick(d, &ids).remove(&mut a),
            11 if !ids.is_empty() && d.below(3) == 0 => pick(d, &ids).remove_subtree(&mut a),
            _ => {}
        }
        ids.retain(|x| !x.is_removed(&a));
    }
    a
}

/// Each node appended to a random earlier one.
pub fn random_tree(d: &mut Dice, n: usize) -> (Arena<u32>, Vec<NodeId>) {
    let mut a = Arena::new();
    let mut ids = vec![a.new_node(0)];
    for i in 1..n {
        let t = ids[d.below(ids.len())];
        let id = a.new_node(i as u32);
        t.append(id, &mut a);
        ids.push(id);
    }
    (a, ids)
}

/// A random tree after many removals, creations and moves: slots in no order.
pub fn churned(d: &mut Dice, n: usize) -> Arena<u32> {
    let (mut a, mut ids) = random_tree(d, n);
    for _ in 0..6 {
        d.shuffle(&mut ids);
        for id in ids.split_off(n - n / 3) {
            id.remove(&mut a);
        }
        while ids.len() < n {
            let id = a.new_node(7);
            let t = ids[d.below(ids.len())];
            if d.below(2) == 0 {
                t.append(id, &mut a)
            } else {
                t.insert_before(id, &mut a)
            }
            ids.push(id);
        }
        for _ in 0..n / 2 {
            let (t, x) = (ids[d.below(n)], ids[d.below(n)]);
            let _ = t.checked_append(x, &mut a);
        }
    }
    a
}

/// One chain of n, each the only child (deep) or the next sibling (wide) of the one before, slots in order or shuffled.
pub fn chain(d: &mut Dice, n: usize, deep: bool, mixed: bool) -> Arena<u32> {
    let mut a = Arena::new();
    let mut ids: Vec<NodeId> = (0..n).map(|i| a.new_node(i as u32)).collect();
    if mixed {
        d.shuffle(&mut ids);
    }
    for i in 1..n {
        let t = if deep { ids[i - 1] } else { ids[0] };
        t.append(ids[i], &mut a);
    }
    a
}

/// A random tree of which half is removed, in no order.
pub fn removed(d: &mut Dice, n: usize) -> Arena<u32> {
    let (mut a, mut ids) = random_tree(d, n);
    d.shuffle(&mut ids);
    for id in ids.split_off(n / 2) {
        id.remove(&mut a);
    }
    a
}

/// n nodes and no link.
pub fn single(n: usize) -> Arena<u32> {
    let mut a = Arena::new();
    for i in 0..n {
        a.new_node(i as u32);
    }
    a
}
