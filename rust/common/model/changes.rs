//! What each change does, in document 01's words, on the forest.

use super::forest::{Forest, Home};
use super::{ANCESTOR, Answer, FULL, Header, Judged, REMOVED, SELF, answer, found, named, ready};
use crate::paper::capacity;

/// Where a move or a value form puts a node.
#[derive(Clone, Copy, PartialEq, Eq, Debug)]
pub enum Place {
    Append,
    Prepend,
    After,
    Before,
}

pub const PLACES: [Place; 4] = [Place::Append, Place::Prepend, Place::After, Place::Before];

/// The changes that name one node.
#[derive(Clone, Copy, PartialEq, Eq, Debug)]
pub enum Change {
    Detach,
    DetachChildren,
    Remove,
    RemoveSubtree,
    RemoveChildren,
}

pub const CHANGES: [Change; 5] = [Change::Detach, Change::DetachChildren, Change::Remove, Change::RemoveSubtree, Change::RemoveChildren];

/// A slot for a node: the first of the free chain, else the next fresh one. All its words are written.
fn create(words: &mut [u32], header: &mut Header, number: u32) -> Judged<u32> {
    let [used, first, last] = *header;
    let (slot, stamp) = if first != 0 {
        let at = (first as usize - 1) * 7;
        let next = words[at + 1];
        *header = [used, next, if next == 0 { 0 } else { last }];
        // −k becomes k.
        (first, 65_536 - words[at] % 65_536)
    } else if (used as usize) < capacity(words) {
        header[0] += 1;
        (used + 1, 0)
    } else {
        return Err(FULL);
    };
    let at = (slot as usize - 1) * 7;
    words[at..at + 7].copy_from_slice(&[stamp, number, 0, 0, 0, 0, 0]);
    Ok(slot)
}

fn id(words: &[u32], slot: u32) -> u32 {
    slot * 65_536 + words[(slot as usize - 1) * 7]
}

/// s becomes −s − 1, the kind 1, the other words zero; it joins the chain at its end, unless it is spent.
fn free(words: &mut [u32], header: &mut Header, slot: u32) {
    let at = (slot as usize - 1) * 7;
    let stamp = 65_535 - words[at];
    words[at..at + 7].copy_from_slice(&[65_536 + stamp, 0, 0, 0, 0, 0, 0]);
    if stamp != 32_768 {
        match header[2] {
            0 => header[1] = slot,
            last => words[(last as usize - 1) * 7 + 1] = slot,
        }
        header[2] = slot;
    }
}

pub fn new_node(words: &mut [u32], header: &mut Header, scratch: &mut [u32], number: u32) -> Answer {
    answer(ready(words, header, scratch).and_then(|()| create(words, header, number)).map(|slot| id(words, slot)))
}

/// A slot that is on no chain goes to its place.
fn put(forest: &mut Forest, place: Place, target: u32, slot: u32) {
    let (home, at) = match place {
        Place::Append => (Home::Child(target), forest.children[target as usize].len()),
        Place::Prepend => (Home::Child(target), 0),
        Place::After => {
            let (home, at) = forest.home(target);
            (home, at + 1)
        }
        Place::Before => forest.home(target),
    };
    forest.chain(home).insert(at, slot);
}

pub fn value(place: Place, words: &mut [u32], header: &mut Header, scratch: &mut [u32], target: u32, number: u32) -> Answer {
    answer(ready(words, header, scratch).and_then(|()| {
        let target = named(words, header, target)?;
        let slot = create(words, header, number)?;
        let mut forest = Forest::read(words, header);
        take(&mut forest, slot);
        put(&mut forest, place, target, slot);
        forest.write_links(words);
        Ok(id(words, slot))
    }))
}

/// Off its chain; the others of the chain stay together.
fn take(forest: &mut Forest, slot: u32) {
    let (home, at) = forest.home(slot);
    forest.chain(home).remove(at);
}

pub fn moved(place: Place, words: &mut [u32], header: &Header, scratch: &mut [u32], target: u32, node: u32) -> Answer {
    answer(ready(words, header, scratch).and_then(|()| {
        if target == node {
            return Err(SELF);
        }
        if !found(words, header, target) || !found(words, header, node) {
            return Err(REMOVED);
        }
        let (target, node) = (target / 65_536, node / 65_536);
        let mut forest = Forest::read(words, header);
        if forest.ancestors(target).contains(&node) {
            return Err(ANCESTOR);
        }
        take(&mut forest, node);
        put(&mut forest, place, target, node);
        forest.write_links(words);
        Ok(0)
    }))
}

pub fn change(change: Change, words: &mut [u32], header: &mut Header, scratch: &mut [u32], named_id: u32) -> Answer {
    answer(ready(words, header, scratch).and_then(|()| {
        let slot = named(words, header, named_id)?;
        let mut forest = Forest::read(words, header);
        let mut freed = Vec::new();
        match change {
            Change::Detach => {
                take(&mut forest, slot);
                forest.chains.push(vec![slot]);
            }
            Change::DetachChildren => {
                let children = std::mem::take(&mut forest.children[slot as usize]);
                forest.chains.extend(children.into_iter().map(|c| vec![c]));
            }
            Change::Remove => {
                let children = std::mem::take(&mut forest.children[slot as usize]);
                let (home, at) = forest.home(slot);
                forest.chain(home).splice(at..=at, children);
                freed.push(slot);
            }
            Change::RemoveSubtree => {
                freed = forest.postorder(slot);
                take(&mut forest, slot);
            }
            Change::RemoveChildren => {
                freed = forest.postorder(slot);
                freed.pop();
                forest.children[slot as usize].clear();
            }
        }
        for &s in &freed {
            forest.children[s as usize].clear();
            free(words, header, s);
        }
        forest.write_links(words);
        Ok(0)
    }))
}
