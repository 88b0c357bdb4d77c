//! Memory that no calls made: wrong edits of a word, of the header, and some that no look at a single slot finds; random words; lengths
//! that are too short.

// Not every program here uses all of it.
#![allow(dead_code)]

use crate::dice::Dice;

fn id(words: &[u32], slot: usize) -> u32 {
    (slot as u32) << 16 | words[(slot - 1) * 7] & 0xffff
}

fn live(words: &[u32], slot: usize) -> bool {
    words[(slot - 1) * 7] < 32_768
}

/// One edit; it may leave memory as it is.
pub fn damage(d: &mut Dice, words: &mut [u32], header: &mut [u32; 3]) {
    let used = header[0] as usize;
    if used == 0 {
        header[1 + d.below(2)] = d.one_of(&[0, 1, 70_000, u32::MAX]);
        return;
    }
    let slot = 1 + d.below(used);
    let other = 1 + d.below(used);
    let at = (slot - 1) * 7;
    let k = 2 + d.below(5);
    let some_slot = |d: &mut Dice| match d.below(4) {
        0 => 0,
        1 => other as u32,
        2 => used as u32 + 1,
        _ => d.next() as u32,
    };
    match d.below(20) {
        0 => words[at + k] = 0,
        1..=5 => words[at + k] = id(words, other),
        6 => words[at + k] = id(words, other) ^ 1 << d.below(32),
        7 => words[at + k] = d.next() as u32,
        8 => words[at + k] = words[(other - 1) * 7 + 2 + d.below(5)],
        9 => words[at] = d.one_of(&[0, 1, 32_767, 32_768, 65_535, 65_536, 98_304, 98_305, 131_071, 131_072, u32::MAX]),
        10 => words[at] ^= 1 << d.below(18),
        11 => words[at + 1] = some_slot(d),
        12 => header[1] = some_slot(d),
        13 => header[2] = some_slot(d),
        14 => words.swap(at + k, (other - 1) * 7 + k),
        15 | 16 => under_a_leaf(words, used, slot, other),
        17 => root_ring(d, words, used, slot),
        18 => removed_neighbour(d, words, slot, other),
        _ => {
            // On the chain, spent or nearly so.
            if (98_304..131_072).contains(&words[at]) {
                words[at] = 98_304 + d.below(3) as u32;
            }
        }
    }
}

/// A root becomes the only child of a leaf, perhaps of its own: then a cycle of parents.
fn under_a_leaf(words: &mut [u32], used: usize, root: usize, from: usize) {
    let at = (root - 1) * 7;
    if !live(words, root) || words[at + 2..at + 5] != [0, 0, 0] {
        return;
    }
    let leaf = (1..=used).map(|i| (i + from) % used + 1).find(|&i| live(words, i) && words[(i - 1) * 7 + 5] == 0);
    if let Some(leaf) = leaf {
        words[at + 2] = id(words, leaf);
        words[(leaf - 1) * 7 + 5] = id(words, root);
        words[(leaf - 1) * 7 + 6] = id(words, root);
    }
}

/// A root chain, or a part of one, closed to a cycle of next.
fn root_ring(d: &mut Dice, words: &mut [u32], used: usize, start: usize) {
    let at = (start - 1) * 7;
    if !live(words, start) || words[at + 2] != 0 || words[at + 3] != 0 {
        return;
    }
    let mut end = start;
    loop {
        let next = (words[(end - 1) * 7 + 4] >> 16) as usize;
        if next == 0 || next > used || next == start || d.below(40) == 0 {
            break;
        }
        end = next;
    }
    words[at + 3] = id(words, end);
    words[(end - 1) * 7 + 4] = id(words, start);
}

/// A removed slot that is linked as if it were a neighbour.
fn removed_neighbour(d: &mut Dice, words: &mut [u32], slot: usize, other: usize) {
    if !live(words, slot) || words[(other - 1) * 7] & 0xffff < 32_768 {
        return;
    }
    let (there, back) = d.one_of(&[(4, 3), (3, 4), (5, 2), (6, 2), (2, 5)]);
    let name = id(words, other);
    words[(slot - 1) * 7 + there] = if d.below(2) == 0 { name & !0x8000 } else { name };
    words[(other - 1) * 7 + back] = id(words, slot);
    if d.below(2) == 0 {
        words[(other - 1) * 7] &= 0xffff;
    }
}

/// Two slots that are each other's parent and only child: among single nodes no look at one slot finds it.
pub fn pair_ring(words: &mut [u32], a: usize, b: usize) {
    for (slot, other) in [(a, b), (b, a)] {
        let its = id(words, other) & 0xffff_7fff;
        words[(slot - 1) * 7] = id(words, slot) & 0x7fff;
        words[(slot - 1) * 7 + 2..slot * 7].copy_from_slice(&[its, 0, 0, its, its]);
    }
}

/// Memory that no calls made: few values, many of them links to few slots.
pub fn random_words(d: &mut Dice) -> (Vec<u32>, [u32; 3]) {
    let used = d.below(5);
    let mut words = vec![0; used * 7];
    for slot in words.chunks_mut(7) {
        slot[0] = d.one_of(&[0, 0, 0, 3, 98_304, 131_071]);
        slot[1..].fill_with(|| d.one_of(&[0, 0, 65_536, 131_072, 196_608, 65_539]));
        slot[1] = d.one_of(&[0, 1, 2, 3, 4, 65_536]);
    }
    (words, [used as u32, d.below(3) as u32, d.below(3) as u32])
}

/// The words with others behind them, perhaps a slot too few; the header with another number of used, now and then; some scratch.
pub fn lent(d: &mut Dice, words: &[u32], header: [u32; 3]) -> (Vec<u32>, [u32; 3], usize) {
    let (mut words, mut header) = (words.to_vec(), header);
    match d.below(16) {
        0 => words.truncate(words.len() - words.len().min(1 + d.below(8))),
        1 => header[0] = d.one_of(&[0, header[0] / 2, header[0] + 1, 65_535, 65_536, u32::MAX]),
        2..=5 => words.extend((0..d.below(16)).map(|_| 0x1_0001)),
        _ => {}
    }
    let enough = 2 * (header[0] as usize).min(1_000);
    let scratch = match d.below(16) {
        0 => enough.saturating_sub(1),
        1 => d.below(enough + 1),
        2..=5 => enough + d.below(9),
        _ => enough,
    };
    (words, header, scratch)
}
