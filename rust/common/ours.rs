//! Document 01's commands, done by the proved library, each by its own exported call.

// Not every program here uses all of it.
#![allow(dead_code)]

use crate::theirs::Command;
use lift::face::{self, Answer, Header};

pub type Read = fn(&[u32], &Header, u32) -> Answer;
pub type One = fn(&mut [u32], &mut Header, &mut [u32], u32) -> Answer;
pub type Two = fn(&mut [u32], &mut Header, &mut [u32], u32, u32) -> Answer;
pub type List = fn(&[u32], &Header, &mut [u32], u32, &mut [u32]) -> Answer;

/// Codes 4 to 7 and 21 to 24.
pub const MOVES: [Two; 4] = [face::checked_append, face::checked_prepend, face::checked_insert_after, face::checked_insert_before];
pub const VALUES: [Two; 4] = [face::append_value, face::prepend_value, face::insert_after_value, face::insert_before_value];

/// Codes 8 to 12.
pub const CHANGES: [One; 5] =
    [face::checked_detach, face::checked_detach_children, face::checked_remove, face::checked_remove_subtree, face::remove_children];

/// Codes 13 to 17.
pub const LINKS: [Read; 5] = [face::parent, face::first_child, face::last_child, face::next_sibling, face::previous_sibling];

pub const LISTS: [List; 8] = [
    face::descendants,
    face::breadth_first,
    face::leaves,
    face::ancestors,
    face::children,
    face::following_siblings,
    face::preceding_siblings,
    face::predecessors,
];

pub fn command(words: &mut [u32], header: &mut Header, scratch: &mut [u32], Command { code, a, b }: Command) -> Answer {
    let k = code as usize;
    match code {
        1 => face::new_node(words, header, scratch, a),
        2 => face::get(words, header, a),
        3 => face::set(words, header, a, b),
        4..=7 => MOVES[k - 4](words, header, scratch, a, b),
        8..=12 => CHANGES[k - 8](words, header, scratch, a),
        13..=17 => LINKS[k - 13](words, header, a),
        18 => face::live_count(words, header, scratch),
        19 => face::descendant_count(words, header, scratch, a),
        20 => face::validate(words, header, scratch),
        _ => VALUES[k - 21](words, header, scratch, a, b),
    }
}
