//! Commands and the batch.

use super::*;

/// Arguments used, by code.
const ARGUMENTS: [u8; 25] = [0, 1, 1, 2, 2, 2, 2, 2, 1, 1, 1, 1, 1, 1, 1, 1, 1, 1, 0, 1, 0, 2, 2, 2, 2];

/// The word that codes 13 to 17 read.
const LINKS: [usize; 5] = [2, 5, 6, 4, 3];

pub fn command(words: &mut [u32], header: &mut Header, scratch: &mut [u32], bytes: &[u8]) -> Answer {
    let code = bytes[0] as usize;
    let (a, b) = (u32::from_le_bytes(bytes[4..8].try_into().unwrap()), u32::from_le_bytes(bytes[8..12].try_into().unwrap()));
    let unknown = code == 0 || code > 24;
    if unknown || bytes[1..4] != [0, 0, 0] || ARGUMENTS[code] < 2 && b != 0 || ARGUMENTS[code] < 1 && a != 0 {
        return (COMMAND, 0);
    }
    match code {
        1 => new_node(words, header, scratch, a),
        2 => read(words, header, a, 1),
        3 => set(words, header, a, b),
        4..=7 => moved(PLACES[code - 4], words, header, scratch, a, b),
        8..=12 => change(CHANGES[code - 8], words, header, scratch, a),
        13..=17 => read(words, header, a, LINKS[code - 13]),
        18 => live_count(words, header, scratch),
        19 => descendant_count(words, header, scratch, a),
        20 => validate(words, header, scratch),
        _ => value(PLACES[code - 21], words, header, scratch, a, b),
    }
}

pub fn batch(words: &mut [u32], header: &mut Header, scratch: &mut [u32], trace: &[u8], answers: &mut [u32]) -> Answer {
    let count = trace.len().div_ceil(12);
    if answers.len() < 2 * count {
        return (ROOM, 0);
    }
    for (bytes, place) in trace.chunks(12).zip(answers.chunks_exact_mut(2)) {
        let (number, result) = if bytes.len() < 12 { (PART, 0) } else { command(words, header, scratch, bytes) };
        place.copy_from_slice(&[number, result]);
    }
    (0, count as u32)
}
