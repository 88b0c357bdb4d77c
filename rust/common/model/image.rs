//! Save and load.

use super::{Answer, Header, INVALID, Judged, LENGTH, MARK, ROOM, VERSION, answer, ready};
use crate::paper::{capacity, read};

pub fn save(words: &[u32], header: &Header, scratch: &mut [u32], bytes: &mut [u8]) -> Answer {
    answer(ready(words, header, scratch).and_then(|()| {
        let halves = [1, header[0], header[1], header[2]].into_iter().flat_map(|n| (n as u16).to_le_bytes());
        let body = words[..7 * header[0] as usize].iter().flat_map(|w| w.to_le_bytes());
        let image: Vec<u8> = b"LFT".iter().copied().chain(halves).chain(body).collect();
        let out = bytes.get_mut(..image.len()).ok_or(ROOM)?;
        out.copy_from_slice(&image);
        Ok(image.len() as u32)
    }))
}

/// Spent slots leave the free chain, the others keep their order.
fn unlink(words: &mut [u32], header: &mut Header) {
    let some = |slot: u32| Some(slot).filter(|&s| s != 0);
    let chain: Vec<u32> = std::iter::successors(some(header[1]), |&s| some(words[(s as usize - 1) * 7 + 1])).collect();
    let (spent, kept): (Vec<u32>, Vec<u32>) = chain.into_iter().partition(|&s| words[(s as usize - 1) * 7] % 65_536 == 32_768);
    for s in spent {
        words[(s as usize - 1) * 7 + 1] = 0;
    }
    for (i, s) in kept.iter().enumerate() {
        words[(*s as usize - 1) * 7 + 1] = kept.get(i + 1).copied().unwrap_or(0);
    }
    header[1] = kept.first().copied().unwrap_or(0);
    header[2] = kept.last().copied().unwrap_or(0);
}

fn judged(bytes: &[u8], words: &mut [u32], header: &mut Header, scratch: &mut [u32]) -> Judged<u32> {
    let half = |at: usize| u32::from(u16::from_le_bytes([bytes[at], bytes[at + 1]]));
    if bytes.len() < 11 {
        return Err(LENGTH);
    }
    if &bytes[..3] != b"LFT" {
        return Err(MARK);
    }
    if half(3) != 1 {
        return Err(VERSION);
    }
    let used = half(5) as usize;
    if bytes.len() != 11 + 28 * used {
        return Err(LENGTH);
    }
    if capacity(words) < used {
        return Err(ROOM);
    }
    if scratch.len() < 2 * used {
        return Err(2);
    }
    scratch[..2 * used].fill(0);
    let mut loaded: Vec<u32> = bytes[11..].chunks_exact(4).map(|b| u32::from_le_bytes([b[0], b[1], b[2], b[3]])).collect();
    let mut head = [used as u32, half(7), half(9)];
    if !read(&loaded, head).sound() {
        words[..7 * used].fill(0);
        return Err(INVALID);
    }
    unlink(&mut loaded, &mut head);
    words[..7 * used].copy_from_slice(&loaded);
    *header = head;
    Ok(0)
}

pub fn load(bytes: &[u8], words: &mut [u32], header: &mut Header, scratch: &mut [u32]) -> Answer {
    let judged = judged(bytes, words, header, scratch);
    if judged.is_err() {
        *header = [0; 3];
    }
    answer(judged)
}
