//! The job of the program `lift`, over the crate indextree: 12-byte commands from standard input, an answer line for each, an arena of
//! 2,048 slots. It reads and writes as `lift` does: pieces of 48 KB, and a write for each. The benchmark runs it beside `lift`.

#[path = "../common/theirs.rs"]
mod theirs;

use indextree::Arena;
use std::fs::File;
use std::io::{Read, Write};
use std::mem::ManuallyDrop;
use std::os::fd::FromRawFd;
use theirs::{COMMAND, Command, PART};

const SLOTS: usize = 2_048;
const PIECE: usize = 49_152;

/// An answer's line has at most 13 bytes, 22 with room for any two numbers.
const TEXT: usize = PIECE / 12 * 22;

fn decimal(out: &mut Vec<u8>, mut n: u32) {
    let mut digits = [0; 10];
    let mut at = digits.len();
    loop {
        at -= 1;
        digits[at] = b'0' + (n % 10) as u8;
        n /= 10;
        if n == 0 {
            break;
        }
    }
    out.extend_from_slice(&digits[at..]);
}

fn line(out: &mut Vec<u8>, (number, result): (u32, u32)) {
    decimal(out, number);
    out.push(b' ');
    decimal(out, result);
    out.push(b'\n');
}

fn main() -> std::io::Result<()> {
    let mut arena = Arena::with_capacity(SLOTS);
    // The files themselves, for the library's own buffers would cut the pieces. Safe: both are open, and are not closed here.
    let mut input = ManuallyDrop::new(unsafe { File::from_raw_fd(0) });
    let mut output = ManuallyDrop::new(unsafe { File::from_raw_fd(1) });
    let mut piece = vec![0; PIECE];
    let mut out = Vec::with_capacity(TEXT);
    let mut kept = 0;
    loop {
        let n = input.read(&mut piece[kept..])?;
        if n == 0 {
            break;
        }
        let have = kept + n;
        for bytes in piece[..have].chunks_exact(12) {
            let answer = match Command::of_bytes(bytes.try_into().expect("twelve bytes")) {
                Some(command) => theirs::command(&mut arena, SLOTS, command),
                None => (COMMAND, 0),
            };
            line(&mut out, answer);
        }
        output.write_all(&out)?;
        out.clear();
        kept = have % 12;
        piece.copy_within(have - kept..have, 0);
    }
    if kept != 0 {
        line(&mut out, (PART, 0));
    }
    output.write_all(&out)
}
