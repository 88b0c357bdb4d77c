//! Writes the memories that the program `validated` is run on, and the answers to compare with: crates/validated/stdin and stdout.
//! The answers are those of a slow reading of document 01, and of the crate's own `validate` wherever its types can hold the memory;
//! where the two differ nothing is written. What the proved program answers is never looked at.

mod cases;
mod chain;
mod forests;
mod lent;
mod nodes;
#[path = "../common/paper.rs"]
mod paper;
mod sketch;

use cases::{Group, Says};
use indextree::Arena;
use sketch::Memory;
use std::fmt::Write;

/// What the program has room for: numbers of a line, scratch words, bytes of the input.
const NUMBERS: usize = 128;
const SCRATCH: usize = 64;
const INPUT: usize = 131_072;

struct Files {
    stdin: String,
    stdout: String,
    memories: u32,
    held: u32,
    /// Memories that are not as their group says.
    wrong: u32,
}

impl Files {
    fn comment(&mut self, text: &str) {
        for file in [&mut self.stdin, &mut self.stdout] {
            writeln!(file, "# {text}").unwrap();
        }
    }

    fn memory(&mut self, m: &Memory, group: &Group) {
        self.memories += 1;
        assert!(4 + m.words.len() <= NUMBERS && m.scratch <= SCRATCH, "{}: too large", group.about);
        let [used, first, last] = m.header;
        write!(self.stdin, "{used} {first} {last} {}", m.scratch).unwrap();
        for word in &m.words {
            write!(self.stdin, " {word}").unwrap();
        }
        self.stdin.push('\n');
        let no = paper::unfit(&m.words, m.header, m.scratch);
        if no != 0 {
            assert!(matches!(group.says, Says::Refused(n) if n == no), "{}: {:?}", group.about, m.header);
            writeln!(self.stdout, "{no} 0 kept {no} kept").unwrap();
            return;
        }
        let reading = paper::read(&m.words, m.header);
        let as_said = match group.says {
            Says::Ready => reading.ready(),
            Says::Spent => reading.sound() && reading.spent,
            Says::Breaks(sentences) => reading.broken == sentences,
            Says::Refused(_) => false,
            Says::Mixed => true,
        };
        if !as_said {
            self.wrong += 1;
            eprintln!("{}: {:?}: {:?} {:?}", group.about, reading.broken, m.header, m.words);
        }
        if let Some(arena) = Arena::from_words(&m.words, m.header) {
            self.held += 1;
            assert_eq!(arena.validate(), reading.sound(), "the crate differs on {:?} {:?}", m.header, m.words);
        }
        let after = if used == 0 { "kept" } else { "zero" };
        let guard = if reading.ready() { 0 } else { 3 };
        writeln!(self.stdout, "0 {} {after} {guard} {after}", u32::from(reading.sound())).unwrap();
    }
}

fn main() {
    let mut files = Files { stdin: String::new(), stdout: String::new(), memories: 0, held: 0, wrong: 0 };
    files.comment("Memories for the validator and the guard, and what they answer. Made by: rust/run memories SRC");
    files
        .comment("A memory is used, first free, last free, scratch words lent, words. An answer is the validator's number and result, the");
    files.comment(
        "scratch after it (kept: as before; zero: the first 2 x used words zero, the others as before), the guard's number, the scratch.",
    );
    for group in cases::all() {
        files.comment(&group.about);
        for m in &group.memories {
            files.memory(m, &group);
        }
    }
    assert_eq!(files.wrong, 0, "nothing is written");
    assert!(files.stdin.len() <= INPUT);
    std::fs::write("crates/validated/stdin", files.stdin).unwrap();
    std::fs::write("crates/validated/stdout", files.stdout).unwrap();
    println!("{} memories, {} of them held by the crate too: crates/validated/stdin, crates/validated/stdout", files.memories, files.held);
}
