//! Writes a fixed list of commands, and the answers of the crate indextree to them: crates/recorded/stdin and stdout, as the program `lift`
//! reads and writes them. What the proved program answers is never looked at. recorded [SEED]
//! 4,000 commands of every kind on forests of up to eight nodes, most identifiers found, some stale where the crate looks at the stamp.
//! After each change the whole forest is read: parent, first child and next of every node, live count, and validate, which holds
//! last child and previous to these; after a change of numbers the number too.

#[path = "../common/dice.rs"]
mod dice;
#[path = "../common/theirs.rs"]
mod theirs;

use dice::Dice;
use indextree::Arena;
use std::fmt::Write;
use theirs::{ARGUMENTS, Command, found};

const COMMANDS: usize = 4_000;

/// The slots of the program's arena.
const SLOTS: usize = 2_048;

struct Recorded {
    arena: Arena<u32>,
    live: Vec<u32>,
    stale: Vec<u32>,
    stdin: Vec<u8>,
    stdout: String,
    by_code: [u32; 25],
    refused: [u32; 14],
}

impl Recorded {
    fn command(&mut self, code: u8, a: u32, b: u32) -> (u32, u32) {
        let c = Command { code, a, b };
        let answer = theirs::command(&mut self.arena, SLOTS, c);
        self.stdin.extend(c.bytes());
        writeln!(self.stdout, "{} {}", answer.0, answer.1).expect("text");
        answer
    }

    /// Every node's parent, first child and next; live count; validate.
    fn forest(&mut self) {
        for id in self.live.clone() {
            for code in [13, 14, 16] {
                self.command(code, id, 0);
            }
        }
        self.command(18, 0, 0);
        self.command(20, 0, 0);
    }

    fn code(&self, d: &mut Dice, most: usize) -> u8 {
        const ANY: [u8; 26] = [1, 1, 2, 3, 4, 4, 5, 5, 6, 6, 7, 7, 8, 9, 10, 10, 11, 12, 13, 14, 15, 16, 17, 19, 18, 20];
        match self.live.len() {
            0 => 1,
            n if n < most && d.below(3) > 0 => d.one_of(&[1, 21, 22, 23, 24, 21, 22, 23, 24]),
            n => {
                let code = d.one_of(&ANY);
                if code == 1 && n >= 8 { 10 } else { code }
            }
        }
    }

    fn any(&mut self, d: &mut Dice, most: usize) {
        let code = self.code(d, most);
        let stale = !self.stale.is_empty() && d.below(12) == 0 && matches!(code, 2 | 4..=12);
        let pick = |d: &mut Dice, s: &Self, stale: bool| if stale { d.one_of(&s.stale) } else { d.one_of(&s.live) };
        let first = d.below(2) == 0;
        let number = d.next() as u32 >> d.below(32);
        let a = match ARGUMENTS[code as usize] {
            0 => 0,
            _ if code == 1 => number,
            _ => pick(d, self, stale && (first || code > 7)),
        };
        let b = match code {
            3 | 21.. => number,
            4..=7 => pick(d, self, stale && !first),
            _ => 0,
        };
        let (no, result) = self.command(code, a, b);
        self.by_code[code as usize] += 1;
        self.refused[no as usize] += 1;
        if no == 0 && (code == 1 || code >= 21) {
            self.live.push(result);
            self.command(2, result, 0);
        }
        if no == 0 && code == 3 {
            self.command(2, a, 0);
        }
        let (arena, gone) = (&self.arena, &mut self.stale);
        self.live.retain(|&id| {
            let lives = found(arena, id).is_some();
            if !lives {
                gone.push(id);
            }
            lives
        });
        let keep = self.stale.len().saturating_sub(20);
        self.stale.drain(..keep);
        if matches!(code, 1 | 4..=12 | 21..) {
            self.forest();
        }
    }
}

fn main() {
    let seed = std::env::args().nth(1).map_or(4_092_026, |a| a.parse().expect("SEED is a number, not 0"));
    let d = &mut Dice(seed);
    let mut r = Recorded {
        arena: Arena::new(),
        live: Vec::new(),
        stale: Vec::new(),
        stdin: Vec::new(),
        stdout: String::new(),
        by_code: [0; 25],
        refused: [0; 14],
    };
    let mut most = 4;
    for i in 0..COMMANDS {
        if i % 50 == 0 {
            most = d.one_of(&[0, 2, 4, 5, 6, 8]);
        }
        r.any(d, most);
    }
    std::fs::create_dir_all("crates/recorded").expect("crates/recorded");
    std::fs::write("crates/recorded/stdin", &r.stdin).expect("crates/recorded/stdin");
    std::fs::write("crates/recorded/stdout", &r.stdout).expect("crates/recorded/stdout");
    let kinds: Vec<String> = (1..25).map(|c| format!("{c}: {}", r.by_code[c])).collect();
    println!("{COMMANDS} commands, by code {}", kinds.join(", "));
    println!("refused REMOVED {}, SELF {}, ANCESTOR {}", r.refused[4], r.refused[5], r.refused[6]);
    println!("{} commands with those that read the forest: crates/recorded/stdin, crates/recorded/stdout", r.stdin.len() / 12);
}
