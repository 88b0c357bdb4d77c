//! The program `lift` against a program of the same job over indextree (rust/program), on ten million commands from a file. Times are
//! those of the process on the processor, its own and the system's for it.

use crate::dice::Dice;
use crate::mixed::{EVERY, mixed};
use crate::timing::{Aims, median};
use indextree::Arena;
use std::fs::File;
use std::io::{BufReader, Read, Write};
use std::process::{Command, Stdio};

const COMMANDS: usize = 10_000_000;

#[repr(C)]
#[derive(Default)]
struct Usage {
    user: [i64; 2],
    system: [i64; 2],
    rest: [i64; 14],
}

unsafe extern "C" {
    fn getrusage(who: i32, usage: *mut Usage) -> i32;
}

/// Seconds of all children that have ended.
fn children() -> f64 {
    const RUSAGE_CHILDREN: i32 = -1;
    let mut usage = Usage::default();
    // Safe: the C library fills in the structure.
    assert_eq!(unsafe { getrusage(RUSAGE_CHILDREN, &mut usage) }, 0);
    (usage.user[0] + usage.system[0]) as f64 + (usage.user[1] + usage.system[1]) as f64 * 1e-6
}

fn run(program: &[String], trace: &str, out: Stdio) -> f64 {
    let before = children();
    let status = Command::new(&program[0]).args(&program[1..]).stdin(File::open(trace).expect("the trace")).stdout(out).status();
    assert!(status.expect("the program starts").success(), "{program:?} failed");
    children() - before
}

fn same_files(a: &str, b: &str) -> bool {
    let open = |path: &str| BufReader::with_capacity(1 << 16, File::open(path).expect("answers")).bytes().map(|b| b.expect("a byte"));
    open(a).eq(open(b))
}

pub fn table(rounds: usize, theirs: &[String], ours: &[String], aims: &mut Aims) {
    if !std::path::Path::new("crates/lift/out/lift").exists() {
        println!("\nThe program lift is not built (tools/show builds it): left out.");
        return;
    }
    let trace = "target/rust/ten_million";
    let mut file = std::io::BufWriter::new(File::create(trace).expect("the trace"));
    // From empty: at first nothing is found, then about half of the program's 2,048 slots are in use.
    let d = &mut Dice(0x1234_5678_9abc_def1);
    let mut start = Arena::new();
    for i in 0..1_024u32 {
        start.new_node(i);
        file.write_all(&crate::theirs::Command { code: 1, a: i, b: 0 }.bytes()).expect("the trace");
    }
    for c in mixed(d, start, 2_048, EVERY, COMMANDS - 1_024).commands {
        file.write_all(&c.bytes()).expect("the trace");
    }
    drop(file);
    let answers = |name: &str| Stdio::from(File::create(name).expect("answers"));
    run(theirs, trace, answers("target/rust/theirs.out"));
    run(ours, trace, answers("target/rust/ours.out"));
    assert!(
        same_files("target/rust/theirs.out", "target/rust/ours.out"),
        "the two programs answer differently: target/rust/theirs.out, ours.out"
    );
    let (mut a, mut b) = (Vec::new(), Vec::new());
    for _ in 0..rounds.min(9) {
        a.push(run(theirs, trace, Stdio::null()));
        b.push(run(ours, trace, Stdio::null()));
    }
    let (a, b) = (median(&mut a), median(&mut b));
    println!("\n| program on ten million commands | seconds on the processor | ratio |\n|---|---|---|");
    println!("| over indextree | {a:.3} | |\n| `lift` | {b:.3} | {:.2} |", b / a);
    println!("\nBoth write the same ten million lines.");
    aims.add("program `lift`", 1.0, b / a);
}
