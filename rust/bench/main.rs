//! The library against the crate indextree, in one run: medians of interleaved rounds, as tables. bench [ROUNDS [TABLE..]]
//! Tables: `validator`; `batch`, mixed commands and how a command's cost grows; `reading`, which is walks, lists, one checked append and
//! images; `program`, the program `lift`. All of them where none is named.

mod cache;
#[path = "../common/dice.rs"]
mod dice;
mod mixed;
#[path = "../common/ours.rs"]
mod ours;
mod program;
mod reading;
#[path = "../common/shapes.rs"]
mod shapes;
#[path = "../common/theirs.rs"]
mod theirs;
mod timing;
mod validator;

fn main() {
    let rounds = std::env::args().nth(1).map_or(31, |x| x.parse().expect("ROUNDS is a number"));
    let cores = std::thread::available_parallelism().map_or(0, |n| n.get());
    let text = |path: &str| std::fs::read_to_string(path).unwrap_or_default();
    let model = text("/proc/cpuinfo")
        .lines()
        .find(|l| l.starts_with("model name"))
        .map_or("unknown", |l| l.split(": ").nth(1).unwrap_or(""))
        .to_string();
    println!("{rounds} rounds; {model}, {cores} processors; load average {}", text("/proc/loadavg").trim());
    // As rust/run starts its programs, and tools/run then too.
    let emulator: Vec<String> = std::env::var("EMULATOR").into_iter().filter(|e| !e.is_empty()).collect();
    if let [name] = &emulator[..] {
        println!("Both sides are x86-64 programs under {name}: a time says nothing, a ratio little.");
    }
    let named: Vec<String> = std::env::args().skip(2).collect();
    let wanted = |table: &str| named.is_empty() || named.iter().any(|n| n == table);
    let mut aims = timing::Aims::default();
    if wanted("validator") {
        validator::table(rounds, &mut aims);
    }
    if wanted("batch") {
        mixed::table(rounds, &mut aims);
        mixed::kinds(rounds);
    }
    if wanted("reading") {
        reading::tables(rounds, &mut aims);
    }
    if wanted("program") {
        let theirs = [emulator, vec!["target/rust/program".into()]].concat();
        program::table(rounds, &theirs, &["tools/run".into(), "lift".into()], &mut aims);
    }
    cache::print();
    aims.print();
}
