//! Makes a test program of the examples in documentation comments: examples OUT own FILE.. | examples OUT indextree FILE..
//! `own`: the crate `lift`, as they stand. `indextree`: the text of indextree, with the changes of shape that `port` makes, against the
//! crate `lift`; those that use a call which is not ported are left out, and the program says so. Each example becomes a function.

mod port;

use std::fmt::Write;

struct Example {
    file: String,
    line: usize,
    /// The item that the comment stands before.
    item: String,
    code: String,
}

/// The text of a documentation comment's line.
fn comment(line: &str) -> Option<&str> {
    let text = line.trim_start();
    text.strip_prefix("///").or_else(|| text.strip_prefix("//!")).map(|t| t.strip_prefix(' ').unwrap_or(t))
}

/// The name that a line declares.
fn declared(line: &str) -> Option<String> {
    let words: Vec<&str> = line.split(|c: char| !c.is_alphanumeric() && c != '_').filter(|w| !w.is_empty()).collect();
    let at = words.iter().position(|w| ["fn", "struct", "enum", "impl", "mod", "type"].contains(w))?;
    line.trim_start().starts_with(['p', 'f', 'i', 's', 'e']).then(|| words.get(at + 1).unwrap_or(&"").to_string())
}

fn examples(path: &str) -> Vec<Example> {
    let file = path.rsplit('/').next().unwrap_or(path).to_string();
    let text = std::fs::read_to_string(path).unwrap_or_else(|e| panic!("{path}: {e}"));
    let mut found: Vec<Example> = Vec::new();
    let mut open: Option<Example> = None;
    for (i, line) in text.lines().enumerate() {
        let Some(text) = comment(line) else {
            if let Some(name) = declared(line) {
                found.iter_mut().filter(|e| e.item.is_empty()).for_each(|e| e.item.clone_from(&name));
            }
            continue;
        };
        if let Some(language) = text.trim_start().strip_prefix("```") {
            match open.take() {
                // A drawing is no example.
                Some(example) if example.item == "text" => {}
                Some(example) => found.push(example),
                None if language == "text" => {
                    open = Some(Example { file: file.clone(), line: i + 1, item: "text".into(), code: String::new() })
                }
                None => open = Some(Example { file: file.clone(), line: i + 1, item: String::new(), code: String::new() }),
            }
        } else if let Some(example) = &mut open {
            // A line that the page does not show.
            let shown = text.strip_prefix("# ").or_else(|| (text == "#").then_some("")).unwrap_or(text);
            writeln!(example.code, "{shown}").unwrap();
        }
    }
    found
}

fn function(e: &Example) -> String {
    format!("{}_{}", e.file.trim_end_matches(".rs"), e.line)
}

fn main() {
    let arguments: Vec<String> = std::env::args().skip(1).collect();
    let [out, whose, files @ ..] = &arguments[..] else { panic!("examples OUT own|indextree FILE..") };
    let (mut functions, mut calls, mut left_out) = (String::new(), String::new(), String::new());
    let mut count = 0;
    for e in files.iter().flat_map(|f| examples(f)) {
        let code = match whose.as_str() {
            "own" => Ok(e.code.clone()),
            _ => port::port(&e.code),
        };
        let about = format!("{}:{} {}", e.file, e.line, e.item);
        match code {
            Ok(code) => {
                count += 1;
                let ends = if code.contains("Ok::<") { "-> Result<(), lift::Refusal> " } else { "" };
                writeln!(functions, "// {about}\n#[rustfmt::skip]\nfn {}() {ends}{{\n{code}}}\n", function(&e)).unwrap();
                let unwrapped = if ends.is_empty() { "" } else { ".expect(\"no refusal\")" };
                writeln!(calls, "    running({about:?}, || {}(){unwrapped});", function(&e)).unwrap();
            }
            Err(why) => writeln!(left_out, "    println!(\"left out: {{}} (uses {{}})\", {about:?}, {why:?});").unwrap(),
        }
    }
    let text = format!(
        "// Made by rust/examples from documentation comments.\n#![allow(unused)]\n\n{functions}fn running(about: &str, example: fn()) {{\n    \
         if std::panic::catch_unwind(example).is_err() {{\n        println!(\"FAILED: {{about}}\");\n        std::process::exit(1);\n    }}\n}}\n\n\
         fn main() {{\n{calls}{left_out}    println!(\"{count} examples ran\");\n}}\n"
    );
    std::fs::write(out, text).unwrap_or_else(|e| panic!("{out}: {e}"));
}
