//! The changes of shape from indextree's examples to the crate `lift`, and what is not ported.

/// Calls that the core does not have: an example that uses one is left out.
const NOT_PORTED: [(&str, &str); 34] = [
    (".has_children(", "has_children, not in document 01"),
    (".is_leaf(", "is_leaf, not in document 01"),
    (".is_root(", "is_root, not in document 01"),
    (".child_count(", "child_count, not in document 01"),
    (".depth(", "depth, not in document 01"),
    (".nth_child(", "nth_child, not in document 01"),
    (".is_ancestor_of(", "is_ancestor_of, not in document 01"),
    (".is_descendant_of(", "is_descendant_of, not in document 01"),
    (".reverse_traverse(", "reverse_traverse, not in document 01"),
    (".next_traverse(", "next_traverse alone; the stepped walk has it"),
    (".prev_traverse(", "prev_traverse, not in document 01"),
    ("reparent(", "reparent, not in document 01"),
    (".debug_pretty_print(", "printing, not asked for"),
    (".get_node_id(", "get_node_id, a reference into the arena"),
    (".get_node_id_at(", "get_node_id_at, not in document 01"),
    (".reserve(", "reserve: the capacity is fixed"),
    (".shrink_to_fit(", "shrink_to_fit: the capacity is fixed"),
    (".iter(", "iter, not in document 01"),
    (".iter_mut(", "iter_mut, not in document 01"),
    (".iter_node_ids(", "iter_node_ids, not in document 01"),
    (".roots(", "roots, not in document 01"),
    (".map(|x|", "map, not in document 01"),
    (".as_slice(", "as_slice, a reference into the arena"),
    (".par_iter", "parallel iteration, not asked for"),
    (".try_get(", "Node, a reference into the arena"),
    (".try_get_mut(", "Node, a reference into the arena"),
    (".into_data(", "Node, by value"),
    (".into_iter(", "into_iter of an arena, not in document 01"),
    (".rev()", "a list from the back, not in document 01"),
    ("from_iter", "FromIterator, not in document 01"),
    (".collect::<Arena", "FromIterator, not in document 01"),
    (".extend(", "Extend, not in document 01"),
    ("indextree::macros", "the macro tree!"),
    ("assert!(arena[n1_2].is_removed())", "a link of a removed node: none there, REMOVED here (docs/DIFFERENCES.md, F4)"),
];

/// The four moves and the removals that panic in indextree are here the checked ones, unwrapped.
const CHECKED: [&str; 8] = ["append", "prepend", "insert_after", "insert_before", "detach", "detach_children", "remove", "remove_subtree"];

/// Calls that answer a `Result` here and a value there.
const UNWRAPPED: [&str; 13] = [
    "new_node",
    "append_value",
    "prepend_value",
    "insert_after_value",
    "insert_before_value",
    "remove_children",
    "parent",
    "first_child",
    "last_child",
    "next_sibling",
    "previous_sibling",
    "descendant_count",
    "traverse",
];

/// Lists: a `Vec` here, an iterator there.
const LISTS: [&str; 8] =
    ["descendants", "breadth_first", "leaves", "ancestors", "children", "following_siblings", "preceding_siblings", "predecessors"];

const LINKS: [&str; 5] = ["parent", "first_child", "last_child", "next_sibling", "previous_sibling"];

/// The place after the bracket that closes the one before `at`.
fn closed(code: &str, at: usize) -> usize {
    let mut depth = 1;
    for (i, c) in code[at..].char_indices() {
        match c {
            '(' => depth += 1,
            ')' => depth -= 1,
            _ => {}
        }
        if depth == 0 {
            return at + i + 1;
        }
    }
    panic!("a bracket is open: {code}")
}

/// `.from(ARGUMENTS)` becomes `.to(ARGUMENTS)` and what follows it.
fn call(code: &str, from: &str, to: &str, after: &str) -> String {
    let pattern = format!(".{from}(");
    let (mut out, mut rest) = (String::new(), code);
    while let Some(i) = rest.find(&pattern) {
        let end = closed(rest, i + pattern.len());
        out += &rest[..i];
        out += &format!(".{to}({}{after}", call(&rest[i + pattern.len()..end], from, to, after));
        rest = &rest[end..];
    }
    out + rest
}

/// Each text in quotes becomes a number, the same text the same number. Messages of assertions are not data, but no harm is done.
fn numbers(code: &str) -> String {
    let mut known: Vec<&str> = Vec::new();
    let mut out = String::new();
    for (i, part) in code.split('"').enumerate() {
        if i % 2 == 0 {
            out += part;
        } else {
            let n = known.iter().position(|&k| k == part).unwrap_or_else(|| {
                known.push(part);
                known.len() - 1
            });
            out += &(n + 101).to_string();
        }
    }
    out
}

/// `arena[x].link()` becomes `x.link(&arena)`, so does `is_removed`; `*arena[x].get()` becomes `arena.get(x).unwrap()`.
fn indexed(code: &str) -> String {
    let (mut out, mut rest) = (String::new(), code);
    while let Some(i) = rest.find("arena[") {
        let end = i + rest[i..].find(']').expect("an index ends");
        let (name, after) = (&rest[i + 6..end], &rest[end + 1..]);
        let link = LINKS.iter().find(|link| after.starts_with(&format!(".{link}()")));
        if let Some(link) = link {
            out += &format!("{}{name}.{link}(&arena)", &rest[..i]);
            rest = &after[link.len() + 3..];
        } else if let Some(left) = after.strip_prefix(".get_mut() = ") {
            let value = left.find(';').expect("a statement ends");
            out += &format!("{}arena.set({name}, {}).unwrap()", rest[..i].trim_end_matches('*'), &left[..value]);
            rest = &left[value..];
        } else if let Some(left) = after.strip_prefix(".is_removed()") {
            out += &format!("{}{name}.is_removed(&arena)", &rest[..i]);
            rest = left;
        } else if let Some(left) = after.strip_prefix(".get()") {
            out += &format!("{}arena.get({name}).unwrap()", rest[..i].trim_end_matches('*'));
            rest = left;
        } else {
            out += &format!("{}arena.get({name}).unwrap()", &rest[..i]);
            rest = after;
        }
    }
    out + rest
}

/// The example against the crate `lift`, or the call that is not ported.
pub fn port(code: &str) -> Result<String, &'static str> {
    if let Some((_, why)) = NOT_PORTED.iter().find(|(text, _)| code.contains(text)) {
        return Err(why);
    }
    let mut code = indexed(&numbers(code));
    for name in CHECKED {
        code = call(&code, name, &format!("checked_{name}"), ".unwrap()");
    }
    for name in UNWRAPPED {
        code = call(&code, name, name, ".unwrap()");
    }
    for name in LISTS {
        code = call(&code, name, name, ".unwrap().into_iter()");
    }
    code = removed(call(&code, "subtree_eq", "subtree_eq", ".unwrap()"));
    for (from, to) in [
        ("NodeError::Removed", "NodeError::REMOVED"),
        ("checked_remove_children", "remove_children"),
        ("arena.count()", "arena.len()"),
        ("indextree::", "lift::"),
        ("NodeError::AppendSelf", "NodeError::SELF"),
        ("NodeError::AppendAncestor", "NodeError::ANCESTOR"),
        ("NodeError", "Refusal"),
        ("Arena::new()", "Arena::with_capacity(64)"),
        ("Arena<i32>", "Arena"),
        ("Arena<i64>", "Arena"),
        ("arena.get(foo).map(|node| *node.get())", "arena.get(foo).ok()"),
        ("*arena.get_mut(foo).expect(102).get_mut() = ", "*arena.get_data_mut(foo).unwrap() = "),
        ("arena.get(foo).is_none()", "arena.get(foo).is_err()"),
    ] {
        code = code.replace(from, to);
    }
    Ok(data(code))
}

/// `x.is_removed(&arena)` is here `get`'s refusal.
fn removed(code: String) -> String {
    let (mut out, mut rest) = (String::new(), &code[..]);
    while let Some(i) = rest.find(".is_removed(&arena)") {
        let name = rest[..i].rfind(|c: char| !c.is_alphanumeric() && c != '_').map_or(0, |k| k + 1);
        out += &format!("{}(arena.get({}) == Err(lift::Refusal::REMOVED))", &rest[..name], &rest[name..i]);
        rest = &rest[i + 19..];
    }
    out + rest
}

/// `get_data` and `get_data_mut` are `get` and `set` here.
fn data(code: String) -> String {
    let mut code = call(&code, "get_data", "get", ".ok()").replace("Some(&", "Some(");
    while let Some(i) = code.find("*arena.get_data_mut(") {
        let end = i + code[i..].find(';').expect("a statement ends");
        let name = &code[i + 20..i + code[i..].find(')').expect("a call ends")];
        let value = &code[i + code[i..].find("= ").expect("a value") + 2..end];
        code = format!("{}arena.set({name}, {value}).unwrap(){}", &code[..i], &code[end..]);
    }
    code
}
