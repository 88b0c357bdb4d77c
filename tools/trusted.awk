# The reading of tools/trusted. Input: a line for each theorem, its file and its name. It loads a file when a name leads there, and follows names.
# An item is a stretch of a file that declares names; `kind` says how much of it a reader has to believe.

# ---- files and their items

function fresh_item(file, kind, first, comment,    d) {
    d = ++items
    file_of[d] = file
    kind_of[d] = kind
    first_of[d] = first
    last_of[d] = first
    said_of[d] = first
    begins_of[d] = comment ? comment : first
    within_of[d] = inside
    return d
}

function spaces(line) { match(line, /^ */); return RLENGTH }

function load(file,    line, n) {
    if (file in lines_of) return lines_of[file] > 0
    n = 0
    while ((getline line < file) > 0) at[file, ++n] = line
    close(file)
    lines_of[file] = n
    if (n == 0) return 0
    if (file ~ /\.antt$/) load_specs(file)
    else load_code(file)
    return 1
}

# A file of specs: declarations at the indent of their section; what is deeper goes on.
function load_specs(file,    i, n, line, ind, comment, d, body, rest, depth, from, join) {
    n = lines_of[file]
    depth = 0
    from = 0
    inside = 0
    comment = 0
    d = 0
    opened = 0
    join = ""
    for (i = 1; i <= n; i++) {
        line = at[file, i]
        ind = spaces(line)
        rest = substr(line, ind + 1)
        if (rest == "") { comment = 0; continue }
        if (rest ~ /^--/) {
            if (d && ind > from && opened != d) last_of[d] = i
            if (!comment) comment = i
            continue
        }
        if (join != "") {
            join = join " " rest
            if (join ~ /[}]/) { brings(file, join); join = "" }
            comment = 0
            continue
        }
        while (depth > 0 && ind < from) { from = from_of[depth]; inside = inside_of[depth]; depth--; d = 0; body = 0 }
        if (ind > from && d) {
            if (!body) said_of[d] = i
            last_of[d] = i
            if (kind_of[d] == "section" && rest ~ /(^| )where$/) { depth++; from_of[depth] = from; inside_of[depth] = inside; from += 2; inside = d; opened = d; d = 0 }
            comment = 0
            continue
        }
        if (rest ~ /^(pub )?use /) {
            if (rest ~ /[{]/ && rest !~ /[}]/) join = rest
            else brings(file, rest)
        } else if (rest ~ /^pub mod / || rest ~ /^infix/) {
            d = 0
        } else if (rest ~ /^module /) {
            d = fresh_item(file, "section", i, comment)
            name_of[d] = "module"
            body = 0
            if (rest ~ /(^| )where$/) { depth++; from_of[depth] = from; inside_of[depth] = inside; from += 2; inside = d; opened = d; d = 0 }
        } else if (declares(rest)) {
            d = fresh_item(file, declared_kind, i, comment)
            name_of[d] = declared_name
            names[file, declared_name] = d
            fixes(file, declared_name, d)
            body = 0
        } else if (d) {
            # A clause, or what it unfolds.
            body = 1
            last_of[d] = i
        }
        comment = 0
    }
    for (d = 1; d <= items; d++) if (file_of[d] == file && kind_of[d] == "data") makers(file, d)
}

# Whether a line declares a name: `abbrev pub name : ..`, `pub record Name ..`.
function declares(rest,    part, n, i, kind) {
    n = split(rest, part, / +/)
    kind = "plain"
    for (i = 1; i <= n; i++) {
        if (part[i] == "abbrev" || part[i] == "unfoldable") kind = "definition"
        else if (part[i] == "record" || part[i] == "data") { declared_kind = part[i]; declared_name = part[i + 1]; return 1 }
        else if (part[i] != "pub") break
    }
    declared_kind = kind
    declared_name = part[i]
    if (declared_name ~ /[(){}]/) return 0
    if (part[i + 1] ~ /^[{][^{}]*[}]$/) i++
    for (i++; i <= n; i++) {
        if (part[i] == ":") return 1
        if (part[i] ~ /[(){}=]/) return kind == "definition" && part[i] == "="
    }
    return 0
}

# An operator is found by its sign.
function fixes(file, name, d,    sign) {
    if (name !~ /^_|_$/) return
    sign = name
    gsub(/_/, "", sign)
    names[file, sign] = d
}

# The constructors of a data type: each at the same indent, below its first line.
function makers(file, d,    i, line, ind, n, part, k) {
    ind = spaces(at[file, first_of[d]]) + 2
    for (i = first_of[d] + 1; i <= last_of[d]; i++) {
        line = at[file, i]
        if (spaces(line) != ind) continue
        line = substr(line, ind + 1)
        sub(/^pub /, "", line)
        if (line ~ /^deriving /) { sub(/^.* as /, "", line); names[file, line] = d; continue }
        if (line !~ /^[^(){}:]+ :( |$)/) continue
        sub(/ :.*$/, "", line)
        n = split(line, part, " ")
        for (k = 1; k <= n; k++) {
            names[file, part[k]] = d
            maker[file, part[k]] = 1
            fixes(file, part[k], d)
            if (part[k] ~ /^_|_$/) { gsub(/_/, "", part[k]); maker[file, part[k]] = 1 }
        }
    }
}

# ---- what a `use` line brings in

function brings(file, line,    list, path, n, part, i, as, name) {
    sub(/^(pub )?(ghost )?use /, "", line)
    sub(/;$/, "", line)
    list = ""
    if (line ~ /[{]/) {
        list = line
        sub(/^[^{]*[{]/, "", list)
        sub(/[}].*$/, "", list)
        sub(/\.?[{].*$/, "", line)
    }
    as = ""
    if (line ~ / as /) { as = line; sub(/^.* as /, "", as); sub(/ as .*$/, "", line) }
    path = line
    gsub(/ /, "", path)
    if (list == "") {
        if (as == "") { as = path; sub(/^.*\./, "", as) }
        brought[file, as] = place(path)
        return
    }
    n = split(list, part, /, */)
    for (i = 1; i <= n; i++) {
        name = part[i]
        gsub(/^ +| +$/, "", name)
        if (name == "") continue
        as = name
        if (name ~ / as /) { sub(/^.* as /, "", as); sub(/ as .*$/, "", name) }
        brought[file, as] = place(path) "\t" name
        if (as ~ /^_|_$/) { gsub(/_/, "", as); brought[file, as] = place(path) "\t" name }
    }
}

# Where a path leads, as words with tabs between: specs FILE, type FILE TYPE, function FILE PATH, or kit MODULE.
function place(path,    part, n, i, crate, file, word) {
    if (path !~ /^Rattle/) return "kit\t" path
    n = split(path, part, ".")
    crate = part[1]
    sub(/^Rattle../, "", crate)
    sub(/[^a-z0-9_].*$/, "", crate)
    if (part[2] == "proofs") {
        word = ""
        for (i = 3; i <= n; i++) word = word (i > 3 ? "." : "") part[i]
        return code_place("function", crate, word)
    }
    if (part[3] == "declared") {
        if (part[n] == "the-variants") n--
        word = ""
        for (i = 4; i <= n; i++) word = word (i > 4 ? "." : "") part[i]
        return code_place("type", crate, word)
    }
    file = "crates/" crate "/specs"
    for (i = 3; i <= n; i++) file = file "/" part[i]
    return "specs\t" file ".antt"
}

# The file of the code that a path stands in: the longest module that is a file, else lib.rt or main.rt.
function code_place(what, crate, word,    part, n, i, k, file, rest) {
    n = split(word, part, ".")
    for (k = n - 1; k >= 0; k--) {
        file = "crates/" crate "/src"
        for (i = 1; i <= k; i++) file = file "/" part[i]
        if (k == 0) file = file "/lib"
        if (!load(file ".rt")) continue
        rest = ""
        for (i = k + 1; i <= n; i++) rest = rest (rest == "" ? "" : ".") part[i]
        return what "\t" file ".rt\t" rest
    }
    return "lost\t" crate "\t" word
}

# ---- a file of the code: types, and functions with their statements

function load_code(file,    i, n, line, ind, rest, comment, d, open, type, name, crate, part, k, j, clauses) {
    n = lines_of[file]
    split(file, part, "/")
    crate = part[2]
    comment = 0
    open = ""
    type = ""
    inside = 0
    for (i = 1; i <= n; i++) {
        line = at[file, i]
        ind = spaces(line)
        rest = substr(line, ind + 1)
        if (rest == "") { comment = 0; continue }
        if (rest ~ /^\/\//) { if (!comment) comment = i; continue }
        if (rest ~ /^ghost use /) { sub(/^ghost /, "", rest); brings(file, rest); comment = 0; continue }
        if (rest ~ /^(pub )?use /) {
            sub(/^(pub )?use /, "", rest)
            sub(/;.*$/, "", rest)
            k = split(rest, part, "::")
            name = ""
            for (j = 2; j <= k; j++) name = name (j > 2 ? "." : "") part[j]
            code_use[file, part[k]] = (part[1] == "crate" ? crate : part[1]) "\t" name
            comment = 0
            continue
        }
        if (open == "type") {
            last_of[d] = i
            said_of[d] = i
            if (rest ~ /^[}]/) open = ""
        } else if (open == "function") {
            if (rest == "{" || (!clauses && rest ~ /[{]$/)) { open = ""; if (rest != "{") { last_of[d] = i; said_of[d] = i } }
            else { last_of[d] = i; said_of[d] = i }
            if (rest ~ /^(requires|ensures)( |$)/) clauses = 1
        } else if (rest ~ /^(pub )?(struct|enum) /) {
            name = rest
            sub(/^(pub )?(struct|enum) /, "", name)
            sub(/[^A-Za-z0-9_].*$/, "", name)
            d = fresh_item(file, "type", i, comment)
            name_of[d] = name
            types[file, name] = d
            open = rest ~ /;$/ ? "" : "type"
        } else if (rest ~ /^impl/) {
            type = rest
            sub(/^impl(<[^>]*>)? */, "", type)
            sub(/[^A-Za-z0-9_].*$/, "", type)
        } else if (rest ~ /^[}]/ && ind == 0) {
            type = ""
        } else if (rest ~ /^(pub )?(extern "C" )?fn /) {
            name = rest
            sub(/^.*fn /, "", name)
            sub(/[^a-z0-9_].*$/, "", name)
            if (ind > 0 && type != "") name = type "." name
            d = fresh_item(file, "function", i, comment)
            name_of[d] = name
            functions[file, name] = d
            clauses = 0
            open = rest ~ /[{]$/ ? "" : "function"
        }
        comment = 0
    }
}

# ---- following names

function reach(d) {
    if (d in reached) return
    reached[d] = 1
    queue[++queued] = d
    if (!(file_of[d] in taken)) { taken[file_of[d]] = 1; files[++file_count] = file_of[d] }
    if (within_of[d]) reach(within_of[d])
}

# A name of a place that a use line brought in; a path behind it may go on.
function follow(where, name, word, file,    part, n, target) {
    n = split(where, part, "\t")
    if (part[1] == "kit") { kit(part[2], n > 2 ? part[3] : name); return }
    if (part[1] == "lost") { lost(word, file); return }
    if (part[1] == "type") {
        if ((part[2], part[3]) in types) reach(types[part[2], part[3]])
        else lost(word, file)
        return
    }
    if (part[1] == "function") {
        if ((part[2], part[3]) in functions) reach(functions[part[2], part[3]])
        else lost(word, file)
        return
    }
    target = n > 2 ? part[3] : name
    load(part[2])
    if ((part[2], target) in names) reach(names[part[2], target])
    else if ((part[2], target) in brought) follow(brought[part[2], target], target, word, file)
    else lost(word, file)
}

function kit(module, name) {
    if ((module, name) in kit_seen) return
    kit_seen[module, name] = 1
    if (!(module in kit_names)) kit_modules[++kit_count] = module
    kit_names[module] = kit_names[module] (kit_names[module] == "" ? "" : ", ") name
}

function lost(word, file) {
    if ((word, file) in lost_seen) return
    lost_seen[word, file] = 1
    lost_list[++lost_count] = word " (" file ")"
}

# The language's own words and signs.
function own(word) {
    if (word ~ /^[0-9]/ || word ~ /^\./) return 1
    return index(" Type × → = : _ | λ ∀ let in where record data pub abbrev unfoldable unfolding elim ↦ [ ] deriving as ", " " word " ") > 0
}

# What every file has of the prelude without a use line; in a statement of the code `now` too.
function prelude(word) {
    return index(" Unit tt ⊥ absurd ¬ Dec yes no Discrete IsProp IsSet Id J Path refl omega rw rw⁻¹ simp grw cc search cap now ", " " word " ") > 0
}

function mention(word, file,    head, rest, name) {
    if (word in bound && bound[word] > 0) return
    if (word ~ /^[^.]+\./) {
        head = word
        sub(/\..*$/, "", head)
        rest = substr(word, length(head) + 2)
        if (head in bound && bound[head] > 0) return
        name = rest
        sub(/\..*$/, "", name)
        if ((file, head) in brought) { follow(brought[file, head], name, word, file); return }
        if ((file, head) in names) { reach(names[file, head]); return }
        if ((file, head) in types || (file, head) in code_use) { code_type(file, head); return }
        if (own(head)) return
        lost(word, file)
        return
    }
    if ((file, word) in names) { reach(names[file, word]); return }
    if ((file, word) in brought) { follow(brought[file, word], word, word, file); return }
    if (own(word)) return
    if (prelude(word)) { kit("Prim", word); return }
    lost(word, file)
}

function is_maker(word, file,    part, n) {
    if (word == "yes" || word == "no" || word == "tt") return 1
    if ((file, word) in maker) return 1
    if (!((file, word) in brought)) return 0
    n = split(brought[file, word], part, "\t")
    if (part[1] == "kit") return 1
    if (part[1] == "type") return 1
    if (part[1] == "specs") { load(part[2]); return (part[2], n > 2 ? part[3] : word) in maker }
    return 0
}

# ---- names that a text binds: by group (x : A), by λ, by let, on the left of a clause

function bind(word, level) {
    if (word == "_" || word == "" || word ~ /^[0-9]/) return
    bound[word]++
    undo[level, ++undos[level]] = word
}

function unbind(level,    k) {
    for (k = 1; k <= undos[level]; k++) bound[undo[level, k]]--
    undos[level] = 0
}

# The words of some lines of a file; a line's beginning is the word "\n".
function words(file, from, to,    i, line, n, part, k) {
    count = 0
    for (i = from; i <= to; i++) {
        line = at[file, i]
        if (line ~ /^ *--/) continue
        sub(/ -- .*$/, "", line)
        word_indent[++count] = spaces(line)
        word[count] = "\n"
        gsub(/[(){},;]/, " & ", line)
        gsub(/λ/, " λ ", line)
        gsub(/⌜|⌝|«|»|⟦|⟧/, " ", line)
        n = split(line, part, " ")
        for (k = 1; k <= n; k++) word[++count] = part[k]
    }
    word[count + 1] = ""
}

# Whether the bracket at k opens a group of names with their type.
function group(k,    j) {
    for (j = k + 1; j <= count; j++) {
        if (word[j] == ":") return j > k + 1 ? j : 0
        if (word[j] == "\n") { if (word[k] == "\n") return 0; continue }
        if (word[j] ~ /^[(){},;=]$/ || word[j] == "λ" || word[j] == "let" || word[j] == "in" || word[j] ~ /\./) return 0
    }
    return 0
}

# The words of a pattern up to the one that ends it; types in it are mentioned. Answers the place of the end.
function pattern(k, ends, level, file, makes,    depth, typed, w, last) {
    depth = 0
    typed = -1
    for (; k <= count; k++) {
        w = word[k]
        if (w == "\n") continue
        if (depth == 0 && w == ends) return k
        if (w == "(" || w == "{") { depth++; continue }
        if (w == ")" || w == "}") { if (typed == depth) typed = -1; depth--; continue }
        if (w == ",") continue
        if (w == ":") { typed = depth; continue }
        if (w == "=" || (depth > 0 && word[k + 1] == "=")) continue
        last = 0
        if (ends == "." && w ~ /\.$/ && w !~ /^\./) { sub(/\.$/, "", w); last = depth == 0 }
        if (typed >= 0) mention(w, file)
        else if (makes && is_maker(w, file)) mention(w, file)
        else if (!own(w)) bind(w, level)
        if (last) return k
    }
    return k
}

# A line that begins a clause of the local helper w, or of the item itself: the sign = comes before a sign : does, outside brackets.
function clause(k,    depth, w) {
    depth = 0
    for (k++; k <= count; k++) {
        w = word[k]
        if (w == "\n") { if (depth == 0 && word_indent[k] <= word_indent_now) return 0; continue }
        if (w == "(" || w == "{") depth++
        else if (w == ")" || w == "}") depth--
        else if (depth == 0 && w == "=") return 1
        else if (depth == 0 && (w == ":" || w == "let" || w == "λ")) return 0
    }
    return 0
}

# Mentions the words of lines from .. to of item d. Levels: 0 the whole item, 1 a clause, 2 a helper's clause, from 3 on a bracket each.
function scan(d, from, to,    file, k, w, depth, base, j, c, header) {
    file = file_of[d]
    words(file, from, to)
    base = spaces(at[file, first_of[d]])
    header = kind_of[d] == "record" || kind_of[d] == "data" || kind_of[d] == "section"
    depth = 3
    # Helpers and fields.
    for (k = 1; k < count; k++)
        if (word[k] == "\n" && word_indent[k] > base) {
            if (kind_of[d] != "data" && (c = group(k)))
                for (j = k + 1; j < c; j++) if (word[j] != "\n" && word[j] != "pub" && word[j] != "abbrev") bind(word[j], 0)
        }
    for (k = 1; k <= count; k++) {
        w = word[k]
        if (w == "\n") {
            if (depth > 3) continue
            j = word[k + 1] == "pub" ? k + 2 : k + 1
            word_indent_now = word_indent[k]
            if (word_indent[k] == base) {
                unbind(1); unbind(2); unbind(3)
                if (word[k + 1] == "unfolding") { while (k < count && word[k + 1] != "\n") k++; continue }
                if (k > 1 && clause(k)) {
                    c = k + 1
                    if (word[c] == name_of[d]) c++
                    k = pattern(c, "=", 1, file, 1)
                } else {
                    # The declaration itself: its words up to its name.
                    while (k < count && word[k + 1] != name_of[d]) k++
                    k++
                }
                continue
            }
            if (word[j] == "unfolding" || word[j] == "deriving") { while (k < count && word[k + 1] != "\n") k++; continue }
            if (c = group(k)) { unbind(2); unbind(3); k = c; continue }
            if (word[k + 1] in bound && bound[word[k + 1]] > 0 && clause(k)) { unbind(2); unbind(3); k = pattern(k + 2, "=", 2, file, 1); continue }
            continue
        }
        if (w == "(" || w == "{") {
            c = group(k)
            if (c) {
                for (j = k + 1; j < c; j++) if (word[j] != "\n") bind(word[j], header && depth == 3 ? 0 : depth)
                depth++
                opened_by[depth] = w
                k = c
                continue
            }
            depth++
            opened_by[depth] = w
            continue
        }
        if (w == ")" || w == "}") { unbind(depth); if (depth > 3) depth--; continue }
        if (w == "," || w == ";") { if (depth > 3) unbind(depth); continue }
        if (w == "where") { header = 0; continue }
        if (w == "[") { depth++; opened_by[depth] = w; k = pattern(k + 1, "↦", depth, file, 1); continue }
        if (w == "|" && opened_by[depth] == "[") { unbind(depth); k = pattern(k + 1, "↦", depth, file, 1); continue }
        if (w == "]") { unbind(depth); if (depth > 3) depth--; continue }
        if (w == "λ") { k = pattern(k + 1, ".", depth, file, 0); continue }
        if (w == "let") { k = pattern(k + 1, "=", depth, file, word[k + 2] != "=" && word[k + 2] != ":"); continue }
        if (depth > 3 && opened_by[depth] == "{" && word[k + 1] == "=") continue
        sub(/\.$/, "", w)
        mention(w, file)
    }
    for (k = 0; k <= depth + 1; k++) unbind(k)
    split("", bound)
}

# The parameters of the sections that an item stands in are names of its own.
function sections(d,    m, k, c, j) {
    for (m = within_of[d]; m; m = within_of[m]) {
        words(file_of[m], first_of[m], said_of[m])
        for (k = 1; k <= count; k++)
            if ((word[k] == "(" || word[k] == "{") && (c = group(k)))
                for (j = k + 1; j < c; j++) if (word[j] != "\n") bind(word[j], 0)
    }
}

# A type of the code: the types that it names.
function code_words(d, from, to,    file, i, line, n, part, k) {
    file = file_of[d]
    for (i = from; i <= to; i++) {
        line = at[file, i]
        if (line ~ /^ *\/\//) continue
        if (line ~ /^ *(requires|ensures)( |$)/) return i
        gsub(/[^A-Za-z0-9_:]/, " ", line)
        n = split(line, part, " ")
        for (k = 1; k <= n; k++) {
            if (kind_of[d] == "function" && part[k] ~ /:$/) { sub(/:$/, "", part[k]); bind(part[k], 0); continue }
            if (part[k] == "self") bind("self", 0)
            code_type(file, part[k])
        }
    }
    return to + 1
}

function code_type(file, name,    part, where) {
    if (name !~ /^[A-Z]/) return
    if ((file, name) in types) { reach(types[file, name]); return }
    if (!((file, name) in code_use)) return
    split(code_use[file, name], part, "\t")
    where = code_place("type", part[1], part[2])
    follow(where, name, name, file)
}

function look(d,    from) {
    split("", bound)
    split("", undos)
    if (kind_of[d] == "type") { code_words(d, first_of[d], last_of[d]); return }
    if (kind_of[d] == "function") {
        from = code_words(d, first_of[d], last_of[d])
        statement(d, from, last_of[d])
        return
    }
    sections(d)
    scan(d, first_of[d], reads_to(d))
}

# How much of an item a reader has to believe.
function reads_to(d) { return (d in theorem || kind_of[d] == "section" || (kind_of[d] == "plain" && !bodies)) ? said_of[d] : last_of[d] }

# A function's statement: the words of requires and ensures.
function statement(d, from, to,    k, w, depth, c, j, file) {
    file = file_of[d]
    words(file, from, to)
    depth = 3
    for (k = 1; k <= count; k++) {
        w = word[k]
        if (w == "\n") continue
        if (w == "requires" || w == "ensures") { unbind(3); if (word[k + 1] != "{") k++; continue }
        if (w == "(" || w == "{") {
            c = group(k)
            if (c) for (j = k + 1; j < c; j++) if (word[j] != "\n") bind(word[j], depth)
            depth++
            opened_by[depth] = w
            if (c) k = c
            continue
        }
        if (w == ")" || w == "}") { unbind(depth); depth--; continue }
        if (w == "," || w == ";") { if (depth > 4) unbind(depth); continue }
        if (w == "λ") { k = pattern(k + 1, ".", depth, file, 0); continue }
        if (w == "let") { k = pattern(k + 1, "=", depth, file, word[k + 2] != "=" && word[k + 2] != ":"); continue }
        if (opened_by[depth] == "{" && word[k + 1] == "=") continue
        sub(/\.$/, "", w)
        mention(w, file)
    }
    split("", bound)
}

# ---- what is printed

function before(a, b,    x, y, part) {
    split(a, part, "/"); x = rank[part[2]]
    split(b, part, "/"); y = rank[part[2]]
    return x != y ? x < y : a < b
}

function sort_files(    i, j, f) {
    for (i = 2; i <= file_count; i++) {
        f = files[i]
        for (j = i - 1; j >= 1 && before(f, files[j]); j--) files[j + 1] = files[j]
        files[j + 1] = f
    }
}

function counted(d,    i, n) {
    n = 0
    for (i = begins_of[d]; i <= reads_to(d); i++) if (at[file_of[d], i] !~ /^ *$/) n++
    return n
}

function show(    i, d, f, k, n, line, all, every, mark) {
    while ((getline line < "crates.txt") > 0) if (line ~ /^[a-z]/) { sub(/:.*$/, "", line); rank[line] = ++ranks }
    sort_files()
    for (i = 1; i <= file_count; i++) {
        f = files[i]
        n = 0
        for (d = 1; d <= items; d++) if ((d in reached) && file_of[d] == f) { n += counted(d); every++ }
        all += n
        print f ": " n (n == 1 ? " line" : " lines")
        for (d = 1; d <= items; d++) {
            if (!(d in reached) || file_of[d] != f) continue
            mark = (d in theorem) ? "  (the theorem)" : kind_of[d] == "plain" ? (bodies ? "  (sealed)" : "  (sealed: its type, not its body)") : ""
            if (!text) { printf "    %5d-%-5d %s%s\n", begins_of[d], reads_to(d), name_of[d], mark; continue }
            print ""
            for (k = begins_of[d]; k <= reads_to(d); k++) print "    " at[f, k]
        }
        if (text) print ""
    }
    if (kit_count) {
        print "taken from the toolchain:"
        for (i = 1; i <= kit_count; i++) print "    " kit_modules[i] ": " kit_names[kit_modules[i]]
    }
    for (i = 1; i <= lost_count; i++) print "not placed: " lost_list[i]
    print theorems (theorems == 1 ? " theorem" : " theorems") ", " every - theorems " definitions and statements under " (theorems == 1 ? "it" : "them") ": " all " lines in " file_count " files"
}

{
    if (!load($1) || !(($1, $2) in names)) { print "tools/trusted: " $1 " has no " $2 > "/dev/stderr"; failed = 2; exit }
    d = names[$1, $2]
    if (kind_of[d] == "plain") theorem[d] = 1
    if (!(d in reached)) theorems++
    reach(d)
}

END {
    if (failed) exit failed
    for (next_one = 1; next_one <= queued; next_one++) look(queue[next_one])
    show()
    if (lost_count) exit 1
}
