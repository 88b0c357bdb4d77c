# The text form of traces, for tools/trace; POSIX awk. -v task= says what is done:
#   parse    text -> a line for each command: line, code, arguments (a number, or @name), name given; -v path= is for messages
#   commands parsed lines, names so far -> octal escapes of the 12-byte commands, for printf
#   names    parsed lines, answers -> each name and the identifier that was answered
#   words    parsed lines, names, answers, text -> the text with the answers in words
#   text     bytes in decimal (od) -> text

BEGIN {
    # Document 01's codes 1 to 24: the word, its arguments (i an identifier, n a number), what the result is.
    table = "new n identifier|get i number|set in -|append ii -|prepend ii -|insert_after ii -|insert_before ii -|detach i -"
    table = table "|detach_children i -|remove i -|remove_subtree i -|remove_children i -|parent i link|first_child i link|last_child i link"
    table = table "|next i link|previous i link|live_count - number|descendant_count i number|validate - sound|append_value in identifier"
    table = table "|prepend_value in identifier|insert_after_value in identifier|insert_before_value in identifier"
    codes = split(table, row, "|")
    for (c = 1; c <= codes; c++) {
        split(row[c], part, " ")
        word[c] = part[1]
        takes[c] = part[2] == "-" ? "" : part[2]
        result[c] = part[3]
        code[part[1]] = c
    }
    split("FRAME SCRATCH INVALID REMOVED SELF ANCESTOR FULL ROOM COMMAND PART", refusal, " ")
    why[1] = "used exceeds the capacity"; why[2] = "scratch is too short"; why[3] = "memory is not ready"
    why[4] = "a named identifier is not found"; why[5] = "a node cannot be moved to itself"
    why[6] = "the node to move is an ancestor of the target"; why[7] = "no slot is left"; why[8] = "an output is too short"
    why[9] = "no such command"; why[10] = "the trace ends within a command"
    FAILED = 0
}

function wrong(text) {
    printf "%s:%d: %s\n", path, FNR, text > "/dev/stderr"
    FAILED = 1
}

function is_number(s, most) {
    if (s !~ /^[0-9]+$/) return 0
    sub(/^0+/, "", s)
    return length(s) <= 10 && s + 0 <= most
}

function is_name(s) {
    return s ~ /^[A-Za-z][A-Za-z0-9_]*$/
}

# An argument as it is kept: a number, or @name.
function argument(s, kind) {
    if (is_number(s, 4294967295)) { sub(/^0+/, "", s); return s == "" ? "0" : s }
    if (kind == "n") wrong("expected a number from 0 to 4294967295, found \"" s "\"")
    else if (s ~ /^[0-9]/ || !is_name(s)) wrong("expected a name, or an identifier from 0 to 4294967295, found \"" s "\"")
    else if (!(s in given)) wrong("expected a name given in a line above, found \"" s "\"")
    else return "@" s
    return "0"
}

function shape(c,    i, s) {
    s = word[c]
    for (i = 1; i <= length(takes[c]); i++) s = s (substr(takes[c], i, 1) == "i" ? " IDENTIFIER" : " NUMBER")
    return s
}

function parse_bytes(    i, s) {
    if (NF < 2 || NF > 13) { wrong("expected 1 to 12 bytes, found " (NF - 1)); return }
    for (i = 2; i <= NF; i++) {
        if (!is_number($i, 255)) { wrong("expected a byte from 0 to 255, found \"" $i "\""); return }
        s = s " " ($i + 0)
    }
    if (part_line) wrong("expected no command after line " part_line ", which has fewer than 12 bytes")
    if (NF < 13) part_line = FNR
    print FNR, "bytes" s
}

function parse(    name, at, c, n, i, s) {
    sub(/\r$/, "")
    sub(/#.*/, "")
    gsub(/=/, " = ")
    $0 = $0
    if (NF == 0) return
    if ($1 == "bytes") { parse_bytes(); return }
    name = "-"
    at = 1
    if ($2 == "=") {
        name = $1
        at = 3
        if (!is_name(name) || name in code || name == "bytes")
            wrong("expected a name (letters, digits and _, a letter first, not a command), found \"" name "\"")
        else if (name in given) wrong("expected a new name, found \"" name "\", which line " given[name] " gives")
    }
    if (!($at in code)) { wrong("expected a command (new, get, set, append, ..), found \"" $at "\""); give(name); return }
    c = code[$at]
    n = length(takes[c])
    if (NF - at != n) wrong("expected \"" shape(c) "\", found " (NF - at) " arguments")
    else {
        for (i = 1; i <= 2; i++) s = s " " (i <= n ? argument($(at + i), substr(takes[c], i, 1)) : "0")
        if (name != "-" && result[c] != "identifier" && result[c] != "link") wrong("expected no name: " word[c] " answers no identifier")
        if (part_line) wrong("expected no command after line " part_line ", which has fewer than 12 bytes")
        print FNR, c s, name
    }
    give(name)
}

# Given from the next line on, so that one wrong line is told once.
function give(name) {
    if (is_name(name) && !(name in given)) given[name] = FNR
}

function value(s) {
    return substr(s, 1, 1) == "@" ? names[substr(s, 2)] + 0 : s + 0
}

function byte(n) { return sprintf("\\%03o", n) }

function four(n,    i, s) {
    for (i = 0; i < 4; i++) {
        s = s byte(n % 256)
        n = int(n / 256)
    }
    return s
}

function command(    i, s) {
    if ($2 == "bytes") {
        for (i = 3; i <= NF; i++) s = s byte($i + 0)
        return s
    }
    return byte($2 + 0) byte(0) byte(0) byte(0) four(value($3)) four(value($4))
}

# A name for an identifier, in brackets, where there is one.
function called(id) {
    return id in first_name ? " (" first_name[id] ")" : ""
}

function in_words(c, number, answer,    kind) {
    if (number != 0) return "refused " refusal[number] ": " why[number]
    kind = c == "bytes" ? "number" : result[c]
    if (kind == "-") return "done"
    if (kind == "sound") return "done " (answer == 1 ? "1 (sound)" : "0 (not sound)")
    if (kind == "link" && answer == 0) return "done 0 (none)"
    return "done " answer (kind == "number" ? "" : called(answer))
}

function text_of(n,    c, a, b, i, s) {
    c = got[1]
    a = got[5] + 256 * got[6] + 65536 * got[7] + 16777216 * got[8]
    b = got[9] + 256 * got[10] + 65536 * got[11] + 16777216 * got[12]
    if (n == 12 && c >= 1 && c <= codes && got[2] + got[3] + got[4] == 0 && (length(takes[c]) == 2 || b == 0) && (takes[c] != "" || a == 0)) {
        s = word[c]
        if (takes[c] != "") s = s sprintf(" %.0f", a)
        if (length(takes[c]) == 2) s = s sprintf(" %.0f", b)
        print s
        return
    }
    s = "bytes"
    for (i = 1; i <= n; i++) s = s " " got[i]
    print s
}

task == "parse" { parse(); next }

task == "text" {
    for (i = 1; i <= NF; i++) {
        got[++have] = $i + 0
        if (have == 12) { text_of(12); have = 0 }
    }
    next
}

FNR == 1 { file++ }

task == "commands" && file == 1 { names[$1] = $2; next }
task == "commands" {
    out = out command()
    if (length(out) > 2000) { print out; out = "" }
    next
}

# Names that a refused or unanswered command should give are none: 0.
task == "names" && file == 1 { answered[FNR] = $1 == 0 ? $2 : "0"; next }
task == "names" { if ($2 != "bytes" && $5 != "-") print $5, answered[FNR]; next }

task == "words" && file == 1 { if ($2 != 0 && !($2 in first_name)) first_name[$2] = $1; next }
task == "words" && file == 2 { number[FNR] = $1; answer[FNR] = $2; next }
task == "words" && file == 3 { command_of[$1] = FNR; code_of[$1] = $2; next }
task == "words" {
    sub(/\r$/, "")
    if (FNR in command_of) {
        k = command_of[FNR]
        if (number[k] == 0) done++
        else refused[number[k]]++
        remark = index($0, "#") ? "   " substr($0, index($0, "#")) : ""
        sub(/[ \t]*(#.*)?$/, "")
        printf "%-40s -> %s%s\n", $0, in_words(code_of[FNR], number[k], answer[k]), remark
    } else print
    next
}

END {
    if (task == "text" && have) text_of(have)
    if (task == "commands" && out != "") print out
    if (task == "words") {
        s = done + 0 " done"
        for (k = 1; k <= 10; k++) if (refused[k]) s = s ", " refused[k] " refused " refusal[k]
        print "-- " s
    }
    if (FAILED) exit 1
}
