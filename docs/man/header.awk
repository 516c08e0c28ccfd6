# Makes sections of include/tozbierdu.h: its first comment, the constants, the refusals, and the calls of libtozbierdu.a with their comments.

# Prints the paragraph that is held. If it begins in capitals, its first sentence is a heading.
function paragraph(   heading) {
    sub(/^ /, "", held)
    if (held == "") return
    if (match(held, /^[A-Z][A-Z' ]+[A-Z][^.]*\. /)) {
        heading = substr(held, 1, RLENGTH - 2)
        held = substr(held, RLENGTH + 1)
        print ".SS " plain(substr(heading, 1, 1) tolower(substr(heading, 2)))
    } else if (told++) print ".PP"
    say(held)
    held = ""
}

# Prints the comment before a declaration, its refusals on a line of their own.
function lines(   n, i, part) {
    n = split(comment, part, "\n")
    for (i = 1; i <= n; i++) {
        if (part[i] ~ /^Refusals:/) print ".br"
        say(part[i])
    }
    comment = ""
}

# The names of a declaration's parameters: a column without its count, and & before one that is written.
function parameters(list,   n, i, one, shown) {
    sub(/^[^(]*\(/, "", list)
    sub(/\);$/, "", list)
    n = split(list, all, / *, */)
    for (i = 1; i <= n; i++) {
        one = all[i]
        if (one ~ /_count$/) continue
        shown = shown (shown == "" ? "" : ", ") (one ~ /\*/ && one !~ /^const/ ? "&" : "")
        sub(/.*[ *]/, "", one)
        shown = shown one
    }
    return shown
}

function call(declared,   name) {
    if (!listed++) print ".SH CALLS\nA column is lent as a pointer and a count of places. Here it is its name alone; & marks one that the call may write."
    name = declared
    gsub(/^ uint64_t |\(.*/, "", name)
    print ".TP\n\\fB" name "\\fR(" plain(parameters(declared)) ")"
    lines()
}

# The calls of libcounter.a have other names, and nothing more.
/^#ifndef TOZBIERDU_PREFIXED/ { exit }

# Comments. The first one is printed; another is kept for what follows it.
/^\/\*.*\*\/$/ { gsub(/^\/\* | \*\/$/, ""); comment = $0; next }
/^\/\*/ { within = 1; comment = ""; sub(/^\/\*/, " *") }
within && /^ \*\/$/ { within = 0; if (!opened++) paragraph(); next }
within {
    if (sub(/ \*\/$/, "")) within = 0
    sub(/^ \* ?/, "")
    if (opened) comment = comment (comment == "" ? "" : "\n") $0
    else if ($0 == "") paragraph()
    else held = held " " $0
    next
}

/^#define [A-Z_]+ / {
    if (!constants++) print ".SH CONSTANTS"
    if (comment != "") { print ".PP"; lines() }
    value = $3
    gsub(/UINT64_C\(|\)/, "", value)
    print ".br\n\\fB" plain($2) "\\fR " plain(value)
}

/^enum tozbierdu_refusal/ { print ".SH REFUSALS"; lines(); next }
/^ *TOZBIERDU_REFUSED_[A-Z_]+ = / {
    meaning = $0
    gsub(/.*\/\* | \*\/$/, "", meaning)
    print ".TP\n\\fB" $3 + 0 "\\fR " $1 "\n" plain(meaning)
}

/^static inline/ {
    if (!helpers++) print ".SH RESULTS"
    gsub(/^static inline [a-z0-9_]+ |\(.*/, "")
    print ".TP\n\\fB" $0 "\\fR(result)"
    lines()
}
/^uint64_t [a-z_]+\(/ { declared = ""; reading = 1 }
reading { line = $0; sub(/^ +/, "", line); declared = declared " " line }
reading && /\);$/ { reading = 0; call(declared) }
