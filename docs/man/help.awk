# Makes sections of what a program prints with --help: its usage, headings, paragraphs, lists of a term and what it is, and examples as they stand.

# Ends what came before; only a term can go on with further lines.
function finish() { if (verbatim) print ".fi\n.RE"; verbatim = term = gap = 0 }
function begin_term(name) { finish(); print ".TP\n\\fB" plain(name) "\\fR"; term = 1 }

NR == 1 { print ".SH SYNOPSIS\n.nf" }
!described && sub(/^(usage:|      ) /, "") { print "\\fB" plain($1) "\\fR" plain(substr($0, length($1) + 1)); next }
!described { print ".fi\n.SH DESCRIPTION"; described = 1 }
/^$/ { finish(); gap = 1; next }

# A heading; what it has in brackets becomes its first sentence.
/^[a-z]+( \(.*\))?:$/ {
    finish()
    name = $1
    sub(/:$/, "", name)
    print ".SH " toupper(name)
    if (sub(/^[^(]*\(/, "")) { sub(/\):$/, "."); say(toupper(substr($0, 1, 1)) substr($0, 2)) }
    next
}
sub(/^Status: /, "") { finish(); print ".SH EXIT STATUS" }

term && /^          +[^ ]/ { sub(/^ +/, ""); say($0); next }
/^  +[^ ].*[^ ]   *[^ ]/ && match($0, /[^ ]   */) { begin_term(substr($0, 3, RSTART - 2)); say(substr($0, RSTART + RLENGTH)); next }
/^  -[^ ]/ { begin_term(substr($0, 3)); next }
/^  / { if (!verbatim) print ".RS 4\n.nf"; verbatim = 1; say(substr($0, 3)); next }
{ paragraph = gap || term; finish(); if (paragraph) print ".PP"; say($0) }
END { finish() }
