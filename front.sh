# What price and desk share: they set root, me (their name), program (its path) and crate (what builds it), and read this file.
say() { printf '%s: %s\n' "$me" "$1" >&2; }
fail() { say "$1"; exit 2; }

# Copies a file, up to one byte more than the program takes, so that what is shown of it is what the program read.
take_file() { # FILE COPY
    [ -e "$1" ] || fail "there is no file $1"
    [ ! -d "$1" ] || fail "$1 is a directory, and no file"
    [ -r "$1" ] || fail "the file $1 can't be read"
    head -c 65536 <"$1" >"$2" || fail "the file $1 can't be read"
}

take_input() {
    if [ "$file" = - ]; then
        [ ! -t 0 ] || say 'the table is read from standard input'
        head -c 65536 >"$work/input" || fail "standard input can't be read"
        return
    fi
    take_file "$file" "$work/input"
}

# whether nothing that the program is made of is newer; what rt keeps in the crates' out/ is no source
fresh() {
    local newer
    [ -x "$program" ] && newer=$(find "$root"/crates/*/* "$root/crates.txt" -name out -prune -o -newer "$program" -print -quit) && [ -z "$newer" ]
}

# The program gets the time at which its check began: a source that changed while it ran is newer.
build() {
    command -v rt >/dev/null || fail 'the Rattle toolchain is needed to build the program, and there is no rt on the path'
    say 'the program is proved and built first, which takes a few minutes'
    : >"$work/begun" || exit 2
    if (cd -- "$root/crates/$crate" && rt run) >"$work/log" 2>&1 </dev/null && [ -x "$root/crates/$crate/out/$crate" ]; then
        mkdir -p -- "$(dirname -- "$program")" && cp -- "$root/crates/$crate/out/$crate" "$program.new" && touch -r "$work/begun" -- "$program.new" &&
            mv -- "$program.new" "$program" && return
    fi
    cat -- "$work/log" >&2
    fail 'the program was not built'
}

# What the program prints of the input, in full, and what a refusal is of; another word on its standard error, or another status than 0, is trouble.
run() {
    local status
    blamed=$file shown=$work/input
    [ "$file" != - ] || blamed='standard input'
    output=$("$program" "$@" <"$work/input" 2>"$work/errors"; status=$?; printf .; exit "$status")
    status=$?
    output=${output%.}
    case $(cat -- "$work/errors") in
        "parts: that is the second file's")
            blamed=$second shown=$work/second
            : >"$work/errors"
            ;;
        'parts: these words are no command') fail 'these words are no command: see bash desk --help' ;;
    esac
    [ "$status" -eq 0 ] && [ ! -s "$work/errors" ] && return
    cat -- "$work/errors" >&2
    fail "the program ended with status $status"
}

# Writes the output. Where it can't be written whole, what a file has taken of it is taken back: the start of a list is never left to be read as a list.
emit() {
    local before ended
    { exec 3>&1; } 2>/dev/null || fail 'there is no standard output'
    before=$(stat -L -c %s /dev/fd/3)
    trap '' PIPE XFSZ
    printf '%s' "$output" 2>/dev/null | cat
    ended=("${PIPESTATUS[@]}")
    [ "${ended[*]}" != '0 0' ] || return
    [ ! -f /dev/fd/3 ] || truncate -s "$before" /dev/fd/3 || say 'what was written could not be taken back'
    fail "the output can't be written"
}

# A line of what is shown, up to 160 bytes, with what the eye can't see named.
visible() {
    LC_ALL=C sed -n "$1p" "$shown" | head -c 161 | od -An -v -t u1 | awk '
        { for (i = 1; i <= NF; i++) byte[++n] = $i + 0 }
        END {
            name[9] = "tab"; name[10] = "LF"; name[13] = "CR"
            for (i = 1; i <= n && i <= 160; i++)
                if (byte[i] == 239 && byte[i + 1] == 187 && byte[i + 2] == 191) { printf "<byte order mark>"; i += 2 }
                else if (byte[i] in name) printf "<%s>", name[byte[i]]
                else if (byte[i] < 32 || byte[i] > 126) printf "<%02X>", byte[i]
                else printf "%c", byte[i]
            if (n > 160) printf "..."
            else if (n == 0 || byte[n] != 10) printf "<end>"
        }'
}

# a cell of the table in docs/REFUSALS.md
cell() { awk -F ' *[|] *' -v number="$1" -v column="$2" '$2 == number { print $column }' "$root/docs/REFUSALS.md"; }

# Says of a refusal when it is given and what to do, and shows the line.
explain() {
    if [ "$1" -eq 14 ]; then
        say "$blamed, line $2, column $3: $(cell "$1" 3)"
        say "line $2 is $(visible "$2")"
    else
        say "$blamed: $(cell "$1" 3)"
    fi
    say "$(cell "$1" 5)"
}
