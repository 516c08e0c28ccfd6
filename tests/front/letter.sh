# shellcheck shell=bash disable=SC2154,SC2016 # tests/fronts sets the variables, and bash -c expands the scripts
# desk FILE letter CHANGES: every change, or none.

desk 'a letter is carried out' 0 '' "$week" letter examples/may.letter <examples/letter.parts
desk 'a letter as reprice after reprice has it' 0 '' "$week" letter examples/may.letter < <("$desk" "$week" reprice 1 500 | "$desk" - reprice 3 1900)
desk 'a letter with --report' 0 '' "$week" letter examples/may.letter --report < <("$desk" "$week" compare examples/letter.parts)
desk 'a letter with --report, as CSV with names' 0 '' "$week" letter --report --csv --names "$work/names" examples/may.letter \
    < <("$desk" "$week" compare examples/letter.parts --csv --names "$work/names")
input=$week desk 'a letter to standard input' 0 '' - letter examples/may.letter <examples/letter.parts
cp "$week" "$work/table"
desk 'a letter with --write' 0 '' --write "$work/table" letter examples/may.letter </dev/null
holds 'replaces the file' "it holds $(shown "$work/table")" cmp -s "$work/table" examples/letter.parts
cp "$week" "$work/table"
desk 'a letter with --write and --report' 0 '' --write --report "$work/table" letter examples/may.letter < <("$desk" "$week" compare examples/letter.parts)
holds 'replaces the file too' "it holds $(shown "$work/table")" cmp -s "$work/table" examples/letter.parts
# the report can't be written: the old table stays
cp "$week" "$work/table"
ends 'a report on a full disk' 2 'desk: cannot write the output: *' bash -c '"$desk" --write --report "$1" letter examples/may.letter >/dev/full' - "$work/table" </dev/null
holds 'leaves the file' "it holds $(shown "$work/table")" cmp -s "$work/table" "$week"

# turned NAME ANSWER WORDS LETTER: the letter is refused, with these words, and changes nothing
turned() {
    printf '%b' "$4" >"$work/letter"
    cp "$week" "$work/table"
    desk "a letter with $1" 1 "desk: $work/letter, line $3" --write "$work/table" letter "$work/letter" <<<"$2"
    holds "a letter with $1 changes nothing" "the file holds $(shown "$work/table")" cmp -s "$work/table" "$week"
}
turned 'a line that is not there' 'refused 9 0' "2: $(meaning 9)
desk: line 2 is 9 5<LF>
desk: no change of the letter was made to $work/table
desk: the table has lines 0 to 5" '1 500\n9 5\n3 1900\n'
turned 'a great figure' 'refused 10 0' "3: $(meaning 10)
desk: line 3 is 0 1000000001<LF>*" '1 500\n3 1900\n0 1000000001\n'
printf 'parts 2\n0 5\n1 -7 0\n' >"$work/text"
printf '0 6\n1 8\n' >"$work/letter"
desk 'a letter with a struck line' 1 "*the table's line 1 is 1 -7 0<LF>" "$work/text" letter "$work/letter" <<<'refused 9 0'
desk 'a letter to a broken table' 1 "desk: examples/broken.parts, line 4, column 9: *" examples/broken.parts letter examples/may.letter <<<'refused 14 4 9'

# unwritten NAME LINE WORDS LETTER: the letter itself is wrong at that line
miswritten() {
    printf '%b' "$4" >"$work/letter"
    desk "a letter with $1" 2 "desk: $work/letter, line $2: $3" "$week" letter "$work/letter" </dev/null
}
miswritten 'a decimal point' 2 '3.50 is not a whole number
desk: line 2 is 1 3.50<LF>' '0 1\n1 3.50\n'
miswritten 'a leading zero' 1 '01 is not a whole number*' '01 5\n'
miswritten 'one number' 1 'a change is a line number, one space and a figure*' '1\n'
miswritten 'three numbers' 1 'a change is a line number, one space and a figure*' '1 2 3\n'
miswritten 'two spaces' 1 'a change is a line number*' '1  2\n'
miswritten 'a blank line' 2 'a change is a line number*' '0 1\n\n'
miswritten 'one line twice' 3 'line 1 has a new figure already, in line 1 of the letter*' '1 5\n0 3\n1 6\n'
miswritten 'a last line without LF' 2 'the last line has no line end*' '0 1\n1 2'
miswritten 'Windows line ends' 1 "*run: sed -i 's/\\\\r\$//'*" '0 1\r\n'
: >"$work/letter"
desk 'an empty letter' 2 'desk: * is empty: a letter has a line LINE FIGURE for each change' "$week" letter "$work/letter" </dev/null
desk 'a letter that is missing' 2 'desk: there is no file examples/missing.letter' "$week" letter examples/missing.letter </dev/null

# 200 changes to the chain of 1,024 parts
awk 'BEGIN { for (line = 0; line < 200; line++) print line, line + 2 }' >"$work/letter"
desk 'a letter of 200 changes' 0 '' "$work/chain" letter "$work/letter" < <(awk 'NR > 1 && NR < 202 { $2 = NR } { print }' "$work/chain")
