# shellcheck disable=SC2094
# price: what it prints and says, and its status.

price() { ends "$1" "$2" "$3" bash price "${@:4}"; }
cell() { awk -F ' *[|] *' -v number="$1" -v column="$2" '$2 == number { print $column }' docs/REFUSALS.md; }

price 'price prices the week' 0 '' examples/week.parts <<<"$list"
price 'price prices lead times' 0 '' examples/lead-times.parts <<'END'
part state figure depth line pieces
0 made 14 1 0 1
1 made 3 1 1 1
2 made 21 1 2 1
3 made 16 2 3 2
4 made 17 3 5 4
5 unmade 0 0 0 0
END

price 'price prices grades' 0 '' examples/grades.parts <<'END'
part state figure depth line pieces
0 made 900 1 0 1
1 made 750 1 1 1
2 made 750 2 2 2
3 made 750 3 4 4
4 made 0 1 6 1
5 unmade 0 0 0 0
END

# Refusals: the file's name, what docs/REFUSALS.md says of the number, and the line made visible -----------------------------------------------

fourteen=$(cell 14 3)
price 'price explains a refusal' 1 "price: examples/broken.parts, line 4, column 9: $fourteen*line 4 is 2 500 0 9<LF>*$(cell 14 5)" \
    examples/broken.parts <<<'refused 14 4 9'
price 'price explains 17' 1 "price: $work/long: $(cell 17 3)*$(cell 17 5)" "$work/long" <<<'refused 17 0'

# shows NAME LINE COLUMN SHOWN TEXT: of the text, refused there, the line is shown so
shows() {
    printf '%b' "$5" >"$work/text"
    price "price shows $1" 1 "price: $work/text, line $2, column $3: $fourteen*line $2 is $4
*" "$work/text" <<<"refused 14 $2 $3"
}
shows 'a CR' 1 8 'parts 1<CR><LF>' 'parts 1\r\n0 5\r\n'
shows 'a tab' 2 2 '0<tab>5<LF>' 'parts 1\n0\t5\n'
shows 'a byte order mark' 1 1 '<byte order mark>parts 1<LF>' '\xEF\xBB\xBFparts 1\n0 5\n'
shows 'a space at the end' 2 5 '0 5 <LF>' 'parts 1\n0 5 \n'
shows 'a blank line' 2 1 '<LF>' 'parts 1\n\n0 5\n'
shows 'a missing LF' 2 4 '0 5<end>' 'parts 1\n0 5'
shows 'an empty file' 1 1 '<end>' ''
shows 'bytes that are no ASCII' 2 2 '0<C2><A0>5<00><7F><LF>' 'parts 1\n0\xC2\xA05\0000\x7F\n'
shows 'a backslash and a percent sign' 2 3 '0 \\n%s\\%d<LF>' 'parts 1\n0 \\n%s\\%d\n'
shows 'a long line' 2 12 "0 $(printf '9%.0s' {1..158})..." "parts 1\n0 $(printf '9%.0s' {1..300})\n"

# Where the table comes from -------------------------------------------------------------------------------------------------------------------

input=$work/worked price 'price reads standard input' 0 '' <<<"$list"
input=$work/worked price 'price reads -' 0 '' - <<<"$list"
price 'price reads a pipe' 0 '' <(pieces) <<<"$list"
ends 'price reads the end of a pipeline' 0 '' bash -c 'cat -- "$1" | bash price' - "$work/worked" <<<"$list"
printf 'parts' >"$work/text"
input=$work/text price 'price names standard input' 1 "price: standard input, line 1, column 6: $fourteen*line 1 is parts<end>*" - <<<'refused 14 1 6'
price 'price names a file that is missing' 2 'price: there is no file examples/missing.parts' examples/missing.parts </dev/null
price 'price names a directory' 2 'price: examples is a directory, and no file' examples </dev/null
input=. price 'price reads no directory' 2 "*price: standard input can't be read" </dev/null
ends 'price without standard input' 2 "*price: standard input can't be read" bash -c 'bash price <&-' </dev/null
input=$work/worked ends 'price after a read that fails' 2 "*price: standard input can't be read" env FAIL_AFTER=20 LD_PRELOAD="$failing" bash price </dev/null
price 'price takes one table' 2 'price: one table at a time*' examples/week.parts examples/week.parts </dev/null
price 'price knows its options' 2 'price: there is no option --days*' --days </dev/null
bash price --help >"$work/help"
holds 'price helps' "it prints $(shown "$work/help")" grep -q '^usage: bash price \[FILE\]$' "$work/help"
cp examples/week.parts "$work/-week"
ends 'price takes a file that begins with -' 0 '' bash -c 'cd -- "$2" && bash "$1" -- -week' - "$PWD/price" "$work" <<<"$list"

# Where price stands ---------------------------------------------------------------------------------------------------------------------------

mkdir -p "$work/with spaces/bin" "$work/with spaces/elsewhere"
cp examples/week.parts "$work/with spaces/the week"
ln -s "$PWD/price" "$work/with spaces/bin/price"
ends 'price through a symlink, from a directory and of a file with spaces' 0 '' \
    bash -c 'cd -- "$1" && ./bin/price "the week"' - "$work/with spaces" <<<"$list"
mkdir -p "$work/elsewhere/tests" "$work/elsewhere/$(basename "$PWD")"
ends 'price with CDPATH set' 0 '' env CDPATH="$work/elsewhere:/" bash -c 'cd tests >/dev/null; cd - >/dev/null; bash price examples/week.parts' <<<"$list"
ends 'price by a relative path with CDPATH set' 0 '' \
    env CDPATH="$work/elsewhere" bash -c 'cd -- "$1/.." >/dev/null && bash "$(basename "$1")/price" "$1/examples/week.parts"' - "$PWD" <<<"$list"

# Writes that fail: never a success, and no part of a list is left -----------------------------------------------------------------------------

echo 'parts 400 cost' >"$work/wide"
unwritten="*price: the output can't be written"
ends 'price on a full disk' 2 "$unwritten" bash -c 'bash price examples/week.parts >/dev/full' </dev/null
ends 'price on a full disk, refusing' 2 "$unwritten" bash -c 'bash price examples/broken.parts >/dev/full' </dev/null
ends 'price without standard output' 2 'price: there is no standard output' bash -c 'bash price examples/week.parts >&-' </dev/null
ends 'price helps on a full disk' 2 "$unwritten" bash -c 'bash price --help >/dev/full' </dev/null
: >"$work/out"
ends 'price at the limit of a file' 2 "$unwritten" bash -c 'ulimit -f 4; bash price "$1" >"$2"' - "$work/wide" "$work/out" </dev/null
holds 'price leaves no part of a list' "it left $(wc -c <"$work/out") bytes" [ ! -s "$work/out" ]
echo 'what stood there' >"$work/out"
ends 'price at the limit of a file that it adds to' 2 "$unwritten" bash -c 'ulimit -f 4; bash price "$1" >>"$2"' - "$work/wide" "$work/out" </dev/null
holds 'price leaves what stood there' "it left $(shown "$work/out")" [ "$(cat "$work/out")" = 'what stood there' ]
exec 4<>"$work/pipe" 5>"$work/pipe" 4>&-
ends 'price into a closed pipe' 2 "$unwritten" bash -c 'bash price examples/week.parts >&5' </dev/null
exec 5>&-
