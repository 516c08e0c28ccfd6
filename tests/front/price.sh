# shellcheck shell=bash disable=SC2154,SC2016 # tests/fronts sets the variables, and bash -c expands the scripts
# price: what it prints and says, and its status.

price() { ends "$1" "$2" "$3" "$price" "${@:4}"; }

price 'price prices the week' 0 '' examples/week.parts <<<"$list"
price 'price prices lead times' 0 '' examples/lead-times.parts <<'END'
part state figure depth line pieces
0 made 14 1 0 1
1 made 3 1 1 1
2 made 21 1 2 1
3 made 16 2 3 2
4 made 17 3 5 4
5 unmade 0 0 0 0
END

price 'price prices grades' 0 '' examples/grades.parts <<'END'
part state figure depth line pieces
0 made 900 1 0 1
1 made 750 1 1 1
2 made 750 2 2 2
3 made 750 3 4 4
4 made 0 1 6 1
5 unmade 0 0 0 0
END

# Where the table comes from -------------------------------------------------------------------------------------------------------------------

input=$work/worked price 'price reads standard input' 0 '' <<<"$list"
input=$work/worked price 'price reads -' 0 '' - <<<"$list"
price 'price reads a pipe' 0 '' <(pieces) <<<"$list"
ends 'price reads the end of a pipeline' 0 '' bash -c 'cat -- "$1" | "$price"' - "$work/worked" <<<"$list"
printf 'parts' >"$work/text"
input=$work/text price 'price names standard input' 1 "price: standard input, line 1, column 6: $(meaning 14)*line 1 is parts<end>*" - <<<'refused 14 1 6'
price 'price names a file that is missing' 2 'price: there is no file examples/missing.parts' examples/missing.parts </dev/null
price 'price names a directory' 2 'price: examples is a folder, not a file' examples </dev/null
input=. price 'price reads no directory' 2 'price: cannot read standard input: *' </dev/null
ends 'price without standard input' 2 'price: cannot read standard input: *' bash -c '"$price" <&-' </dev/null
input=$work/worked ends 'price after a read that fails' 2 'price: cannot read standard input: *' env FAIL_AFTER=20 LD_PRELOAD="$failing" "$price" </dev/null
price 'price takes one table' 2 'price: price takes one table at a time*' examples/week.parts examples/week.parts </dev/null
price 'price knows its options' 2 'price: unknown option: --days*' --days </dev/null
cp examples/week.parts "$work/-week"
ends 'price takes a file that begins with -' 0 '' bash -c 'cd -- "$1" && "$price" -- -week' - "$work" <<<"$list"

# Where price stands ---------------------------------------------------------------------------------------------------------------------------

rm -rf "$work/with spaces" "$work/elsewhere"
mkdir -p "$work/with spaces/bin" "$work/with spaces/elsewhere"
cp examples/week.parts "$work/with spaces/the week"
ln -s "$price" "$work/with spaces/bin/price"
ends 'price through a symlink, from a directory and of a file with spaces' 0 '' \
    bash -c 'cd -- "$1" && ./bin/price "the week"' - "$work/with spaces" <<<"$list"
mkdir -p "$work/elsewhere/tests" "$work/elsewhere/$(basename "$PWD")"
ends 'price with CDPATH set' 0 '' env CDPATH="$work/elsewhere:/" bash -c 'cd tests >/dev/null; cd - >/dev/null; "$price" examples/week.parts' <<<"$list"
ends 'price by a relative path with CDPATH set' 0 '' \
    env CDPATH="$work/elsewhere" bash -c 'cd -- "$(dirname "$price")/.." >/dev/null && "$(basename "$(dirname "$price")")/price" "$1/examples/week.parts"' - "$PWD" <<<"$list"

# Writes that fail: never a success, and no part of a list is left -----------------------------------------------------------------------------

echo 'parts 400 cost' >"$work/wide"
unwritten='price: cannot write the output: *'
ends 'price on a full disk' 2 "$unwritten" bash -c '"$price" examples/week.parts >/dev/full' </dev/null
ends 'price on a full disk, refusing' 2 "$unwritten" bash -c '"$price" examples/broken.parts >/dev/full' </dev/null
ends 'price without standard output' 2 'price: cannot write the output: standard output is closed' bash -c '"$price" examples/week.parts >&-' </dev/null
ends 'price without standard error' 1 '' bash -c '"$price" examples/broken.parts 2>&-' <<<'refused 14 4 9'
ends 'price helps on a full disk' 2 "$unwritten" bash -c '"$price" --help >/dev/full' </dev/null
: >"$work/out"
ends 'price at the limit of a file' 2 "$unwritten" bash -c 'ulimit -f 4; "$price" "$1" >"$2"' - "$work/wide" "$work/out" </dev/null
holds 'price leaves no part of a list' "it left $(wc -c <"$work/out") bytes" [ ! -s "$work/out" ]
echo 'what stood there' >"$work/out"
ends 'price at the limit of a file that it adds to' 2 "$unwritten" bash -c 'ulimit -f 4; "$price" "$1" >>"$2"' - "$work/wide" "$work/out" </dev/null
holds 'price leaves what stood there' "it left $(shown "$work/out")" [ "$(cat "$work/out")" = 'what stood there' ]

# Readers that leave early: silent, and by SIGPIPE, which a shell shows as 141 ------------------------------------------------------------------

# shellcheck disable=SC2094 # each opens the file for itself
exec 4<>"$work/pipe" 5>"$work/pipe" 4>&-
ends 'price into a closed pipe' 141 '' env --default-signal=PIPE bash -c '"$price" examples/week.parts >&5; exit $?' </dev/null
ends 'price, refusing, into a closed pipe' 141 '' env --default-signal=PIPE bash -c '"$price" examples/broken.parts >&5; exit $?' </dev/null
ends 'price into a closed pipe where the signal is ignored' 2 'price: cannot write the output: Broken pipe' env --ignore-signal=PIPE bash -c '"$price" examples/week.parts >&5' </dev/null
exec 5>&-
quiet=yes
for _ in 1 2 3 4 5 6 7 8 9 10; do
    ended=$(env --default-signal=PIPE bash -c '"$price" "$1" 2>"$2" | head -n 1 >/dev/null; echo "${PIPESTATUS[0]}"' - "$work/full" "$work/errors")
    { [ "$ended" = 0 ] || [ "$ended" = 141 ]; } && [ ! -s "$work/errors" ] || quiet="$ended: $(shown "$work/errors")"
done
holds 'price | head -n 1 is silent' "$quiet" [ "$quiet" = yes ]
