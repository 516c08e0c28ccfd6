# shellcheck disable=SC2010,SC2086
# desk: what it prints and says, its status, and the file that it replaces.

desk() { ends "$1" "$2" "$3" bash desk "${@:4}"; }
week=examples/week.parts

desk 'desk prices the week' 0 '' "$week" price <<<"$list"
desk 'desk prints a bill' 0 '' "$week" bill 3 <<'END_OF_BILL'
4 3 0
2 2 500
0 0 1200
1 1 300
1 1 300
1 1 300
3 made 2600
END_OF_BILL
desk 'desk finds the lines that need a part' 0 '' "$week" uses 1 <<'END_OF_USES'
2 2 500 0 1
4 3 0 2 1 1
END_OF_USES
desk 'desk reprices' 0 '' "$week" reprice 1 350 < <(sed 's/^1 300$/1 350/' "$week")
desk 'desk strikes' 0 '' "$week" strike 2 < <(sed 's/^2 500 0 1$/2 -500 0 1/' "$week")
desk 'desk appends' 0 '' "$week" append 4 100 0 0 1 < <(cat "$week"; echo '4 100 0 0 1')
desk 'desk checks' 0 '' "$week" check </dev/null
desk 'desk checks the order' 1 "desk: $week: $(cell 24 3)*$(cell 24 5)" "$week" check-order <<<'refused 24 5'
desk 'desk tells mean and variance' 0 '' examples/year.results mean <<<$'111 1\n1441 6'
desk 'desk compares two tables' 0 '' "$week" compare examples/letter.parts <<'END_OF_ROWS'
1 made 300 made 500
2 made 2000 made 1900
3 made 2600 made 2900
END_OF_ROWS
desk 'desk compares a table with itself' 0 '' "$week" compare "$week" </dev/null
sed '1s/ cost//' "$week" >"$work/days"
desk 'desk says that measures differ' 0 "desk: $week and $work/days are in different measures" "$week" compare "$work/days" <<'END_OF_ROWS'
2 made 2000 made 1700
3 made 2600 made 1700
END_OF_ROWS
desk 'desk replays a record' 0 '' "$week" replay examples/shelf.record <<'END_OF_OUTCOMES'
2 built
2 late
2 received
3 built
4 issued
4 late
0 late
stock 0 0 0 0 0
END_OF_OUTCOMES
input=$week desk 'desk reads standard input' 0 '' - uses 0 <<<'2 2 500 0 1'

# Refusals and words that are no command --------------------------------------------------------------------------------------------------------

desk 'desk explains a refusal' 1 "desk: $week: $(cell 12 3)*$(cell 12 5)" "$week" bill 4 <<<'refused 12 0'
desk 'desk explains a broken text' 1 "desk: examples/broken.parts, line 4, column 9: $(cell 14 3)*line 4 is 2 500 0 9<LF>*" examples/broken.parts bill 0 <<<'refused 14 4 9'
desk 'desk explains which of two tables is refused' 1 "desk: examples/broken.parts, line 4, column 9: $(cell 14 3)*line 4 is 2 500 0 9<LF>*" "$week" compare examples/broken.parts <<<'refused 14 4 9'
desk 'desk names the first of two' 1 "desk: examples/broken.parts, line 4, column 9: *" examples/broken.parts compare "$week" <<<'refused 14 4 9'
printf 'stock 1 3 0 0 1\n2 0\n5 0\n' >"$work/record"
desk 'desk explains a refused record' 1 "desk: $work/record: $(cell 25 3)*$(cell 25 5)*event 1 is line 3: 5 0<LF>" "$week" replay "$work/record" <<<'refused 25 1'
printf 'stock 1 3 0 0 1\n1 999998\n' >"$work/record"
desk 'desk shows the receipt that is too great' 1 "*$(cell 26 5)*event 0 is line 2: 1 999998<LF>" "$week" replay "$work/record" <<<'refused 26 0'
printf 'stock 1 3 0 0 1000001\n1 999998\n' >"$work/record"
desk 'desk names the opening count that is too great' 1 "*$(cell 26 5)*it is the opening count of part 4" "$week" replay "$work/record" <<<'refused 26 4'
desk 'desk names a second file that is missing' 2 'desk: there is no file examples/missing.parts' "$week" compare examples/missing.parts </dev/null
for words in 'compare' 'replay' 'compare 1 2'; do
    desk "desk wants a second file of $words" 2 'desk: * needs one file more, and no numbers*' "$week" $words </dev/null
done
for words in 'sell' 'mean 1' 'bill' 'bill 1 2' 'bill x' 'bill 01' 'bill -1' 'bill 18446744073709551616' 'price 1' 'append 1' 'reprice 1'; do
    desk "desk does not know $words" 2 'desk: these words are no command: see bash desk --help' "$week" $words </dev/null
done
desk 'desk wants a command' 2 'desk: a file and a command are needed*' "$week" </dev/null
desk 'desk knows its options' 2 'desk: there is no option --days*' --days "$week" price </dev/null
desk 'desk names a file that is missing' 2 'desk: there is no file examples/missing.parts' examples/missing.parts price </dev/null
bash desk --help >"$work/help"
holds 'desk helps' "it prints $(shown "$work/help")" grep -q '^usage: bash desk' "$work/help"
# an example for each command, and each of them is carried out
while read -r _ _ file command numbers; do
    # shellcheck disable=SC2086
    bash desk "$file" "$command" $numbers >"$work/printed" 2>"$work/errors"
    [ $? -le 1 ] || fail "desk's example of $command" "$(shown "$work/errors")"
    pass "desk's example of $command"
done < <(grep '^  bash desk' "$work/help")

# --write --------------------------------------------------------------------------------------------------------------------------------------------

table=$work/table
mkdir "$work/beside"
written() { cp "$week" "$table"; chmod 640 "$table"; }
written
desk 'desk replaces the file' 0 '' --write "$table" reprice 1 350 </dev/null
holds 'by the repriced table' "it holds $(shown "$table")" cmp -s "$table" <(sed 's/^1 300$/1 350/' "$week")
holds 'with the mode that it had' "its mode is $(stat -c %a "$table")" [ "$(stat -c %a "$table")" = 640 ]
desk 'desk replaces it again' 0 '' "$table" strike 2 --write </dev/null
desk 'desk restores the line' 0 '' "$table" restore 2 --write </dev/null
desk 'desk appends a line to the file' 0 '' "$table" append 4 100 0 --write </dev/null
holds 'and every change is there' "it holds $(shown "$table")" cmp -s "$table" <(sed 's/^1 300$/1 350/' "$week"; echo '4 100 0')
ln -s "$table" "$work/link"
desk 'desk replaces what a link names' 0 '' --write "$work/link" reprice 1 300 </dev/null
holds 'and the link stays' "it is $(stat -c %F "$work/link")" [ -L "$work/link" ]

written
desk 'desk leaves a file whose change is refused' 1 '*' --write "$table" reprice 9 5 <<<'refused 9 0'
desk 'desk writes no list' 2 'desk: price changes no table*' --write "$table" price </dev/null
desk 'desk replaces no standard input' 2 'desk: standard input is no file*' --write - strike 1 </dev/null
# 4,096 bytes, which a price with one digit more passes
full() { echo 'parts 10 cost'; echo '0 500'; yes '0 5' | head -n 1019; }
full >"$table"
ends 'desk at the limit of a file' 2 "*desk: the new file can't be written: * is as it was" bash -c 'ulimit -f 4; bash desk --write "$1" reprice 1 10' - "$table" </dev/null
holds 'the file is the old one' "it holds $(shown "$table")" cmp -s "$table" <(full)
# root may write everywhere but on a file system that can't be written, which it may have to do without
root=$([ "$(id -u)" -ne 0 ] || echo yes)
mounts=$([ -z "$root" ] || ! unshare -m mount -t tmpfs tmpfs "$work/beside" 2>/dev/null || echo yes)
if [ "$mounts" ]; then
    # a disk with room for the table alone
    on_full='mount -t tmpfs -o size=8k tmpfs "$1" && cp "$2" "$1" && { "${@:3}"; ended=$?; cmp -s "$1/table" "$2" || exit 9; exit "$ended"; }'
    ends 'desk on a full disk leaves the old table' 2 "*desk: the new file can't be written: * is as it was" \
        unshare -m bash -c "$on_full" - "$work/beside" "$table" bash desk --write "$work/beside/table" reprice 1 10 </dev/null
fi
holds 'and nothing lies beside it' "$(ls -A "$work" | grep '^\.table')" [ -z "$(ls -A "$work" | grep '^\.table')" ]
beside=$work/beside
cp "$week" "$beside/table"
locked=()
[ "$root" ] || chmod 555 "$beside"
[ -z "$mounts" ] || locked=(unshare -m bash -c 'mount --bind "$1" "$1" && mount -o remount,ro,bind "$1" && "${@:2}"' - "$beside")
if [ -z "$root" ] || [ "$mounts" ]; then
    ends 'desk in a folder that can not be written' 2 '*desk: there is no room beside*' "${locked[@]}" bash desk --write "$beside/table" reprice 1 350 </dev/null
else
    echo 'not tried, as root may not mount here: a full disk, a folder that can not be written'
fi
chmod 755 "$beside"
holds 'leaves the file as it was' "it holds $(shown "$beside/table")" cmp -s "$beside/table" "$week"

# interrupted at many moments, the file is the old one or the new one
sed 's/^1 300$/1 350/' "$week" >"$work/new"
whole=yes
for pause in 0.01 0.02 0.03 0.04 0.05 0.06 0.08 0.1 0.12; do
    written
    bash desk --write "$table" reprice 1 350 >/dev/null 2>&1 &
    sleep "$pause"
    kill -INT $! 2>/dev/null || kill -TERM $! 2>/dev/null
    wait $! 2>/dev/null
    cmp -s "$table" "$week" || cmp -s "$table" "$work/new" || whole=no
done
holds 'interrupted, desk leaves the old table or the new one' "it holds $(shown "$table")" [ "$whole" = yes ]

# The man page ------------------------------------------------------------------------------------------------------------------------------------------

holds 'the man page is made of the help' 'docs/parts.1 is not what docs/manual prints' cmp -s docs/parts.1 <(bash docs/manual)
