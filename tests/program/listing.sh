# shellcheck disable=SC2086,SC2116
# What the listing program prints.

# The paper's table, in cost, in days and in grade -----------------------------------------------------------------------------------------------

worked='parts 5 cost
0 1200
1 300
2 500 0 1
2 2100
3 0 2 1 1
4 10 4'
list='part state figure depth line pieces
0 made 1200 1 0 1
1 made 300 1 1 1
2 made 2000 2 2 2
3 made 2600 3 4 4
4 unmade 0 0 0 0'
echo "$worked" >"$work/worked"
prints 'the worked table' "$work/worked" <<<"$list"

sed '1s/.*/parts 5/' "$work/worked" >"$work/days"
prints 'the worked table in days' "$work/days" <<'END'
part state figure depth line pieces
0 made 1200 1 0 1
1 made 300 1 1 1
2 made 1700 2 2 2
3 made 1700 3 4 4
4 unmade 0 0 0 0
END

sed '1s/.*/parts 5 grade/' "$work/worked" >"$work/grade"
prints 'the worked table in grade' "$work/grade" <<'END'
part state figure depth line pieces
0 made 1200 1 0 1
1 made 300 1 1 1
2 made 2100 1 3 1
3 made 0 2 4 3
4 unmade 0 0 0 0
END

sed '2s/.*/0 -1200/' "$work/worked" >"$work/struck"
prints 'a struck line' "$work/struck" <<'END'
part state figure depth line pieces
0 unmade 0 0 0 0
1 made 300 1 1 1
2 made 2100 1 3 1
3 made 2700 2 4 3
4 unmade 0 0 0 0
END

printf 'parts 3 cost\n0 -0\n0 5\n1 -1000000000 0\n1 7 0\n2 -3\n' >"$work/kept"
prints 'struck lines with every kept figure' "$work/kept" <<'END'
part state figure depth line pieces
0 made 5 1 1 1
1 made 12 2 3 1
2 unmade 0 0 0 0
END

echo 'parts 0 cost' >"$work/none"
prints 'a table of no parts' "$work/none" <<<'part state figure depth line pieces'

# ten times ten times ten times the greatest own figure is the ceiling, and 1 more is over
ten() { printf " $1%.0s" 1 2 3 4 5 6 7 8 9 10; }
for own in 0 1; do
    printf 'parts 4 cost\n0 1000000000\n1 0%s\n2 0%s\n3 %s%s\n' "$(ten 0)" "$(ten 1)" "$own" "$(ten 2)" >"$work/over$own"
done
above='part state figure depth line pieces
0 made 1000000000 1 0 1
1 made 10000000000 2 1 10
2 made 100000000000 3 2 100'
prints 'a part at the ceiling' "$work/over0" <<<"$above
3 made 1000000000000 4 3 1000"
prints 'a part that is over' "$work/over1" <<<"$above
3 over 1000000000001 4 3 1000"

# in days the sums are along a chain: 1,000 lines of the greatest own figure, and 1 more
chain() { echo "parts $1"; echo '0 1000000000'; for ((part = 1; part < $1; part++)); do echo "$part 1000000000 $((part - 1))"; done; }
chain 1001 >"$work/chain"
{
    echo 'part state figure depth line pieces'
    for ((part = 0; part < 1000; part++)); do echo "$part made $((part + 1))000000000 $((part + 1)) $part 1"; done
    echo '1000 over 1000000000001 1001 1000 1'
} >"$work/chained"
prints 'a part at the ceiling and one over it, in days' "$work/chain" <"$work/chained"

# 14 ---------------------------------------------------------------------------------------------------------------------------------------

refuses 'an empty input' 1 1 ''
refuses 'an LF alone' 1 1 '\n'
refuses 'another first word' 1 5 'part 5\n'
refuses 'a first line without its LF' 1 8 'parts 5'
refuses 'a leading zero in n' 1 8 'parts 05\n'
refuses 'n above 1,024' 1 10 'parts 1025\n'
refuses 'a word for days' 1 9 'parts 5 days\n'
refuses 'a beginning of days' 1 9 'parts 5 day\n'
refuses 'days with a capital' 1 9 'parts 5 Days\n'
refuses 'cost with a capital' 1 9 'parts 5 Cost\n'
refuses 'cost in capitals' 1 9 'parts 5 COST\n'
refuses 'a beginning of cost' 1 12 'parts 5 cos\n'
refuses 'a beginning of cost at the end' 1 10 'parts 5 c'
refuses 'a longer word than cost' 1 13 'parts 5 costs\n'
refuses 'cost behind two spaces' 1 9 'parts 5  cost\n'
refuses 'cost behind a tab' 1 8 'parts 5\tcost\n'
refuses 'cost and a CR' 1 13 'parts 5 cost\r\n'
refuses 'another letter than of grade' 1 12 'parts 5 grape\n'
refuses 'a longer word than grade' 1 14 'parts 5 grades\n'
refuses 'a beginning of grade at the end' 1 10 'parts 5 g'
refuses 'grade with a capital' 1 9 'parts 5 Grade\n'
refuses 'two words' 1 14 'parts 5 grade cost\n'
refuses 'cost without its LF' 1 13 'parts 5 cost'
refuses 'a head that is no part, in text line 2' 2 1 'parts 1\n1 0\n'
refuses 'a leading zero in text line 3' 3 4 'parts 2\n0 5\n1 05\n1 9\n'
refuses 'a last line without its LF' 3 6 'parts 5\n0 1200\n1 300'
refuses 'an LF too many' 3 1 'parts 1\n0 5\n\n'
refuses 'a dash without a figure' 3 4 'parts 2\n0 5\n1 -\n1 9\n'
refuses 'a dash and a space' 2 4 'parts 9\n0 - 5\n'
refuses 'two dashes' 2 4 'parts 1\n0 --5\n'
refuses 'a leading zero behind a dash' 2 5 'parts 1\n0 -05\n'
refuses 'a figure above the greatest behind a dash' 2 13 'parts 1\n0 -1000000001\n'
refuses 'a figure above the greatest' 2 12 'parts 1\n0 1000000001\n'
refuses 'a head alone' 2 2 'parts 5\n0\n'
refuses 'a head alone at the end' 3 2 'parts 5\n0 1\n0'
refuses 'two spaces' 2 5 'parts 5\n0 5  1\n'
refuses 'a needed part that is none' 2 5 'parts 5\n0 5 9\n'
refuses 'a byte 0' 2 4 'parts 5\n0 5\0000\n'
refuses 'any line of no parts' 2 1 'parts 0\n0 0\n'
seventeen=$(printf ' 1%.0s' {1..17})
refuses 'the space before a 17th part' 2 36 "parts 5\\n0 5$seventeen\\n"
refuses 'the longest line before its fault' 2 97 "parts 1024\\n1023 -1000000000$(printf ' 1023%.0s' {1..16}) 0\\n"
{ echo 'parts 1'; yes "0 7$(printf ' 0%.0s' {1..16})" | head -n 1024; echo '0 7 0'; } >"$work/text"
prints 'the space before the 16,385th part' "$work/text" <<<'refused 14 1026 4'
{ echo 'parts 1'; yes '0 7' | head -n 4097; } >"$work/text"
prints 'a 4,097th line' "$work/text" <<<'refused 14 4098 1'

# the mistakes of docs/FORMAT.md, with the refusal that each is said to get
tried=0
while IFS='|' read -r _ mistake text refusal _; do
    [[ $refusal == *refused* ]] || continue
    text=${text#*\`} refusal=${refusal#*\`}
    printf '%b' "${text%\`*}" >"$work/text"
    prints "$(echo $mistake)" "$work/text" <<<"${refusal%\`*}"
    tried=$((tried + 1))
done <docs/FORMAT.md
holds 'docs/FORMAT.md has mistakes' "it has $tried" [ "$tried" -gt 20 ]
sed -n 's/^    //p' docs/FORMAT.md | sed '/^ *$/,$d' | sed '/^text /,$d' >"$work/typed"
prints 'the table of docs/FORMAT.md' "$work/typed" <<'END'
part state figure depth line pieces
0 made 1200 1 0 1
1 made 300 1 1 1
2 made 2000 2 2 2
3 made 2600 3 4 4
4 unmade 0 0 0 0
END

# Long inputs ------------------------------------------------------------------------------------------------------------------------------

# 4,096 lines in 65,535 bytes: the part of all but the last two costs the most, by the first of them
{ echo 'parts 1024 cost'; yes '1023 1000000000' | head -n 4094; echo '0 10000000'; echo '0 7'; } >"$work/full"
holds 'the full table has 65,535 bytes' "it has $(wc -c <"$work/full")" [ "$(wc -c <"$work/full")" -eq 65535 ]
awk 'BEGIN {
    print "part state figure depth line pieces"
    print "0 made 7 1 4095 1"
    for (v = 1; v < 1023; v++) print v " unmade 0 0 0 0"
    print "1023 made 1000000000 1 0 1"
}' >"$work/full.list"
prints 'an input of 65,535 bytes' "$work/full" <"$work/full.list"

{ cat "$work/full"; echo; } >"$work/long"
prints 'an input of 65,536 bytes' "$work/long" <<<'refused 17 0'
head -c 65536 /dev/zero >"$work/zeros"
prints '17 comes before 14' "$work/zeros" <<<'refused 17 0'

timeout 10 bash -c 'yes "1023 1000000000" | head -c 1048576 | "$1"' - "$listing" >"$work/printed" 2>"$work/errors"
status=$?
holds 'a megabyte through a pipe' "status $status, printed $(head -c 100 "$work/printed")" [ "$status:$(cat "$work/printed")" = '0:refused 17 0' ]

# The largest tables -----------------------------------------------------------------------------------------------------------------------

# A chain of 1,024 parts, each made of the one before, its lines in falling order; and 3,072 lines of five parts for part 0, none of which is cheaper than
# its first. In the end part v costs v + 1, at depth v + 1, by line 1023 - v.
awk 'BEGIN {
    print "parts 1024 cost"
    for (v = 1023; v > 0; v--) print v, 1, v - 1
    print "0 1"
    for (e = 0; e < 3072; e++) print "0 9 1 2 3 4 5"
}' >"$work/chain"
awk 'BEGIN {
    print "part state figure depth line pieces"
    for (v = 0; v < 1024; v++) print v, "made", v + 1, v + 1, 1023 - v, 1
}' >"$work/chain.list"
prints 'a chain of 1,024 parts in 4,096 lines' "$work/chain" <"$work/chain.list"

# Tens of tens of part 0: from part 4 on over, from part 9 on the greatest piece count; and 1,011 parts that each need the last of these.
{
    echo 'parts 1024 cost'
    echo '0 1000000000'
    for ((part = 1; part < 13; part++)); do echo "$part 0$(ten $((part - 1)))"; done
    for ((part = 13; part < 1024; part++)); do echo "$part 0 12"; done
} >"$work/many"
{
    echo 'part state figure depth line pieces'
    echo '0 made 1000000000 1 0 1'
    pieces=1
    for ((part = 1; part < 1024; part++)); do
        pieces=$((pieces * 10 < 1000000000 ? pieces * 10 : 1000000000))
        state=over figure=1000000000001
        [ "$part" -gt 3 ] || state=made figure=$((pieces * 1000000000))
        echo "$part $state $figure $((part < 13 ? part + 1 : 14)) $part $pieces"
    done
} >"$work/many.list"
prints 'parts of the greatest piece count' "$work/many" <"$work/many.list"
