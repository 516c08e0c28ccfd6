# shellcheck shell=bash disable=SC2154,SC2016 # tests/fronts sets the variables, and bash -c expands the scripts
# Refusals in the user's terms: file, line and column, what docs/REFUSALS.md says under "at the desk", the line, and a remedy.

price 'price explains a refusal' 1 "price: examples/broken.parts, line 4, column 9: $(meaning 14)
price: line 4 is 2 500 0 9<LF>" examples/broken.parts <<<'refused 14 4 9'
price 'price explains 17' 1 "price: $work/long: $(meaning 17)" "$work/long" <<<'refused 17 0'

# shows NAME LINE COLUMN SHOWN TEXT REMEDY: the text is refused there, the line is shown so, and the remedy follows
shows() {
    printf '%b' "$5" >"$work/text"
    price "price shows $1" 1 "price: $work/text, line $2, column $3: $(meaning 14)
price: line $2 is $4${6-}" "$work/text" <<<"refused 14 $2 $3"
}
shows 'a CR' 1 8 'parts 1<CR><LF>' 'parts 1\r\n0 5\r\n' "
price: the text was saved with Windows line ends; run: sed -i 's/\\\\r\$//' '$work/text'"
shows 'a tab' 2 2 '0<tab>5<LF>' 'parts 1\n0\t5\n'
shows 'a byte order mark' 1 1 '<byte order mark>parts 1<LF>' '\xEF\xBB\xBFparts 1\n0 5\n' "
price: the text begins with a byte order mark; run: sed -i '1s/^\\\\xEF\\\\xBB\\\\xBF//' '$work/text'"
shows 'UTF-16' 1 1 '<FF><FE>p<00>a<00><end>' '\xFF\xFEp\0000a\0000' '
price: the text was saved as UTF-16; save it as plain text*'
shows 'a space at the end' 2 5 '0 5 <LF>' 'parts 1\n0 5 \n'
shows 'a blank line' 2 1 '<LF>' 'parts 1\n\n0 5\n'
shows 'a missing LF' 2 4 '0 5<end>' 'parts 1\n0 5' '
price: the text ends here, too early: every line needs a line end, the last one too'
shows 'an empty file' 1 1 '<end>' '' '
price: the file is empty'
shows 'bytes that are no ASCII' 2 2 '0<C2><A0>5<00><7F><LF>' 'parts 1\n0\xC2\xA05\0000\x7F\n'
shows 'a backslash and a percent sign' 2 3 '0 \\n%s\\%d<LF>' 'parts 1\n0 \\n%s\\%d\n'
shows 'a long line' 2 12 "0 $(printf '9%.0s' {1..158})..." "parts 1\n0 $(printf '9%.0s' {1..300})\n"

# the remedies, carried out
for text in 'parts 1\r\n0 5\r\n' '\xEF\xBB\xBFparts 1\n0 5\n'; do
    printf '%b' "$text" >"$work/it's"
    remedy=$("$price" "$work/it's" 2>&1 >/dev/null | sed -n 's/.*; run: //p')
    bash -c "$remedy"
    price "price accepts what ${remedy%% \'/*} made" 0 '' "$work/it's" <<<$'part state figure depth line pieces\n0 made 5 1 0 1'
done
printf 'parts 1\r\n0 5\r\n' >"$work/text"
input=$work/text price 'price offers no file for standard input' 1 "*; pass it through sed 's/\\\\r\$//'" <<<'refused 14 1 8'

# refused NAME ANSWER WORDS COMMAND..: the command on the week is refused, and standard error is like WORDS
refused() { desk "desk explains $1" 1 "$3" "$week" "${@:4}" <<<"$2"; }
refused 'uses of no part' 'refused 11 0' "desk: $week, uses 7: $(meaning 11)
desk: the table has parts 0 to 4" uses 7
refused 'a bill of no part' 'refused 11 0' "desk: $week, bill 7: $(meaning 11)
desk: the table has parts 0 to 4" bill 7
refused 'an unmade part' 'refused 12 0' "desk: $week, bill 4: $(meaning 12)" bill 4
refused 'a line that is not there' 'refused 9 0' "desk: $week, reprice 9 1: $(meaning 9)
desk: the table has lines 0 to 5" reprice 9 1
refused 'a great figure' 'refused 10 0' "desk: $week, reprice 1 1000000001: $(meaning 10)" reprice 1 1000000001
refused 'a line that stands' 'refused 20 0' "desk: $week, restore 1: $(meaning 20)
desk: the table's line 1 is 1 300<LF>" restore 1
refused 'a new line for no part' 'refused 3 6' "desk: $week, append 9 1: $(meaning 3)
desk: the table has parts 0 to 4" append 9 1
refused 'a new line with a great figure' 'refused 4 6' "desk: $week, append 0 1000000001: $(meaning 4)" append 0 1000000001
refused 'a new line of no part' 'refused 6 6' "desk: $week, append 0 1 9: $(meaning 6)
desk: the table has parts 0 to 4" append 0 1 9
refused 'the order' 'refused 24 5' "desk: $week, line 7: $(meaning 24)
desk: line 7 is 4 10 4<LF>" check-order
printf 'parts 1\n0 -5\n' >"$work/text"
desk 'desk shows a struck line' 1 "desk: $work/text, reprice 0 1: $(meaning 9)
desk: the table's line 0 is 0 -5<LF>" "$work/text" reprice 0 1 <<<'refused 9 0'
desk 'desk says that there is one part' 1 '*desk: the table has part 0 only' "$work/text" bill 5 <<<'refused 11 0'
printf 'parts 0\n' >"$work/text"
desk 'desk says that there are no parts' 1 '*desk: the table has no parts' "$work/text" bill 0 <<<'refused 11 0'
{ echo 'parts 1'; yes '0 7' | head -n 4096; } >"$work/text"
desk 'desk explains a full table' 1 "desk: $work/text, append 0 1: $(meaning 2)" "$work/text" append 0 1 <<<'refused 2 0'
awk 'BEGIN { print "parts 6 cost"; print "0 1"; for (p = 1; p < 6; p++) { row = p " 0"; for (i = 0; i < 16; i++) row = row " " p - 1; print row } }' >"$work/text"
desk 'desk explains a long bill' 1 "desk: $work/text, bill 5: $(meaning 13)" "$work/text" bill 5 <<<'refused 13 0'
desk 'desk explains a table that grows too long' 1 "desk: $work/full, reprice 4095 100000000: $(meaning 15)" "$work/full" reprice 4095 100000000 <<<'refused 15 0'
printf '1\n2\n1000001\n' >"$work/text"
desk 'desk shows a result that is too great' 1 "desk: $work/text, line 3: $(meaning 23)
desk: line 3 is 1000001<LF>" "$work/text" mean <<<'refused 23 2'
: >"$work/text"
desk 'desk explains an empty sample' 1 "desk: $work/text: $(meaning 22)" "$work/text" mean <<<'refused 22 0'

# the second file
broken="desk: examples/broken.parts, line 4, column 9: $(meaning 14)
desk: line 4 is 2 500 0 9<LF>"
desk 'desk explains which of two tables is refused' 1 "$broken" "$week" compare examples/broken.parts <<<'refused 14 4 9'
desk 'desk names the first of two' 1 "$broken" examples/broken.parts compare "$week" <<<'refused 14 4 9'

# replayed NAME ANSWER WORDS RECORD: the record is refused, at a line that begins WORDS
replayed() {
    printf '%b' "$4" >"$work/record"
    desk "$1" 1 "desk: $work/record, line $3" "$week" replay "$work/record" <<<"$2"
}
replayed 'desk explains counts that are too few' 'refused 7 0' "1: $(meaning 7)
desk: line 1 is stock 1<LF>
desk: the table has 5 parts" 'stock 1\n'
replayed 'desk explains an event of no part' 'refused 25 1' "3: $(meaning 25)
desk: line 3 is 5 0<LF>
desk: the table has parts 0 to 4" 'stock 1 3 0 0 1\n2 0\n5 0\n'
replayed 'desk shows the receipt that is too great' 'refused 26 0' "2: $(meaning 26)
desk: line 2 is 1 999998<LF>" 'stock 1 3 0 0 1\n1 999998\n'
replayed 'desk names the opening count that is too great' 'refused 26 4' "1: $(meaning 26)
desk: line 1 is stock 1 3 0 0 1000001<LF>
desk: the opening count of part 4 is too great" 'stock 1 3 0 0 1000001\n1 999998\n'

# no word of the library reaches a desk
lent=$(awk -F ' *[|] *' '$2 ~ /^[0-9]+$/ && $6 ~ /lend|room|span|libcounter|call /' docs/REFUSALS.md)
holds 'what desks read speaks of nothing to lend' "$lent" [ -z "$lent" ]
