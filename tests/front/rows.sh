# shellcheck shell=bash disable=SC2154,SC2016 # tests/fronts sets the variables, and bash -c expands the scripts
# --csv and --header. CSV is that of RFC 4180: CR LF ends a row, and rows have equally many fields.

# csv NAME COMMAND..: desk with these words and --csv prints what this function is given, with CR LF
csv() { desk "--csv of $1" 0 '' "${@:2}" --csv < <(sed 's/$/\r/'); }
ends '--csv of price' 0 '' "$price" --csv "$week" < <(tr ' ' , <<<"$list" | sed 's/$/\r/')
csv "desk's price" "$week" price < <(tr ' ' , <<<"$list")
csv bill "$week" bill 3 <<'END_OF_ROWS'
line,part,state,figure
4,3,,0
2,2,,500
0,0,,1200
1,1,,300
1,1,,300
1,1,,300
,3,made,2600
END_OF_ROWS
printf 'parts 3 cost\n0 5\n1 -7 0 0\n1 9 0\n' >"$work/text"
csv 'uses, with a struck line' "$work/text" uses 0 <<'END_OF_ROWS'
line,part,figure,struck,needs
1,1,7,yes,0 0
2,1,9,no,0
END_OF_ROWS
csv 'uses of nothing' "$work/text" uses 2 <<<'line,part,figure,struck,needs'
csv compare "$week" compare examples/letter.parts <<'END_OF_ROWS'
part,state,figure,new_state,new_figure
1,made,300,made,500
2,made,2000,made,1900
3,made,2600,made,2900
END_OF_ROWS
csv replay "$week" replay examples/shelf.record <<'END_OF_ROWS'
part,outcome,count
2,built,
2,late,
2,received,
3,built,
4,issued,
4,late,
0,late,
0,stock,0
1,stock,0
2,stock,0
3,stock,0
4,stock,0
END_OF_ROWS
csv mean examples/year.results mean <<'END_OF_ROWS'
statistic,numerator,denominator
mean,111,1
variance,1441,6
END_OF_ROWS
desk 'a refusal is no CSV' 1 '*' "$week" bill 4 --csv <<<'refused 12 0'

# header NAME FIRST COMMAND..: with --header the answer has one line more, its first
header() { desk "--header of $1" 0 '' "${@:3}" --header < <([ -z "$2" ] || echo "$2"; "$desk" "${@:3}"); }
header price '' "$week" price
header uses 'line part figure needs' "$week" uses 1
header compare 'part state figure new_state new_figure' "$week" compare examples/letter.parts
header replay 'part outcome' "$week" replay examples/shelf.record
header mean 'numerator denominator' examples/year.results mean
desk '--header of bill names both kinds of rows' 0 '' "$week" bill 0 --header <<'END_OF_ROWS'
line part figure
0 0 1200
part state figure
0 made 1200
END_OF_ROWS
ends '--header of price' 0 '' "$price" --header "$week" <<<"$list"

# as a spreadsheet's reader has it
rows() { python3 -c 'import csv, sys; rows = list(csv.reader(sys.stdin)); print(len(rows), {len(row) for row in rows})'; }
holds 'a CSV reader finds the fields of the greatest list' "$("$price" --csv "$work/full" | rows)" [ "$("$price" --csv "$work/full" | rows)" = '1025 {6}' ]
