# shellcheck shell=bash disable=SC2154,SC2016 # tests/fronts sets the variables, and bash -c expands the scripts
# --names: the parts' names as a last field, and files of names that are wrong.

printf '0 motor\n2 drive "A", left\n1 seal\n3 pompa główna\n' >"$work/names"
ends 'price with names' 0 '' "$price" --names "$work/names" "$week" <<'END_OF_ROWS'
part state figure depth line pieces name
0 made 1200 1 0 1 motor
1 made 300 1 1 1 seal
2 made 2000 2 2 2 drive "A", left
3 made 2600 3 4 4 pompa główna
4 unmade 0 0 0 0
END_OF_ROWS
ends 'price with names as CSV' 0 '' "$price" --csv "--names=$work/names" "$week" < <(sed 's/$/\r/' <<'END_OF_ROWS'
part,state,figure,depth,line,pieces,name
0,made,1200,1,0,1,motor
1,made,300,1,1,1,seal
2,made,2000,2,2,2,"drive ""A"", left"
3,made,2600,3,4,4,pompa główna
4,unmade,0,0,0,0,
END_OF_ROWS
)
named() { desk "$1 with names" 0 '' --names "$work/names" "$week" "${@:2}"; }
named bill bill 2 <<'END_OF_ROWS'
2 2 500 drive "A", left
0 0 1200 motor
1 1 300 seal
2 made 2000 drive "A", left
END_OF_ROWS
named uses uses 1 <<'END_OF_ROWS'
2 2 500 0 1 drive "A", left
4 3 0 2 1 1 pompa główna
END_OF_ROWS
named 'uses as CSV' uses 0 --csv <<<$'line,part,figure,struck,needs,name\r\n2,2,500,no,0 1,"drive ""A"", left"\r'
named compare compare examples/letter.parts <<'END_OF_ROWS'
1 made 300 made 500 seal
2 made 2000 made 1900 drive "A", left
3 made 2600 made 2900 pompa główna
END_OF_ROWS
named replay replay examples/shelf.record <<'END_OF_ROWS'
2 built drive "A", left
2 late drive "A", left
2 received drive "A", left
3 built pompa główna
4 issued
4 late
0 late motor
stock 0 0 0 0 0
END_OF_ROWS
desk 'names change no figure' 0 '' --names "$work/names" "$week" price < <("$price" "$week" | awk 'NR == FNR { number = $1; sub(/^[0-9]+ /, ""); name[number] = $0; next }
    FNR == 1 { print $0, "name"; next } { print $0 ($1 in name ? " " name[$1] : "") }' "$work/names" -)
{ sed 's/^parts 5/parts 6/' "$week"; echo '5 1'; } >"$work/more"
printf '5 bolt\n' >"$work/some"
desk 'names of parts of the second table' 0 '' --names "$work/some" "$week" compare "$work/more" <<<'5 unmade 0 made 1 bolt'

# unnamed NAME LINE WORDS TEXT: the file of names is wrong at that line
unnamed() {
    printf '%b' "$4" >"$work/wrong"
    desk "$1" 2 "desk: $work/wrong, line $2: $3" --names "$work/wrong" "$week" price </dev/null
}
unnamed 'a name of a part that is not there' 2 'the table has no part 5
desk: line 2 is 5 bolt<LF>' '0 motor\n5 bolt\n'
unnamed 'a part with two names' 3 'part 0 has a name already, in line 1
desk: line 3 is 0 engine<LF>' '0 motor\n1 seal\n0 engine\n'
unnamed 'a part without a name' 1 'a line needs a part number, a space and a name*' '0\n'
unnamed 'a part with an empty name' 1 'a line needs a part number, a space and a name*' '0 \n'
unnamed 'a name without a part' 2 'a line needs a part number, a space and a name*' '0 motor\nseal\n'
unnamed 'a blank line of names' 2 'a line needs*' '0 motor\n\n'
unnamed 'a name that is not UTF-8' 1 'the name is not UTF-8*' '0 caf\xE9\n'
unnamed 'a name with an overlong byte' 1 'the name is not UTF-8*' '0 \xC0\xAF\n'
unnamed 'a name with half of a pair' 1 'the name is not UTF-8*' '0 \xED\xA0\x80\n'
unnamed 'a name that ends early' 1 'the name is not UTF-8*' '0 a\xE2\x82\n'
unnamed 'a name with a tab' 1 'the name is not UTF-8, or has a tab*' '0 a\tb\n'
unnamed 'names with Windows line ends' 1 "*run: sed -i 's/\\\\r\$//'*" '0 motor\r\n'
unnamed 'names with a byte order mark' 1 '*byte order mark; run:*' '\xEF\xBB\xBF0 motor\n'
unnamed 'a last name without LF' 2 'the last line has no line end*' '0 motor\n1 seal'
desk 'a file of names that is missing' 2 'desk: there is no file examples/missing.names' --names examples/missing.names "$week" price </dev/null
: >"$work/wrong"
ends 'no names at all' 0 '' "$price" --names "$work/wrong" "$week" < <(sed '1s/$/ name/' <<<"$list")
