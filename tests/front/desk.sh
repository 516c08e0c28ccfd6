# shellcheck shell=bash disable=SC2154,SC2016 # tests/fronts sets the variables, and bash -c expands the scripts
# desk: what it prints of each command.

desk() { ends "$1" "$2" "$3" "$desk" "${@:4}"; }
week=examples/week.parts

desk 'desk prices the week' 0 '' "$week" price <<<"$list"
desk 'desk prints a bill' 0 '' "$week" bill 3 <<'END_OF_BILL'
4 3 0
2 2 500
0 0 1200
1 1 300
1 1 300
1 1 300
3 made 2600
END_OF_BILL
desk 'desk finds the lines that need a part' 0 '' "$week" uses 1 <<'END_OF_USES'
2 2 500 0 1
4 3 0 2 1 1
END_OF_USES
desk 'desk reprices' 0 '' "$week" reprice 1 350 < <(sed 's/^1 300$/1 350/' "$week")
desk 'desk strikes' 0 '' "$week" strike 2 < <(sed 's/^2 500 0 1$/2 -500 0 1/' "$week")
desk 'desk appends' 0 '' "$week" append 4 100 0 0 1 < <(cat "$week"; echo '4 100 0 0 1')
desk 'desk checks' 0 '' "$week" check </dev/null
desk 'desk checks the order' 1 "desk: $week, line 7: $(meaning 24)*" "$week" check-order <<<'refused 24 5'
desk 'desk tells mean and variance' 0 '' examples/year.results mean <<<$'111 1\n1441 6'
desk 'desk compares two tables' 0 '' "$week" compare examples/letter.parts <<'END_OF_ROWS'
1 made 300 made 500
2 made 2000 made 1900
3 made 2600 made 2900
END_OF_ROWS
desk 'desk compares a table with itself' 0 '' "$week" compare "$week" </dev/null
sed '1s/ cost//' "$week" >"$work/days"
desk 'desk says that measures differ' 0 "desk: $week and $work/days are in different measures" "$week" compare "$work/days" <<'END_OF_ROWS'
2 made 2000 made 1700
3 made 2600 made 1700
END_OF_ROWS
desk 'desk replays a record' 0 '' "$week" replay examples/shelf.record <<'END_OF_OUTCOMES'
2 built
2 late
2 received
3 built
4 issued
4 late
0 late
stock 0 0 0 0 0
END_OF_OUTCOMES
input=$week desk 'desk reads standard input' 0 '' - uses 0 <<<'2 2 500 0 1'
