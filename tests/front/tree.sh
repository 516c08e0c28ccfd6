# shellcheck shell=bash disable=SC2154,SC2016 # tests/fronts sets the variables, and bash -c expands the scripts
# desk FILE bill PART --tree: levels, quantities and extended costs.

desk 'a bill as a tree' 0 '' "$week" bill 3 --tree <<'END_OF_ROWS'
4 3 1 2600 2600
  2 2 1 2000 2000
    0 0 1 1200 1200
    1 1 1 300 300
  1 1 2 300 600
END_OF_ROWS
desk 'a bill as a tree, with header and names' 0 '' "$week" bill 3 --tree --header --names "$work/names" <<'END_OF_ROWS'
line part quantity figure extended name
4 3 1 2600 2600 pompa główna
  2 2 1 2000 2000 drive "A", left
    0 0 1 1200 1200 motor
    1 1 1 300 300 seal
  1 1 2 300 600 seal
END_OF_ROWS
desk 'a bill as a tree in CSV' 0 '' "$week" bill 3 --tree --csv --names "$work/names" < <(sed 's/$/\r/' <<'END_OF_ROWS'
level,line,part,quantity,figure,extended,name
0,4,3,1,2600,2600,pompa główna
1,2,2,1,2000,2000,"drive ""A"", left"
2,0,0,1,1200,1200,motor
2,1,1,1,300,300,seal
1,1,1,2,300,600,seal
END_OF_ROWS
)
desk 'a tree of days has no extended cost' 0 '' examples/lead-times.parts bill 4 --tree --header < <("$desk" examples/lead-times.parts price >"$work/days.list"
    awk 'NR == FNR { figure[$1] = $3; next } FNR == 1 { print "line part quantity figure" }
        { indent = $0; sub(/[0-9].*/, "", indent); print indent $1, $2, $3, figure[$2] }' "$work/days.list" <("$desk" examples/lead-times.parts bill 4 --tree))
desk 'a refused bill is no tree' 1 '*' "$week" bill 4 --tree <<<'refused 12 0'
# quantities multiply from level to level, and a row's extended cost is its own charges and the extended costs below it
awk 'BEGIN { print "parts 4 cost"; print "0 7"; print "1 5 0 0 0"; print "2 3 1 0 1"; print "3 1 2 2" }' >"$work/text"
desk 'quantities multiply' 0 '' "$work/text" bill 3 --tree <<'END_OF_ROWS'
3 3 1 125 125
  2 2 2 62 124
    1 1 4 26 104
      0 0 12 7 84
    0 0 2 7 14
END_OF_ROWS
# every figure of every tree is the list's
agree=yes
for table in "$week" examples/lead-times.parts examples/grades.parts "$work/text" "$work/chain"; do
    "$desk" "$table" price >"$work/list"
    part=$(awk '$2 == "made" { part = $1 } END { print part }' "$work/list")
    "$desk" "$table" bill "$part" --tree >"$work/tree"
    [ -s "$work/tree" ] && awk 'NR == FNR { figure[$1] = $3; next } $4 != figure[$2] { exit 1 }' "$work/list" "$work/tree" || agree=$table
done
holds 'the figures of trees are those of the list' "not of $agree" [ "$agree" = yes ]
awk 'BEGIN { print "parts 4 cost"; print "0 1000000000"; for (p = 1; p < 4; p++) { row = p " 0"; for (i = 0; i < 16; i++) row = row " " p - 1; print row } }' >"$work/text"
desk 'a tree above the ceiling' 0 'desk: the figure of part 3 is above 1,000,000,000,000: do not quote it' "$work/text" bill 3 --tree <<'END_OF_ROWS'
3 3 1 4096000000000 4096000000000
  2 2 16 256000000000 4096000000000
    1 1 256 16000000000 4096000000000
      0 0 4096 1000000000 4096000000000
END_OF_ROWS
