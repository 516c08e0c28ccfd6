# shellcheck shell=bash disable=SC2154,SC2016 # tests/fronts sets the variables, and bash -c expands the scripts
# desk FILE graph [PART]: the graph's text, and with Graphviz its picture.

desk 'the graph of a part' 0 '' "$week" graph 3 <<'END_OF_GRAPH'
digraph parts {
  rankdir=BT;
  node [fontname="sans-serif"];
  edge [fontname="sans-serif"];
  p0 [label="part 0\n1200"];
  p1 [label="part 1\n3 x 300"];
  p2 [label="part 2\n2000"];
  p3 [label="part 3\n2600"];
  l0 [shape=box, label="line 0\n1200"];
  l0 -> p0;
  l1 [shape=box, label="line 1\n300"];
  l1 -> p1;
  l2 [shape=box, label="line 2\n500"];
  p0 -> l2;
  p1 -> l2;
  l2 -> p2;
  l4 [shape=box, label="line 4\n0"];
  p2 -> l4;
  p1 -> l4 [label="2"];
  l4 -> p3;
}
END_OF_GRAPH
sed 's/^2 2100$/2 -2100/' "$week" >"$work/text"
"$desk" "$work/text" graph --names "$work/names" >"$work/graph"
# drawn NAME PATTERN: the graph of the whole table has the line
drawn() { holds "the graph of a table has $1" "$(shown "$work/graph")" grep -qxF -- "  $2" "$work/graph"; }
drawn 'an unmade part in grey' 'p4 [label="part 4\nunmade", style=filled, color=gray60, fillcolor=gray90, fontcolor=gray40];'
drawn 'a struck line, dashed' 'l3 [shape=box, label="line 3\n2100", style=dashed];'
drawn 'its arrow, dashed' 'l3 -> p2 [style=dashed];'
drawn 'a chosen line' 'l2 [shape=box, label="line 2\n500", penwidth=2];'
drawn 'a line that is not chosen' 'l5 [shape=box, label="line 5\n10"];'
drawn 'a name with quotes' 'p2 [label="part 2\ndrive \"A\", left\n2000"];'
drawn 'a part that is needed twice' 'p1 -> l4 [label="2"];'
desk 'the graph of no part' 1 "desk: $week, graph 9: $(meaning 11)*" "$week" graph 9 <<<'refused 11 0'
desk 'the graph of an unmade part' 1 '*' "$week" graph 4 <<<'refused 12 0'
desk 'the graph of a broken table' 1 '*' examples/broken.parts graph <<<'refused 14 4 9'

if command -v dot >/dev/null; then
    "$desk" "$week" graph 3 | dot -Tsvg >"$work/part.svg" 2>"$work/errors"
    holds 'Graphviz draws the graph of a part' "$(shown "$work/errors")" [ ! -s "$work/errors" ]
    # titles: of parts and lines their names, of arrows both ends
    titles() { grep -o '<title>[^<]*</title>' "$1" | sed 's/<[^>]*>//g; s/&#45;&gt;/->/' | sort | xargs; }
    holds 'with its parts, lines and arrows' "it has $(titles "$work/part.svg")" \
        [ "$(titles "$work/part.svg")" = 'l0 l0->p0 l1 l1->p1 l2 l2->p2 l4 l4->p3 p0 p0->l2 p1 p1->l2 p1->l4 p2 p2->l4 p3 parts' ]
    holds 'and the count of a part that occurs three times' "$(shown "$work/part.svg")" grep -q '>3 x 300</text>' "$work/part.svg"
    dot -Tsvg "$work/graph" >"$work/table.svg" 2>"$work/errors"
    holds 'Graphviz draws the graph of a table' "$(shown "$work/errors")" [ ! -s "$work/errors" ]
    holds 'with a dashed line' "$(shown "$work/table.svg")" grep -q 'stroke-dasharray' "$work/table.svg"
    holds 'with a grey part' "$(shown "$work/table.svg")" grep -q '>unmade</text>' "$work/table.svg"
    holds 'with names' "$(shown "$work/table.svg")" grep -q 'pompa główna</text>' "$work/table.svg"
else
    skip 'the pictures of graphs' 'there is no dot (Debian: graphviz)'
fi
# the picture in docs/FORMAT.md: what it shows, whichever version of Graphviz drew it
for label in 'part 0' 'part 1' '3 x 300' 'part 2' 'part 3' '2600' 'line 0' 'line 1' 'line 2' 'line 4'; do
    holds "docs/week.svg has $label" 'it has not' grep -q ">$label</text>" docs/week.svg
done
