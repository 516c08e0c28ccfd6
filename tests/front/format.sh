# shellcheck shell=bash disable=SC2154,SC2094 # tests/fronts sets the variables
# The examples of docs/FORMAT.md: a line `$ desk WORDS` in a block of its own, and after it what is printed.

examples=0
while IFS= read -r line; do
    case $line in
        '    $ '*)
            words=${line#*\$ }
            awk -v line="$line" '$0 == line { on = 1; next } on && !/^    / { exit } on { print substr($0, 5) }' docs/FORMAT.md >"$work/example"
            # shellcheck disable=SC2086 # words
            ends "the example $words" 0 '' src/front/$words <"$work/example"
            examples=$((examples + 1))
            ;;
    esac
done <docs/FORMAT.md
holds 'docs/FORMAT.md has examples' "it has $examples" [ "$examples" -ge 3 ]
