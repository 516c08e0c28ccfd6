# shellcheck shell=bash disable=SC2154,SC2016 # tests/fronts sets the variables, and bash -c expands the scripts
# Words that are no command, options, help and versions.

# misused WORDS COMMAND..: the command on the week is misuse, and standard error is like WORDS
misused() { desk "desk explains ${*:2}" 2 "desk: $1" "$week" "${@:2}" </dev/null; }
misused 'bill takes one part number (desk help bill)' bill
misused 'bill takes one part number (desk help bill)' bill 1 2
misused '3.50 is not a whole number: reprice takes a line number and a figure (desk help reprice)' reprice 1 3.50
misused '1,200 is not a whole number*' reprice 1 1,200
misused 'x is not a whole number*' bill x
misused '-1 is not a whole number*' bill -1
misused 'an empty word is not a whole number*' bill ''
misused '1 2 is not a whole number*' bill '1 2'
misused '01 has a leading zero*' bill 01
misused '18446744073709551616 is too large: numbers have at most 18 digits*' bill 18446744073709551616
misused 'reprice takes a line number and a figure*' reprice 1
misused 'append takes a part number, a figure, and up to 16 numbers of needed parts*' append 1
misused 'append takes a part number, a figure, and up to 16*' append 1 1 0 0 0 0 0 0 0 0 0 0 0 0 0 0 0 0 0
misused 'price takes no further words*' price 1
misused 'mean takes no further words*' mean 1
misused 'compare takes one file, the second table*' compare
misused 'replay takes one file, the record*' replay
misused 'compare takes one file*' compare 1 2
misused 'letter takes one file*' letter
misused 'unknown command: sell; did you mean bill[?] (desk --help lists all)' sell
misused 'unknown command: reprise; did you mean reprice[?]*' reprise 1 2
misused 'unknown command: check_order; did you mean check-order[?]*' check_order
misused 'unknown command: inventory (desk --help lists all)' inventory
misused 'unknown command:  (desk*' ''
misused "unknown command: $(printf 'x%.0s' {1..300}) *" "$(printf 'x%.0s' {1..300})"
misused 'price changes no table: --write is for *' price --write
misused '--tree is for bill*' price --tree
misused '--report is for letter*' price --report
misused 'strike prints no rows: --csv and --header are for *' strike 1 --csv
misused 'letter prints no rows*' letter examples/may.letter --header
misused 'mean prints no names: --names is for *' mean --names "$week"
misused '--names takes a file*' price --names
misused 'unknown option: --days*' price --days
misused 'unknown option: -x*' price -x
desk 'desk wants a command' 2 'desk: a file and a command are needed*' "$week" </dev/null
desk 'desk wants words' 2 'desk: a file and a command are needed*' </dev/null
desk 'desk knows the order of its words' 2 'desk: the file comes before the command: desk FILE bill*' bill "$week" 3 </dev/null
desk 'desk names a file that is missing' 2 'desk: there is no file examples/missing.parts' examples/missing.parts price </dev/null
desk 'desk names a second file that is missing' 2 'desk: there is no file examples/missing.parts' "$week" compare examples/missing.parts </dev/null
desk 'desk names a folder' 2 'desk: examples is a folder, not a file' examples price </dev/null
desk 'desk replaces no standard input' 2 'desk: standard input is not a file*' --write - strike 1 </dev/null
cp "$week" "$work/-week"
ends 'desk takes a file that begins with -' 0 '' bash -c 'cd -- "$1" && "$desk" --header -- -week uses 0' - "$work" <<<$'line part figure needs\n2 2 500 0 1'

# the words are looked at before standard input is read
rm -f "$work/held"
mkfifo "$work/held"
exec 6<>"$work/held"
input=$work/held ends 'desk reads no input for wrong words' 2 'desk: bill takes one part number*' timeout 10 "$desk" - bill </dev/null
exec 6>&-

# Help and versions ----------------------------------------------------------------------------------------------------------------------------

version=$(cat VERSION)
for name in price desk; do
    program=${!name}
    ends "$name --version" 0 '' "$program" --version <<<"$name (tozbierdu) $version"
    "$program" --help >"$work/help" 2>&1
    holds "$name --help" "it prints $(shown "$work/help")" grep -q "^usage: $name " "$work/help"
    ends "$name -h" 0 '' "$program" -h <"$work/help"
    ends "$name with a file and --help" 0 '' "$program" examples/week.parts --help <"$work/help"
done
ends 'desk help' 0 '' "$desk" help <"$work/help"
ends 'a word after -- is no option' 2 'price: there is no file --help' "$price" -- --help </dev/null
desk 'desk helps with no other word' 2 'desk: unknown command: bil; did you mean bill[?]*' help bil </dev/null
desk 'desk helps with one command' 2 'desk: help takes one command*' help bill uses </dev/null
# each command has its help, and an example that is carried out
commands=0
while read -r _ file command words; do
    commands=$((commands + 1))
    "$desk" help "$command" >"$work/helped" 2>&1
    holds "desk help $command" "it prints $(shown "$work/helped")" grep -q "^usage: desk .*FILE $command" "$work/helped"
    ends "desk FILE $command --help" 0 '' "$desk" "$file" "$command" --help <"$work/helped"
    # shellcheck disable=SC2086
    "$desk" "$file" "$command" $words >"$work/printed" 2>"$work/errors"
    status=$?
    holds "desk's example of $command" "$(shown "$work/errors")" [ "$status" -le 1 ]
done < <(grep '^  desk' "$work/help")
holds 'desk has 14 commands' "it has $commands" [ "$commands" -eq 14 ]

# The man page ------------------------------------------------------------------------------------------------------------------------------------------

