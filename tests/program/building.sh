# price where its program is missing or outdated. In a root of its own, rt is a script that notes each call and does what its file says; the program there is
# a script too, and prints a list that tells which one ran.

yard=$work/yard
mkdir -p "$yard/crates/listing/src" "$yard/target/bin" "$yard/bin"
cp price front.sh "$yard/"
cp -r docs "$yard/"
touch "$yard/crates.txt" "$yard/crates/listing/src/main.rt"
cat >"$yard/bin/rt" <<'END'
#!/usr/bin/env bash
echo "$PWD: rt $*" >>"$YARD/calls"
. "$YARD/does"
END

# made WHICH FILE: the program, which lists itself; built: as rt leaves it
made() {
    mkdir -p "$(dirname "$2")"
    printf '#!/bin/sh\ncat >/dev/null\nprintf "part state figure depth line\\n0 %s\\n"\n' "$1" >"$2"
    chmod +x "$yard/bin/rt" "$2"
}
built() { made new "$yard/crates/listing/out/listing"; }

# outdated WHAT-RT-DOES: a program that is older than its source
outdated() {
    rm -rf "$yard/crates/listing/out"
    made old "$yard/target/bin/listing"
    touch -d '1 hour ago' "$yard/target/bin/listing"
    echo "$1" >"$yard/does"
    : >"$yard/calls"
}

calls() { wc -l <"$yard/calls"; }
priced() { ends "$1" "$2" "$3" env YARD="$yard" PATH="$yard/bin:$PATH" "${@:4}" bash "$yard/price" examples/week.parts; }
export -f made built
export yard
new=$'part state figure depth line\n0 new'

outdated built
priced 'an outdated program is built first' 0 'price: the program is proved and built first*' <<<"$new"
holds 'by rt run in its crate' "rt was called so: $(shown "$yard/calls")" [ "$(cat "$yard/calls")" = "$yard/crates/listing: rt run" ]
priced 'and then it is run' 0 '' <<<"$new"
holds 'with no further check' "rt was called $(calls) times" [ "$(calls)" -eq 1 ]

outdated 'echo a proof failed; exit 1'
priced 'what was not built is not run' 2 '*a proof failed*price: the program was not built' </dev/null
outdated 'rm -- "$yard/target/bin/listing"'
priced 'what rt did not leave is not run' 2 '*price: the program was not built' </dev/null

# the log of the check can't be written
outdated 'exit 1'
rm -f -- "$yard/target/price.log"
mkdir "$yard/target/price.log"
priced 'an outdated program is not run where target can not be written' 2 '*price: the program was not built' </dev/null
priced 'an outdated program is not run where there is no room for a log' 2 "*price: there is no room for a copy of the table" TMPDIR="$work/none at all" </dev/null
rmdir "$yard/target/price.log"

outdated 'built; touch "$yard/crates/listing/src/main.rt"'
priced 'a source that changed while it was checked' 0 'price: the program is proved and built first*' <<<"$new"
priced 'is checked again' 0 'price: the program is proved and built first*' <<<"$new"

# programs that end badly
for badly in 'kill -9 $$' 'echo cut short >&2' 'exit 3'; do
    made bad "$yard/target/bin/listing"
    touch -d '1 hour' "$yard/target/bin/listing"
    echo "$badly" >>"$yard/target/bin/listing"
    priced "a program that ends by $badly" 2 '*price: the program ended with status*' </dev/null
done
