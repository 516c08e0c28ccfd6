# shellcheck shell=bash disable=SC2154,SC2016 # tests/fronts sets the variables, and bash -c expands the scripts
# The wrappers src/front/price and src/front/desk where their programs are missing or outdated. In a root of its own, rt is a script that notes each call and does what its file
# says; the program there is a script too, and prints a list that shows which one ran.

yard=$work/yard
mkdir -p "$yard/crates/listing/src" "$yard/target/bin" "$yard/bin" "$yard/src"
cp front.mk VERSION "$yard/"
cp -r docs "$yard/"
cp -r src/front "$yard/src/"
cp -r target/front "$yard/target/"
touch "$yard"/target/front/*.o "$yard"/target/front/bin/*
printf '# crates\nweights:\ncolumns: weights\nother: weights\nlisting: columns weights\n' >"$yard/crates.txt"
touch "$yard/crates/listing/src/main.rt"
cat >"$yard/bin/rt" <<'END'
#!/usr/bin/env bash
echo "$PWD: rt $*" >>"$YARD/calls"
. "$YARD/does"
END

# made WHICH FILE: the program, which lists itself; built: as rt leaves it
made() {
    mkdir -p "$(dirname "$2")"
    printf '#!/bin/sh\ncat >/dev/null\nprintf "part state figure depth line pieces\\n0 %s 0 0 0 0\\n"\n' "$1" >"$2"
    chmod +x "$yard/bin/rt" "$2"
}
built() { made new "$yard/crates/listing/out/listing"; }

# outdated WHAT-RT-DOES: a program that is older than its source
outdated() {
    rm -rf "$yard/crates/listing/out"
    made old "$yard/target/bin/listing"
    touch -d '1 hour ago' "$yard/target/bin/listing"
    echo "$1" >"$yard/does"
    : >"$yard/calls"
}

calls() { wc -l <"$yard/calls"; }
priced() { ends "$1" "$2" "$3" env YARD="$yard" PATH="$yard/bin:$PATH" "${@:4}" "$yard/src/front/price" examples/week.parts; }
export -f made built
export yard
new=$'part state figure depth line pieces\n0 new 0 0 0 0'
first='price: the program is proved and built now: the first time this takes 3 to 15 minutes, depending on the machine'

outdated built
priced 'an outdated program is built first' 0 "$first" <<<"$new"
holds 'by rt run in its crate' "rt was called so: $(shown "$yard/calls")" [ "$(cat "$yard/calls")" = "$yard/crates/listing: rt run" ]
priced 'and then it is run' 0 '' <<<"$new"
holds 'with no further check' "rt was called $(calls) times" [ "$(calls)" -eq 1 ]

# on a terminal, the crates as they are proved: three of the four are needed
outdated 'for crate in weights columns listing; do echo "crate $crate: modules loaded=0 checked=9"; echo "logic=proved"; done; built'
YARD=$yard PATH=$yard/bin:$PATH python3 -c 'import pty, sys; pty.spawn(sys.argv[1:])' "$yard/src/front/price" examples/week.parts </dev/null >"$work/shown" 2>&1
for step in 'crate 1 of 3 proved (weights)' 'crate 2 of 3 proved (columns)' 'crate 3 of 3 proved (listing)'; do
    holds "a terminal shows $step" "$(shown "$work/shown")" grep -qF "price: $step" "$work/shown"
done

# two at once: the second waits for the first, and then has nothing to prove
outdated 'sleep 1; built'
YARD=$yard PATH=$yard/bin:$PATH "$yard/src/front/price" examples/week.parts >"$work/first" 2>&1 &
sleep 0.5
priced 'a second wrapper waits for the first' 0 'price: another run is proving the programs: waiting for it' <<<"$new"
wait $!
holds 'and proves nothing again' "rt was called $(calls) times" [ "$(calls)" -eq 1 ]

outdated 'echo a proof failed; exit 1'
priced 'what was not built is not run' 2 '*a proof failed*price: the program was not built' </dev/null
outdated 'rm -- "$yard/target/bin/listing"'
priced 'what rt did not leave is not run' 2 '*price: the program was not built' </dev/null
outdated built
priced 'an outdated program is not run where there is no room for a log' 2 '*price: cannot create a folder for temporary files' TMPDIR="$work/none at all" </dev/null
outdated built
ends 'help needs no proof' 0 '' env YARD="$yard" PATH="$yard/bin:$PATH" "$yard/src/front/price" --help < <(target/front/bin/price --help)
holds 'and calls no rt' "rt was called $(calls) times" [ "$(calls)" -eq 0 ]

outdated 'built; touch "$yard/crates/listing/src/main.rt"'
priced 'a source that changed while it was checked' 0 "$first" <<<"$new"
priced 'is checked again' 0 "$first" <<<"$new"
without_rt=$(dirname "$(command -v bash)"):/usr/bin:/bin
if ! PATH=$without_rt command -v rt >/dev/null; then
    ends 'an outdated program without rt' 2 'price: the Rattle toolchain is needed*' env PATH="$without_rt" "$yard/src/front/price" examples/week.parts </dev/null
fi

# the front itself, from its sources: a refusal that is explained otherwise
made new "$yard/target/bin/listing"
touch -d '1 hour' "$yard/target/bin/listing"
sed -i 's/^\(| 14 |.*\)the text breaks a rule of its format/\1here something else is said/' "$yard/docs/REFUSALS.md"
printf '#!/bin/sh\ncat >/dev/null\necho refused 14 4 9\n' >"$yard/target/bin/listing"
ends 'an outdated front is built first' 1 '*here something else is said*' "$yard/src/front/price" examples/broken.parts <<<'refused 14 4 9'

# programs that end badly
for badly in 'kill -9 $$' 'echo cut short >&2' 'exit 3'; do
    made bad "$yard/target/bin/listing"
    touch -d '1 hour' "$yard/target/bin/listing"
    echo "$badly" >>"$yard/target/bin/listing"
    priced "a program that ends by $badly" 2 '*price: the program * *' </dev/null
done
rm "$yard/target/bin/listing"
ends 'a program that is missing' 2 '*cannot run *listing: No such file or directory*' env TOZBIERDU_LIBEXEC="$yard/target/bin" target/front/bin/price examples/week.parts </dev/null

# The layout of an installation: the proved programs beside the folder of the fronts, wherever it is moved to.
mkdir -p "$work/installed here/bin" "$work/installed here/libexec/tozbierdu"
cp target/front/bin/price target/front/bin/desk "$work/installed here/bin/"
cp target/bin/listing target/bin/parts "$work/installed here/libexec/tozbierdu/"
ends 'an installed price' 0 '' env -i "$work/installed here/bin/price" examples/week.parts <<<"$list"
mv "$work/installed here" "$work/moved"
ends 'an installed desk that was moved' 0 '' env -i "$work/moved/bin/desk" examples/week.parts uses 0 <<<'2 2 500 0 1'
ln -s "$work/moved/bin/desk" "$work/moved/link"
ends 'an installed desk by a link' 0 '' env -i "$work/moved/link" examples/week.parts uses 0 <<<'2 2 500 0 1'
