# shellcheck shell=bash disable=SC2154,SC2016 # tests/fronts sets the variables, and bash -c expands the scripts
# --write that is interrupted: the status is 0 exactly if the file is the new one, and nothing lies beside it. The program itself runs, without its wrapper.

watching=$work/watching.so
gcc -std=c99 -Wall -Wextra -Werror -shared -fPIC -o "$watching" tests/front/watching.c || exit 2
export TOZBIERDU_LIBEXEC=$PWD/target/bin
front=$PWD/target/front/bin/desk
folder=$work/interrupted
mkdir "$folder"
table=$folder/table
sed 's/^1 300$/1 350/' "$week" >"$work/new"
beside() { find "$folder" -mindepth 1 ! -name table; }

# what is done, in order, through one descriptor: the name of the new file is used to create it and to rename it
cp "$week" "$table"
rm -f "$work/log"
ends 'a file is replaced' 0 '' env WATCH_LOG="$work/log" LD_PRELOAD="$watching" "$front" --write "$table" reprice 1 350 </dev/null
steps=$(uniq "$work/log" | xargs)
holds 'by a locked file, a new file opened once and exclusively, and both on the disk' "it did $steps" \
    [ "$steps" = 'lock openat exclusively fchmod fsync renameat fsync' ]
if [ "$(id -u)" -eq 0 ]; then
    cp "$week" "$table"
    chown 12346:23456 "$table"
    rm -f "$work/log"
    env WATCH_LOG="$work/log" LD_PRELOAD="$watching" "$front" --write "$table" reprice 1 350
    steps=$(uniq "$work/log" | xargs)
    holds 'the owner is set before the mode, and both before the rename' "it did $steps" \
        [ "$steps" = 'lock openat exclusively fchown fchmod fsync renameat fsync' ]
else
    skip 'the order of owner and mode' 'only root gives files away'
fi

# a signal before the rename ends the program, one at the rename is too late
cp "$week" "$table"
ends 'TERM while the new file is written' 143 '*Terminated' bash -c '"$@"; exit $?' - env TERM_BEFORE=fsync LD_PRELOAD="$watching" "$front" --write "$table" reprice 1 350 </dev/null
holds 'leaves the old file alone' "it holds $(shown "$table"), beside it $(beside)" eval 'cmp -s "$table" "$week" && [ -z "$(beside)" ]'
ends 'TERM at the rename' 0 '' bash -c '"$@"; exit $?' - env TERM_BEFORE=renameat LD_PRELOAD="$watching" "$front" --write "$table" reprice 1 350 </dev/null
holds 'leaves the new file alone' "it holds $(shown "$table"), beside it $(beside)" eval 'cmp -s "$table" "$work/new" && [ -z "$(beside)" ]'
cp "$week" "$table"
ends 'a signal that is ignored' 0 '' bash -c 'trap "" TERM; "$@"; exit $?' - env TERM_BEFORE=fsync LD_PRELOAD="$watching" "$front" --write "$table" reprice 1 350 </dev/null
holds 'interrupts nothing' "it holds $(shown "$table"), beside it $(beside)" eval 'cmp -s "$table" "$work/new" && [ -z "$(beside)" ]'

# at many moments: some runs end with the old file and some with the new one
read -r old new wrong < <(python3 tests/front/interrupt.py "$front" "$table" "$week" "$work/new")
holds 'interrupted by TERM, the status is 0 exactly if the file is new' "$wrong" [ -z "$wrong" ]
holds 'some runs end with the old file and some with the new one' "$old old, $new new" [ "${old:-0}" -gt 0 -a "${new:-0}" -gt 0 ]
echo "of $((old + new)) interrupted runs $old left the old file and $new the new one"
