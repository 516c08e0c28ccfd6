# shellcheck shell=bash disable=SC2154,SC2016 # tests/fronts sets the variables, and bash -c expands the scripts
# --write: the file that is replaced, what may be replaced, and what is left where that fails.

table=$work/table
rm -rf "$work/beside" "$work/link" "$work/other"
mkdir "$work/beside"
written() { rm -f "$table"; cp "$week" "$table"; chmod 640 "$table"; }
# left NAME FILE: the file is the week's, and nothing lies beside it
left() {
    holds "$1 leaves the file" "it holds $(shown "$2")" cmp -s "$2" "$week"
    holds "$1 leaves nothing beside it" "$(ls -A "$(dirname "$2")")" [ -z "$(find "$(dirname "$2")" -maxdepth 1 -name '.*' ! -name .)" ]
}
written
desk 'desk replaces the file' 0 '' --write "$table" reprice 1 350 </dev/null
holds 'by the repriced table' "it holds $(shown "$table")" cmp -s "$table" <(sed 's/^1 300$/1 350/' "$week")
holds 'with the mode that it had' "its mode is $(stat -c %a "$table")" [ "$(stat -c %a "$table")" = 640 ]
desk 'desk replaces it again' 0 '' "$table" strike 2 --write </dev/null
desk 'desk restores the line' 0 '' "$table" restore 2 --write </dev/null
desk 'desk appends a line to the file' 0 '' "$table" append 4 100 0 --write </dev/null
holds 'and every change is there' "it holds $(shown "$table")" cmp -s "$table" <(sed 's/^1 300$/1 350/' "$week"; echo '4 100 0')
ln -s "$table" "$work/link"
desk 'desk replaces what a link names' 0 '' --write "$work/link" reprice 1 300 </dev/null
holds 'and the link stays' "it is $(stat -c %F "$work/link")" [ -L "$work/link" ]
cp "$week" "$work/beside/a name with spaces"
ends 'desk replaces a file in the working folder' 0 '' bash -c 'cd -- "$1" && "$desk" --write "a name with spaces" reprice 1 350' - "$work/beside" </dev/null
holds 'with spaces in its name' "it holds $(shown "$work/beside/a name with spaces")" grep -qx '1 350' "$work/beside/a name with spaces"
# a name as long as names can be
long=$work/beside/$(printf 'n%.0s' {1..255})
cp "$week" "$long"
desk 'desk replaces a file with the longest name' 0 '' --write "$long" reprice 1 350 </dev/null
rm -f "$work/beside"/*

# What may be replaced --------------------------------------------------------------------------------------------------------------------------

beside=$work/beside/table
cp "$week" "$beside"
desk 'desk writes no refused change' 1 '*' --write "$beside" reprice 9 5 <<<'refused 9 0'
left 'a refused change' "$beside"
chmod 444 "$beside"
desk 'desk replaces no read-only file' 2 'desk: *: --write leaves it as it is*' --write "$beside" reprice 1 350 </dev/null
left 'a read-only file' "$beside"
chmod 644 "$beside"
ln "$beside" "$work/other"
desk 'desk replaces no file with two names' 2 'desk: * has another name (a hard link)*' --write "$beside" reprice 1 350 </dev/null
left 'a file with two names' "$beside"
rm -f "$work/other"
mkfifo "$work/beside/fifo"
desk 'desk replaces no FIFO, and waits for none' 2 'desk: * is not a regular file*' --write "$work/beside/fifo" reprice 1 350 </dev/null
rm -f "$work/beside/fifo"
desk 'desk replaces no folder' 2 'desk: * is a folder, not a file' --write "$work/beside" reprice 1 350 </dev/null
desk 'desk replaces no file that is missing' 2 'desk: there is no file *' --write "$work/beside/none" reprice 1 350 </dev/null
desk 'desk replaces no device' 2 'desk: /dev/null is not a regular file*' --write /dev/null reprice 1 350 </dev/null

# What fails ------------------------------------------------------------------------------------------------------------------------------------

# 4,096 bytes, which a price with one digit more passes
full() { echo 'parts 10 cost'; echo '0 500'; yes '0 5' | head -n 1019; }
full >"$beside"
ends 'desk at the limit of a file' 2 'desk: cannot write the new file: File too large; * is as it was' bash -c 'ulimit -f 4; "$desk" --write "$1" reprice 1 10' - "$beside" </dev/null
holds 'the file is the old one' "it holds $(shown "$beside")" cmp -s "$beside" <(full)
holds 'and nothing lies beside it' "$(ls -A "$work/beside")" [ "$(ls -A "$work/beside")" = table ]
# root may write everywhere but on a file system that can't be written, which it may have to do without
as_root=$([ "$(id -u)" -ne 0 ] || echo yes)
mounts=$([ -z "$as_root" ] || ! unshare -m mount -t tmpfs tmpfs "$work/beside" 2>/dev/null || echo yes)
if [ "$mounts" ]; then
    # a disk with room for the table alone
    on_full='mount -t tmpfs -o size=8k tmpfs "$1" && cp "$2" "$1/table" && { "${@:3}"; ended=$?; cmp -s "$1/table" "$2" || exit 9; [ "$(ls -A "$1")" = table ] || exit 8; exit "$ended"; }'
    full >"$work/old"
    ends 'desk on a full disk leaves the old table' 2 'desk: cannot write the new file: No space left on device; * is as it was' \
        unshare -m bash -c "$on_full" - "$work/beside" "$work/old" "$desk" --write "$beside" reprice 1 10 </dev/null
fi
cp "$week" "$beside"
locked=()
[ "$as_root" ] || chmod 555 "$work/beside"
[ -z "$mounts" ] || locked=(unshare -m bash -c 'mount --bind "$1" "$1" && mount -o remount,ro,bind "$1" && "${@:2}"' - "$work/beside")
if [ -z "$as_root" ]; then
    ends 'desk in a folder that can not be written' 2 'desk: cannot create a temporary file next to *: Permission denied' "$desk" --write "$beside" reprice 1 350 </dev/null
elif [ "$mounts" ]; then
    ends 'desk on a disk that can not be written' 2 'desk: you may not write *Read-only file system*' "${locked[@]}" "$desk" --write "$beside" reprice 1 350 </dev/null
else
    skip 'a full disk, a folder that can not be written' 'root may not mount here'
fi
chmod 755 "$work/beside"
left 'a folder that can not be written' "$beside"
