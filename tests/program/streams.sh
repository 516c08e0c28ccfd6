# shellcheck disable=SC2094
# The listing program's standard input and output.

# pieces of three bytes, with a pause after each: a short read is not the end
pieces() {
    local at
    for ((at = 0; at < ${#worked} + 1; at += 3)); do
        tail -c "+$((at + 1))" "$work/worked" | head -c 3
        sleep 0.01
    done
}
pieces | timeout 30 "$listing" >"$work/printed" 2>"$work/errors"
holds 'an input in pieces of three bytes' "printed $(shown "$work/printed")" [ "$(cat "$work/printed")" = "$list" ]

# A read that fails: nothing counts of what came before it, a whole table or a part of one.
unread='listing: the input could not be read'
input=. ends 'a standard input that can not be read' 0 "$unread" "$listing" <<<'refused 14 1 1'
ends 'no standard input' 0 "$unread" bash -c 'exec "$1" <&-' - "$listing" <<<'refused 14 1 1'
for bytes in 0 1 8 15 22 40 "$(wc -c <"$work/worked")"; do
    input=$work/worked ends "a read that fails after $bytes bytes" 0 "$unread" \
        env FAIL_AFTER="$bytes" LD_PRELOAD="$failing" "$listing" <<<'refused 14 1 1'
done
input=$work/worked ends 'a read that would fail behind the end' 0 '' env FAIL_AFTER=1000 LD_PRELOAD="$failing" "$listing" <<<"$list"
input=$work/full ends 'a read that fails after 65,535 bytes' 0 "$unread" env FAIL_AFTER=65535 LD_PRELOAD="$failing" "$listing" <<<'refused 14 1 1'
input=$work/long ends 'a read that would fail after 65,536 bytes' 0 '' env FAIL_AFTER=65536 LD_PRELOAD="$failing" "$listing" <<<'refused 17 0'

# A write that fails. The pipe's reader has gone before anything is written.
unwritten='listing: the output could not be written'
mkfifo "$work/pipe"
exec 4<>"$work/pipe" 5>"$work/pipe" 4>&-
# The toolchain's std has each program ignore the signal for a closed pipe from its start on, so it ends by no signal.
input=$work/full ends 'a closed pipe is told' 0 "$unwritten" env --default-signal=PIPE bash -c '"$1" >&5; exit $?' - "$listing" </dev/null
input=$work/full ends 'a closed pipe where the signal is ignored' 0 "$unwritten" env --ignore-signal=PIPE bash -c '"$1" >&5' - "$listing" </dev/null
exec 5>&-
input=$work/worked ends 'a full disk' 0 "$unwritten" bash -c '"$1" >/dev/full' - "$listing" </dev/null
