# shellcheck shell=bash disable=SC2154,SC2034 # tests/fronts sets the variables, and other files use these
# Tables that the tests of the fronts use, and a pipe.

worked='parts 5 cost
0 1200
1 300
2 500 0 1
2 2100
3 0 2 1 1
4 10 4'
list='part state figure depth line pieces
0 made 1200 1 0 1
1 made 300 1 1 1
2 made 2000 2 2 2
3 made 2600 3 4 4
4 unmade 0 0 0 0'
echo "$worked" >"$work/worked"
# 65,535 bytes, and one more
{ echo 'parts 1024 cost'; yes '1023 1000000000' | head -n 4094; echo '0 10000000'; echo '0 7'; } >"$work/full"
{ cat "$work/full"; echo; } >"$work/long"
# a chain of 1,024 parts, each made of the one before
awk 'BEGIN {
    print "parts 1024 cost"
    for (v = 1023; v > 0; v--) print v, 1, v - 1
    print "0 1"
    for (e = 0; e < 3072; e++) print "0 9 1 2 3 4 5"
}' >"$work/chain"

# the worked table in pieces of three bytes, with a pause after each: a short read is not the end
pieces() {
    local at
    for ((at = 0; at < ${#worked} + 1; at += 3)); do
        tail -c "+$((at + 1))" "$work/worked" | head -c 3
        sleep 0.01
    done
}
mkfifo "$work/pipe"
