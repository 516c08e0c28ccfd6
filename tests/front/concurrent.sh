# shellcheck shell=bash disable=SC2154,SC2016 # tests/fronts sets the variables, and bash -c expands the scripts
# --write by two programs at once: no change that ended with 0 is missing. The program itself runs, without its wrapper.

export TOZBIERDU_LIBEXEC=$PWD/target/bin
front=$PWD/target/front/bin/desk
folder=$work/concurrent
mkdir "$folder"
table=$folder/table
lost="" changed=0 trouble=""
for ((pair = 0; pair < 60; pair++)); do
    cp "$week" "$table"
    "$front" --write "$table" append 4 1111 0 2>"$work/errors.1" &
    one=$!
    "$front" --write "$table" append 4 2222 1 2>"$work/errors.2" &
    other=$!
    wait "$one"
    first=$?
    wait "$other"
    second=$?
    [ "$first" -ne 0 ] || grep -qx '4 1111 0' "$table" || lost="$lost $pair"
    [ "$second" -ne 0 ] || grep -qx '4 2222 1' "$table" || lost="$lost $pair"
    case $first$second in
        00) ;;
        02 | 20)
            changed=$((changed + 1))
            grep -qh 'has changed since it was read and is left as it is' "$work/errors.1" "$work/errors.2" || trouble=$(cat "$work/errors.1" "$work/errors.2")
            ;;
        *) trouble="statuses $first and $second" ;;
    esac
done
holds 'of 60 pairs no change that ended with 0 is missing' "missing in$lost" [ -z "$lost" ]
holds 'a change that ended with 2 says that the file has changed' "$trouble" [ -z "$trouble" ]
holds 'nothing lies beside a file that two replaced' "$(ls -A "$folder")" [ "$(ls -A "$folder")" = table ]
echo "in $changed of 60 pairs the second saw the change"

# what is locked is waited for, and compared then
cp "$week" "$table"
cat >"$work/hold.py" <<'END'
import fcntl, os, subprocess, sys, time
table, front = sys.argv[1:]
with open(table, "r+b") as held:
    fcntl.lockf(held, fcntl.LOCK_EX)
    desk = subprocess.Popen([front, "--write", table, "append", "4", "1111", "0"], stderr=subprocess.DEVNULL)
    time.sleep(0.5)
    waited = desk.poll() is None
    held.seek(0, os.SEEK_END)
    held.write(b"4 9 3\n")
    held.flush()
    fcntl.lockf(held, fcntl.LOCK_UN)
print("waited" if waited else "did not wait", desk.wait())
END
ends 'desk waits for a lock, and leaves what has changed meanwhile' 0 '' python3 "$work/hold.py" "$table" "$front" <<<'waited 2'
holds 'whose change stays' "it holds $(shown "$table")" cmp -s "$table" <(cat "$week"; echo '4 9 3')
