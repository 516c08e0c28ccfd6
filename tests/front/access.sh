# shellcheck shell=bash disable=SC2154,SC2016 # tests/fronts sets the variables, and bash -c expands the scripts
# --write and who may read and write the file: owner, group, mode and access list. Other users and groups are tried by root alone, in a folder that they reach.

if [ "$(id -u)" -ne 0 ] || ! setpriv --reuid 12345 --regid 12345 --groups 23456 true 2>/dev/null; then
    skip 'files of other users and groups' 'only root can be another user'
else
    shared=$(mktemp -d -t tozbierdu-access.XXXXXX) || exit 2
    # the layout of an installation: the front finds the proved programs beside its own folder
    mkdir -p "$shared/bin" "$shared/libexec/tozbierdu" "$shared/desks"
    cp target/front/bin/desk "$shared/bin/"
    cp target/bin/parts "$shared/libexec/tozbierdu/"
    chmod -R a+rX "$shared"
    chmod 777 "$shared/desks"
    table=$shared/desks/table
    # a member of the group 23456, with a group of their own
    member=(env -u TOZBIERDU_LIBEXEC setpriv --reuid 12345 --regid 12345 --groups 23456 "$shared/bin/desk")
    # owned OWNER:GROUP MODE: the week's table, which belongs to them
    owned() { rm -f "$table"; cp "$week" "$table"; chown "$1" "$table"; chmod "$2" "$table"; }
    belongs() { holds "$1" "it is of $(stat -c '%u:%g %a' "$table")" [ "$(stat -c '%u:%g %a' "$table")" = "$2" ]; }
    stays() {
        holds "$1 stays" "it holds $(shown "$table")" cmp -s "$table" "$week"
        holds "$1 has nothing beside it" "$(ls -A "$shared/desks")" [ "$(ls -A "$shared/desks")" = table ]
    }

    owned 12346:23456 660
    ends 'a member of the group replaces a file of another user' 0 '' "${member[@]}" --write "$table" reprice 1 350 </dev/null
    belongs 'which keeps its group and mode' '12345:23456 660'
    owned 12345:23456 640
    ends 'the owner replaces a file of another group' 0 '' "${member[@]}" --write "$table" reprice 1 350 </dev/null
    belongs 'which keeps owner, group and mode' '12345:23456 640'
    owned 12346:23456 664
    ends 'root replaces a file of another user' 0 '' env TOZBIERDU_LIBEXEC="$PWD/target/bin" "$shared/bin/desk" --write "$table" reprice 1 350 </dev/null
    belongs 'which stays that of its owner' '12346:23456 664'
    owned 12346:34567 666
    ends 'a file whose group can not be kept' 2 "desk: cannot keep the file's group and permissions for a new file: *; * is as it was" "${member[@]}" --write "$table" reprice 1 350 </dev/null
    stays 'a file whose group can not be kept'
    belongs 'and belongs to whom it did' '12346:34567 666'
    owned 12346:23456 640
    ends 'a file that the user may not write' 2 'desk: you may not write *' "${member[@]}" --write "$table" reprice 1 350 </dev/null
    stays 'a file that the user may not write'
    chmod 755 "$shared/desks"
    owned 12346:23456 660
    ends 'a folder that the user may not write' 2 'desk: cannot create a temporary file next to *: Permission denied' "${member[@]}" --write "$table" reprice 1 350 </dev/null
    stays 'a file in a folder that the user may not write'
    chmod 777 "$shared/desks"

    # an access list that lets user 12347 in, as the file system keeps it: version 2, then tag, permissions and number of each entry
    owned 12346:23456 660
    cat >"$work/list.py" <<'END'
import os, struct, sys
name, everyone = "system.posix_acl_access", 0xFFFFFFFF
entries = [(1, 6, everyone), (2, 6, 12347), (4, 6, everyone), (16, 6, everyone), (32, 0, everyone)]
if sys.argv[1] == "set":
    os.setxattr(sys.argv[3], sys.argv[2], struct.pack("<I", 2) + b"".join(struct.pack("<HHI", *entry) for entry in entries))
else:
    print(os.getxattr(sys.argv[3], sys.argv[2]).hex() if sys.argv[2] in os.listxattr(sys.argv[3]) else "none")
END
    if python3 "$work/list.py" set system.posix_acl_access "$table" 2>/dev/null; then
        list_before=$(python3 "$work/list.py" get system.posix_acl_access "$table")
        ends 'a member replaces a file with an access list' 0 '' "${member[@]}" --write "$table" reprice 1 350 </dev/null
        list_after=$(python3 "$work/list.py" get system.posix_acl_access "$table")
        holds 'which keeps its access list' "$list_before, then $list_after" [ "$list_before" = "$list_after" ]
        # a folder that gives new files a list
        python3 "$work/list.py" set system.posix_acl_default "$shared/desks"
        rm -f "$table"
        (umask 077 && cp "$week" "$table") && python3 -c 'import os, sys; os.removexattr(sys.argv[1], "system.posix_acl_access")' "$table" 2>/dev/null
        chown 12346:23456 "$table"
        chmod 660 "$table"
        ends 'a member replaces a file without one' 0 '' "${member[@]}" --write "$table" reprice 1 350 </dev/null
        list_after=$(python3 "$work/list.py" get system.posix_acl_access "$table")
        holds 'which gets none from its folder' "it got $list_after" [ "$list_after" = none ]
    else
        skip 'access lists' 'the file system has none'
    fi
    rm -rf "$shared"
fi
