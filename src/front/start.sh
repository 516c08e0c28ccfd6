# shellcheck shell=bash
# shellcheck disable=SC2154 # root comes from the wrapper
# What the wrappers price and desk beside this file share: they set root, the repository's folder. Installed programs need none of this.

# start NAME CRATE WORD...: runs the front NAME, after building it and the proved program of CRATE if they are missing or older than their sources
start() {
    me=$1
    local crate=$2
    shift 2
    asks_for_help "$@" || proved_fresh "$crate" || prove "$crate"
    front_fresh || build_front
    TOZBIERDU_LIBEXEC=$root/target/bin exec "$root/target/front/bin/$me" "$@"
}

say() { printf '%s: %s\n' "$me" "$1" >&2; }
fail() {
    say "$1"
    exit 2
}

# help and version need no proof
asks_for_help() {
    local word
    [ "${1-}" != help ] || return 0
    for word; do
        case $word in
            -h | --help | --version) return 0 ;;
            --) return 1 ;;
        esac
    done
    return 1
}

# fresh PROGRAM SOURCE...: the program is there, and nothing that it is made of is newer
fresh() {
    local newer
    [ -x "$1" ] && newer=$(find "${@:2}" -name out -prune -o -newer "$1" -print -quit) && [ -z "$newer" ]
}

# What rt keeps in the crates' out/ is no source.
proved_fresh() { fresh "$root/target/bin/$1" "$root"/crates/*/* "$root/crates.txt"; } # CRATE
front_fresh() { fresh "$root/target/front/bin/$me" "$root"/src/front/*.[ch] "$root/src/front/refusals.awk" "$root/docs/REFUSALS.md" "$root/VERSION" "$root/front.mk"; }

build_front() {
    command -v make >/dev/null || fail 'make and a C compiler are needed to build this program, and there is no make on the path'
    (cd -- "$root" && make -s -f front.mk front) >&2 </dev/null || fail 'the program was not built: make and a C compiler are needed'
}

# crates_of CRATE: how many crates are proved for it
crates_of() {
    awk -F ': *' -v crate="$1" '
        !/^#/ { names[$1] = $2 }
        function visit(name, list, count, at) {
            if (name in seen || !(name in names)) return
            seen[name]
            total++
            count = split(names[name], list, " ")
            for (at = 1; at <= count; at++) visit(list[at])
        }
        END { visit(crate); print total + 0 }' "$root/crates.txt"
}

# Copies what rt prints into a log; on a terminal, shows how many crates are proved.
progress() { # CRATE LOG
    local line name='' done=0 all
    all=$(crates_of "$1")
    while IFS= read -r line; do
        printf '%s\n' "$line" >>"$2"
        [[ ! $line =~ ^crate\ ([a-z_]+): ]] || name=${BASH_REMATCH[1]}
        [[ $line =~ ^logic=proved && $name ]] || continue
        done=$((done + 1))
        [ ! -t 2 ] || printf '\r%s: crate %d of %d proved (%s)\e[K' "$me" "$done" "$all" "$name" >&2
        name=''
    done
    [ ! -t 2 ] || [ "$done" -eq 0 ] || printf '\n' >&2
}

# Of two wrappers at once, one proves and the other waits: two provers must not share a checkout. The lock is descriptor 9, which rt inherits.
wait_for_others() {
    mkdir -p -- "$root/target" || fail "cannot write in $root"
    { exec 9>"$root/target/building"; } 2>/dev/null || fail "cannot write in $root/target"
    flock -n 9 || { say 'another run is proving the programs: waiting for it' && flock 9; }
}

# The program as rt leaves it becomes target/bin/CRATE, with the time at which its check began: a source that changed meanwhile is newer.
keep() { # CRATE BEGUN
    local made=$root/crates/$1/out/$1 kept=$root/target/bin/$1
    [ -x "$made" ] && mkdir -p -- "$root/target/bin" && cp -- "$made" "$kept.new" && touch -r "$2" -- "$kept.new" && mv -- "$kept.new" "$kept"
}

prove() { # CRATE
    local work built
    command -v rt >/dev/null || fail 'the Rattle toolchain is needed to build this program, and there is no rt on the path'
    wait_for_others
    ! proved_fresh "$1" || { exec 9>&-; return; }
    work=$(mktemp -d) || fail 'cannot create a folder for temporary files'
    : >"$work/begun"
    say 'the program is proved and built now: the first time this takes 3 to 15 minutes, depending on the machine'
    (cd -- "$root/crates/$1" && rt run) 2>&1 </dev/null | progress "$1" "$work/log"
    [ "${PIPESTATUS[*]}" = '0 0' ] && keep "$1" "$work/begun"
    built=$?
    [ "$built" -eq 0 ] || cat -- "$work/log" >&2
    rm -rf -- "$work"
    [ "$built" -eq 0 ] || fail 'the program was not built'
    exec 9>&-
}
