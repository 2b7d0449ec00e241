# shellcheck shell=sh
# What the checks of the bindings share. A check says where the top of the repository is, and then reads this: it takes the check's one argument,
# the folder of the library, makes a room for what is built, which is removed at the end, and goes to the check's own folder.
#
#     top=$(CDPATH='' cd -- "$(dirname -- "$0")/../.." && pwd)
#     . "$top/bindings/common.sh"
[ $# -eq 1 ] || { echo 'usage: check FOLDER' >&2; exit 2; }
folder=$(CDPATH='' cd -- "$1" && pwd)
library=$folder/libebpf_host.a
cd "$(dirname -- "$0")" || exit 1
name=$(basename "$PWD")
room=$(mktemp -d)
trap 'rm -rf "$room"' EXIT
trap 'exit 1' HUP INT TERM

# Leaves with status 77 if one of these tools isn't there.
need() {
    for tool in "$@"; do
        command -v "$tool" >/dev/null || { echo "$name: left out, since there is no $tool"; exit 77; }
    done
}

# Ends the check with what is wrong.
fail() {
    echo "$name: $*"
    exit 1
}

# A command that says something only if it fails, which ends the check.
quietly() {
    "$@" >"$room/said" 2>&1 || { cat "$room/said"; fail "$* failed"; }
}

# The host instructions of a run by a program that is told how many to do: those of 1,100 runs less those of 100.
instructions() {
    valgrind --tool=callgrind --callgrind-out-file=/dev/null "$@" 2>&1 >/dev/null | sed -n 's/.*Collected : //p'
}
of_a_run() {
    few=$(instructions "$1" 100) many=$(instructions "$1" 1100)
    echo $(((many - few) / 1000))
}

# What a run takes in C.
of_a_run_in_c() {
    # shellcheck disable=SC2154
    gcc -O2 -I"$top/include" -o "$room/overhead_in_c" "$top/bindings/overhead.c" "$library"
    of_a_run "$room/overhead_in_c"
}

# A program that runs programs, and what it takes more than C does, which is at most ten host instructions a run.
costs_little() {
    here=$(of_a_run "$1") in_c=$(of_a_run_in_c)
    [ "$here" -le $((in_c + 10)) ] || fail "a run takes $here host instructions, and $in_c in C"
}

# The headers that the examples count: of each three the third is wrong in its last byte.
header='\105\000\000\074\034\106\100\000\100\006\261\346\254\020\012\143\254\020\012'
for _ in 1 2 3 4 5 6 7 8 9 10 11 12 13 14 15 16 17 18 19 20 21 22 23 24 25 26 27 28 29 30; do
    # shellcheck disable=SC2059
    printf "$header\014$header\014$header\015"
done >"$room/headers"

# An example counts them: its command, but for the file of the headers and the number of threads.
counts() {
    for threads in 1 7; do
        counted=$("$@" "$room/headers" $threads)
        [ "$counted" = 'right 60 of 90' ] || fail "the example counts $counted by $threads threads"
    done
}

# A file names each function of ebpf_host.h.
names_all() {
    sed -n '/^static/!s/^[a-z].*[ *]\(ebpf_[a-z0-9_]*\)(.*/\1/p' "$top/include/ebpf_host.h" >"$room/names"
    grep -q ebpf_worker_open "$room/names" || fail 'ebpf_host.h has no functions'
    while read -r function; do
        grep -qw "$function" "$1" || fail "$1 lacks $function"
    done <"$room/names"
}

# The block of a language in README.md.
shown() {
    sed -n "/^\`\`\`$1\$/,/^\`\`\`\$/p" README.md | sed '/^```/d'
}

# The block of docs/EMBEDDING.md that begins so, without its indent.
embedded() {
    sed -n "/^    $1/,/^[^ ]/p" "$top/docs/EMBEDDING.md" | sed -n 's/^    //p; s/^$//p'
}
