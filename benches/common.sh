# What the benchmarks have in common. Each has a folder here with a `run`, which sources this file, and is called as
#
#     benches/NAME/run [FOLDER]
#
# Its program is text (main.rt.txt, and FUNCTION.FILE.antt.txt for proofs/FUNCTION/FILE.antt), since it is no crate of the
# repository: it is proved and built in a copy of the crates, in which what the repository has proved (out/) isn't proved again.
# With a FOLDER the copy is kept there, and the next run proves only what has changed; one FOLDER serves all benchmarks. With none
# it is made new and removed. Standard output has a line with the machine and the date, and then a table.
#
# `here` is the benchmark's folder and `root` the repository.
here=$(CDPATH='' cd -- "$(dirname -- "$0")" && pwd)
root=$(CDPATH='' cd -- "$here/../.." && pwd)

# Stops if a command isn't there: COMMAND..
need() {
    for command; do
        if ! command -v "$command" > /dev/null; then
            echo "benches/$(basename "$here")/run: there is no $command; the head of this file says what it needs" >&2
            exit 1
        fi
    done
}

# Copies the crates: FOLDER, or '' for a new one. Sets `folder`.
copy_crates() {
    folder=$1
    if [ -z "$folder" ]; then
        folder=$(mktemp -d)
        trap 'rm -rf "$folder"' EXIT
        trap 'exit 1' HUP INT TERM
    fi
    if [ -e "$folder/benches" ]; then
        echo "$folder is a repository: its crates would be overwritten" >&2
        exit 1
    fi
    mkdir -p "$folder/crates"
    folder=$(CDPATH='' cd -- "$folder" && pwd)
    git init -q "$folder"
    cp "$root/crates.txt" "$root/HANDLES" "$folder"
    for crate in "$root"/crates/*; do
        copy=$folder/crates/$(basename "$crate")
        mkdir -p "$copy"
        for part in src specs proofs; do
            rm -rf "${copy:?}/$part"
            [ ! -d "$crate/$part" ] || cp -r "$crate/$part" "$copy"
        done
        if [ -d "$crate/out" ] && [ ! -d "$copy/out" ]; then
            cp -r "$crate/out" "$copy"
        fi
    done
}

# Proves and builds a program in the copy, with the answers beside its file, and runs it once: NAME FILE CRATES WORD.. Sets `program`.
build() {
    crate=$folder/crates/$1
    program=$crate/out/$1
    from=$(dirname "$here/$2")
    rm -rf "$crate/src" "$crate/specs" "$crate/proofs"
    mkdir -p "$crate/src"
    cp "$here/$2" "$crate/src/main.rt"
    for file in "$from"/*.antt.txt; do
        if [ -e "$file" ]; then
            name=$(basename "$file" .antt.txt)
            mkdir -p "$crate/proofs/${name%%.*}"
            cp "$file" "$crate/proofs/${name%%.*}/${name#*.}.antt"
        fi
    done
    echo "$1: $3" >> "$folder/crates.txt"
    shift 3
    (cd "$crate" && rt run -- "$@" > /dev/null)
}

# The line that says the machine and the date.
machine() {
    model=$(sed -n 's/^model name[^:]*: *//p' /proc/cpuinfo | head -n 1)
    load=$(cut -d ' ' -f 1-3 /proc/loadavg)
    echo "$model, $(getconf _NPROCESSORS_ONLN) processors, load $load, $(date -u '+%Y-%m-%d %H:%M') UTC"
}

# Writes a figure of the table: ROW COLUMN NUMBER
figure() {
    case $3 in
    '' | *[!0-9.]*)
        echo "$1, $2: '$3' is no number" >&2
        exit 1
        ;;
    esac
    echo "$1|$2|$3"
}

# Makes a table of a file of figures, whose lines are ROW|COLUMN|NUMBER; of two for one place the least: FILE CORNER
table() {
    awk -F '|' -v corner="$2" '
        !($1 in row) { row[$1]; rows[++height] = $1 }
        !($2 in column) { column[$2]; columns[++width] = $2 }
        !(($1, $2) in least) || $3 + 0 < least[$1, $2] + 0 { least[$1, $2] = $3 }
        END {
            head = "| " corner " |"
            rule = "|---|"
            for (at = 1; at <= width; at++) {
                head = head " " columns[at] " |"
                rule = rule "---|"
            }
            print head "\n" rule
            for (place = 1; place <= height; place++) {
                line = "| " rows[place] " |"
                for (at = 1; at <= width; at++) {
                    line = line " " ((rows[place], columns[at]) in least ? least[rows[place], columns[at]] : "-") " |"
                }
                print line
            }
        }' "$1"
}

# The least number that five runs of a program write: PROGRAM WORD..
least_of_five() {
    for _ in 1 2 3 4 5; do
        "$@"
    done | sort -n | head -n 1
}

# The instructions that a program executes, by valgrind. One that repeats, as `rep stosb`, counts each time: PROGRAM WORD..
instructions() {
    valgrind --tool=callgrind --callgrind-out-file=/dev/null "$@" 2>&1 > /dev/null | sed -n 's/.*Collected : //p'
}

# A number over another, to that many decimals, and nothing if it is no number: NUMBER COUNT DECIMALS
over() {
    awk -v number="$1" -v count="$2" -v format="%.$3f" 'BEGIN { if (number ~ /^[0-9]+$/) printf format, number / count }'
}
