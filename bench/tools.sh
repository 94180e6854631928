# Builds the tools of the benchmarks into a temporary folder `room`; to be sourced by a script beside it.
set -eu
here=$(cd "$(dirname "$0")" && pwd)
top=$(cd "$here/.." && pwd)
room=$(mktemp -d)
trap 'rm -rf "$room"' EXIT
for tool in generate measure rival; do
    rustc -O --edition 2021 -o "$room/$tool" "$here/$tool.rs"
done
hullbook=$("$top/tools/program.sh" --path hullbook)
ln -s "$hullbook" "$room/hullbook"

# the least wall seconds, and the peak kilobytes, of some rounds of a command
seconds() {
    "$room/measure" "$@" | cut -d ' ' -f 1
}
peak() {
    "$room/measure" "$@" | cut -d ' ' -f 2
}

# the least wall seconds of some rounds of each of the programs in `room` with these names, taken in turn on the same
# words: ROUNDS NAMES WORDS..
race() {
    left=$1
    names=$2
    shift 2
    while [ "$left" -gt 0 ]; do
        for name in $names; do
            seconds 1 "$room/$name" "$@"
        done | tr '\n' ' '
        echo
        left=$((left - 1))
    done | awk '
        { for (k = 1; k <= NF; k++) if (NR == 1 || $k < least[k]) least[k] = $k }
        END { for (k = 1; k <= NF; k++) printf "%s%s", least[k], k < NF ? " " : "\n" }'
}

# a formula over numbers
calc() {
    awk "BEGIN { printf \"$1\", $2 }"
}
