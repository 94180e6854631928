#!/bin/sh
# Compares two builds of a program on a machine whose speed varies: both run at once on one processor, which they share in turns of a few
# milliseconds, so that what else the machine and its host do changes both times alike.
#
#     pairs.sh ROUNDS OLD NEW [ARGUMENT..]
#
# Each program is given the arguments and prints times in processor time, as words that are numbers; the least counts. Prints both times of each
# round and OLD's divided by NEW's, and last the median of these: above 1, NEW is faster. It needs taskset.
set -u
if [ $# -lt 3 ]; then
    echo "usage: $0 ROUNDS OLD NEW [ARGUMENT..]" >&2
    exit 2
fi
rounds=$1 old=$2 new=$3
shift 3
room=$(mktemp -d) || exit 1
trap 'rm -rf "$room"' EXIT
processor=$(($(nproc) - 1))

# prints the least number among the words of a file
least() {
    tr -s '[:space:]' '\n' <"$1" | awk '/^[0-9]+(\.[0-9]+)?$/ && (!n++ || $1 < least) { least = $1 } END { if (!n) exit 1; print least }'
}

round=0
while [ "$round" -lt "$rounds" ]; do
    round=$((round + 1))
    taskset -c "$processor" "$old" "$@" >"$room/old" &
    taskset -c "$processor" "$new" "$@" >"$room/new"
    wait
    if ! a=$(least "$room/old") || ! b=$(least "$room/new"); then
        echo "$0: a program printed no number" >&2
        exit 1
    fi
    echo "$a $b" | awk '{ printf "%s %s %.3f\n", $1, $2, $1 / $2 }' | tee -a "$room/all"
done
sort -n -k 3 "$room/all" | awk '{ ratio[NR] = $3 } END { printf "median %.3f\n", (ratio[int((NR + 1) / 2)] + ratio[int((NR + 2) / 2)]) / 2 }'
