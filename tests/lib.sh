# What the scripts below tests/ share, read by each after it sets `here`: where the repository is, a temporary folder, how an attempt is
# reported and counted, and the last line.
# shellcheck shell=sh disable=SC2030,SC2031,SC2034 # the scripts read what is set here, and functions beside have their own
top=$(cd "$here/../.." && pwd)
room=$(mktemp -d)
trap 'rm -rf "$room"' EXIT
passed=0
failed=0

# reports an attempt and counts it: NAME, and `ok` with details, or what came instead
said() {
    echo "$1: $2"
    case $2 in
    ok*) passed=$((passed + 1)) ;;
    *) failed=$((failed + 1)) ;;
    esac
}

# the same of what has to be equal: NAME CAME WANTED
came() {
    if [ "$2" = "$3" ]; then said "$1" ok; else said "$1" "FAILED, $2, not $3"; fi
}

# the same of a status, with the end of $room/output if it is not 0: NAME STATUS
count() {
    came "$1" "$2" 0
    [ "$2" -eq 0 ] || [ ! -f "$room/output" ] || tail -n 20 "$room/output"
}

# runs a command: NAME COMMAND..
attempt() {
    trial=$1
    shift
    "$@" >"$room/output" 2>&1
    count "$trial" $?
}

# runs a command that counts by itself, and adds what its last line says: NAME COMMAND..
counted() {
    suite=$1
    shift
    "$@" >"$room/output" 2>&1
    status=$?
    sed '$d' "$room/output"
    last=$(tail -n 1 "$room/output")
    case $last in
    [0-9]*' passed, '[0-9]*' failed')
        passed=$((passed + ${last%% *}))
        more=${last#*, }
        failed=$((failed + ${more%% *}))
        [ "$status" -eq 0 ] || [ "${more%% *}" -gt 0 ] || said "$suite" "FAILED, exit status $status after $last"
        ;;
    *) said "$suite" "FAILED, exit status $status: $last" ;;
    esac
}

# begins a function of the script beside what follows, with a folder and counts of its own: NAME FUNCTION..
begin_beside() {
    (
        room=$room/$1.beside
        mkdir "$room"
        passed=0
        failed=0
        shift
        "$@"
        echo "$passed passed, $failed failed"
    ) >"$room/$1.said" 2>&1 &
}

# prints what such functions said when all have ended, and adds their counts: NAME..
join_beside() {
    wait
    for name in "$@"; do counted "$name" cat "$room/$name.said"; done
}

skip() {
    echo "$1: skipped, there is no $2"
}

is_there() {
    command -v "$1" >/dev/null 2>&1
}

# prints the path of a program as the toolchain linked it here, with the C library as a shared object, so that a preloaded library can take
# its place: NAME
linked_program() {
    "$top/tools/product.sh" linked "$1"
}

# compiles FILE.c of a folder as a library that is loaded before the C library: FOLDER FILE
preloaded() {
    "${CC:-cc}" -O1 -fPIC -shared -nostdlib -fno-builtin -o "$room/$2.so" "$1/$2.c"
}

# the last line, and the status
end() {
    echo "$passed passed, $failed failed"
    [ "$failed" -eq 0 ]
    exit
}
