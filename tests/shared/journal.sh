#!/bin/sh
# Tests the journal file (c/journal.c): every code and each length that its end may be cut to (journals.c), the order of its calls of the system
# and each of them refused (journal_steps.c), changed bytes (sums.c), what it has to bear (edges.c), static programs and objects that are unloaded
# (loaded.c), processes that are killed at random moments (kills.c) and a service of 64 threads that is killed and continued (service.c). The last
# line is 'N passed, M failed'.
#
#     tests/shared/journal.sh [KILLS [CALLS]]    so many kills, 40 if not given, and calls, 40000; `.ci/run --all-mutants` takes 150 and 200000
set -u
here=$(cd "$(dirname "$0")" && pwd)
. "$here/../lib.sh"
. "$here/../libraries.sh"
kills=${1:-40}
calls=${2:-40000}
all=${1:+all}
edge_calls='pwrite pread fsync ftruncate renameat flock syscall clock_gettime pthread_create malloc realloc'
kill_calls='pwrite fsync ftruncate'

codes() {
    # shellcheck disable=SC2046 # the flags are separated by spaces
    build "$here/journals.c" $(wrap pwrite fsync) && "$room/journals" "$room/zone.journal" && in_segments "$room/zone.journal"
    count "every code of a journal file, and each length that its end may be cut to" $?
    build "$top/examples/shared/journal_file.c" && "$room/journal_file" "$room/example.journal" >"$room/said" &&
        printf 'hullbook jour' >>"$room/example.journal" && "$room/journal_file" "$room/example.journal" >"$room/said" &&
        grep -q ' 13 bytes were cut off' "$room/said" && grep -q '^19 points' "$room/said" && in_segments "$room/example.journal"
    count "examples/shared/journal_file.c continues its file, and cuts its torn end off" $?
}

# each call of the system and each request for memory refused in turn; the calls are compared with what is stored
steps() {
    # shellcheck disable=SC2046 # the flags are separated by spaces
    mkdir "$room/steps" && build "$here/journal_steps.c" $(wrap $(sed -n 's/^[a-z].* \**__wrap_\([a-z_]*\)(.*/\1/p' "$here/journal_steps.c")) &&
        "$room/journal_steps" "$room/steps" >"$room/said" && diff "$here/journal_steps.txt" "$room/said"
    count "the order of a journal file's calls of the system, and each of them and each request for memory refused" $?
}

# each byte of a journal file with checksums changed to other values, and segments of other files
changed_files() {
    mkdir "$room/changed" && build "$here/sums.c" -Wl,--wrap=fsync && "$room/sums" "$room/changed" $all
    count "each changed byte of a journal file with checksums is noticed" $?
}

# each test of edges.c but those that fill the memory or the disk: NAME
edges() {
    for edge in $(sed -n 's/^    {"\([a-z_]*\)", [a-z_]*},$/\1/p' "$here/edges.c" | grep -v "${2:-^$}"); do
        rm -rf "$room/edge" && mkdir "$room/edge" && "$room/edges" "$room/edge" "$edge" 2>"$room/output"
        count "$1: $edge" $?
    done
}

# what a journal file has to bear, also by sanitizers
all_edges() {
    # shellcheck disable=SC2046,SC2086 # the flags are separated by spaces
    build "$here/edges.c" $(wrap $edge_calls)
    count "edges.c compiles" $?
    edges "a journal file"
    # shellcheck disable=SC2046,SC2086
    build "$here/edges.c" "$top/c/journal.c" -O1 $sanitizers $(wrap $edge_calls)
    count "edges.c compiles with sanitizers" $?
    edges "the same by sanitizers" bears_
}

# programs that are linked statically, and a shared object that is unloaded
otherwise_linked() {
    build "$here/loaded.c" -fPIC -shared -DOBJECT && mv "$room/loaded" "$room/loaded.so" &&
        build "$here/loaded.c" -DLOADS -ldl && "$room/loaded" "$room/loaded.journal" "$room/loaded.so"
    count "a fork after a shared object with the library was unloaded" $?
    if ! echo 'int main(void) { return 0; }' | cc -static -x c -o "$room/static" - 2>"$room/output"; then skip "a static program" libc.a; return; fi
    build "$here/loaded.c" -static && "$room/loaded" "$room/static.journal"
    count "a static program that does not fork" $?
    build "$here/loaded.c" -static -DFORKS && "$room/loaded" "$room/static.journal"
    count "one that does" $?
}

# a process that keeps a journal is killed
killed() {
    # shellcheck disable=SC2046,SC2086 # the flags are separated by spaces
    build "$here/kills.c" $(wrap $kill_calls) && "$room/kills" "$kills" "$room/zone.journal" 1 >"$room/output" &&
        in_segments "$room/zone.journal"
    count "a process that keeps a journal is killed: $(cat "$room/output")" $?
}

# a service whose process is killed and started again
services() {
    build "$here/service.c" && "$room/service" "$calls" 3 "$room/service.journal" "$hullbook" >"$room/output" &&
        in_segments "$room/service.journal"
    count "a service of 64 threads is killed and started again: $(cat "$room/output")" $?
}

install_libraries
codes
steps
changed_files
all_edges
otherwise_linked
killed
services
end
