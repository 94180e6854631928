# What the suites of the libraries share, read after lib.sh: the libraries as bin/install leaves them, and compilers that use them.
# shellcheck shell=sh disable=SC2034,SC2154 # the scripts read what is set here, and lib.sh sets what is read
embed=$top/tests/embed
shared=$top/tests/shared
prefix=$room/prefix
sanitizers='-fsanitize=address,undefined -fno-sanitize-recover=all'
memory_check='--error-exitcode=9 --leak-check=full --show-leak-kinds=all --errors-for-leak-kinds=all'
# the program that judges journals: that of these sources, or the released one, so that no proof is begun here
hullbook=$("$top/tools/product.sh" program hullbook) || hullbook=$top/dist/$(uname -m)/hullbook

# installs into `prefix`, or takes what bin/test has installed for all its suites; without a C compiler, or if it cannot, this is the end
install_libraries() {
    is_there cc || { skip "all" cc; end; }
    if [ -f "${INSTALLED:-}/include/hull.h" ]; then
        # (by a path without spaces, since those separate the flags of compilers)
        ln -s "$INSTALLED" "$prefix" && return
    fi
    attempt "bin/install" "$top/bin/install" --library "$prefix"
    [ "$failed" -eq 0 ] || end
}

# the flags of a compiler that links the library of sets
flags() {
    if is_there pkg-config; then
        PKG_CONFIG_PATH=$prefix/lib/pkgconfig pkg-config --cflags --libs hull
    else
        echo "-I$prefix/include -L$prefix/lib -lhull"
    fi
}

# builds a program in C over the shared hull: its source, and further flags, or files that go before the archive
build() {
    source=$1
    shift
    "${CC:-cc}" -std=gnu11 -Wall -Wextra -Werror -O1 -g -I"$prefix/include" "$source" "$@" -L"$prefix/lib" -lhull_shared -lpthread \
        -o "$room/$(basename "$source" .c)"
}

# the same over c/gate.c compiled anew: with threads that are delayed between two steps, and with threads that sleep without futex
build_slow() {
    build "$@" -O2 -DSLOW -include "$shared/steps.h" "$top/c/gate.c"
}

build_by_pthreads() {
    build "$@" -O2 -DHULL_SHARED_BY_PTHREADS "$top/c/gate.c"
}

# builds gate_races.c with ThreadSanitizer, over c/gate.c or a copy of it: FILE
build_watched() {
    clang -std=gnu11 -O1 -g -fsanitize=thread -DGATE="\"$1\"" -I"$prefix/include" -I"$top/c" -I"$shared" "$shared/gate_races.c" -o "$room/gate_races" \
        -lpthread
}

has_thread_sanitizer() {
    is_there clang && echo 'int main(void) { return 0; }' | clang -fsanitize=thread -x c -o "$room/watched" - 2>"$room/output"
}

# the linker's flags that send calls to functions of a program of their own name: CALL..
wrap() {
    for call in "$@"; do echo "-Wl,--wrap=$call"; done
}

# a test of memory: NAME COMMAND..
by_valgrind() {
    checked=$1
    shift
    # shellcheck disable=SC2086 # the flags are separated by spaces
    attempt "valgrind finds nothing in $checked" valgrind -q $memory_check "$@"
}

# rustc with the edition of the wrapper, and warnings refused; only the wrapper itself is optimized (-O), since that takes seconds
rust() {
    rustc --edition 2021 -D warnings -L "native=$prefix/lib" -L "$room" --out-dir "$room" "$@"
}

# an interpreter with the module that is installed, and no compiled files beside the sources
python() {
    PYTHONDONTWRITEBYTECODE=1 PYTHONPATH=$prefix/lib/hull ${interpreter:-python3} "$@"
}

# sets `interpreter` to one that has a module: MODULE
with() {
    for interpreter in python3 /usr/bin/python3; do
        ! "$interpreter" -c "import $1" 2>/dev/null || return 0
    done
    return 1
}

# whether a command writes what a file has: FILE COMMAND..
writes() {
    wanted=$1
    shift
    "$@" >"$room/said" && cmp "$room/said" "$wanted"
}

# the same of a command that also writes a legal journal, to the file after its words: FILE COMMAND..
writes_with_journal() {
    writes "$@" "$room/journal" && legal "$room/journal"
}

# whether tests pass, whose eight threads of so many calls leave a legal journal: CALLS COMMAND..
passes() {
    made=$1
    shift
    JOURNAL=$room/journal CALLS=$made "$@" && legal "$room/journal"
}

# whether hullbook says that the journal is legal
legal() {
    "$hullbook" check "$1" >"$room/verdict" 2>&1
}

# whether the segments of a file are one legal journal
in_segments() {
    rm -rf "$room/split" && mkdir "$room/split" && grep -v '^hullbook file\|^sum' "$1" |
        csplit -s -z -n 6 -f "$room/split/" - '/^hullbook/' '{*}' &&
        "$hullbook" check "$room/split"/* >"$room/verdict" 2>&1
}

# writes 60,000 random calls, with their answers, to $room/calls; they are kept beside what bin/test has installed for all its suites
random_calls() {
    kept=${INSTALLED:+$INSTALLED.calls}
    if [ -s "$kept" ]; then cp "$kept" "$room/calls" && return; fi
    ! is_there python3 || for seed in 1 2 3; do python3 "$embed/random_calls.py" 20000 $seed; done >"$room/calls"
    [ -z "$kept" ] || { cp "$room/calls" "$kept.$$" && mv "$kept.$$" "$kept"; }
}

# makes them with a program of a language: LANGUAGE COMMAND..
replays() {
    language=$1
    shift
    if [ -s "$room/calls" ]; then
        attempt "60000 random calls in $language are answered as all points answer them" "$@" "$room/calls"
    else
        skip "random calls in $language" python3
    fi
}

# the linker's flags for the calls that overlaps.c slows down, each after some words: WORDS
slow_calls() {
    sed -n 's/^SLOW([a-z0-9_]*, \(hull_shared_[a-z_]*\),.*/-Wl,--wrap=\1/p' "$embed/overlaps.c"
    wrap malloc calloc realloc
}

overlaps_object() {
    cc -O2 -g -Wall -Wextra -Werror -DSHARED -I"$prefix/include" -c "$embed/overlaps.c" -o "$room/overlaps.o"
}

# the listings of docs/PLANNERS.md in a language, each between two lines: FENCE BEFORE AFTER
listings() {
    awk -v fence="\`\`\`$1" -v before="$2" -v after="$3" '
        $0 == fence { inside = 1; print before; next }
        /^```$/ && inside { inside = 0; print after; next }
        inside' "$top/docs/PLANNERS.md"
}
