#!/bin/sh
# Finds or makes a released file (dist/) that matches the sources as they are. It needs a POSIX shell, awk, find, sort, xargs and sha256sum.
#
#     tools/product.sh sum CRATE       prints the checksum of all sources of a crate and of the crates below it
#     tools/product.sh others FILE     prints the checksum of the other files that a file of dist/ is made of
#     tools/product.sh find FILE       prints the path of a file of dist/ if it was made of these sources
#     tools/product.sh program NAME    prints the path of a program: the released one, or one that was proved here (crates/NAME/out)
#     tools/product.sh linked NAME     prints the path of a program as the toolchain linked it here, if it was made of these sources
#     tools/product.sh ready FILE      exits with 0 if `put` can copy or make that file without a proof
#     tools/product.sh put FILE TO     copies that file; if only its C has changed, compiles the C again over the released proved code; else
#                                      makes it from what is proved here
#     tools/product.sh make FILE TO    makes that file from what is proved here, whatever dist/ has
#     tools/product.sh made CRATE      keeps what a proof left in crates/CRATE/out as made of these sources
#     tools/product.sh check           compares the bytes of dist/ with its checksums; the last line is 'N passed, M failed'
#
# `find` and `program` exit with 1 if there is none, and with 2 if the file's bytes are not those of its checksum. `put` exits with 69 if a
# proof is needed and the toolchain is not installed, with 70 if the proof failed, and with 71 if the C has to be compiled and cannot be.
set -u
top=$(cd "$(dirname "$(readlink -f "$0")")/.." && pwd)
caller=$(pwd)
cd "$top" || exit 1
export LC_ALL=C

# prints the whole path of a file that the caller named
path_of() {
    (cd "$caller" && readlink -m "$1")
}

# prints the lines of crates.txt for a crate and all crates below it
lines_below() {
    awk -v name="$1" '
        { sub(/#.*/, "") }
        /^[ \t]*$/ { next }
        { split($0, sides, ":"); split(sides[1], head, " "); uses[head[1]] = sides[2]; line[head[1]] = $0; order[++n] = head[1] }
        END {
            wanted[name] = 1
            for (at = n; at > 0; at--) {
                if (!(order[at] in wanted)) continue
                count = split(uses[order[at]], low, " ")
                for (i = 1; i <= count; i++) if (low[i] in uses) wanted[low[i]] = 1
            }
            for (at = 1; at <= n; at++) if (order[at] in wanted) print line[order[at]]
        }' crates.txt
}

# prints the checksum of a crate's sources: its line in crates.txt and its files, and those of the crates below it
sum_of_crate() {
    lines=$(lines_below "$1")
    folders=$(echo "$lines" | sed 's/[ :].*//; s#.*#crates/&/src crates/&/specs crates/&/proofs#')
    {
        echo "$lines"
        # shellcheck disable=SC2086 # the folders are separated by spaces
        find $folders -type f 2>/dev/null | sort | xargs sha256sum
    } | sha256sum | cut -d ' ' -f 1
}

# prints the row of products.txt for a file, without the file
product() {
    sed -n "s#^$1 ##p" tools/products.txt
}

# prints the checksum of the files that a product is made of, besides its crate's
sum_of_others() {
    others=$(product "$1" | sed 's/^[^:]*://')
    # shellcheck disable=SC2086 # the files are separated by spaces
    if [ "$others" ]; then sha256sum $others; fi | sha256sum | cut -d ' ' -f 1
}

# prints a value of a file's line in dist/SUMS: FILE WORD
noted() {
    sed -n "s#^file $1 .*\b$2=\([^ ]*\).*#\1#p" dist/SUMS 2>/dev/null
}

has_its_bytes() {
    [ -f "dist/$1" ] && [ "$(sha256sum <"dist/$1" | cut -d ' ' -f 1)" = "$(noted "$1" sha256)" ]
}

# whether a file of dist/ was made of the crate's sources as they are
is_of_crate() {
    [ "$(noted "$1" sources)" = "$(sum_of_crate "$(product "$1" | cut -d : -f 1)")" ]
}

is_of_others() {
    [ "$(noted "$1" others)" = "$(sum_of_others "$1")" ]
}

# prints the path of a released file if it was made of these sources: 1 if it was not, 2 if its bytes are others
find_released() {
    is_of_crate "$1" && is_of_others "$1" || return 1
    has_its_bytes "$1" || return 2
    echo "$top/dist/$1"
}

# whether what is in a crate's out/ for a processor was made of these sources: CRATE PROCESSOR
is_made() {
    [ -f "crates/$1/out/$2/made-of" ] && [ "$(cat "crates/$1/out/$2/made-of")" = "$(sum_of_crate "$1")" ]
}

# keeps what a proof of a crate left in its out/, with the checksum of its sources: CRATE PROCESSOR
keep_made() {
    mkdir -p "crates/$1/out/$2"
    for file in "$1" "$1.o" "lib$1.a"; do
        [ ! -f "crates/$1/out/$file" ] || cp "crates/$1/out/$file" "crates/$1/out/$2/"
    done
    sum_of_crate "$1" >"crates/$1/out/$2/made-of"
}

# prints the path of a program of these sources: NAME
find_program() {
    find_released "$(uname -m)/$1"
    status=$?
    if [ $status -ne 0 ] && is_made "$1" "$(uname -m)"; then
        echo "$top/crates/$1/out/$(uname -m)/$1"
        return 0
    fi
    return $status
}

# prints the path of a program that the toolchain linked here: NAME
find_linked() {
    is_made "$1" "$(uname -m)" && echo "$top/crates/$1/out/$(uname -m)/$1"
}

# proves a crate and builds its program or archive for a processor, unless that is done: CRATE PROCESSOR
prove() {
    is_made "$1" "$2" && return 0
    if ! command -v rt >/dev/null; then
        echo "tools/product.sh: the sources of $1 are not those of the release, and the toolchain that proves them (rt) is not installed" >&2
        return 69
    fi
    case $1 in hullbook | hulldraw) words=run ;; *) words=lib ;; esac
    [ "$2" = x86_64 ] || words="lib --target $2-unknown-linux-gnu"
    mkdir -p "crates/$1/out"
    rm -f "crates/$1/out/lib$1.a" "crates/$1/out/$1"
    # shellcheck disable=SC2086 # the words are separated by spaces
    (cd "crates/$1" && rt $words >out/log 2>&1 </dev/null)
    # (a program that runs with no words has a status of its own)
    if [ -f "crates/$1/out/$1" ] || [ -f "crates/$1/out/lib$1.a" ]; then
        keep_made "$1" "$2"
    else
        tail -n 20 "crates/$1/out/log" >&2
        return 70
    fi
}

# the C compiler and the archiver for a processor
compiler() {
    case $1 in
    "$(uname -m)") echo "${CC:-cc}" ;;
    *) echo "$1-linux-gnu-gcc" ;;
    esac
}

archiver() {
    case $1 in
    "$(uname -m)") echo "${AR:-ar}" ;;
    *) echo "$1-linux-gnu-ar" ;;
    esac
}

# compiles C for a processor into a folder: PROCESSOR FOLDER FILE..
compile() {
    cc=$(compiler "$1")
    into=$2
    flags='-std=gnu11 -O2 -fPIC -Iinclude'
    # (no calls of libgcc's, which a program linked by another compiler does not have)
    [ "$1" != aarch64 ] || flags="$flags -mno-outline-atomics"
    shift 2
    for source in "$@"; do
        # (so that the allocator is not compiled into calls of itself)
        case $source in */allocator.c) more=-ffreestanding ;; *) more= ;; esac
        # shellcheck disable=SC2086 # the flags are separated by spaces
        $cc $flags $more -c "$source" -o "$into/$(basename "$source" .c).o" || return 71
    done
}

# the C files of a product: FILE FOLDER
c_files() {
    product "$1" | tr ' ' '\n' | grep "^$2/.*\.c\$"
}

# gives the proved functions of an archive that C stands in for the names by which that C calls them: FILE ARCHIVE
rename_proved() {
    # shellcheck disable=SC2046 # the files are separated by spaces
    cat $(c_files "$1" c) | grep -o 'hull_proved_[a-z0-9_]*' | sort -u | sed 's/hull_proved_\(.*\)/hull_\1 &/' >"$work/names"
    [ ! -s "$work/names" ] || $(archiver "${1%%/*}" | sed 's/ar$/objcopy/') --redefine-syms="$work/names" "$2"
}

# writes the archive of a library from one with its proved code, with the C compiled anew: FILE PROVED TO
make_archive() {
    cp "$2" "$3.new"
    chmod 644 "$3.new"
    rename_proved "$1" "$3.new" || return 71
    # shellcheck disable=SC2046 # the files are separated by spaces
    compile "${1%%/*}" "$work" $(c_files "$1" c) && (cd "$work" && $(archiver "${1%%/*}") rcs "$3.new" ./*.o) || return 71
    mv "$3.new" "$3"
}

# writes the shared object of a library from its archive: FILE ARCHIVE TO. It names no C library, so it loads beside any. A division
# of 128 bits is a function of the compiler's, which is linked in.
make_object() {
    mkdir "$work/calls"
    # shellcheck disable=SC2046 # the files are separated by spaces
    compile "${1%%/*}" "$work/calls" $(c_files "$1" python) &&
        $(compiler "${1%%/*}") -shared -nostdlib -s -Wl,--build-id=none "-Wl,-soname,$(basename "$1")" -o "$3" "$work"/calls/*.o \
            -Wl,--whole-archive "$2" -Wl,--no-whole-archive -lgcc || return 71
}

# links a program statically, so that it runs with any C library: NAME TO
make_program() {
    kit=$(dirname "$(rt doc)")
    $(compiler x86_64) -static -s -Wl,--build-id=none -o "$2" "crates/$1/out/x86_64/$1.o" "$kit/c/libos_c.a" "$kit/c/liblibc_c.a" -lpthread || return 71
}

# writes a file of dist/ from proved code, which is in crates/ or, for a library, in the released archive: FILE TO PROVED
make_from() {
    work=$(mktemp -d)
    case $1 in
    *.a) make_archive "$1" "$3" "$2" ;;
    *.so) make_archive "${1%.so}.a" "$3" "$work/archive.a" && rm "$work"/*.o && make_object "$1" "$work/archive.a" "$2" ;;
    *) make_program "${1#*/}" "$2" ;;
    esac
    status=$?
    rm -rf "$work"
    return $status
}

# makes a file of dist/ from what is proved here, which is proved first if it is not: FILE TO
make() {
    crate=$(product "$1" | cut -d : -f 1)
    case $1 in
    web/*)
        if [ "$(cat web/out/made-of 2>/dev/null)" != "$(sum_of_crate "$crate")" ]; then
            echo "tools/product.sh: web/out was made of other sources: run web/build.py, then node web/page.mjs" >&2
            return 69
        fi
        cp "web/out/$(basename "$1")" "$2"
        ;;
    *) prove "$crate" "${1%%/*}" && make_from "$1" "$2" "crates/$crate/out/${1%%/*}/lib$crate.a" ;;
    esac
}

# whether a file can be put without a proof: FILE
is_ready() {
    find_released "$1" >/dev/null && return
    is_made "$(product "$1" | cut -d : -f 1)" "${1%%/*}" && return
    case $1 in */lib*) is_of_crate "${1%.*}.a" && has_its_bytes "${1%.*}.a" ;; *) return 1 ;; esac
}

# copies a file of dist/ if it was made of these sources; else makes it, a library from the released proved code if that still fits: FILE TO
put() {
    released=$(find_released "$1")
    case $? in
    0) cp "$released" "$2" && return ;;
    2) echo "tools/product.sh: dist/$1 has other bytes than dist/SUMS says" >&2 && return 1 ;;
    esac
    processor=${1%%/*}
    archive=${1%.*}.a
    if [ "$archive" != "$1.a" ] && is_of_crate "$archive" && has_its_bytes "$archive"; then
        make_from "$1" "$2" "dist/$archive"
    elif [ "$processor" != "$(uname -m)" ]; then
        echo "tools/product.sh: dist/$1 was made of other sources, and only tools/release.sh makes it for another machine" >&2
        return 69
    elif [ "$archive" != "$1.a" ]; then
        make "$1" "$2"
    else
        # (a program is taken as the toolchain linked it)
        prove "${1#*/}" "$processor" && cp "crates/${1#*/}/out/$processor/${1#*/}" "$2"
    fi
}

# compares the bytes of dist/ with its checksums
check() {
    passed=0
    failed=0
    for file in $(sed -n 's/^file \([^ ]*\) .*/\1/p' dist/SUMS); do
        if has_its_bytes "$file"; then
            passed=$((passed + 1))
        else
            failed=$((failed + 1))
            echo "dist/$file: FAILED, its bytes are not those of dist/SUMS"
        fi
    done
    for file in $(cd dist && find . -type f | sed 's#^\./##' | grep -v '^SUMS$'); do
        [ "$(noted "$file" sha256)" ] && continue
        failed=$((failed + 1))
        echo "dist/$file: FAILED, dist/SUMS does not name it"
    done
    echo "$passed passed, $failed failed"
    [ $failed -eq 0 ] && [ $passed -gt 0 ]
}

case "${1:-} $#" in
'sum 2') sum_of_crate "$2" ;;
'others 2') sum_of_others "$2" ;;
'find 2') find_released "$2" ;;
'program 2') find_program "$2" ;;
'linked 2') find_linked "$2" ;;
'ready 2') is_ready "$2" ;;
'put 3') put "$2" "$(path_of "$3")" ;;
'make 3') make "$2" "$(path_of "$3")" ;;
'made 2') keep_made "$2" "$(uname -m)" ;;
'check 1') check ;;
*)
    sed -n '2,20s/^# \{0,1\}//p' "$0" >&2
    [ "${1:-}" = --help ]
    ;;
esac
