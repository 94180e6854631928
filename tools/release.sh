#!/bin/sh
# Makes the released files (dist/), which need no toolchain, from what is proved here.
#
#     tools/release.sh             proves what is not proved, and writes dist/ anew
#     tools/release.sh --compare   makes each file again that can be made here, and compares it to the byte; the last line is
#                                  'N passed, M failed'
#     tools/release.sh --record    the same, and notes in .ci/compared.txt which are the same
#     tools/release.sh --changed   the same as --compare, without the files that the record has with these checksums, sources and tools
#
# It needs the toolchain, gcc, gcc-aarch64-linux-gnu, and for the page what web/build.py and web/page.mjs left in web/out. dist/SUMS has for
# each file its checksum and size and the checksums of the sources that it was made of. `--compare` passes over files whose sources have
# changed since, that another toolchain or compiler made, or that cannot be made here, and names them. The checksum of each file is compared
# in any case.
set -u
top=$(cd "$(dirname "$(readlink -f "$0")")/.." && pwd)
cd "$top" || exit 1
files=$(sed -n 's/^\([a-z0-9_]*\/[^ ]*\) .*/\1/p' tools/products.txt)
record=.ci/compared.txt
work=$(mktemp -d)
trap 'rm -rf "$work"' EXIT

sum_of() {
    sha256sum <"$1" | cut -d ' ' -f 1
}

version_of() {
    "$1" --version 2>/dev/null | head -n 1
}

head_of_sums() {
    echo '# Each file here: its checksum and size, and the checksums of the sources that it was made of (tools/release.sh, tools/product.sh).'
    echo "version $(cat VERSION)"
    echo "toolchain $(rt version)"
    echo "compiler-x86_64 $(version_of gcc)"
    echo "compiler-aarch64 $(version_of aarch64-linux-gnu-gcc)"
    echo "library-x86_64 $(version_of ldd)"
}

write() {
    for file in $files; do
        mkdir -p "$work/$(dirname "$file")"
        tools/product.sh make "$file" "$work/$file" || exit
        echo "made $file"
    done
    {
        head_of_sums
        for file in $files; do
            crate=$(sed -n "s#^$file \([^:]*\):.*#\1#p" tools/products.txt)
            echo "file $file sha256=$(sum_of "$work/$file") bytes=$(wc -c <"$work/$file") crate=$crate" \
                "sources=$(tools/product.sh sum "$crate") others=$(tools/product.sh others "$file")"
        done
    } >"$work/SUMS"
    rm -rf dist
    mkdir dist
    cp -r "$work"/* dist/
}

# prints why a file is not made again, or nothing
obstacle() {
    processor=${1%%/*}
    if ! tools/product.sh find "$1" >/dev/null; then
        echo 'its sources have changed since the release'
    elif [ "$processor" = web ]; then
        [ "$(cat web/out/made-of 2>/dev/null)" = "$(tools/product.sh sum hull_c)" ] || echo 'web/build.py was not run here'
    elif [ "$(sed -n 's/^toolchain //p' dist/SUMS)" != "$(rt version 2>/dev/null)" ]; then
        echo "it was made by $(sed -n 's/^toolchain //p' dist/SUMS)"
    elif [ "$(sed -n "s/^compiler-$processor //p" dist/SUMS)" != "$(head_of_sums | sed -n "s/^compiler-$processor //p")" ]; then
        echo 'it was made by another C compiler'
    elif [ "$processor" = x86_64 ] && [ "$(sed -n 's/^library-x86_64 //p' dist/SUMS)" != "$(version_of ldd)" ]; then
        echo 'it was made with another C library'
    fi
}

# prints what the record has of a file that is the same: its line of dist/SUMS, with the tools that made it
noted() {
    echo "$(grep "^file $1 " dist/SUMS) toolchain=$(sed -n 's/^toolchain //p' dist/SUMS)" \
        "compiler=$(sed -n "s#^compiler-${1%%/*} ##p" dist/SUMS)"
}

# compares the files, without those of the record if $1 is --changed, and writes the record anew if it is --record
compare() {
    tools/product.sh check
    failed=$?
    passed=0
    for file in $files; do
        if [ "$1" = --changed ] && grep -qxF "$(noted "$file")" $record 2>/dev/null; then
            passed=$((passed + 1))
            echo "dist/$file: was the same to the byte when the record was made"
            continue
        fi
        why=$(obstacle "$file")
        if [ "$why" ]; then
            echo "dist/$file: not compared, $why"
            continue
        fi
        mkdir -p "$work/$(dirname "$file")"
        if tools/product.sh make "$file" "$work/$file" && cmp "$work/$file" "dist/$file"; then
            passed=$((passed + 1))
            echo "dist/$file: the same to the byte"
            noted "$file" >>"$work/record"
        else
            failed=$((failed + 1))
            echo "dist/$file: FAILED, made again it has other bytes"
        fi
    done
    if [ "$1" = --record ] && [ "$failed" -eq 0 ]; then
        { echo '# the released files that were made again and were the same to the byte; tools/release.sh --record writes this file'
          cat "$work/record"; } >$record
    fi
    echo "$passed passed, $failed failed"
    [ "$failed" -eq 0 ]
}

case ${1:-} in
'') write ;;
--compare | --record | --changed) compare "$1" ;;
*)
    sed -n '2,14s/^# \{0,1\}//p' "$0" >&2
    [ "$1" = --help ]
    ;;
esac
