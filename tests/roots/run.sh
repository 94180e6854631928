#!/bin/sh
# Runs both commands of the README in minimal roots without the toolchain: Debian 12, Debian 11, and one with no C library but musl and a
# shell that needs none (busybox). It needs root, debootstrap and a Debian mirror; busybox and ld-musl for the last (Debian's busybox-static
# and musl). No suite of bin/test, since it fetches packages. The roots stay in $HULL_ROOTS, or hull_roots in the user's cache.
# The last line is 'N passed, M failed'.
#
#     tests/roots/run.sh [bookworm | bullseye | musl]..
set -u
here=$(cd "$(dirname "$0")" && pwd)
. "$here/../lib.sh"
roots=${HULL_ROOTS:-${XDG_CACHE_HOME:-$HOME/.cache}/hull_roots}
mkdir -p "$roots"

# makes the root of a Debian release, unless it is there: SUITE
debian() {
    [ -f "$roots/$1/made" ] && return
    is_there debootstrap || { skip "$1" debootstrap; return 1; }
    rm -rf "${roots:?}/$1"
    debootstrap --variant=minbase "$1" "$roots/$1" >"$room/output" 2>&1 || { said "the root of $1" "FAILED, $(tail -n 2 "$room/output")"; return 1; }
    touch "$roots/$1/made"
}

# makes a root with busybox and musl alone
musl() {
    box=$(command -v busybox) && [ -f /lib/ld-musl-x86_64.so.1 ] || { skip musl 'busybox-static or musl'; return 1; }
    rm -rf "$roots/musl"
    mkdir -p "$roots/musl/bin" "$roots/musl/lib" "$roots/musl/tmp" "$roots/musl/dev" "$roots/musl/usr"
    cp "$box" "$roots/musl/bin/busybox"
    cp /lib/ld-musl-x86_64.so.1 "$roots/musl/lib/"
    "$box" --install "$roots/musl/bin"
    ln -s ../bin "$roots/musl/usr/bin"
    chroot "$roots/musl" /bin/busybox true || { said 'the root of musl' 'FAILED, busybox does not run there'; return 1; }
}

# runs a command in the copy of the repository in a root: ROOT COMMAND
inside() {
    chroot "$roots/$1" /bin/sh -c "unset \$(env | sed 's/=.*//' | grep -v '[^A-Za-z_]'); export PATH=/usr/bin:/bin HOME=/tmp; cd /hull && $2"
}

# makes the devices that the suites use: FOLDER
make_devices() {
    for device in null:3 zero:5 full:7 urandom:9; do
        rm -f "$1/${device%:*}"
        mknod -m 666 "$1/${device%:*}" c 1 "${device#*:}"
    done
}

# both commands of the README in a root: ROOT
try_root() {
    rm -rf "${roots:?}/$1/hull"
    mkdir "$roots/$1/hull"
    (cd "$top" && tar cf - --exclude=.git --exclude=out --exclude=target --exclude=__pycache__ .) | tar xf - -C "$roots/$1/hull"
    make_devices "$roots/$1/dev"
    last=$(inside "$1" 'bin/hullbook run examples/placement.txt' 2>&1 | tail -n 1)
    came "$1: bin/hullbook run examples/placement.txt" "$last" 'sum 8 journal 8 capacity 65536'
    begun=$(date +%s)
    inside "$1" bin/test >"$room/$1.log" 2>&1
    status=$?
    said "$1: bin/test, $(tail -n 1 "$room/$1.log"), $(($(date +%s) - begun)) s" "$([ $status -eq 0 ] && echo ok || { echo FAILED; tail -n 30 "$room/$1.log"; })"
    sed -n '/^Left out/,$p' "$room/$1.log"
    rm -rf "${roots:?}/$1/hull"
}

[ "$(id -u)" -eq 0 ] || { skip 'minimal roots' 'root'; end; }
for root in ${*:-bookworm bullseye musl}; do
    case $root in
    musl) musl && try_root musl ;;
    *) debian "$root" && try_root "$root" ;;
    esac
done
end
