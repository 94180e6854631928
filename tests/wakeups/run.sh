#!/bin/sh
# Tests that no wake-up of the lock is lost, and that a lock that loses one is found: the tests of `ticket_lock` run, unproved, on copies of
# the crate in which each step of going to sleep and of waking is delayed by some twenty microseconds, so that steps of other threads come
# between. The right order must end; each wrong one must hang, and is killed after LIMIT seconds (30 if not given). No contract can say what is
# tested here: every one of these bodies meets them all. It is not part of the gate, because of the hangs. The last line is
# 'N passed, M failed'.
set -u
here=$(cd "$(dirname "$0")" && pwd)
. "$here/../lib.sh"
limit=${1:-30}
crate=$room/crates/ticket_lock
mkdir -p "$crate"
cp "$top/HANDLES" "$room/"
grep '^ticket_lock[ :]' "$top/crates.txt" >"$room/crates.txt"

# the nap, and the lines round which the copies are built
nap='for _ in 0..4000 { std::hint::spin_loop(); }'
announces='^ *let announced = self.sleepers.announce(number);$'
waits='^ *announced.wait(rt);$'
wakes='^ *lock.sleepers.wake(next);$'
stores='^ *shared.store::<plays::HandOn>'

# a copy of the crate as it is, with naps before the last look and before the sleep, and between the store and the wake-up
copy() {
    rm -rf "$crate/src" "$crate/out"
    cp -r "$top/crates/ticket_lock/src" "$crate/"
    for line in "$announces" "$waits"; do
        grep -q "$line" "$crate/src/enter.rt" || echo "enter.rt has no line $line"
    done
    for line in "$wakes" "$stores"; do
        grep -q "$line" "$crate/src/guard.rt" || echo "guard.rt has no line $line"
    done
    sed -i "s/$announces/& $nap/; s/$waits/$nap &/" "$crate/src/enter.rt"
    sed -i "s/$wakes/$nap &/" "$crate/src/guard.rt"
}

# runs the tests of the copy: NAME, and whether they have to end or to hang
try() {
    (cd "$crate" && timeout -k 1 300 rt try --test --seconds "$limit") >"$room/output" 2>&1
    if grep -q '^test result: ok' "$room/output"; then
        how=end
    elif grep -q '^run=no-answer' "$room/output"; then
        how=hang
    else
        how="neither: $(grep -m 1 'error\|FAILED' "$room/output")"
    fi
    if [ "$how" = "$2" ]; then
        said "$1" "ok, they $how"
    else
        said "$1" "they have to $2, and $how"
    fi
}

copy
try 'the lock as it is' end

# the wait is announced after the last look
copy
sed -i "/$announces/d; s/^ *\(for .*\) \(announced.wait(rt);\)$/\1 let announced = self.sleepers.announce(number); \2/" "$crate/src/enter.rt"
sed -i "/let announced = self.sleepers.announce(number); for/d" "$crate/src/enter.rt"
try 'announced after the last look' hang

# a thread that hands on wakes before it stores
copy
sed -i "/lock.sleepers.wake(next);/d; s/$stores/lock.sleepers.wake(next); $nap &/" "$crate/src/guard.rt"
try 'woken before the store' hang

# none is woken
copy
sed -i "/lock.sleepers.wake(next);/d" "$crate/src/guard.rt"
try 'none is woken' hang

end
