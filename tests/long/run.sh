#!/bin/sh
# Runs the program on long scripts whose reports are known beforehand, and checks their journals. It tests what short texts cannot: that
# memory is not reported as refused if many lines, points or calls need it, and that the tree is right when it is high. The last line is
# 'N passed, M failed'.
#
# grid       four workers add 20,000 points of a grid at once, and remove all but its frame
# parabola   four workers add the 2,049 points (k, k * k), and all of them are vertices
# origin     one worker adds a point once more than its multiplicity may be
# list       one worker adds the 70,001 points (k, k * k) and lists them: the journal is written, read and written again
# squares    one worker adds 25,000 nested squares, and removes them from the outermost inward
# comb       one worker adds 100,000 points on two lines, and removes them in order
# seesaw     one worker adds and removes a vertex that hides 100,000 points, 50,000 times
# hill       one worker adds the 20,000 points (k, k * k) and removes them, both in random order
# circle     one worker adds 10,000 points on a circle, and removes each and adds it again
# chance     one worker makes a million random calls
# apex       one worker adds the 52,000 points (k, k * k) and a vertex below all of them, which it removes and adds 52,000 times
#
# The last seven are hard for a checker that keeps vertices. Each check may take several times the processor time that it needs, and is stopped
# then: a checker that visits half of all points at each `remove` does not finish. The check of `apex` may take three times the run.
set -u
here=$(cd "$(dirname "$0")" && pwd)
. "$here/../lib.sh"
hullbook=$("$top/tools/program.sh" --path hullbook) || exit

# Writes the script `grid`, and with answers=1 its report without the ledgers: the calls worker by worker, phase by phase.
grid() {
    awk -v answers="$1" -v workers=4 -v width=200 -v height=100 '
        function say(call, answer) { print answers ? worker " " call " = " answer : worker " " call }
        function is_frame(x, y) { return x == 0 || x == width - 1 || y == 0 || y == height - 1 }
        # each worker has every fourth point
        function each(word, frame_too, answer,    n, x, y) {
            for (n = worker; n < width * height; n += workers) {
                x = int(n / height); y = n % height
                if (frame_too || !is_frame(x, y)) say(word " " x " " y, answer)
            }
        }
        function corners() {
            return "list 4 0 0 " width - 1 " 0 " width - 1 " " height - 1 " 0 " height - 1
        }
        function ask(count) {
            say("count", "count " count)
            say("area", "area " 2 * (width - 1) * (height - 1))
            say("vertices", corners())
            say("extreme 1 -1", "point " width - 1 " 0")
            say("place 50 50", "inside")
            say("place 0 50", "on")
            say("place -1 50", "outside")
            say("tangents -1 0", "tangents 0 " height - 1 " " width - 1 " 0")
        }
        function phase(number) {
            if (number == 0) each("add", 1, "added")
            if (number == 1 && worker == 0) ask(width * height)
            if (number == 2) each("remove", 0, "removed")
            if (number == 3 && worker == 0) ask(2 * (width + height) - 4)
        }
        BEGIN {
            if (answers)
                for (worker = 0; worker < workers; worker++) for (p = 0; p < 4; p++) phase(p)
            else
                for (p = 0; p < 4; p++) { if (p) print "join"; for (worker = 0; worker < workers; worker++) phase(p) }
        }'
}

# The same of `parabola`.
parabola() {
    awk -v answers="$1" -v workers=4 -v most=1024 '
        function say(call, answer) { print answers ? worker " " call " = " answer : worker " " call }
        function all(    k, list) {
            for (k = -most; k <= most; k++) list = list " " k " " k * k
            return "list " 2 * most + 1 list
        }
        function phase(number,    k, n) {
            n = 2 * most + 1
            if (number == 0) for (k = worker - most; k <= most; k += workers) say("add " k " " k * k, "added")
            if (number == 1 && worker == 0) {
                say("vertices", all())
                say("area", "area " sprintf("%.0f", (n - 2) * (n - 1) * n / 3))
                say("count", "count " n)
            }
        }
        BEGIN {
            if (answers)
                for (worker = 0; worker < workers; worker++) for (p = 0; p < 2; p++) phase(p)
            else
                for (p = 0; p < 2; p++) { if (p) print "join"; for (worker = 0; worker < workers; worker++) phase(p) }
        }'
}

# The same of `origin`.
origin() {
    awk -v answers="$1" -v most=65535 '
        function say(call, answer) { print answers ? "0 " call " = " answer : "0 " call }
        BEGIN {
            say("add 0 0", "added")
            for (n = 2; n <= most; n++) say("add 0 0", "again " n)
            say("add 0 0", "toomany")
            say("count", "count 1")
        }'
}

# tries NAME with a journal of this CAPACITY: the answers of its report, that the tree over buckets gives the same, its ledgers'
# sum, and that its journal is legal
try() {
    "$1" 0 >"$room/script"
    "$1" 1 >"$room/answers"
    calls=$(wc -l <"$room/answers")
    "$hullbook" run "$room/script" --capacity "$2" >"$room/report"
    if grep -v '^ledger\|^sum' "$room/report" | cmp -s - "$room/answers"; then
        said "$1, answers" ok
    else
        said "$1, answers" "$(grep -v '^ledger\|^sum' "$room/report" | diff - "$room/answers" | head -n 4)"
    fi
    "$hullbook" run "$room/script" --capacity "$2" --buckets >"$room/buckets"
    cmp -s "$room/report" "$room/buckets" && said "$1, by the tree over buckets" ok || said "$1, by the tree over buckets" 'another report'
    sum=$(tail -n 1 "$room/report")
    [ "$sum" = "sum $calls journal $calls capacity $2" ] && said "$1, sum" ok || said "$1, sum" "$sum"
    "$hullbook" run "$room/script" --capacity "$2" --journal >"$room/journal"
    verdict=$("$hullbook" check "$room/journal" 2>&1)
    [ "$verdict" = legal ] && said "$1, journal" ok || said "$1, journal" "$verdict"
}

# the one line of the journal that has the list: its number of corners, and of fields behind them
list_of() {
    awk '/ vertices = list / { print $6, NF - 6 }' "$1"
}
awk -v most=35000 'BEGIN {
    for (k = -most; k <= most; k++) print "0 add " k " " sprintf("%.0f", k * k)
    print "0 vertices" }' >"$room/script"
"$hullbook" run "$room/script" --capacity 131072 --journal >"$room/journal"
corners=$(list_of "$room/journal")
[ "$corners" = '70001 140002' ] && said 'list, written' ok || said 'list, written' "$corners"
"$hullbook" upgrade "$room/journal" >"$room/again"
cmp -s "$room/journal" "$room/again" && said 'list, read back' ok || said 'list, read back' "$(list_of "$room/again")"

# Write these scripts. A factor that has no divisor with the number of points goes through all of them.
squares() {
    awk -v most=25000 'function all(word, s) {
            print "0 " word " " (-s) " " (-s) "\n0 " word " " s " " (-s) "\n0 " word " " s " " s "\n0 " word " " (-s) " " s
        }
        BEGIN {
            for (s = 1; s <= most; s++) all("add", s)
            for (s = most; s >= 1; s--) all("remove", s)
            print "0 count"
        }'
}
comb() {
    awk -v most=100000 'BEGIN {
        for (k = 0; k < most; k++) print "0 add " k " " k % 2
        for (k = 0; k < most; k++) print "0 remove " k " " k % 2
        print "0 count" }'
}
seesaw() {
    awk -v most=100000 'BEGIN {
        for (k = 0; k < most; k++) print "0 add " k * 7919 % 524288 " " k * 104729 % 524288
        for (k = 0; k < most / 2; k++) print "0 add 1000000 0\n0 remove 1000000 0"
        print "0 count" }'
}
hill() {
    awk -v most=20000 'BEGIN {
        for (k = 0; k < most; k++) { x = k * 7919 % most; print "0 add " x " " x * x }
        for (k = 0; k < most; k++) { x = k * 12347 % most; print "0 remove " x " " x * x }
        print "0 count" }'
}
circle() {
    awk -v most=10000 'function whole(n) {
            n = sprintf("%.0f", n)
            return n == "-0" ? "0" : n
        }
        # the rational points of the circle, a quarter turn at a time: some awks have no cosine
        function say(word, k, quarter, t, x, y, turned) {
            quarter = int(4 * k / most)
            t = (4 * k - quarter * most) / most
            x = 549755813888 * (1 - t * t) / (1 + t * t)
            y = 549755813888 * 2 * t / (1 + t * t)
            for (; quarter > 0; quarter--) { turned = x; x = -y; y = turned }
            print "0 " word " " whole(x) " " whole(y)
        }
        BEGIN {
            for (k = 0; k < most; k++) say("add", k * 7919 % most)
            for (k = 0; k < most; k++) { say("remove", k); say("place", k); say("add", k) }
            print "0 count"
        }'
}
chance() {
    awk -v most=1000000 'BEGIN {
        srand(7)
        for (k = 1; k < most; k++) {
            what = rand()
            word = what < 0.4 ? "add" : what < 0.6 ? "remove" : what < 0.8 ? "place" : "tangents"
            print "0 " word " " int(1024 * rand()) " " int(1024 * rand())
        }
        print "0 count" }'
}
apex() {
    awk -v most=26000 'BEGIN {
        for (k = -most; k < most; k++) print "0 add " k " " k * k
        for (k = -most; k < most; k++) print "0 add 0 -1000000000000\n0 remove 0 -1000000000000"
        print "0 count" }'
}

# prints the seconds of a processor that a command takes: COMMAND..
seconds_of() {
    ("$@" >"$room/output"; times) | tail -n 1 | tr 'ms' '  ' | awk '{ print 60 * ($1 + $3) + $2 + $4 }'
}

# checks the journal of a script NAME in at most three times the processor time of its run
no_slower() {
    "$1" >"$room/script"
    run=$(seconds_of "$hullbook" run "$room/script" --capacity 1000000 --journal)
    mv "$room/output" "$room/journal"
    check=$(seconds_of "$hullbook" check "$room/journal")
    verdict=$(cat "$room/output")
    [ "$verdict" = legal ] && awk "BEGIN { exit !($check <= 3 * $run) }" && said "$1, journal within three times the run" ok ||
        said "$1, journal within three times the run" "$verdict; run $run s, check $check s"
}

# checks the journal of a script NAME within these processor SECONDS, after which it has so many POINTS, where that is known
hard() {
    "$1" >"$room/script"
    "$hullbook" run "$room/script" --capacity 1000000 --journal >"$room/journal"
    left=$(awk '/ count = count / { print $NF }' "$room/journal")
    [ "$left" = "${3:-$left}" ] && said "$1, points left" ok || said "$1, points left" "$left"
    verdict=$(ulimit -t "$2" && "$hullbook" check "$room/journal" 2>&1)
    [ "$verdict" = legal ] && said "$1, journal within $2 seconds" ok || said "$1, journal within $2 seconds" "$verdict"
}
hard squares 15 0
hard comb 15 0
hard seesaw 15 100000
hard hill 15 0
hard circle 15 10000
hard chance 15
no_slower apex

try grid 65536
try parabola 65536
try origin 65537
end
