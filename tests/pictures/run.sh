#!/bin/sh
# Draws each journal of journals/ with the program and compares the picture with that in docs/pictures, byte for byte; counts the labels of
# nearby points, and the elements of a picture of 100,000 points whose hull is known; tries messages and exit statuses; and refuses each
# request for memory in turn. With the word `new` it writes the pictures in docs/pictures instead. The last line is 'N passed, M failed'.
set -u
here=$(cd "$(dirname "$0")" && pwd)
. "$here/../lib.sh"
hulldraw=$("$top/tools/program.sh" --path hulldraw) || exit

# a picture, from a journal with some words: NAME JOURNAL WORDS..
picture() {
    name=$1
    journal="$here/journals/$2.txt"
    shift 2
    if [ "${new:-}" = new ]; then
        "$hulldraw" "$journal" "$@" >"$top/docs/pictures/$name.svg"
        return
    fi
    "$hulldraw" "$journal" "$@" >"$room/$name.svg"
    came "status of $name" $? 0
    cmp -s "$room/$name.svg" "$top/docs/pictures/$name.svg"
    came "picture of $name" $? 0
}

new=${1:-}
picture thirty thirty
picture bridges thirty --bridges
picture empty empty
picture point point
picture segment segment
picture upright upright
picture wide wide
picture near near
picture wrong-line wrong
picture film film --film
[ "$new" != new ] || exit 0

# points a unit apart at two corners: all are drawn, and of their labels one at each corner, which lies over no other
came 'the dots of near points, and of their corners' "$(grep -o 'h0' "$room/near.svg" | wc -l)" $((7 + 4))
came 'the labels of near points' "$(sed -n "s/.*class='t'.*>\([0-9]*\)<.*/\1/p" "$room/near.svg" | tr '\n' ' ')" '3 12 '

# 99,996 points inside a square of side 2,000,000, on different verticals, and its four corners
awk 'BEGIN {
    n = 100000
    print "hullbook journal 3 first 0 limit 1048576 capacity 16777216"
    print "0 0 add -1000000 -1000000 = added\n1 0 add 1000000 -1000000 = added"
    print "2 0 add 1000000 1000000 = added\n3 0 add -1000000 1000000 = added"
    for (k = 4; k < n; k++) print k " 0 add " 17 * (k - 50000) " " (k * 7919) % 1999993 - 999996 " = added"
    print "end " n }' >"$room/large"

# how often a word stands in a picture
how_many() {
    grep -o "$1" "$room/large.svg" | wc -l
}
"$hulldraw" "$room/large" --bridges >"$room/large.svg"
came 'status of the large picture' $? 0
came 'its corners' "$(grep -c "points='0,2000000 2000000,2000000 2000000,0 0,0 '" "$room/large.svg")" 1
came 'its dots, one of 26 and the corners' "$(how_many 'h0')" $((3847 + 4))
came 'its bridges, of eight levels' "$(how_many "class='[ul] v[0-7]'")" 510
came 'its labels' "$(how_many "class='t'")" 0
came 'its legend' "$(grep -c '>points 100000 (limit 1048576); one of 26 is drawn<' "$room/large.svg")" 1
came 'its area' "$(grep -c '>doubled area 8000000000000<' "$room/large.svg")" 1
"$hulldraw" "$room/large" --line 2 >"$room/large.svg"
came 'corners after two lines' "$(grep -c "points='0,1000000 2000000,1000000 '" "$room/large.svg")" 1

# N points far apart, two of which are held twice: their labels are written up to 400 points
points() {
    awk -v n="$1" 'BEGIN {
        print "hullbook journal 3 first 0 limit 1048576 capacity 16777216"
        for (k = 0; k < n; k++) print k " 0 add " 1000 * k " " (k * 7919) % 1009 " = added"
        print n " 0 add 0 0 = again 2"
        print n + 1 " 0 add " 1000 * (n - 1) " " ((n - 1) * 7919) % 1009 " = again 2"
        print "end " n + 2 }' >"$room/points"
}
points 400
"$hulldraw" "$room/points" >"$room/large.svg"
came 'the labels of 400 points' "$(how_many "class='t'")" 2
points 401
"$hulldraw" "$room/points" >"$room/large.svg"
came 'the labels of 401 points' "$(how_many "class='t'")" 0
# the greatest picture, the empty set after no line, and bridges after some
"$hulldraw" "$here/journals/thirty.txt" --size 10000 >"$room/large.svg"
came 'status of the greatest picture' $? 0
came 'its width' "$(how_many "^<svg [^>]*width='10064'")" 1
"$hulldraw" "$here/journals/thirty.txt" --line 4294967295 --bridges >"$room/large.svg"
came 'status of the last line that there may be' $? 0
cmp -s "$room/large.svg" "$top/docs/pictures/bridges.svg"
came 'its picture, the whole' $? 0
"$hulldraw" "$here/journals/thirty.txt" --size 240 >"$room/large.svg"
came 'status of the smallest picture' $? 0
came 'its width' "$(how_many "^<svg [^>]*width='304'")" 1
"$hulldraw" "$here/journals/thirty.txt" --line 0 >"$room/large.svg"
came 'status of no line' $? 0
came 'the points after no line' "$(how_many '>points 0 ')" 1
"$hulldraw" "$here/journals/thirty.txt" --line 2 --bridges >"$room/large.svg"
came 'status of bridges after two lines' $? 0
came 'the bridges after two lines' "$(how_many "class='[ul] v[0-7]'")" 2

# a small film, and one of its first 600 lines
"$hulldraw" "$here/journals/film.txt" --film --size 240 >"$room/large.svg"
came 'status of a small film' $? 0
came 'its width' "$(how_many "^<svg [^>]*width='304'")" 1
"$hulldraw" "$room/large" --film >"$room/large.svg"
came 'status of the large film' $? 0
came 'its frames' "$(grep -c '^<g><set' "$room/large.svg")" 600
came 'the calls in its captions' "$(how_many "class='b'> add [-0-9]* [-0-9]*<")" 600
came 'the replies in its captions' "$(how_many "class='b'>= added<")" 600
came 'its title' "$(grep -c '>the first 600 of 100000 calls<' "$room/large.svg")" 1
"$hulldraw" "$here/journals/wrong.txt" --film >"$room/large.svg"
came 'where a film ends at a wrong line' "$(grep -c 'is wrong' "$room/large.svg")" 1
# a list that has no room in its line, and a refused point
"$hulldraw" "$here/journals/many.txt" --film >"$room/large.svg"
came 'status of a film with a long list' $? 0
came 'its long list' "$(grep -c '>= list 8 -11000 0 -9999 -9999 0 -11000 &#8230; and 5 more<' "$room/large.svg")" 1
came 'its refused point' "$(how_many "<path class='x' d='M11002 10998h0'/>")" 1
came 'its wrong lines' "$(how_many 'is wrong')" 0

# what is refused: MESSAGE STATUS WORDS..
refused() {
    message=$1
    status=$2
    shift 2
    "$hulldraw" "$@" >"$room/output" 2>"$room/error"
    came "status of $*" $? "$status"
    came "message of $*" "$(cat "$room/error")" "$message"
    came "output of $*" "$(wc -c <"$room/output")" 0
}
printf 'hullbook journal 3 first 0 limit 4 capacity 9\n0 0 add 01 0 = added\nend 1\n' >"$room/spelling"
refused 'hulldraw: usage' 2
refused 'hulldraw: usage' 2 --help
refused 'hulldraw: usage' 2 "$room/large" --size 239
refused 'hulldraw: usage' 2 "$room/large" --size 10001
refused 'hulldraw: usage' 2 "$room/large" "$room/large"
refused 'hulldraw: usage' 2 "$room/large" --line 4294967296
refused 'hulldraw: usage' 2 "$room/large" --line -1
refused 'hulldraw: usage' 2 "$room/large" --colour
refused 'hulldraw: usage' 2 "$room/large" --film --line 2
refused 'hulldraw: usage' 2 "$room/large" --film --bridges
refused 'hulldraw: open' 3 "$room/absent"
refused 'hulldraw: line 2: fault 2' 2 "$room/spelling"
"$hulldraw" "$room/large" >/dev/full 2>"$room/error"
came 'status on a full device' $? 3
came 'message on a full device' "$(cat "$room/error")" 'hulldraw: write'
# each request for memory refused in turn, until twenty runs in a row come out whole: before that nothing is written, with
# a word and status 4
if ! program=$(linked_program hulldraw) || ! is_there cc; then
    skip 'each request for memory refused' 'hulldraw that is linked here, or no cc'
    end
fi
preloaded "$here/../memory" refuse || exit 1
"$program" "$here/journals/thirty.txt" --bridges >"$room/whole"
number=0
row=0
while [ "$row" -lt 20 ] && [ "$number" -lt 1000 ]; do
    number=$((number + 1))
    REFUSED_REQUEST=$number LD_PRELOAD="$room/refuse.so" "$program" "$here/journals/thirty.txt" --bridges \
        >"$room/output" 2>"$room/error"
    status=$?
    if [ "$status" = 0 ] && cmp -s "$room/output" "$room/whole"; then
        row=$((row + 1))
        echo whole
    elif [ "$status" = 4 ] && [ ! -s "$room/output" ]; then
        row=0
        sed -n 's/^hulldraw: memory$/memory/p; s/^hulldraw: line [0-9]*: fault 10$/text/p' "$room/error"
    else
        row=0
        echo "status $status"
    fi
done >"$room/stages"
came 'what comes where memory is refused' "$(uniq "$room/stages" | tr '\n' ' ')" 'memory text memory whole '
end
