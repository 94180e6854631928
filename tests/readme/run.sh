#!/bin/sh
# Runs the README's own commands, those in its blocks marked `sh`, from the top folder: each has to end with status 0; only bin/test, which
# runs this, is passed over. The script and the report beside them have to be those of the run. The same is tried of the examples in the manual
# pages of the programs, and hullbook(1) has to explain the faults that docs/PROGRAM.md does. The last line is 'N passed, M failed'.
set -u
here=$(cd "$(dirname "$0")" && pwd)
. "$here/../lib.sh"
cd "$top" || exit 1

# the lines of the blocks that begin with this line: the fence `sh` where it is one, else their first line
block() {
    awk -v first="$1" '
        /^```/ { if (inside) { inside = 0; next } inside = 1; fence = $0; line = 0; next }
        inside { line++; if (line == 1) wanted = (fence == first || $0 == first) }
        inside && wanted { print }' README.md
}

block '```sh' >"$room/commands"
while IFS= read -r command; do
    case $command in bin/test*) continue ;; esac
    if sh -c "$command" >"$room/output" 2>"$room/error" </dev/null; then
        said "$command" ok
    else
        said "$command" "status $?, $(tail -n 3 "$room/error")"
    fi
    case $command in "bin/hullbook run examples/placement.txt"*"#"*) cp "$room/output" "$room/report" ;; esac
done <"$room/commands"
block '# the four vertices of a plate, by two workers at once' | cmp -s - examples/placement.txt && said 'the script' ok || said 'the script' 'is another'
block '0 add 0 0 = added' | cmp -s - "$room/report" && said 'the report' ok || said 'the report' 'is another'
[ "$passed" -gt 2 ] || said 'the commands' 'are missing'

# the lines of a manual page's example, as a terminal shows them: PAGE
example() {
    sed -n '/^\.SH EXAMPLE/,/^\.fi/{/^\./!p;}' "man/$1" | sed 's/\\e/\\/g; s/\\-/-/g'
}

mkdir "$room/programs"
ln -s "$top/bin/hullbook" "$top/bin/hulldraw" "$room/programs"
for page in hullbook.1 hulldraw.1; do
    example $page | sed -n 's/^\$ //p' >"$room/commands"
    (cd "$room" && PATH=$room/programs:$PATH sh -e commands) >"$room/output" 2>&1
    count "the commands of man/$page" $?
    example $page | grep -v '^\$ ' | cmp -s - "$room/output" && said "the outputs of man/$page" ok || said "the outputs of man/$page" 'are others'
done
sed -n 's/^| \([0-9][0-9, ]*\) | .*/\1/p' docs/PROGRAM.md | tr -d ' ' | tr , '\n' >"$room/faults"
sed -n '/^\.SH FAULTS/,/^\.SH EXAMPLE/s/^\.B //p' man/hullbook.1 | cmp - "$room/faults" >"$room/output" 2>&1
count 'the faults of man/hullbook.1' $?
end
