#!/bin/sh
# Runs the program on each case of cases/ and compares its output, byte for byte, and its exit status.
#
# A case is a text in parts. `words:` are the program's words, in which INPUT, JOURNAL and PART stand for the files `input`, `journal` and
# `part` of the folder that the program runs in, with the bytes of the parts of these names, ABSENT for `absent`, which is no file, and FOLDER
# for `folder`, which is a folder. `status:` is the exit status. `output:` and `error:` are standard output and standard error, both empty
# if the part is missing; `or:` is another possible output. A line of a part begins with `|`, or with `\` if no newline ends it.
# `device: full` makes the output fail. A line that begins with `#` is a comment. Each run of a script is made with both trees, with
# `--buckets` and without, and both outputs must be the same. A journal that a run or `compact` wrote must pass `check`.
# The last line is 'N passed, M failed'.
set -uf
here=$(cd "$(dirname "$0")" && pwd)
. "$here/../lib.sh"
mkdir "$room/folder"

# the bytes of a part of a case
part() {
    LC_ALL=C awk -v part="$2:" '
        /^[a-z]+:/ { inside = ($0 == part); next }
        inside && /^\|/ { printf "%s\n", substr($0, 2) }
        inside && /^\\/ { printf "%s", substr($0, 2) }' "$1"
}

# what stands behind a name in the head of a case
head_of() {
    sed -n "s/^$2: //p" "$1"
}

# runs a case, with the words of $2 behind its first one; says nothing where it came out as it says
outcome() {
    for name in input journal part; do
        part "$1" "$name" >"$room/$name"
    done
    for name in output or error; do
        part "$1" "$name" >"$room/wanted.$name"
    done
    words=$(head_of "$1" words | sed 's#INPUT#input#g; s#JOURNAL#journal#g; s#PART#part#g; s#ABSENT#absent#g; s#FOLDER#folder#g')
    words="${words%% *} $2 ${words#"${words%% *}"}"
    report="$room/output.output"
    if [ "$(head_of "$1" device)" = full ]; then
        report=/dev/full
    fi
    : >"$room/output.output"
    # shellcheck disable=SC2086 # the words stand apart by spaces
    (cd "$room" && "$hullbook" $words) >"$report" 2>"$room/output.error"
    status=$?
    if [ "$status" != "$(head_of "$1" status)" ]; then
        echo "status $status"
    elif ! cmp -s "$room/output.error" "$room/wanted.error"; then
        echo "on standard error: $(head -n 3 "$room/output.error")"
    elif cmp -s "$room/output.output" "$room/wanted.output"; then
        :
    elif grep -q '^or:' "$1" && cmp -s "$room/output.output" "$room/wanted.or"; then
        :
    else
        echo "wrote: $(head -n 20 "$room/output.output")"
    fi
    case "$(head_of "$1" device) $status $words" in
        ' 0 compact '* | ' 0 run '*--journal*)
            "$hullbook" check "$report" >"$room/output.check" 2>&1 || echo "check: $(head -n 3 "$room/output.check")"
            ;;
    esac
}

hullbook=$("$top/tools/program.sh" --path hullbook) || exit

for name in $(cd "$here/cases" && find . -name '*.case' | sort); do
    case=$here/cases/$name
    why=$(outcome "$case" '')
    case $(head_of "$case" words) in
        'run '*INPUT*) [ "$why" ] || why=$(outcome "$case" --buckets) ;;
    esac
    if [ -z "$why" ]; then
        said "$(basename "$name" .case)" ok
    else
        said "$(basename "$name" .case)" "FAILED, $why"
    fi
done
end
