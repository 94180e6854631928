# What bin/hullbook adds on a terminal, after the words of the proved program, which is $program. Read by program.sh.
# shellcheck shell=sh disable=SC2154 # $program and $top are set by the reader

synopsis='usage: hullbook run SCRIPT [--capacity N] [--limit N] [--first N] [--buckets] [--journal] [--after JOURNAL]
       hullbook check [--explain] JOURNAL..
       hullbook compact JOURNAL
       hullbook upgrade JOURNAL
SCRIPT and JOURNAL are files; /dev/stdin is standard input. See man/hullbook.1 and docs/PROGRAM.md.'

# prints what a fault of a text means, by its number
meaning_of() {
    case $1 in
    1) echo 'its form: a field or a space is missing or one too many, it has a tab or a carriage return, the count of an end line is wrong, or the text is too long' ;;
    2) echo 'a number is spelled otherwise than digits with no leading zero, or is out of its range' ;;
    3) echo 'a coordinate is out of range, or a direction is zero' ;;
    4) echo 'a worker or a seat is above 63' ;;
    5) echo 'a word is no call and no reply of this version of the text' ;;
    6) echo 'a journal ends before its end line does' ;;
    7) echo 'the first line is not the header of a journal of a known version' ;;
    8) echo 'the file could not be read' ;;
    10) echo 'there was not enough memory to read it' ;;
    esac
}

# explains a fault on standard error: its number, its line, and the text of the line in the last file that was named, with its bytes that are
# not printed shown as ^M and the like, so that they are seen, and do nothing to the terminal
explain_fault() {
    file=
    for word in "$@"; do [ -f "$word" ] && file=$word; done
    echo "hullbook: fault $1: $(meaning_of "$1")" >&2
    case $1:$(head -c 14 "${file:-/dev/null}" | tr -d '\000') in
    7:'hullbook file ') echo "hullbook: this is the journal file of a shared hull, several journals in a row: docs/SHARED.md says how to separate them" >&2 ;;
    esac
    [ -z "$file" ] || [ "$#" -gt 4 ] || sed -n "$2{s/^/hullbook: line $2 is: /;p;q;}" "$file" | cut -c 1-200 | cat -vt >&2
}

# whether the words are UTF-8, which the program needs, as far as that can be known here
are_utf8() {
    ! command -v iconv >/dev/null || printf '%s\n' "$@" | iconv -f UTF-8 -t UTF-8 >/dev/null 2>&1
}

# asks the program again for what it said, which is the same on the same files, and says more about it
say_more() {
    for word in "$@"; do
        case $word in
        --version | -V) echo "hullbook $(cat "$top/VERSION")" >&2 && return ;;
        /dev/* | -) return ;;
        esac
    done
    said=$("$program" "$@" 2>&1 >/dev/null)
    case $said in
    *usage)
        are_utf8 "$@" || echo 'hullbook: an argument is not UTF-8: redirect a file of such a name, and name it /dev/stdin' >&2
        echo "$synopsis" >&2
        ;;
    *'line '*': fault '*)
        number=${said##*fault }
        line=${said#*line }
        explain_fault "$number" "${line%%:*}" "$@"
        ;;
    esac
}

# counts the calls of a run that found its journal full: they are those after as many as its capacity
count_refused() {
    capacity=65536
    script=
    for word in "$@"; do
        [ "${last:-}" = --capacity ] && capacity=$word
        case $word in --capacity=*) capacity=${word#*=} ;; esac
        [ "$word" = --after ] && return
        [ -f "$word" ] && [ "${last:-}" != --after ] && script=$word
        last=$word
    done
    [ "$script" ] || return
    calls=$(grep -c '^[0-9]' "$script")
    [ "$calls" -le "$capacity" ] || echo "hullbook: $((calls - capacity)) of $calls calls found the journal full: see --capacity" >&2
}

# shows how long a program runs, from its second second on, in a line of its own above what the program writes
show_time() {
    seconds=0
    format='hullbook: running, %s s\n'
    while sleep 1 && kill -0 "$1" 2>/dev/null; do
        seconds=$((seconds + 1))
        [ "$seconds" -ge 2 ] || continue
        # shellcheck disable=SC2059 # the format is the one above or below
        printf "$format" "$seconds" >&2
        format='\033[A\rhullbook: running, %s s\n'
    done
}

# runs the program with these words, and exits with its status
run_on_terminal() {
    if [ "${1:-}" = run ]; then
        # (a command in the background has no input of its own: the descriptor 3 keeps it)
        exec 3<&0
        "$program" "$@" <&3 3<&- &
        child=$!
        # (a program in the background does not get the terminal's interrupt, and ignores one that it is sent)
        ended_by=
        for signal in 1 2 3 15; do
            # shellcheck disable=SC2064 # the signal is that of now
            trap "ended_by=$signal; kill -TERM $child 2>/dev/null" $signal
        done
        # (a `sleep` of it may outlast the program, and would keep a pipe open that the output goes to)
        show_time $child >/dev/null &
        watcher=$!
        wait $child 2>/dev/null
        status=$?
        [ -z "$ended_by" ] || { wait $child 2>/dev/null; status=$((128 + ended_by)); }
        kill $watcher 2>/dev/null && wait $watcher 2>/dev/null
    else
        "$program" "$@"
        status=$?
    fi
    case $status in
    0) [ "${1:-}" != run ] || count_refused "$@" ;;
    2 | 3 | 4) say_more "$@" ;;
    esac
    exit "$status"
}
