"""Tests each line that tools/program.sh and tools/terminal.sh print, as a whole: why a program cannot be had, what a fault
means, and the synopsis."""
import os
import tempfile

from scripts import lay, on_terminal
from small import run_apart, write

OLD = """{0}: dist/x86_64/{0} is release 7.8.9, made of other sources than these, and the toolchain that
{0}: proves these (rt) is not installed. For an answer now, run dist/x86_64/{0} itself.
"""
DAMAGED = "{0}: dist/x86_64/{0} is damaged: its checksum is not the one in dist/SUMS. Restore it: git checkout dist\n"
ELSEWHERE = """{0}: the programs are for Linux on x86-64, and this machine is {1}.
{0}: the libraries in dist/aarch64 and the page dist/web/index.html run on other machines.
"""
PROVING = "{0}: proving these sources first, which takes up to an hour; for an answer now, run dist/x86_64/{0} itself\nput x86_64/{0}\n"
MEANINGS = {
    1: "its form: a field or a space is missing or one too many, it has a tab or a carriage return, the count of an end line is wrong, or the text is too long",
    2: "a number is spelled otherwise than digits with no leading zero, or is out of its range",
    3: "a coordinate is out of range, or a direction is zero",
    4: "a worker or a seat is above 63",
    5: "a word is no call and no reply of this version of the text",
    6: "a journal ends before its end line does",
    7: "the first line is not the header of a journal of a known version",
    8: "the file could not be read",
    10: "there was not enough memory to read it",
}
SYNOPSIS = """usage: hullbook run SCRIPT [--capacity N] [--limit N] [--first N] [--buckets] [--journal] [--after JOURNAL]
       hullbook check [--explain] JOURNAL..
       hullbook compact JOURNAL
       hullbook upgrade JOURNAL
SCRIPT and JOURNAL are files; /dev/stdin is standard input. See man/hullbook.1 and docs/PROGRAM.md.
"""


def test_absences(tests):
    """A program that cannot be had says why on standard error, with a status of its own; one that is proved first is then found and run."""
    with tempfile.TemporaryDirectory(prefix="a folder ") as top:
        env = lay(top)
        rt = {"PATH": f"{top}/rt:{env['PATH']}"}
        for name in ("hullbook", "hulldraw"):
            for what, more, status, text in (
                ("other sources and no toolchain", {"FOUND": "1"}, 69, OLD), ("a damaged one", {"FOUND": "2"}, 69, DAMAGED),
                ("a damaged one and the toolchain", {**rt, "FOUND": "2"}, 69, DAMAGED),
                ("another processor", {**rt, "FOUND": "1", "MACHINE": "riscv64"}, 69, ELSEWHERE.replace("{1}", "Linux on riscv64")),
                ("another system", {"FOUND": "2", "SYSTEM": "Darwin"}, 69, ELSEWHERE.replace("{1}", "Darwin on x86_64")),
                ("a proof that fails", {**rt, "FOUND": "1", "MADE": "70"}, 70, PROVING),
            ):
                wanted = (status, "", text.format(name))
                for words in ((f"bin/{name}", "run"), ("tools/program.sh", "--path", name)):
                    tests.same(f"{what}: {words}", run_apart(top, *words, env={**env, **more}), wanted)
            tests.same(f"{name}: the path of one that is proved first",
                run_apart(top, "tools/program.sh", "--path", name, env={**env, **rt, "FOUND": "1"}),
                (0, f"{top}/crates/{name}/out/x86_64/{name}\n", PROVING.format(name)))
            tests.same("it is run from a folder of the caller's", run_apart("/", f"{top}/bin/{name}", "a", env={**env, "ERR": "oh"}),
                (0, "said a by glibc.malloc.hugetlb=1\n", "oh"))


def test_explanations(tests):
    """On a terminal each fault has its meaning, and each status its explanation, as whole lines."""
    with tempfile.TemporaryDirectory() as top:
        env = lay(top)
        write(f"{top}/text", "first\nsecond\nthird\n")
        asked = lambda *words, **more: on_terminal(top, "bin/hullbook", *words, env={**env, **more})
        said = lambda *words: f"said {' '.join(words)} by glibc.malloc.hugetlb=1\n"
        for number, meaning in [*MEANINGS.items(), (9, ""), (11, "")]:
            fault = f"hullbook: line 3: fault {number}\n"
            tests.same(f"fault {number}", asked("check", "text", STATUS="2", ERR=fault.replace("\n", "\\n")), (2, f"{fault}{said('check', 'text')}"
                f"hullbook: fault {number}: {meaning}\n".replace(": \n", ": ") + ("\n" if not meaning else "") + "hullbook: line 3 is: third\n"))
        write(f"{top}/file", "hullbook file 1 sum 0123456789abcdef\n")
        tests.same("the file of a shared hull", asked("check", "file", STATUS="2", ERR="hullbook: line 1: fault 7\\n"), (2, f"hullbook: line 1: fault 7\n"
            f"{said('check', 'file')}hullbook: fault 7: {MEANINGS[7]}\nhullbook: this is the journal file of a shared hull, several journals in a row: docs/SHARED.md says how"
            " to separate them\nhullbook: line 1 is: hullbook file 1 sum 0123456789abcdef\n"))
        for status in (1, 5, 69):
            tests.same(f"nothing more of status {status}", asked("run", "text", STATUS=str(status), ERR="hullbook: usage\\n"),
                (status, f"hullbook: usage\n{said('run', 'text')}"))
        tests.same("nothing more of another message", asked("check", "text", STATUS="2", ERR="hullbook: text: no usage here\\n"),
            (2, f"hullbook: text: no usage here\n{said('check', 'text')}"))
        tests.same("the synopsis", asked("nonsense", STATUS="2", ERR="hullbook: usage\\n"), (2, f"hullbook: usage\n{said('nonsense')}{SYNOPSIS}"))
        word = os.fsdecode(b"\xffile")
        tests.same("a name that is not UTF-8", asked("check", word, STATUS="2", ERR="hullbook: usage\\n"),
            (2, f"hullbook: usage\n{said('check', word)}hullbook: an argument is not UTF-8: redirect a file of such a name, and name it /dev/stdin\n{SYNOPSIS}"))
        tests.same("one that is", asked("check", "\u00e4", STATUS="2", ERR="hullbook: usage\\n"),
            (2, f"hullbook: usage\n{said('check', chr(0xe4))}{SYNOPSIS}"))
        for word in ("--version", "-V"):
            tests.same(word, asked(word, STATUS="2", ERR="hullbook: usage\\n"), (2, f"hullbook: usage\n{said(word)}hullbook 7.8.9\n"))
        fault = "hullbook: other: line 2: fault 6\n"
        for words, line in ((("text", "none"), ""), (("none",), ""), (("-",), None), (("/dev/null",), None), (("text", "text"), "")):
            more = "" if line is None else f"hullbook: fault 6: {MEANINGS[6]}\n{line}"
            tests.same(f"a fault of {words}", asked("check", *words, STATUS="4", ERR=fault.replace("\n", "\\n")),
                (4, f"{fault}{said('check', *words)}{more}"))
        write(f"{top}/calls", "0 add 1 1\n# 5\njoin\n1 count\n 7\n22 area\n")
        full = "hullbook: {} of 3 calls found the journal full: see --capacity\n"
        for word, count in (("--capacity 1", 2), ("--capacity 0", 3), ("--capacity 3", 0), ("--first 1", 0), ("--journal", 0)):
            wanted = said("run", "calls", word) + (full.format(count) if count else "")
            tests.same(f"a run with {word}", asked("run", "calls", *word.split()), (0, wanted))


TESTS = (test_absences, test_explanations)
