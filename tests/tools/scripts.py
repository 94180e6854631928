"""Tests the scripts: tests/lib.sh, which counts for the suites, tools/program.sh, which finds and runs a program, and what tools/terminal.sh
says on a terminal. Programs and products are stand-ins, which say and return what a test wants of them."""
import contextlib
import os
import pty
import select
import shutil
import signal
import subprocess
import tempfile
import time

import completions
import kit
import transcripts
from small import TOP, lay_tools, run, write

# what a script that reads tests/lib.sh does, what it prints, and its status
SCRIPTS = (
    ("nothing", "", "0 passed, 0 failed\n", 0),
    ("two that are ok", "said a ok; said b 'ok, 3 lines'", "a: ok\nb: ok, 3 lines\n2 passed, 0 failed\n", 0),
    ("one that is not", "said a ok; said b 'not ok'", "a: ok\nb: not ok\n1 passed, 1 failed\n", 1),
    ("equal and other values", "came a x x; came b '' x; came c x ''; came d '' ''",
     "a: ok\nb: FAILED, , not x\nc: FAILED, x, not \nd: ok\n2 passed, 2 failed\n", 1),
    ("statuses", "echo why >\"$room/output\"; count a 0; count b 3", "a: ok\nb: FAILED, 3, not 0\nwhy\n1 passed, 1 failed\n", 1),
    ("commands", "attempt a true; attempt b sh -c 'echo said; echo more >&2; exit 4'; attempt c false",
     "a: ok\nb: FAILED, 4, not 0\nsaid\nmore\nc: FAILED, 1, not 0\n1 passed, 2 failed\n", 1),
    ("a command that counts", "counted a sh -c 'echo x: ok; echo 3 passed, 0 failed'", "x: ok\n3 passed, 0 failed\n", 0),
    ("one with a failure", "counted a sh -c 'echo x: no; echo 3 passed, 2 failed; exit 1'; said b ok", "x: no\nb: ok\n4 passed, 2 failed\n", 1),
    ("one with a failure and status 0", "counted a sh -c 'echo 1 passed, 1 failed'", "1 passed, 1 failed\n", 1),
    ("one with a status", "counted a sh -c 'echo 3 passed, 0 failed; exit 5'", "a: FAILED, exit status 5 after 3 passed, 0 failed\n3 passed, 1 failed\n", 1),
    ("one with no count", "counted a sh -c 'echo well; echo done'", "well\na: FAILED, exit status 0: done\n0 passed, 1 failed\n", 1),
    ("one that says nothing", "counted a true", "a: FAILED, exit status 0: \n0 passed, 1 failed\n", 1),
    ("what is skipped counts nothing", "skip a tool; is_there sh && said b ok; is_there no-such-tool || said c ok",
     "a: skipped, there is no tool\nb: ok\nc: ok\n2 passed, 0 failed\n", 0),
    ("where it is", "came top \"$top\" \"$(cd ../.. && pwd)\"; [ -d \"$room\" ] && said room ok", "top: ok\nroom: ok\n2 passed, 0 failed\n", 0),
)


def test_lib(tests):
    """What a script that reads tests/lib.sh prints and returns."""
    with tempfile.TemporaryDirectory() as top:
        write(f"{top}/tests/lib.sh", kit.text_of(f"{TOP}/tests/lib.sh"))
        os.makedirs(f"{top}/rooms")
        for what, text, wanted, status in SCRIPTS:
            write(f"{top}/tests/one/run.sh", f"set -u\nhere=$(cd \"$(dirname \"$0\")\" && pwd)\ncd \"$here\"\n. \"$here/../lib.sh\"\n{text}\nend\n")
            tests.same(f"a script with {what}", run(top, "sh", "tests/one/run.sh", env={"TMPDIR": f"{top}/rooms"}), (status, wanted))
        tests.same("no folder is left", os.listdir(f"{top}/rooms"), [])


def test_spaces(tests):
    """In a folder whose name has a space the cases of the program run, and the flags of compilers name what is installed."""
    with tempfile.TemporaryDirectory() as room:
        top = f"{room}/a repository"
        for it in ("lib.sh", "libraries.sh", "cli/run.sh"):
            write(f"{top}/tests/{it}", kit.text_of(f"{TOP}/tests/{it}"), 0o755)
        write(f"{top}/tools/program.sh", "#!/bin/sh\necho echo\n", 0o755), write(f"{top}/tools/product.sh", "#!/bin/sh\n", 0o755)
        write(f"{top}/tests/cli/cases/words.case", "words: check JOURNAL\nstatus: 0\noutput:\n|check journal\n")
        tests.same("a case", run(top, "tests/cli/run.sh"), (0, "words: ok\n1 passed, 0 failed\n"))
        write(f"{top}/installed/include/hull.h", "it is there\n"), write(f"{top}/path/cc", "#!/bin/sh\n", 0o755)
        script = 'here=$PWD/tests/cli; . tests/lib.sh; . tests/libraries.sh; install_libraries; cat $prefix/include/hull.h'
        env = {"PATH": f"{top}/path:{os.environ['PATH']}", "INSTALLED": f"{top}/installed"}
        tests.same("what is installed", run(top, "sh", "-c", script, env=env), (0, "it is there\n"))


# ---- programs

# finds the program at PROGRAM, or ends with FOUND; makes one, or ends with MADE
PRODUCT = """#!/bin/sh
case $1 in
program) [ "${FOUND:-0}" -eq 0 ] || exit "$FOUND"; echo "$(dirname "$0")/stand-in" ;;
put) echo "put $2" >&2; [ "${MADE:-0}" -eq 0 ] || exit "$MADE"; mkdir -p "crates/${2#*/}/out/${2%/*}"; cp "$(dirname "$0")/stand-in" "crates/${2#*/}/out/$2" ;;
*) exit 99 ;;
esac
"""
# says ERR on standard error and its words on standard output, after a time, and after the file BEGUN is there, and returns STATUS
STAND_IN = """#!/bin/sh
[ -z "${PID:-}" ] || echo $$ >"$PID"
[ -z "${SLEEP:-}" ] || sleep "$SLEEP"
while [ "${BEGUN:-}" ] && [ ! -s "$BEGUN" ]; do :; done
printf "%b" "${ERR:-}" >&2
[ -z "${READ:-}" ] || cat
[ -z "${COUNT:-}" ] || echo "$# words"
echo "said $* by ${GLIBC_TUNABLES:-none}"
exit "${STATUS:-0}"
"""


def lay(top):
    lay_tools(top)
    write(f"{top}/tools/product.sh", PRODUCT, 0o755)
    write(f"{top}/tools/stand-in", STAND_IN, 0o755)
    write(f"{top}/dist/SUMS", "# sums\nversion 7.8.9\n")
    write(f"{top}/VERSION", "7.8.9\n")
    write(f"{top}/path/uname", "#!/bin/sh\ncase $1 in -s) echo ${SYSTEM:-Linux} ;; *) echo ${MACHINE:-x86_64} ;; esac\n", 0o755)
    write(f"{top}/rt/rt", "#!/bin/sh\n", 0o755)
    os.makedirs(f"{top}/rooms")
    without = ":".join(it for it in os.environ["PATH"].split(":") if not os.path.exists(f"{it}/rt"))
    return {"PATH": f"{top}/path:{without}", "TMPDIR": f"{top}/rooms"}


def test_programs(tests):
    """A program is found, or proved first; if it cannot be had, the cause is said, with a status of its own."""
    with tempfile.TemporaryDirectory() as room:
        top = f"{room}/the repository"
        env = lay(top)
        tests.same("the program's words, output and status", run(top, "bin/hullbook", "a b", "c", env={**env, "STATUS": "3", "ERR": "oh\\n"}),
                   (3, "oh\nsaid a b c by glibc.malloc.hugetlb=1\n"))
        for name in ("hullbook", "hulldraw"):
            os.symlink(f"{top}/bin/{name}", f"{top}/linked-{name}")
            for command in (f"bin/{name}", f"{top}/linked-{name}"):
                tests.same(f"{os.path.basename(command)}: each word as one",
                    run(top, command, "a b", "c d", "*", "", env={**env, "COUNT": "1"})[1].split("\n")[0], "4 words")
        tests.same("the caller's tunables stay", run(top, "bin/hulldraw", env={**env, "GLIBC_TUNABLES": "mine"}), (0, "said  by mine\n"))
        tests.same("its path", run(top, "tools/program.sh", "--path", "hullbook", env=env), (0, f"{top}/tools/stand-in\n"))
        os.symlink(f"{top}/bin/hullbook", f"{top}/linked")
        tests.same("by a link", run("/", f"{top}/linked", "x", env=env), (0, "said x by glibc.malloc.hugetlb=1\n"))
        rt = {**env, "PATH": f"{top}/rt:{env['PATH']}"}
        for what, more, status, wanted in (
            ("other sources and no toolchain", {"FOUND": "1"}, 69, "hullbook: dist/x86_64/hullbook is release 7.8.9, made of other sources than these"),
            ("a damaged program", {"FOUND": "2"}, 69, "hullbook: dist/x86_64/hullbook is damaged: its checksum is not the one in dist/SUMS."),
            ("a damaged program, with the toolchain", {**rt, "FOUND": "2"}, 69, "is damaged"),
            ("another processor", {"FOUND": "1", "MACHINE": "riscv64"}, 69, "the programs are for Linux on x86-64, and this machine is Linux on riscv64."),
            ("another system", {"FOUND": "1", "SYSTEM": "Darwin"}, 69, "this machine is Darwin on x86_64."),
            ("a proof that fails", {**rt, "FOUND": "1", "MADE": "70"}, 70, "proving these sources first"),
            ("no compiler", {**rt, "FOUND": "1", "MADE": "71"}, 71, "put x86_64/hullbook\n"),
        ):
            came, said = run(top, "bin/hullbook", "run", env={**env, **more})
            tests.see(f"{what}: {status}", came == status and wanted in said and "said " not in said, f"{came}: {said}")
            tests.same("it is no output", run(top, "sh", "-c", "bin/hullbook run 2>/dev/null", env={**env, **more}), (status, ""))
        status, said = run(top, "bin/hulldraw", "x", env={**rt, "FOUND": "1"})
        tests.see("a proof that does not", status == 0 and said.endswith("put x86_64/hulldraw\nsaid x by glibc.malloc.hugetlb=1\n"), f"{status}: {said}")
        tests.same("no folder is left", os.listdir(f"{top}/rooms"), [])


def on_terminal(top, *words, env, keys=b"", once=""):
    """Runs a command on a terminal, and types the keys once a file is there. Returns its status and what the terminal shows; one that does not
    end is killed."""
    pid, terminal = pty.fork()
    if pid == 0:
        # (the command is not the leader of the session, as it is not where a shell has started it)
        signal.signal(signal.SIGINT, lambda *_: None)
        signal.signal(signal.SIGHUP, signal.SIG_DFL)  # (which `nohup` ignores)
        os._exit(subprocess.run(words, cwd=top, env={**os.environ, **env}, check=False).returncode % 256)
    shown, typed, until = b"", not keys, time.monotonic() + 120
    while time.monotonic() < until or os.kill(pid, signal.SIGKILL):
        typed = typed or (os.path.exists(once) and os.write(terminal, keys) > 0)
        if not select.select([terminal], [], [], 0.05)[0]:
            continue
        try:
            part = os.read(terminal, 4096)
        except OSError:
            part = b""
        if not part:
            break
        shown += part
    status = os.waitpid(pid, 0)[1]
    os.close(terminal)
    return os.waitstatus_to_exitcode(status) if hasattr(os, "waitstatus_to_exitcode") else status >> 8, shown.decode(errors="surrogateescape").replace("\r\n", "\n")


# of each fault of a text a part of what it means
MEANINGS = {1: "its form: a field or a space is missing", 2: "a number is spelled otherwise", 3: "a coordinate is out of range", 4: "a worker or a seat is above 63",
            5: "a word is no call and no reply", 6: "a journal ends before its end line", 7: "the first line is not the header", 8: "the file could not be read",
            10: "there was not enough memory"}


def test_meanings(tests):
    """On a terminal a fault is explained by its number, with the line that it is in."""
    with tempfile.TemporaryDirectory() as top:
        env = lay(top)
        write(f"{top}/text", "first\nsecond\nthird\n")
        for number, meaning in MEANINGS.items():
            status, shown = on_terminal(top, "bin/hullbook", "check", "text", env={**env, "STATUS": "2", "ERR": f"hullbook: line 2: fault {number}\\n"})
            tests.see(f"fault {number}", status == 2 and f"hullbook: fault {number}: {meaning}" in shown and shown.endswith("hullbook: line 2 is: second\n"), f"{status}: {shown}")
        write(f"{top}/long", f"first\n{'long ' * 60}\n")
        shown = on_terminal(top, "bin/hullbook", "check", "long", env={**env, "STATUS": "2", "ERR": "hullbook: line 2: fault 2\\n"})[1]
        tests.see("a long line is cut", shown.endswith(f"\n{('hullbook: line 2 is: ' + 'long ' * 60)[:200]}\n"), shown)
        write(f"{top}/bytes", "first\n\ufeff0 add 0\t0 \x1b[31m\r\n")
        shown = on_terminal(top, "bin/hullbook", "check", "bytes", env={**env, "STATUS": "2", "ERR": "hullbook: line 2: fault 1\\n"})[1]
        tests.see("bytes that are not printed are shown", shown.endswith("\nhullbook: line 2 is: M-oM-;M-?0 add 0^I0 ^[[31m^M\n"), repr(shown))
        for status, text in ((3, "hullbook: b: line 3: fault 5\\n"), (2, "hullbook: usage.txt: line 1: fault 2\\n"),
                (4, "hullbook: line 1: fault 10\\n")):
            came, shown = on_terminal(top, "bin/hullbook", "run", "text", env={**env, "STATUS": str(status), "ERR": text})
            tests.see(f"status {status}", came == status and "hullbook: fault " in shown, f"{came}: {shown}")
        for words, wanted in ((("check", "/dev/stdin"), ""), (("check", "none"), "hullbook: fault 2: "), (("check", "path"), "hullbook: fault 2: "),
                              (("check", "text", "text"), "hullbook: fault 2: ")):
            shown = on_terminal(top, "bin/hullbook", *words, env={**env, "STATUS": "2", "ERR": "hullbook: line 2: fault 2\\n"})[1]
            is_right = wanted in shown if wanted else "hullbook: fault" not in shown
            tests.see(f"no line of {words}", is_right and "line 2 is" not in shown and "sed" not in shown, shown)


def test_terminal(tests):
    """On a terminal there is the synopsis, the version, the time of a run, and how many calls found the journal full; a signal ends it."""
    with tempfile.TemporaryDirectory() as top:
        env = lay(top)
        write(f"{top}/five", "0 add 1 1\n" * 5 + "join\n# a comment\n"), write(f"{top}/other", "0 add 1 1\n")
        status, shown = on_terminal(top, "bin/hullbook", "nonsense", env={**env, "STATUS": "2", "ERR": "hullbook: usage\\n"})
        tests.see("the synopsis", status == 2 and "usage: hullbook run SCRIPT [--capacity N]" in shown and shown.endswith("docs/PROGRAM.md.\n"), f"{status}: {shown}")
        for words, text in (("nonsense", "usage"), ("--version", "usage"), ("check five", "line 1: fault 2"), ("run five --capacity 2", "")):
            more = {"STATUS": "2" if text else "0", "ERR": text and f"hullbook: {text}\\n"}
            shown = on_terminal(top, "sh", "-c", f"bin/hullbook {words} >said", env={**env, **more})[1]
            tests.same(f"what it says more of '{words}' is no output", kit.text_of(f"{top}/said"), f"said {words} by glibc.malloc.hugetlb=1\n")
            tests.see("it says more", shown.count("\n") > bool(text), shown)
        for word in ("--version", "-V"):
            status, shown = on_terminal(top, "bin/hullbook", word, env={**env, "STATUS": "2", "ERR": "hullbook: usage\\n"})
            tests.see(word, status == 2 and shown.endswith("hullbook 7.8.9\n") and "SCRIPT" not in shown, f"{status}: {shown}")
        tests.same("hulldraw says no more", on_terminal(top, "bin/hulldraw", env={**env, "STATUS": "2", "ERR": "usage\\n"}),
                   (2, "usage\nsaid  by glibc.malloc.hugetlb=1\n"))
        status, shown = on_terminal(top, "sh", "-c", "bin/hullbook x 2>errors; cat errors", env={**env, "STATUS": "2", "ERR": "hullbook: usage\\n"})
        tests.see("nor does hullbook, if standard error is a file", "SCRIPT" not in shown, shown)
        shown = on_terminal(top, "sh", "-c", "echo from a pipe | bin/hullbook run /dev/stdin", env={**env, "READ": "1"})[1]
        tests.see("a run reads standard input", shown.startswith("from a pipe\nsaid run /dev/stdin"), shown)
        for words, wanted in ((("five", "--capacity", "2"), "hullbook: 3 of 5 calls found the journal full: see --capacity"),
                              (("--capacity", "4", "five"), "hullbook: 1 of 5 calls"), (("five", "--capacity", "5"), ""), (("five",), ""),
                              (("five", "--limit", "2"), ""), (("five", "--capacity", "2", "--after", "other"), ""),
                              (("five", "--capacity=3"), "hullbook: 2 of 5 calls"), (("none", "--capacity", "2"), "")):
            status, shown = on_terminal(top, "bin/hullbook", "run", *words, env=env)
            tests.see(f"a run of {words}", status == 0 and (wanted in shown if wanted else "found the journal" not in shown), f"{status}: {shown}")
        for count, wanted in ((65536, ""), (65537, "hullbook: 1 of 65537 calls found the journal full")):
            write(f"{top}/many", "0 count\n" * count)
            shown = on_terminal(top, "bin/hullbook", "run", "many", env=env)[1]
            tests.see(f"a run of {count} calls", wanted in shown if wanted else "found the journal" not in shown, shown)
        tests.see("a check of the same", "found the journal" not in on_terminal(top, "bin/hullbook", "check", "five", "--capacity", "2", env=env)[1])
        # (a second takes no time, but for the fifth, which lasts until it is ended)
        seconds = f"echo >>{top}/seconds; [ $(wc -l <{top}/seconds) -gt 4 ] || exit 0; trap 'kill $!; exit' TERM"
        write(f"{top}/path/sleep", f"#!/bin/sh\n{seconds}\n{shutil.which('sleep')} 60 &\necho $$ >{top}/fifth\nwait $!\necho >{top}/over\n", 0o755)
        rows = "".join(f"{up}hullbook: running, {it} s\n" for it, up in ((2, ""), (3, "\x1b[A\r"), (4, "\x1b[A\r")))
        end = f"status=$?; [ -e {top}/over ] || echo >{top}/before; kill $(cat {top}/fifth); exit $status"
        for command, status in (("bin/hullbook run five | tee said", 0), ("bin/hullbook run five >said", 1), ("bin/hullbook run five", 1)):
            came = on_terminal(top, "sh", "-c", f"{command}; {end}", env={**env, "BEGUN": f"{top}/fifth", "STATUS": "1"})
            output = "said run five by glibc.malloc.hugetlb=1\n"
            tests.same(f"the seconds of '{command}', from the second on, above its output", came, (status, rows + output * (">" not in command)))
            tests.see("it ends at once", os.path.exists(f"{top}/before"))
            for it in ("seconds", "fifth", "before", "over"):
                with contextlib.suppress(FileNotFoundError):
                    os.remove(f"{top}/{it}")
        tests.same("they are no output", kit.text_of(f"{top}/said"), output)
        os.remove(f"{top}/path/sleep")
        status, shown = on_terminal(top, "bin/hullbook", "run", "five", env={**env, "SLEEP": "1000", "PID": f"{top}/pid"}, keys=b"\x03", once=f"{top}/pid")
        until = time.monotonic() + 60
        while os.path.exists(f"/proc/{kit.text_of(f'{top}/pid').strip()}") and time.monotonic() < until:
            time.sleep(0.05)
        tests.see("an interrupt ends the program, too", status == 130 and not os.path.exists(f"/proc/{kit.text_of(f'{top}/pid').strip()}"), f"{status}: {shown}")
        for name, wanted in (("HUP", 129), ("TERM", 143)):
            os.remove(f"{top}/pid")
            ends = f"while [ ! -s {top}/pid ]; do sleep 0.05; done; kill -{name} $at; wait $at"
            came = on_terminal(top, "sh", "-c", f"bin/hullbook run five & at=$!; {ends}", env={**env, "SLEEP": "20", "PID": f"{top}/pid"})
            tests.same(f"{name} ends the program, too", (came, os.path.exists(f"/proc/{kit.text_of(f'{top}/pid').strip()}")), ((wanted, ""), False))


TESTS = (test_lib, test_spaces, test_programs, test_meanings, test_terminal, *completions.TESTS, *transcripts.TESTS)
