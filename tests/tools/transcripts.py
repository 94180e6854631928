"""Tests what bin/test and .ci/run print, line by line, and on which stream. The clock, the processors, the suites and the stages are stand-ins,
in folders whose names have spaces."""
import contextlib
import difflib
import os
import re
import sys
import tempfile

import kit
from small import TOP, lay_tools, run, write

CLOCK = '#!/bin/sh\n[ "$*" = +%s ] && cat "$CLOCK"\n'
BUSY = f"{sys.executable} -c 'import time\nwhile time.process_time() < 1.2: pass'"


def stand_in(path, seconds, text):
    """Writes a command that says its words and what it can read, on both streams, and then runs a text, which takes so many seconds."""
    name = "/".join(path.split("/")[-2:])
    # (the clock is replaced as a whole, since another worker may read it meanwhile)
    time_passes = f'echo $(($(cat "$CLOCK") + {seconds})) >"$CLOCK.$$"; mv "$CLOCK.$$" "$CLOCK"' if seconds else ":"
    write(path, f'#!/bin/sh\nset -u\nwords="$*"\necho "{name}${{words:+ $words}}"; cat; echo its errors >&2; {time_passes}\n{text}\n', 0o755)


@contextlib.contextmanager
def repository():
    """Yields a repository with a clock, and the environment of a run in it."""
    with tempfile.TemporaryDirectory() as room:
        top = f"{room}/the repository"
        lay_tools(top), os.makedirs(f"{room}/temporary files")
        write(f"{room}/clock", "1000\n"), write(f"{top}/path/date", CLOCK, 0o755)
        write(f"{top}/path/nproc", "#!/bin/sh\necho ${PROCESSORS:-1}\n", 0o755)
        # (variables of the caller's are not those of a script)
        others = {it: "9" for it in ("passed", "failed", "faults", "left", "reasons", "chosen", "ordered", "skipped", "later", "more")}
        yield top, {**others, "CLOCK": f"{room}/clock", "TMPDIR": f"{room}/temporary files", "PATH": f"{top}/path:{os.environ['PATH']}"}


def transcript(top, env, *words):
    """Runs a command with something on standard input. Returns its status, its output with N for the seconds of processors, and its errors."""
    script = 'echo typed | "$@" 2>"$TMPDIR/../errors"'
    status, said = run(top, "sh", "-c", script, "", *words, env=env)
    return status, re.sub(r"\d+( s of (a processor|processors))", r"N\1", said), kit.text_of(f"{env['TMPDIR']}/../errors")


def see_lines(tests, what, came, wanted):
    """Counts whether lines are those that are wanted; prints the difference."""
    tests.see(what, came == wanted, "\n".join(difflib.unified_diff(wanted, came, "wanted", "came", lineterm="")))


def same_lines(tests, what, came, status, lines, errors=""):
    """Counts whether a transcript has that status, these lines and these errors."""
    tests.same(f"{what}: status and errors", (came[0], came[2]), (status, errors))
    see_lines(tests, f"{what}: its lines", came[1].splitlines(), lines)


# ---- .ci/run


def stage(name, command, said, counts, seconds):
    """Returns the lines of a stage that passes."""
    return [f"==== {name}: {command}", said, "its errors", counts, f"==== {name}: exit status 0, {counts}, {seconds} s, N s of processors"]


def lay_stages(top, seconds=(20, 300, 50, 6), **texts):
    """Lays the stages of the gate, which pass unless a text is given for one."""
    counts = {"test": "echo 7 passed, 0 failed", "rt": "echo '100 passed, 0 failed, by two compilers'", "mutants": "echo 30 passed, 0 failed",
              "release": "echo 5 passed, 0 failed", **texts}
    later = f'[ $# -eq 0 ] || {{ {texts.get("later", "echo 2 passed, 0 failed")}; exit; }}'
    stand_in(f"{top}/bin/test", seconds[0], f"{later}\nmkdir -p out/test; echo web trials soak >out/test/left_out\n{counts['test']}")
    stand_in(f"{top}/path/rt", seconds[1], counts["rt"])
    version = f'case $1 in version) {texts.get("version", "echo kit 1")}; exit ;; esac'
    write(f"{top}/path/rt", kit.text_of(f"{top}/path/rt").replace("\n", f"\n{version}\n", 1), 0o755)
    stand_in(f"{top}/tools/mutants.py", seconds[2], counts["mutants"]), stand_in(f"{top}/tools/release.sh", seconds[3], counts["release"])
    write(f"{top}/tools/product.sh", "#!/bin/sh\n", 0o755)


def test_gate_lines(tests):
    """A gate that passes prints each stage with its output, its counts and its seconds, all stages again, and the sums."""
    with repository() as (top, env):
        lay_stages(top)
        env = {**env, "PROCESSORS": "6"}
        later, proved = "memory pictures refused soak texts trials web", "100 passed, 0 failed, by two compilers"
        stages = [stage(name, command, said, counts, seconds) for name, command, said, counts, seconds in (
            ("bin/test", "bin/test", "bin/test", "7 passed, 0 failed", 20), ("rt ci", "rt ci", "path/rt ci", proved, 300),
            ("bin/test, later", f"bin/test {later}", f"bin/test {later}", "2 passed, 0 failed", 20),
            ("mutants", "tools/mutants.py --changed --known", "tools/mutants.py --changed --known", "30 passed, 0 failed", 50),
            ("release", "tools/release.sh --changed", "tools/release.sh --changed", "5 passed, 0 failed", 6))]
        wanted = ["6 processors, kit 1", *(line for lines in stages for line in lines), *(lines[-1] for lines in stages)]
        wanted += ["6 processors: 396 s, N s of processors", "144 passed, 0 failed"]
        same_lines(tests, "a gate that passes", transcript(top, env, ".ci/run"), 0, wanted)
        same_lines(tests, "from another folder, by a link", transcript_by_link(top, env), 0, wanted)
        tests.same("nothing temporary is left", os.listdir(env["TMPDIR"]), [])
        lay_stages(top, rt=f"{BUSY}; echo 100 passed, 0 failed")
        seconds = [int(it) for it in re.findall(r"(\d+) s of processors", run(top, ".ci/run", env=env)[1])]
        tests.see("seconds of processors", seconds[:5] == seconds[5:10] and 1 <= seconds[1] <= sum(seconds[:5]) <= seconds[10] < 600, seconds)
        write(f"{top}/given", "9m9.250s 9m9.50s\n1m2.500000s 3m4.250000s\n")
        script = 'work=.; eval "$(sed -n "/^count_processor_seconds/,/^}/p" .ci/run | sed "s/times >/cat given >/")"; count_processor_seconds'
        tests.same("seconds of minutes", run(top, "sh", "-c", f"{script}; echo $processor"), (0, "246\n"))


def test_long_gate_lines(tests):
    """The gate before a release runs all mutants, shared hulls for longer, and makes all released files."""
    with repository() as (top, env):
        lay_stages(top)
        long = {"shared, long": "tests/shared/shared.sh 100000", "snapshots, long": "tests/shared/snapshots.sh 100000",
                "waiting, long": "tests/shared/waiting.sh long", "journal, long": "tests/shared/journal.sh 150 200000",
                **{f"{it}, long": f"tests/embed/{it}.sh long" for it in ("c", "rust", "python")}}
        for it in long.values():
            stand_in(f"{top}/{it.split()[0]}", 1, "echo 1 passed, 0 failed")
        later = {"bin/test, later": "bin/test memory pictures refused soak texts trials web"}
        stages = {"bin/test": "bin/test", "rt ci": "rt ci", **later, "mutants": "tools/mutants.py", **long, "release": "tools/release.sh --compare"}
        status, said, errors = transcript(top, env, ".ci/run", "--all-mutants")
        begun = [it.removeprefix("==== ") for it in said.splitlines() if it.startswith("==== ") and ": exit status" not in it]
        tests.same("a gate before a release", (status, errors, begun), (0, "", [f"{name}: {command}" for name, command in stages.items()]))
        wanted = [*(f"==== {it}" for it in stages), "1 processors: 403 s, N s of processors", "151 passed, 0 failed"]
        tests.same("its end", [it.partition(": exit status 0, ")[0] for it in said.splitlines()[-len(wanted):]], wanted)


def transcript_by_link(top, env):
    os.symlink(f"{top}/.ci/run", f"{top}/../linked gate")
    return transcript("/", env, f"{top}/../linked gate")


def test_failed_gate_lines(tests):
    """A gate that fails names its stages that failed, with the last 30 of the lines that say why, again at the end."""
    with repository() as (top, env):
        many = "".join(f"a {it}: FAILED, {'x' * 400}\n" for it in range(5)) + "b: NOT REFUSED\n\0c: NOT TRIED\nd: ok\n"
        write(f"{top}/many", many), write(f"{top}/more", "".join(f"e {it}: FAIL\n" for it in range(35)))
        lay_stages(top, test="cat many; echo 3 passed, 4 failed; exit 1", mutants="cat more; exit 3", release="echo 5 passed, 1 failed; exit 1",
            version="echo oh >&2; false")
        status, said, errors = transcript(top, env, ".ci/run")
        said = said.splitlines()
        tests.same("a gate that fails", (status, errors, said[0]), (1, "", "1 processors, no toolchain"))
        ends = {"bin/test": "1, 3 passed, 4 failed, 20", "rt ci": "0, 100 passed, 0 failed, by two compilers, 300",
                "bin/test, later": "0, 2 passed, 0 failed, 20", "mutants": "3, 0 passed, 1 failed, 50", "release": "1, 5 passed, 1 failed, 6"}
        why = [it[:300] for it in many.splitlines() if "ok" not in it] + [f"e {it}: FAIL" for it in range(5, 35)]
        tests.same("its end", said[-len(why) - 8:], [*(f"==== {name}: exit status {end} s, N s of processors" for name, end in ends.items()),
            "1 processors: 396 s, N s of processors", *why, "FAILED: bin/test mutants release", "110 passed, 6 failed"])
        # whatever a stage prints last, its status or the lack of a count makes the gate fail
        none = "0 passed, 1 failed"
        for last, status, counts in (
            ("echo 4 passed, 1 failed", 1, "4 passed, 1 failed"), ("echo 4 passed, 0 failed", 5, "4 passed, 0 failed"),
            ("echo 4 passed, 2 failed", 5, "4 passed, 2 failed"), ("echo 908 passed, 19 failed", 0, "908 passed, 19 failed"),
            ("echo passed, 0 failed", 0, none), ("echo 4 passed, failed", 0, none), ("echo x4 passed, 0 failed", 0, none),
            ("echo 4 passed, 0 failed; echo done", 0, none), ("true", 0, none),
        ):
            lay_stages(top, rt=f"{last}; exit {status}")
            came, said, errors = transcript(top, env, ".ci/run")
            line, failures = f"==== rt ci: exit status {status}, {counts}, 300 s, N s of processors", int(counts.split()[2]) or 1
            wanted = ["1 processors: 320 s, N s of processors", "FAILED: rt ci", f"{7 + int(counts.split()[0])} passed, {failures} failed"]
            tests.same(f"a proof that ends with '{last}' ends the gate", (came, errors, said.splitlines()[-5:]),
                (1, "", ["==== bin/test: exit status 0, 7 passed, 0 failed, 20 s, N s of processors", line, *wanted]))
        lay_stages(top, later="echo 1 passed, 1 failed; exit 1")
        said = run(top, ".ci/run", env=env)[1]
        tests.see("a suite that fails later does not end it", said.endswith("\nFAILED: bin/test, later\n143 passed, 1 failed\n"), said)


# ---- bin/test

# the suites that run first, since they take the longest, and the scripts of those that are not tests/SUITE/run.sh
FIRST = "page web python c++ trials dist refused toolchain rust tools waiting c long packages planted texts answers scripts shared journal".split()
SCRIPTS = {**{it: f"embed/{it}.sh" for it in ("c", "rust", "python", "answers", "planners")}, "c++": "embed/cplusplus.sh",
           **{it: f"shared/{it}.sh" for it in ("shared", "waiting", "journal", "snapshots", "planted")},
           "dist": "dist/run.py", "trials": "memory/trials.py",
           **{it: f"tools/run.py {it}" for it in ("tools", "scripts", "packages", "toolchain")}}


def lay_suites(top):
    """Lays all suites, which pass, each with what it needs. Returns their names in the order of --list."""
    for it in ("rt", "cc", "ar", "node", "python3"):
        write(f"{top}/path/{it}", "#!/bin/sh\n", 0o755)
    write(f"{top}/tools/product.sh", "#!/bin/sh\n[ $1 = ready ] || echo its path\n", 0o755), stand_in(f"{top}/bin/install", 5, "exit ${CANNOT:-0}")
    names = re.findall(r"(?m)^(\S+) .*\(needs: ", run(top, "bin/test", "--list")[1])
    for script in {SCRIPTS.get(it, f"{it}/run.sh").split()[0] for it in names}:
        stand_in(f"{top}/tests/{script}", 7, "echo by ${INSTALLED:-none}; echo 2 passed, 0 failed")
    return names


def test_suite_lines(tests):
    """One worker runs all suites one after another, the longest first; each has its log, and one installation serves those that need libraries."""
    with repository() as (top, env):
        names = lay_suites(top)
        status, said = run(top, "bin/test", "--list")
        stored = kit.text_of(f"{TOP}/tests/tools/suites.txt").splitlines()
        see_lines(tests, "--list is as it is stored", [f"status {status}", *said.splitlines()], ["status 0", *stored])
        ran = [*FIRST, *(it for it in names if it not in (*FIRST, "crates"))]
        lines = [line for it in ran for line in (f"{it}: running", f"{it}: 2 passed, 0 failed, 7 s, N s of a processor")]
        env = {**env, "INSTALLED": "of another run"}
        same_lines(tests, "all suites", transcript(top, env, "bin/test"), 0, [*lines, f"{2 * len(ran)} passed, 0 failed"])
        said = "its errors\nby {}\n2 passed, 0 failed\n"
        tests.same("their logs", {it: kit.text_of(f"{top}/out/test/{it}.log") for it in ran},
            {it: f"{SCRIPTS.get(it, f'{it}/run.sh')}\n{said.format(f'{top}/out/test/installed')}" for it in ran})
        log = f"bin/install --library {top}/out/test/installed\nits errors\n"
        tests.same("the log of the installation", kit.text_of(f"{top}/out/test/install.log"), log)
        transcript(top, {**env, "CANNOT": "1"}, "bin/test", "c")
        tests.same("without an installation each makes its own", kit.text_of(f"{top}/out/test/c.log"), f"embed/c.sh\n{said.format('none')}")
        tests.see("no log of an earlier run is left", not os.path.exists(f"{top}/out/test/web.log"))
        for suite, is_made in (("c", True), ("planners", True), ("memory", False), ("cli", False), ("trials", False)):
            transcript(top, env, "bin/test", suite)
            came = os.path.exists(f"{top}/out/test/install.log"), kit.text_of(f"{top}/out/test/{suite}.log").splitlines()[2]
            tests.same(f"an installation for {suite}", came, (is_made, f"by {top}/out/test/installed" if is_made else "by none"))


def test_failed_suite_lines(tests):
    """After the suites there is the end of each log with a failure, what suites skipped, what was left out and why, and the sums."""
    with repository() as (top, env):
        lay_suites(top)
        why, more = (f"{it}: FAILED\n" for it in range(19)), (f"line {it}\n" for it in range(20))
        write(f"{top}/log", "".join([*why, "\0Error of it\na: 1 failed\n", *more]))
        stand_in(f"{top}/tests/files/run.sh", 40, "cat log; echo 908 passed, 19 failed; exit 1")
        stand_in(f"{top}/tests/dist/run.py", 5, "echo a: skipped, there is no b; echo skipped: the c; echo d skip; echo 4 passed, 0 failed")
        stand_in(f"{top}/tests/cli/run.sh", 60, "echo a: ok; echo 4 passed, 0 failed; exit 2")
        lines = ["dist: running", "dist: 4 passed, 0 failed, 5 s, N s of a processor", "files: running"]
        lines += ["files: 908 passed, 19 failed, 40 s, N s of a processor"]
        log = ["its errors", *kit.text_of(f"{top}/log").splitlines(), "908 passed, 19 failed"]
        failed = ["==== files, the end of out/test/files.log", *[it for it in log if "FAILED" in it or "Error" in it], *log[-12:]]
        skipped = ["Left out inside of suites, for want of a tool:", "dist: there is no b", "dist: the c"]
        came = transcript(top, env, "bin/test", "dist", "files", "dist")
        same_lines(tests, "a suite that fails, and one that is named twice", came, 1, [*lines, *failed, *skipped, "912 passed, 19 failed"])
        lines, why = ["cli: running", "cli: 4 passed, 1 failed, 60 s, N s of a processor"], "cli: FAILED, exit status 2 after '4 passed, 0 failed'"
        lines += ["==== cli, the end of out/test/cli.log", "4 passed, 0 failed", why, "cli/run.sh", "its errors", "a: ok", "4 passed, 0 failed", why]
        same_lines(tests, "a suite that fails by its status", transcript(top, env, "bin/test", "cli"), 1, [*lines, "4 passed, 1 failed"])
        write(f"{top}/tools/product.sh", "#!/bin/sh\necho its output; echo its errors >&2\nexit 1\n", 0o755)
        reason = "the proved sources have changed since the release, so it needs the toolchain (rt): tools/release.sh proves them"
        lines = ["web: running", "web: 2 passed, 0 failed, 7 s, N s of a processor"]
        lines += ["Left out:", f"cli: {reason}", f"texts: {reason}", "2 passed, 0 failed"]
        same_lines(tests, "suites that are left out", transcript(top, env, "bin/test", "cli", "web", "texts"), 0, lines)
        tests.same("their names", kit.text_of(f"{top}/out/test/left_out"), "cli texts\n")
        unknown = f"bin/test: there is no suite or crate '{{}}'; the suites are:\n{run(top, 'bin/test', '--list')[1]}"
        for name in ("other", "*", ".", "f", "files cli"):
            same_lines(tests, f"no suite: {name}", transcript(top, env, "bin/test", "files", name), 2, ["0 passed, 1 failed"], unknown.format(name))


def test_workers(tests):
    """There is a worker for each processor, and one if their number is not known."""
    with repository() as (top, env):
        lay_suites(top)
        names = ("files", "dist", "web")
        for it in names:
            wait = 'for try in $(seq $TRIES); do [ $(ls "$MEET" | wc -l) -lt 3 ] || break; sleep 0.5; done; ls "$MEET" | wc -l'
            stand_in(f"{top}/tests/{SCRIPTS.get(it, f'{it}/run.sh')}", 0, f'echo >"$MEET/{it}"; {wait}; echo 1 passed, 0 failed')
        for text, tries, wanted in (("echo 3", 240, [3, 3, 3]), ("exit 1", 1, [1, 2, 3]), ("echo 1", 1, [1, 2, 3])):
            write(f"{top}/path/nproc", f"#!/bin/sh\necho its errors >&2\n{text}\n", 0o755)
            os.makedirs(f"{top}/{text}")
            came = transcript(top, {**env, "MEET": f"{top}/{text}", "TRIES": str(tries)}, "bin/test", *names)
            met = sorted(int(kit.text_of(f"{top}/out/test/{it}.log").splitlines()[-2]) for it in names)
            tests.same(f"workers, if nproc does '{text}'", (met, came[0], came[2], came[1].splitlines()[-1]), (wanted, 0, "", "3 passed, 0 failed"))



TESTS = (test_gate_lines, test_long_gate_lines, test_failed_gate_lines, test_suite_lines, test_failed_suite_lines, test_workers)
