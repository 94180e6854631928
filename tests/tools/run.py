#!/usr/bin/env python3
"""Tests the tools that judge others on small repositories with faults in what they judge: a mutant that changes nothing, one that does not
compile, one that only a proof's names refuse, a count that differs, stale or damaged files, a page that differs, a word too many, a suite
that fails without saying so.

    tests/tools/run.py [tools | scripts | packages | toolchain]    one of the suites of bin/test; without a word the first

Each tool has to refuse the fault with its message and exit status, beside a case that it accepts. The last line is 'N passed, M failed'.
"""
import contextlib
import os
import re
import shutil
import signal
import subprocess
import sys
import tempfile
import time

sys.path.insert(0, os.path.dirname(os.path.abspath(__file__)))
from small import TOP, Tests, lay_tools, run, write  # noqa: E402 (the path comes first)
import flows  # noqa: E402
import installs  # noqa: E402
import judges  # noqa: E402
import kit  # noqa: E402
import lines  # noqa: E402
import made  # noqa: E402
import outputs  # noqa: E402
import packed  # noqa: E402
import scripts  # noqa: E402

SOURCE = """//! Three functions on which the gate's own tools are tried.
#![tactic(auto)]

ghost use Rattle.std.specs.Prelude.{◌≡◌, ◌+◌, ◌<◌};

/// The number behind n.
pub fn successor(n: u32) -> u32
    requires { n < 100 }
    ensures { result ≡ n + 1 }
{
    n + 1
}

/// Twice n.
pub fn double(n: u32) -> u32
    requires { n < 100 }
    ensures { result ≡ n + n }
{
    n + n
}

/// Three more than n.
pub fn third_behind(n: u32) -> u32
    requires { n < 100 }
    ensures { result ≡ n + 3 }
{
    n + 3
}
"""
EDITS = {
    "a-missing-name": ("    n + 3", "    missing(n)"),
    "adds-two": ("    n + 1", "    n + 2"),
    "comment": ("    n + n", "    n + n // unchanged"),
}
# the message for each, tried together
WANTED = {"adds-two": "refused: ", "comment": "NOT REFUSED: the crate is still proved", "a-missing-name": "NOT TRIED: BAD EDIT: "}
# faults in the places that repeat the table of codes: a file, a text in it, what replaces it, and what is said of the file
SAYS = "it says '{}' and not '{}': tools/table.py --write"
PLACES = (
    ("a changed number", "python/hull.py", "    NO_SEAT = 36\n", "    NO_SEAT = 37\n", "codes: " + SAYS.format("NO_SEAT = 37", "NO_SEAT = 36")),
    ("a missing line", "include/hull_common.h", '    case HULL_EDGE: return "HULL_EDGE";\n', "",
     "names: " + SAYS.format('case HULL_BOX: return "HULL_BOX";', 'case HULL_EDGE: return "HULL_EDGE";')),
    ("a line too many", "rust/hull/src/raw.rs", "OLD: u32 = 69;\n", "OLD: u32 = 69;\n    pub const ONE: u32 = 1;\n",
     "codes: " + SAYS.format("pub const ONE: u32 = 1;", "")),
    ("a mark that is gone", "web/hull.js", "written by tools/table.py: codes", "", "codes occurs 0 times"),
    ("another version", "rust/hull/Cargo.toml", 'version = "', 'version = "9', "the version: " + SAYS.format("9{version}", "{version}")),
    ("a version that is there twice", "web/package.json", '    "version": "', '    "version": "1",\n    "version": "', "the version occurs 2 times"),
    ("a case unlike the others", "crates/hull_reply/src/request.rt", "Call::Place(point_of", "Call::Add(point_of",
     "a case for each kind: " + SAYS.format("Kind::Place => Ok(Request::Call(Call::Add(point_of(x, y)?))),",
     "Kind::Place => Ok(Request::Call(Call::Place(point_of(x, y)?))),")),
    ("cases with no end", "crates/hull_reply/src/reply.rt", "end of what tools/table.py writes", "", "a case for each reply occurs 0 times"),
    ("a case that is missing", "crates/hull_reply/specs/Encoded.antt", "Encodes r reply.Absent = IsBare code.Absent r\n", "",
     "a case for each reply: " + SAYS.format("", "Encodes r reply.Absent = IsBare code.Absent r")),
    ("a declaration changed by hand", "include/hull.h", "size_t hull_size(void);", "size_t hull_size(int a);",
     "storage: " + SAYS.format("size_t hull_size(int a);", "size_t hull_size(void);")),
)
# faults of the tables themselves: a file, a text in it, what replaces it, the beginning of what is printed, and the end
FAULTS = (
    ("a code that there is not", "interface", "codes = BOX,", "codes = BOXES,", "tables/interface.txt: FAILED, hull_polygon_box: BOXES is no code\n",
     "{one_less} passed, 1 failed\n"),
    ("a second code that there is not", "interface", "codes = NUMBER, OUT_OF_RANGE", "codes = NUMBER, OUT_OF_REACH",
     "tables/interface.txt: FAILED, hull_multiplicity: OUT_OF_REACH is no code\n", "{one_less} passed, 1 failed\n"),
    ("an argument that there is not", "interface", "takes = polygon, segment\n", "takes = polygon, line\n",
     "tables/interface.txt: argument line has no C++\n", ""),
    ("a number left out", "calls", "code 9 ABSENT", "code 90 ABSENT",
     "tables/calls.txt: FAILED, the numbers of each code don't go on from one to the next\n"
     "include/hull_common.h: FAILED, codes: it says ", " 7 failed\n"),
)


def read(path):
    with open(path, encoding="utf-8") as file:
        return file.read()


def lay_crate(top, edits):
    """Lays a repository of one crate with these of its mutants, and the tools."""
    lay_tools(top)
    write(f"{top}/crates.txt", "small:\n")
    write(f"{top}/HANDLES", "Handles allowed: none.\n")
    write(f"{top}/crates/small/src/lib.rt", SOURCE)
    write(f"{top}/crates/small/specs/Lib.antt", "")
    write(f"{top}/crates/small/proofs/Lib.antt", "")
    for name in edits:
        old, new = EDITS[name]
        write(f"{top}/crates/small/mutants/{name}.edit", f"file: src/lib.rt\nold: {old}\nnew: {new}\n")


def test_mutants(tests):
    """The toolchain itself says of a goal, of a change of nothing and of a name that is none what the tools take it to say, and of a layout."""
    with tempfile.TemporaryDirectory() as top:
        lay_crate(top, EDITS)
        tests.same("a layout", run(top, "tools/layout.py", "--write"), (0, "7 passed, 0 failed\n"))
        status, said = run(top, "tools/mutants.py", "--record", "small")
        tests.see("a run with two bad mutants fails", status == 1 and said.endswith("1 passed, 2 failed\n"), said)
        for name, wanted in WANTED.items():
            tests.see(f"{name}, in a group with the others: {wanted}", f"mutant small/{name}.edit: {wanted}" in said, said)
        has_row = os.path.exists(f"{top}/.ci/mutants.txt") and "small" in read(f"{top}/.ci/mutants.txt")
        tests.see("a crate with bad mutants is not recorded", not has_row)
        write(f"{top}/crates/small/src/lib.rt", SOURCE.replace("    n + 1", "   missing(n)"))
        tests.refuses("a crate that is not proved", "not proved without any change: small", top, "tools/mutants.py", "--changed")
        tests.refuses("another layout", "crates/small/src/lib.rt: FAILED, not in the layout of rt fmt", top, "tools/layout.py")


def test_suites(tests):
    """bin/test counts a suite that fails without saying so, one that says nothing, and refuses a name that it does not know."""
    with tempfile.TemporaryDirectory() as top:
        lay_tools(top)
        suite = f"{top}/tests/files/run.sh"
        write(suite, "#!/bin/sh\necho 3 passed, 0 failed\n", 0o755)
        status, said = run(top, "bin/test", "files")
        tests.see("a suite that passes", status == 0 and said.endswith("\n3 passed, 0 failed\n") and "====" not in said, said)
        for what, text in (("a status that is not 0", "echo 3 passed, 0 failed; exit 1"), ("no last line", "echo well; exit 0"),
                           ("half a last line", "echo 3 passed"), ("no count", "echo passed, 0 failed"),
                           ("words for counts", "echo all passed, none failed"),
                           ("a last line that is not the last", "echo 3 passed, 0 failed; echo well"),
                           ("a failure", "echo it: FAILED; echo 3 passed, 1 failed; exit 1")):
            write(suite, f"#!/bin/sh\n{text}\n", 0o755)
            count = 3 if "exit 1" in text else 0
            tests.refuses(f"a suite with {what}", f"\n{count} passed, 1 failed\n", top, "bin/test", "files")
            end = "files: FAILED, exit status 0, with no last line of counts\n"
            tests.same("its log", read(f"{top}/out/test/files.log").endswith(end), "FAILED" not in text and "exit 1" not in text)
        write(suite, "#!/bin/sh\nkill -9 $PPID; echo 3 passed, 0 failed\n", 0o755)
        tests.refuses("a suite that ends its runner", "0 passed, 1 failed", top, "bin/test", "files")
        write(suite, "#!/bin/sh\necho 'x: skipped, there is no y'; echo 0 passed, 0 failed\n", 0o755)
        status, said = run(top, "bin/test", "files")
        tests.see("nothing that passes is a failure, and what is skipped is named", status == 1 and "files: there is no y\n0 passed, 0 failed\n" in said, said)
        write(suite, "#!/bin/sh\nfor it in $(seq 60); do echo \"a test: skipped, no $it\"; done; echo 2 passed, 0 failed\n", 0o755)
        wanted = "".join(f"files: no {it}\n" for it in range(1, 40))
        tests.see("at most 40 lines of what is left out", f"for want of a tool:\n{wanted}2 passed, 0 failed\n" in run(top, "bin/test", "files")[1])
        write(suite, "#!/bin/sh\nsleep 0; echo here $PWD; echo 2 passed, 0 failed\n", 0o755)
        write(f"{top}/tests/cli/run.sh", "#!/bin/sh\necho 4 passed, 1 failed; exit 1\n", 0o755)
        write(f"{top}/tools/product.sh", "#!/bin/sh\necho here\n", 0o755)
        status, said = run(top, "bin/test", "files", "cli")
        tests.see("two suites are summed", status == 1 and said.endswith("\n6 passed, 1 failed\n") and "==== cli, the end of out/test/cli.log" in said, said)
        write(f"{top}/tests/readme/run.sh", "#!/bin/sh\necho 1 passed, 0 failed\n", 0o755)
        status, said = run(top, "bin/test", "cli", "readme", "files")
        tests.see("three of which the first fails", status == 1 and said.endswith("\n7 passed, 1 failed\n"), said)
        write(f"{top}/path/nproc", "#!/bin/sh\necho 3\n", 0o755)
        said = run(top, "bin/test", "cli", "readme", "files", env={"PATH": f"{top}/path:{os.environ['PATH']}"})[1]
        tests.see("by three workers, of which none says what others have taken", "mkdir" not in said, said)
        tests.same("which run is said", sorted(re.findall(r"(?m)^(\w+): running$", said)), ["cli", "files", "readme"])
        tests.see("each has its log", read(f"{top}/out/test/files.log") == f"here {top}\n2 passed, 0 failed\n" and "4 passed" in read(f"{top}/out/test/cli.log"))
        write(f"{top}/tests/readme/run.sh", "#!/bin/sh\necho 1 passed, 3 failed; exit 1\n", 0o755)
        status, said = run("/", f"{top}/bin/test", "cli", "readme", "files")
        tests.see("from another folder, with several failures", status == 1 and said.endswith("\n7 passed, 4 failed\n"), said)
        os.symlink(f"{top}/bin/test", f"{top}/linked")
        tests.see("by a link", run("/", f"{top}/linked", "files")[1].endswith("\n2 passed, 0 failed\n"))
        write(f"{top}/tools/product.sh", "#!/bin/sh\nexit 1\n", 0o755)
        status, said = run(top, "bin/test", "files", "cli")
        tests.see("one that cannot run is left out, with why", status == 0 and "Left out:\ncli: the proved sources have changed" in said
                  and said.endswith("\n2 passed, 0 failed\n") and read(f"{top}/out/test/left_out") == "cli\n", said)
        status, said = run(top, "bin/test", "--list")
        tests.see("--list", status == 0 and all(re.search(rf"(?m)^{it} .*\(needs: ", said) for it in ("files", "cli", "dist", "tools")), said)
        text = re.match(r"#!.*\n((?:#.*\n)*)", read(f"{TOP}/bin/test"))[1]
        for word in ("--help", "-h"):
            tests.same(word, run(top, "bin/test", word), (0, re.sub(r"(?m)^# ?", "", text)))
        status, said = run(top, "bin/test", "other")
        tests.see("a name that is no suite", status == 2 and "there is no suite or crate 'other'" in said
                  and said.endswith("\n0 passed, 1 failed\n"), said)
        tests.same("of which only the count is output", run(top, "sh", "-c", "bin/test other 2>/dev/null"), (2, "0 passed, 1 failed\n"))


# what bin/test itself calls, and what a suite needs that is not there with it
CALLED = "awk cat cut date dirname grep head mkdir nproc readlink rm sed seq sh tail tr uname".split()
REASONS = {"python3": "it needs Python 3: apt-get install python3", "node": "it needs Node: apt-get install nodejs",
    "rt": "it needs the Rattle toolchain (rt)",
           "cc": "it needs a C compiler: apt-get install gcc libc6-dev", "linked": "it needs a C compiler: apt-get install gcc libc6-dev",
           "program": "the proved sources have changed since the release, so it needs the toolchain (rt): tools/release.sh proves them"}


def test_left_out(tests):
    """bin/test leaves out each suite whose needs are not met, with the reason, and runs it when they are; `crates` runs by name only."""
    with tempfile.TemporaryDirectory() as top:
        lay_tools(top)
        for it in CALLED:
            os.makedirs(f"{top}/path", exist_ok=True), os.symlink(shutil.which(it), f"{top}/path/{it}")
        env, product = {"PATH": f"{top}/path"}, '#!/bin/sh\ncase " $RIGHT " in *" $1 $2 "*) ;; *) exit 1 ;; esac\n'
        write(f"{top}/tools/product.sh", product, 0o755)
        needs = dict(re.findall(r"(?m)^(\S+) .*\(needs: (\w+)\)$", run(top, "bin/test", "--list", env=env)[1]))
        status, said = run(top, "bin/test", env=env)
        wanted = "".join(f"{name}: {REASONS[need]}\n" for name, need in needs.items() if name != "crates")
        tests.same("with nothing all suites but crates are left out", (status, said), (1, f"Left out:\n{wanted}0 passed, 0 failed\n"))
        tests.same("their names", read(f"{top}/out/test/left_out").split(), [it for it in needs if it != "crates"])
        for it in ("embed/c", "cli/run", "memory/run", "crates/run", "web/run", "files/run", "refused/run"):
            write(f"{top}/tests/{it}.sh", f"#!/bin/sh\necho {it} $*; echo 1 passed, 0 failed\n", 0o755)
        mine, changed = os.uname().machine, REASONS["program"]
        for suite, tools, right, why in (
            ("c", ["cc"], "", "it needs ar: apt-get install binutils"), ("c", ["cc", "ar"], "", changed),
            ("c", ["cc", "ar"], f"ready {mine}/libhull.a", changed), ("c", ["cc", "ar"], f"ready {mine}/libhull_shared.a", changed),
            ("c", ["cc", "ar"], f"ready {mine}/libhull.a ready {mine}/libhull_shared.a", None),
            ("cli", [], "program hullbook", changed), ("cli", [], "program hulldraw", changed), ("cli", [], "program hullbook program hulldraw",
             None),
            ("memory", ["cc"], "", "it needs the program as the toolchain links it here"), ("memory", [], "linked hullbook", REASONS["linked"]),
            ("memory", ["cc"], "linked hullbook", None), ("crates", [], "", REASONS["rt"]), ("crates", ["rt"], "", None),
            ("web", ["node"], "", None), ("files", ["python3"], "", None), ("refused", ["rt"], "", None),
        ):
            for it in tools:
                write(f"{top}/path/{it}", "#!/bin/sh\n", 0o755)
            status, said = run(top, "bin/test", suite, env={**env, "RIGHT": right})
            is_right = f"Left out:\n{suite}: {why}" in said and status == 1 if why else status == 0 and said.endswith("\n1 passed, 0 failed\n")
            tests.see(f"{suite} with {tools} and '{right}': {why}", is_right, f"{status}: {said}")
            for it in tools:
                os.remove(f"{top}/path/{it}")
        os.makedirs(f"{top}/crates/small")
        status, said = run(top, "bin/test", "small", env=env)
        tests.see("a crate without the toolchain", status == 2 and "there is no suite or crate 'small'" in said
                  and said.endswith("\n0 passed, 1 failed\n"), said)
        write(f"{top}/path/rt", "#!/bin/sh\n", 0o755)
        tests.accepts("with it", top, "bin/test", "small", env=env)
        tests.same("its log", read(f"{top}/out/test/crate-small.log"), "crates/run small\n1 passed, 0 failed\n")


def test_each_suite(tests):
    """Each suite that bin/test lists runs a script of tests/ of its own, with its name where several have one."""
    with tempfile.TemporaryDirectory() as top:
        lay_tools(top)
        for at, _, names in os.walk(f"{TOP}/tests"):
            for it in (os.path.relpath(f"{at}/{it}", TOP) for it in names if os.access(f"{at}/{it}", os.X_OK)):
                write(f"{top}/{it}", f"#!/bin/sh\necho {it} $*\necho ${{INSTALLED:-}}\necho 1 passed, 0 failed\n", 0o755)
        for it in ("rt", "cc", "ar", "node"):
            write(f"{top}/path/{it}", "#!/bin/sh\n", 0o755)
        write(f"{top}/tools/product.sh", "#!/bin/sh\n", 0o755), write(f"{top}/bin/install", f"#!/bin/sh\necho $* >>{top}/asked\n", 0o755)
        env = {"PATH": f"{top}/path:{os.environ['PATH']}"}
        suites = re.findall(r"(?m)^(\S+) .*\(needs: ", run(top, "bin/test", "--list", env=env)[1])
        status, said = run(top, "bin/test", *suites, env=env)
        tests.see("each suite runs", status == 0 and said.endswith(f"\n{len(suites)} passed, 0 failed\n") and len(suites) > 25, said)
        ran = {it: read(f"{top}/out/test/{it}.log").splitlines()[0].strip() for it in suites}
        tests.same("each its own", len(set(ran.values())), len(suites))
        named = {it: name for it, name in ran.items() if it not in name and it != "c++"}
        tests.same("by its name", named, {})
        scripts = {it for it in kit.files_below(f"{top}/tests") if f"tests/{it}" not in {name.split()[0] for name in ran.values()}}
        tests.same("what no suite runs is run by another script or by hand", scripts, {f"{it}.sh" for it in ("pictures/shots", "roots/run",
            "shared/gate_orders", "shared/lost_wakeups", "wakeups/run")})
        tests.same("the libraries are installed once", read(f"{top}/asked"), f"--library {top}/out/test/installed\n")
        tests.same("for all suites", {read(f"{top}/out/test/{it}.log").splitlines()[1] for it in suites}, {f"{top}/out/test/installed"})
        write(f"{top}/bin/install", "#!/bin/sh\nexit 1\n", 0o755)
        run(top, "bin/test", "c", env=env)
        tests.same("or by each", read(f"{top}/out/test/c.log").splitlines()[1], "")
        os.remove(f"{top}/asked") if os.path.exists(f"{top}/asked") else None
        run(top, "bin/test", "files", env=env)
        tests.see("and for none that needs none", not os.path.exists(f"{top}/asked"))


def test_two_runs(tests):
    """A run of bin/test beside another is refused, and changes nothing of the other's; one after it is not."""
    if not shutil.which("flock"):
        print("two runs of bin/test: skipped, there is no flock")
        return
    with tempfile.TemporaryDirectory() as top:
        lay_tools(top)
        suite = f"touch {top}/begun; for try in $(seq 200); do [ -e {top}/go ] || sleep 0.1; done; echo 3 passed, 0 failed"
        write(f"{top}/tests/files/run.sh", f"#!/bin/sh\n{suite}\n", 0o755)
        first = subprocess.Popen(["bin/test", "files"], cwd=top, stdin=subprocess.DEVNULL, stdout=subprocess.PIPE, text=True)
        while not os.path.exists(f"{top}/begun"):
            time.sleep(0.02)
        tests.refuses("a run beside another", "another run writes to out/test", top, "bin/test", "files", status=2)
        write(f"{top}/go", "")
        said = first.communicate(timeout=60)[0]
        tests.see("which ends as it does with no second one", first.returncode == 0 and said.endswith("\n3 passed, 0 failed\n"), said)
        tests.accepts("a run after it", top, "bin/test", "files")
        shutil.rmtree(f"{top}/out"), write(f"{top}/out", "no folder\n")
        tests.refuses("where nothing can be written", f"bin/test: {top}/out/test can't be written", top, "bin/test", "files", status=2)


def test_reports(tests):
    """bin/test prints each suite's counts and seconds, and of one that fails the tests that failed and the end; an interrupt ends all suites."""
    with tempfile.TemporaryDirectory() as top:
        lay_tools(top)
        suite = "cat; echo its errors >&2; echo early: FAILED, why; printf '\\000\\n'; seq 100 140; echo 5 passed, 1 failed; exit 1"
        write(f"{top}/tests/files/run.sh", f"#!/bin/sh\n{suite}\n", 0o755)
        said = run(top, "sh", "-c", "echo typed | bin/test files")[1]
        tests.see("the line of a suite", re.search(r"(?m)^files: 5 passed, 1 failed, \d+ s, \d+ s of a processor$", said), said)
        end = "".join(f"{it}\n" for it in range(130, 141))
        end = f"==== files, the end of out/test/files.log\nearly: FAILED, why\n5 passed, 1 failed\n{end}5 passed, 1 failed\n5 passed, 1 failed\n"
        tests.see("what failed, and the end", end in said, said)
        log = read(f"{top}/out/test/files.log")
        tests.see("its log has its errors, and it reads nothing", log.startswith("its errors\nearly") and "typed" not in log, log)
        busy = "import time\nwhile time.process_time() < 2.2: pass\n"
        write(f"{top}/tests/files/run.sh", f"#!/bin/sh\n{sys.executable} -c '{busy}'\necho 1 passed, 0 failed\n", 0o755)
        said = run(top, "bin/test", "files")[1]
        seconds = [int(it) for it in re.search(r"(?m)^files: 1 passed, 0 failed, (\d+) s, (\d+) s of a processor$", said).groups()]
        write(f"{top}/times", "0m0.25s 0m0.50s\n1m2.500000s 3m4.250000s\n")
        script = 'eval "$(sed -n "/^processor_seconds/,/^}/p" bin/test)"; processor_seconds times'
        tests.same("seconds of minutes", run(top, "sh", "-c", script), (0, "246"))
        tests.see("its seconds", 1 <= seconds[0] < 3600 and 2 <= seconds[1] < 60, seconds)
        write(f"{top}/tests/files/run.sh", f"#!/bin/sh\necho $$ >{top}/pid.new && mv {top}/pid.new {top}/pid; sleep 1000 & wait\n", 0o755)
        for number in (signal.SIGINT, signal.SIGTERM):
            ran = subprocess.Popen(["bin/test", "files"], cwd=top, stdin=subprocess.DEVNULL, stdout=subprocess.DEVNULL, stderr=subprocess.DEVNULL,
                                   start_new_session=True, preexec_fn=lambda: signal.signal(signal.SIGINT, signal.SIG_DFL))
            while not os.path.exists(f"{top}/pid"):
                time.sleep(0.02)
            pid, until = read(f"{top}/pid").strip(), time.monotonic() + 60
            os.kill(ran.pid, number)
            status = ran.wait(60)
            while os.path.exists(f"/proc/{pid}/cwd") and time.monotonic() < until:
                time.sleep(0.02)
            tests.see(f"{number.name} ends its suites, too", status != 0 and not os.path.exists(f"/proc/{pid}/cwd"), status)
            os.remove(f"{top}/pid")
            with contextlib.suppress(ProcessLookupError):
                os.killpg(ran.pid, signal.SIGKILL)


# what the gate runs, and a stage that passes
COMMANDS = ("bin/test", "tools/mutants.py", "tools/release.sh", "path/rt", "tools/product.sh")
GOOD = "#!/bin/sh\nmkdir -p out/test\n: >out/test/left_out\necho 1 passed, 0 failed\n"


def test_gate(tests):
    """.ci/run fails if any of its stages fails, whatever that prints last."""
    with tempfile.TemporaryDirectory() as top:
        lay_tools(top)
        good, commands, env = GOOD, COMMANDS, {"PATH": f"{top}/path:{os.environ['PATH']}"}
        for it in commands:
            write(f"{top}/{it}", good, 0o755)
        status, said = run(top, ".ci/run", env=env)
        tests.see("a gate whose stages pass", status == 0 and said.endswith("\n5 passed, 0 failed\n"), said)
        for it in commands:
            write(f"{top}/{it}", f"#!/bin/sh\necho {it} $*${{PROVE:+ proves}} >>asked\nmkdir -p out/test\necho trials web >out/test/left_out\necho 1 passed, 0 failed\n",
                0o755)
        long = [*(f"tests/shared/{it}" for it in ("shared.sh 100000", "snapshots.sh 100000", "waiting.sh long", "journal.sh 150 200000")),
                *(f"tests/embed/{it}.sh long" for it in ("c", "rust", "python"))]
        for it in long:
            it = it.split()[0]
            write(f"{top}/{it}", f"#!/bin/sh\necho {it} $*${{PROVE:+ proves}} >>asked\necho 1 passed, 0 failed\n", 0o755)
        for words, later in (((), ["tools/mutants.py --changed --known", "tools/release.sh --changed"]),
                             (("--all-mutants",), ["tools/mutants.py", *long, "tools/release.sh --compare"])):
            write(f"{top}/asked", "")
            run(top, ".ci/run", *words, env=env)
            asked = [it.strip() for it in read(f"{top}/asked").splitlines() if not it.startswith("tools/product.sh")]
            tests.same(f"the stages of .ci/run {words}", asked, ["path/rt version", "bin/test", "path/rt ci",
                       *(f"{it} proves" for it in ["bin/test memory pictures refused soak texts trials web", *later])])
        for it in commands:
            write(f"{top}/{it}", good, 0o755)
        for it in commands[:4]:
            for what, text in (("fails", "echo 4 passed, 1 failed; exit 1"), ("ends with status 3", "echo 4 passed, 0 failed; exit 3"), ("is silent", "exit 0")):
                write(f"{top}/{it}", f"#!/bin/sh\nmkdir -p out/test\n: >out/test/left_out\n{text}\n", 0o755)
                tests.refuses(f"a gate in which {it} {what}", "FAILED:", top, ".ci/run", env=env)
            write(f"{top}/{it}", good, 0o755)
        failed = f"a test: FAILED, {'1' * 200}, not 0"
        write(f"{top}/bin/test", good.replace("echo 1 passed",
            f"echo '{failed}{'x' * 300}'; echo '{failed}'; seq 1000; echo 1 passed").replace("0 failed", "1 failed"), 0o755)
        end = f"{(failed + 'x' * 300)[:300]}\n{failed}\nFAILED: bin/test bin/test, later\n"
        tests.refuses("the end of its output names the test that failed", end, top, ".ci/run", env=env)


def test_gate_after_the_proof(tests):
    """.ci/run keeps what `rt ci` linked, ends if that fails, and leaves nothing."""
    with tempfile.TemporaryDirectory() as top:
        lay_tools(top)
        env = {"PATH": f"{top}/path:{os.environ['PATH']}"}
        for it in COMMANDS:
            write(f"{top}/{it}", GOOD, 0o755)
        products = lambda: [it.strip() for it in read(f"{top}/asked").splitlines() if it.startswith("tools/product.sh")]
        for has_object, is_ready in ((True, True), (False, False)):
            for it in ("hullbook", "hulldraw"):
                write(f"{top}/crates/{it}/out/{it}", "program\n")
                write(f"{top}/crates/{it}/out/{it}.o", "object\n") if has_object else os.remove(f"{top}/crates/{it}/out/{it}.o")
            write(f"{top}/asked", ""), write(f"{top}/tools/product.sh",
                f"#!/bin/sh\necho tools/product.sh $1 $2 >>asked\n[ $1 != ready ] || {str(is_ready).lower()}\n", 0o755)
            run(top, ".ci/run", env=env)
            wanted = [f"made {it}" if has_object else f"make x86_64/{it}" for it in ("hullbook", "hulldraw")]
            wanted += [f"{word} x86_64/{it}.a" for it in ("libhull", "libhull_shared") for word in ("ready", "make")[: 2 - is_ready]]
            tests.same(f"what is kept of the proof {'with' if has_object else 'without'} objects", products(),
                [f"tools/product.sh {it}" for it in wanted])
        for it in COMMANDS[:4]:
            failed = "3 passed, 1 failed; exit 1" if it == "path/rt" else "1 passed, 0 failed"
            write(f"{top}/{it}", f"#!/bin/sh\necho {it} $* >>asked\necho {failed}\n", 0o755), write(f"{top}/asked", "")
        tests.refuses("a proof that fails", "3 passed, 1 failed", top, ".ci/run", env=env)
        tests.same("ends the gate", [it.strip() for it in read(f"{top}/asked").splitlines()], ["path/rt version", "bin/test", "path/rt ci"])
        for it in COMMANDS:
            write(f"{top}/{it}", GOOD.replace("echo 1", "echo 0"), 0o755)
        tests.see("a gate with no test", run(top, ".ci/run", env=env)[0] == 1)
        for it in COMMANDS:
            write(f"{top}/{it}", GOOD, 0o755)
        env["TMPDIR"] = f"{top}/temporary"
        os.makedirs(env["TMPDIR"])
        tests.accepts("one that passes", top, ".ci/run", env=env)
        tests.same("leaves nothing", os.listdir(env["TMPDIR"]), [])


def test_tables(tests):
    """Each place that repeats the table of calls fails if it differs, and so do the tables if they contradict themselves."""
    with tempfile.TemporaryDirectory() as top:
        if not judges.lay_places(top):
            print("skipped: the table's places: this is no checkout of git")
            return
        count = int(run(top, "tools/table.py")[1].partition(" ")[0])
        version, texts = read(f"{TOP}/VERSION").strip(), {path: read(f"{TOP}/{path}") for _, path, *_ in PLACES}
        for what, path, old, new, _ in PLACES:
            tests.see(f"{what}: the text is there", old in texts[path])
            write(f"{top}/{path}", texts[path].replace(old, new, 1))
        wanted = [f"{path}: FAILED, {said.replace('{version}', version)}" for _, path, _, _, said in PLACES]
        status, said = run(top, "tools/table.py")
        tests.same("each is named", (status, sorted(said.splitlines())),
            (1, sorted([*wanted, f"{count - len(PLACES)} passed, {len(PLACES)} failed"])))
        for path, text in texts.items():
            write(f"{top}/{path}", text)
        for what, name, old, new, wanted, end in FAULTS:
            text = read(f"{TOP}/tables/{name}.txt")
            write(f"{top}/tables/{name}.txt", text.replace(old, new, 1))
            status, said = run(top, "tools/table.py")
            tests.see(what, status == 1 and said.startswith(wanted) and said.endswith(end.format(one_less=count - 1)), f"status {status}: {said}")
            write(f"{top}/tables/{name}.txt", text)


SUITES = {
    "tools": (test_tables, *judges.TESTS, *outputs.TESTS, *made.TESTS, *flows.TESTS),
    "scripts": (test_suites, test_left_out, test_each_suite, test_two_runs, test_reports, test_gate,
                test_gate_after_the_proof, *scripts.TESTS, *lines.TESTS),
    "packages": (installs.test_install, installs.test_needed, installs.test_no_dpkg, installs.test_package_words, installs.test_packages,
        *packed.TESTS),
    "toolchain": (test_mutants,),
}


def main(suite="tools"):
    # the tools are started hundreds of times: by this interpreter itself, and not by what chooses one for each start, as pyenv does
    os.environ["PATH"] = f"{os.path.dirname(sys.executable)}:{os.environ['PATH']}"
    tests = Tests()
    for test in SUITES[suite]:
        test(tests)
    print(f"{tests.passed} passed, {tests.failed} failed")
    return 1 if tests.failed else 0


if __name__ == "__main__":
    sys.exit(main(*sys.argv[1:]))
