"""Tests tools/mutants.py as it is run, with a stand-in for the toolchain that judges by the texts of the sources: which mutants are refused,
tried again by themselves, recorded and passed over, and with what status each run ends."""
import contextlib
import io
import os
import random
import re
import subprocess
import sys
import tempfile

import kit
import mutants
from small import lay_tools, run, write

SOURCE = """//! Functions.
#![tactic(auto)]

pub fn first() -> u32 {
    one + 1
}

pub fn second() -> u32 {
    two + 2
}

pub fn third() -> u32 {
    three + 3
}
"""
# of a crate: each function is proved, but for those whose text has WRONG; MISSING is no name, and HIDDEN refuses the whole crate alone
RT = f"#!{sys.executable} -S\n" + """import os, re, sys
words, text = sys.argv[1:], open(f"src/{'main' if os.path.exists('src/main.rt') else 'lib'}.rt").read()
named, whole = re.findall(r"(?m)^(\\w+):(.*?)(?: #.*)?$", open("../../crates.txt").read()), os.path.basename(os.getcwd())
if whole not in [it[0] for it in named] or any(low not in [it[0] for it in named[:at]] for at, it in enumerate(named) for low in it[1].split()):
    sys.exit(8)
__import__("atexit").register(lambda: print("rt: it took no time", flush=True))
with open(os.environ["ASKED"], "a") as asked:
    asked.write(" ".join(words) + "\\n")
name, only = os.path.basename(os.getcwd()), [words[at + 1] for at, it in enumerate(words[:-1]) if it == "--only"]
if words[:1] != ["check"]:
    sys.exit(9)
if "MISSING" in text:
    print("src/lib.rt:3:1: error[E0425]: cannot find MISSING in this scope")
    sys.exit(1)
if only == [""]:
    sys.exit(0)
if "SLOW" in text:
    print(f"fn {name}::first: could not tell\\nno verdict")
    sys.exit(3)
wrong = False
for function, body in re.findall(r"pub fn (\\w+)\\(.*?\\{(.*?)\\n\\}", text, re.S):
    if only and function not in only:
        continue
    if "SHAPE" in body:
        print(f"proofs/{function}/A.antt:3:1: error: `x` has no field `y`\\nfn {name}::{function}: not proved")
    elif "WRONG" in body:
        print(f"note: src/lib.rt:3:5: it is not proved that {function} is right\\nfn {name}::{function}: not proved")
    else:
        print(f"fn {name}::{function}: proved")
    wrong = wrong or "WRONG" in body or "SHAPE" in body
if not only and "HIDDEN" in text or "unchanged" in text and os.environ.get("REFUSED") == name:
    print("src/lib.rt:1:1: error: `law`: it is open")
    wrong = True
print("logic=not-proved" if wrong else "logic=proved")
sys.exit(1 if wrong else 0)
"""
# each mutant: what it replaces, by what, and what comes of it
EDITS = {
    "a-missing": ("one + 1", "MISSING + 1", "NOT TRIED: BAD EDIT: it did not reach the prover: "
        "src/lib.rt:3:1: error[E0425]: cannot find MISSING in this scope"),
    "comment": ("two + 2", "two + 2 // unchanged", "NOT REFUSED: the crate is still proved with it"),
    "goal": ("three + 3", "WRONG + 3", "refused: note: src/lib.rt:3:5: it is not proved that third is right"),
    "hidden": ("two + 2", "HIDDEN + 2", "refused: src/lib.rt:1:1: error: `law`: it is open"),
    "shape": ("one + 1", "SHAPE + 1", "NOT REFUSED BY A GOAL (a proof names what was removed): "
        "proofs/first/A.antt:3:1: error: `x` has no field `y`"),
    "slow": ("one + 1", "SLOW + 1", "NOT REFUSED BY A GOAL (at a limit of the prover's): no verdict"),
    "twice": ("pub fn", "fn", "NOT TRIED: BAD EDIT: an 'old:' text is in src/lib.rt 3 times, and not once"),
}


def report(*edits, last):
    """Returns the lines that report these mutants, each by its crate and its name, in any order, and the last line."""
    rows = [f"mutant {it}.edit: {EDITS[it.partition('/')[2]][2]}" for it in edits]
    return sorted(rows), last


class Flow:
    """A repository with these crates, each with these of the mutants."""

    def __init__(self, top, **crates):
        self.top, self.env = top, {"PATH": f"{top}/path:{os.environ['PATH']}", "ASKED": f"{top}/asked"}
        lay_tools(top)
        write(f"{top}/path/rt", RT, 0o755)
        write(f"{top}/asked", "")
        write(f"{top}/crates.txt", "".join(f"{it}:\n" for it in crates))
        for name, edits in crates.items():
            write(f"{top}/crates/{name}/src/lib.rt", SOURCE)
            for edit in edits:
                self.lay(name, edit)

    def lay(self, crate, edit, folder="mutants"):
        old, new, _ = EDITS[edit]
        write(f"{self.top}/crates/{crate}/{folder}/{edit}.edit", f"file: src/lib.rt\nold: {old}\nnew: {new}\n")

    def run(self, *words, **env):
        return run(self.top, "tools/mutants.py", *words, env={**self.env, **env})

    def report(self, *words, **env):
        """Returns the status of a run, its lines but the last in order of the alphabet, and the last."""
        status, said = self.run(*words, **env)
        *lines, last = said.splitlines()
        return status, (sorted(lines), last)

    def recorded(self):
        return [it.split()[0] for it in kit.text_of(f"{self.top}/.ci/mutants.txt").splitlines() if not it.startswith("#")]

    def asked(self):
        return kit.text_of(f"{self.top}/asked").splitlines()


def test_each_outcome(tests):
    """What comes of each mutant, in a group with others and by itself."""
    with tempfile.TemporaryDirectory() as top:
        flow = Flow(top, small=EDITS)
        several = [f"small/{it}" for it in EDITS]
        tests.same("mutants of each kind", flow.report("--record"), (1, report(*several, last="2 passed, 5 failed")))
        for name in ("goal", "hidden", "shape"):
            status = 1 if name == "shape" else 0
            last = f"{1 - status} passed, {status} failed"
            tests.same(f"{name} by itself", flow.report(f"small/{name}"), (status, report(f"small/{name}", last=last)))
        tests.same("nothing is recorded", flow.recorded(), [])
        none = "mutant small/none.edit: NOT TRIED: BAD EDIT: no file NAME.edit\n0 passed, 1 failed\n"
        tests.same("a name of no mutant", flow.run("small/none"), (1, none))
        tests.same("the sources are as they were", kit.text_of(f"{top}/crates/small/src/lib.rt"), SOURCE)
        tests.same("no workspace is left", [it for it in os.listdir(f"{top}/crates/small/out") if it.startswith("workspace")], [])
        write(f"{top}/asked", "")
        tests.same("--compile", flow.run("--compile", "small"), (1, f"mutant small/twice.edit: FAILED: {EDITS['twice'][2][11:]}\n"
            f"mutant small/a-missing.edit: FAILED: {EDITS['a-missing'][2].partition('prover: ')[2]}\n5 passed, 2 failed\n"))
        tests.same("it proves nothing but the crate without changes", {*flow.asked()}, {"check", "check --jobs 1 --only "})
        tests.same("--compile of one", flow.run("--compile", "small/goal"), (0, "1 passed, 0 failed\n"))


def test_checks(tests):
    """Which checks a run asks for: of the crate, of a group's functions with up to three others, and of each that a group does not show by itself."""
    with tempfile.TemporaryDirectory() as top:
        flow = Flow(top, small=["goal", "hidden"], other=["slow", "comment"])
        check, begun = "check --jobs 1", ["check", "check --jobs 1"]
        only = lambda *names: "".join(f" --only {it}" for it in names)
        tests.same("a goal and what only the whole crate shows", flow.run("small")[0], 0)
        tests.same("are tried in a group, and one of them again", flow.asked(), [*begun, check + only("second", "third", "first"),
            check + only("second", "first", "third"), check])
        write(f"{top}/asked", ""), flow.run("other")
        tests.same("a group that does not get to its end is halved", flow.asked(), [*begun, check + only("first", "second", "third"),
            *[check + only("second", "first", "third"), check], *[check + only("first", "second", "third"), check]])
        write(f"{top}/asked", ""), flow.run("--compile", "other")
        tests.same("--compile", flow.asked(), ["check", f"{check} --only "])


def test_records(tests):
    """A crate is recorded if all of its mutants are refused, and tried again after its sources or mutants have changed."""
    with tempfile.TemporaryDirectory() as top:
        flow = Flow(top, low=["goal"], high=["hidden"], bare=[], bad=["goal", "comment"])
        flow.lay("low", "hidden", "must-fail")
        everything = ("low/goal", "low/hidden", "high/hidden", "bad/goal", "bad/comment")
        status, said = flow.run("--record")
        *lines, last = said.splitlines()
        tests.same("one crate of three has a bad mutant", (status, (sorted(lines), last)), (1, report(*everything, last="4 passed, 1 failed")))
        tests.same("those with most mutants are reported first", [*dict.fromkeys(re.findall(r"mutant (\w+)/", said))], ["low", "bad", "high"])
        tests.same("the two others are recorded", flow.recorded(), ["high", "low"])
        head = "# of each crate the checksum of its sources and mutants at which every mutant was refused; tools/mutants.py --record writes this file"
        rows = kit.text_of(f"{top}/.ci/mutants.txt").splitlines()
        tests.see("each in a row", rows[0] == head and all(re.fullmatch(r"(high|low) [0-9a-f]{32}", it) for it in rows[1:]), rows)
        os.remove(f"{top}/crates/bad/mutants/comment.edit")
        tests.same("one of them by name", flow.report("--record", "bad/goal"), (0, report("bad/goal", last="1 passed, 0 failed")))
        tests.same("does not record its crate", flow.recorded(), ["high", "low"])
        before = len(flow.asked())
        unchanged = "no crate with mutants differs from the record .ci/mutants.txt\n2 passed, 0 failed\n"
        tests.same("--known tries no crate that is not recorded", flow.run("--changed", "--known"),
            (0, f"not in the record, and tried only by --record: bad\n{unchanged}"))
        tests.same("and asks for no check", len(flow.asked()), before)
        tests.same("--changed tries it", flow.report("--changed"), (0, report("bad/goal", last="1 passed, 0 failed")))
        tests.same("it records nothing", flow.recorded(), ["high", "low"])
        tests.same("--record of one", flow.report("--record", "bad"), (0, report("bad/goal", last="1 passed, 0 failed")))
        tests.same("keeps the others", flow.recorded(), ["bad", "high", "low"])
        for change in ("crates/low/src/lib.rt", "crates/low/mutants/goal.edit"):
            text = kit.text_of(f"{top}/{change}")
            write(f"{top}/{change}", text.replace("file:", "file: ").replace("//! Functions", "//! More"))
            tests.same(f"{change} is changed", flow.report("--changed", "--known"), (0, report("low/goal", "low/hidden", last="2 passed, 0 failed")))
            write(f"{top}/{change}", text)
        flow.lay("low", "comment")
        tests.same("a mutant more", flow.report("--changed"), (1, report("low/goal", "low/hidden", "low/comment", last="2 passed, 1 failed")))
        os.remove(f"{top}/crates/low/mutants/comment.edit")
        write(f"{top}/crates.txt", "low:\nhigh:\nbad:\n")
        write(f"{top}/.ci/mutants.txt", kit.text_of(f"{top}/.ci/mutants.txt") + "gone 1234\n")
        flow.run("--record", "low")
        tests.same("a crate that is gone is not kept", flow.recorded(), ["bad", "high", "low"])
        tests.same("what is recorded has not changed", flow.run("--changed"), (0, unchanged.replace("2 passed", "3 passed")))


def test_faults_of_runs(tests):
    """A crate that is not proved as it is, has no mutants, or is none fails the run."""
    with tempfile.TemporaryDirectory() as top:
        flow = Flow(top, small=["goal", "comment"], bare=[])
        for words, status, wanted in ((("none",), 2, "tools/mutants.py: there is no crate none\n0 passed, 1 failed\n"),
                                      (("small/goal", "none/goal"), 2, "tools/mutants.py: there is no crate none\n0 passed, 1 failed\n"),
                                      (("bare",), 1, "0 passed, 0 failed\n"), (("--compile", "bare"), 1, "0 passed, 0 failed\n")):
            tests.same(f"{words}", flow.run(*words), (status, wanted))
        refused = "mutant small/{0}: NOT TRIED: it is refused without any change\n0 passed, 1 failed\n".format("the crate itself")
        tests.same("a crate that is refused with a comment", flow.run("small", REFUSED="small"), (1, refused))
        write(f"{top}/crates/small/src/lib.rt", SOURCE.replace("one", "WRONG"))
        why = "note: src/lib.rt:3:5: it is not proved that first is right\nfn small::first: not proved\n" \
              "fn small::second: proved\nfn small::third: proved\n" \
              "logic=not-proved\nrt: it took no time\nnot proved without any change: small\n0 passed, 1 failed\n"
        for word in ("--record", "--compile"):
            tests.same(f"a crate that is not proved, and why: {word}", flow.run(word, "small"), (1, why))
        tests.same("is not recorded", flow.recorded(), [])
        write(f"{top}/crates/small/src/lib.rt", SOURCE)
        write(f"{top}/crates/small/mutants/notes.txt", "file: src/lib.rt\nold: one + 1\nnew: WRONG + 1\n")
        os.remove(f"{top}/crates/small/mutants/comment.edit")
        status, (rows, last) = flow.report("small")
        notes = "mutant small/notes.txt: NOT TRIED: BAD EDIT: no file NAME.edit"
        tests.same("a file that is no .edit", (status, rows, last), (1, report("small/goal", last="")[0] + [notes], "1 passed, 1 failed"))
    with tempfile.TemporaryDirectory() as top:
        flow = Flow(top, low=[], middle=[], side=[], high=["goal"])
        write(f"{top}/crates.txt", "# four crates\nlow:\nmiddle: low # below it\n\nside: low # and not middle\nhigh: side middle\n")
        script = "import sys; sys.path.insert(0, 'tools'); import kit; print({k: [low.name for low in it.below()] for k, it in kit.crates().items()})"
        said = run(top, sys.executable, "-c", script)
        wanted = {"low": [], "middle": ["low"], "side": ["low"], "high": ["low", "side", "middle"]}
        tests.same("which crates are below which", said, (0, f"{wanted}\n"))
        tests.accepts("a crate with others below it", top, "tools/mutants.py", "high", env=flow.env)
        os.rename(f"{top}/crates/high/src/lib.rt", f"{top}/crates/high/src/main.rt")
        write(f"{top}/crates/high/mutants/goal.edit", "file: src/main.rt\nold: three + 3\nnew: WRONG + 3\n")
        tests.accepts("a program", top, "tools/mutants.py", "high", env=flow.env)


def test_workspace(tests):
    """A check has the crate with the changed texts, those below it, what was built of those and what is kept; the sources stay as they are."""
    with tempfile.TemporaryDirectory() as top:
        Flow(top, low=[], side=[], small=[])
        write(f"{top}/crates.txt", "low:\nside:\nsmall program: low # below it\n")
        built = [f"crates/{it}/out/rlib/{it}.rlib" for it in ("low", "small")]
        for name in (*built, "crates/small/proofs/A.antt", "crates/small/tests/a", "kept/work"):
            write(f"{top}/{name}", name)
        known, before = {}, kit.TOP
        try:
            kit.TOP = top
            for line in ("low:", "side:", "small program: low"):
                known[line.split()[0].strip(":")] = kit.Crate(line, known)
            with kit.Workspace(known["small"], {"src/lib.rt": "changed\n"}, f"{top}/kept") as it:
                wanted = ["crates.txt", "crates/low/out/rlib/low.rlib", "crates/low/src/lib.rt", "crates/small/out/incremental/work",
                    "crates/small/proofs/A.antt", "crates/small/src/lib.rt"]
                tests.same("its files", [*kit.files_below(it.top)], wanted)
                tests.same("its crates", kit.text_of(f"{it.top}/crates.txt"), "low:\nsmall program: low\n")
                texts = [kit.text_of(f"{it.folder}/{name}") for name in ("src/lib.rt", "proofs/A.antt", "out/incremental/work")]
                tests.same("its texts", texts, ["changed\n", "crates/small/proofs/A.antt", "kept/work"])
                ran = kit.Ran(["sh", "-c", "pwd; cat; echo rt: of a tool; echo oh >&2; exit 3"], it.folder)
                tests.same("it runs there", ran.said, f"{it.folder}\noh\n")
            ran = kit.Ran(["sh", "-c", "echo one; echo last; echo rt: it took no time; exit 3"], top)
            tests.same("what a command says", (ran.status, ran.last(), ran.raw), (3, "last", "one\nlast\nrt: it took no time\n"))
        finally:
            kit.TOP = before
        tests.see("it is gone", not os.path.exists(it.top))
        tests.same("the sources are as they were", kit.text_of(f"{top}/crates/small/src/lib.rt"), SOURCE)


def test_jobs(tests):
    """--jobs decides how many checks run beside one another; without it the processors and the memory do."""
    kept, asked, folder, words = {it: getattr(mutants, it) for it in ("prepare", "try_all")}, [], os.getcwd(), sys.argv
    lanes = kit.lanes
    try:
        mutants.prepare, mutants.try_all, kit.lanes = lambda _: True, lambda crates, names, jobs: asked.append(jobs) or (1, 0, set()), lambda: 7
        for more in (["--jobs", "3"], ["--jobs=1"], []):
            sys.argv = ["mutants.py", *more, "bridge_search"]
            with contextlib.redirect_stdout(io.StringIO()):
                mutants.main()
    finally:
        mutants.prepare, mutants.try_all, kit.lanes, sys.argv = kept["prepare"], kept["try_all"], lanes, words
        os.chdir(folder)
    tests.same("checks beside one another", asked, [3, 1, 7])


def test_prepared(tests):
    """Of a crate that is not proved the end of what the check says is printed."""
    ran, said = kit.Ran, io.StringIO()
    try:
        kit.Ran = lambda words, folder: ran(["sh", "-c", "seq 30; exit 1"], "/")
        with contextlib.redirect_stdout(said):
            is_proved = mutants.prepare(kit.crates()["bridge_search"])
    finally:
        kit.Ran = ran
    tests.same("the last lines of a check", (is_proved, said.getvalue().split()), (False, [str(it) for it in range(11, 31)]))


CALLS = """pub fn add() -> u32 {
    Tree::add(1) + left()
}

impl Tree {
    fn add(self) -> u32 {
        Self::grown(self) + self.left()
    }

    fn grown(self) -> u32 {
        add()
    }

    fn left(self) -> u32 {
        1
    }
}

impl Heap {
    fn grown(self) -> u32 {
        self.next.left() + Self::left(self)
    }

    fn left(self) -> u32 {
        2
    }
}

impl Shown for Tree {
    fn shown(self) -> u32 {
        Self::grown(self) + Tree::shown(self)
    }
}

fn left() -> u32 {
    low::add()
}
"""


def test_calls(tests):
    """A call by a path is one of that type, one by a dot any method of that name, and any other a function outside of types."""
    with tempfile.TemporaryDirectory() as top:
        crate = kit.Crate("small:", {})
        crate.folder = f"{top}/crates/small"
        write(f"{crate.folder}/src/lib.rt", CALLS)
        calls = mutants.calls_in(crate)
        lefts = {("Tree", "left"), ("Heap", "left")}
        wanted = {("", "add"): {("Tree", "add"), ("", "left")}, ("", "left"): {("", "add")}, ("Tree", "add"): {("Tree", "grown"), *lefts},
            ("Tree", "grown"): {("", "add")}, ("Tree", "left"): set(), ("Heap", "grown"): lefts, ("Heap", "left"): set(),
            ("TreeShown", "shown"): {("Tree", "grown"), ("TreeShown", "shown")}}
        tests.same("who calls whom", calls, wanted)
        tests.same("and through others", mutants.reached(calls, [("Heap", "grown"), ("Tree", "grown")]) - lefts,
            {("", "add"), ("Tree", "add"), ("", "left"), ("Tree", "grown")})


def test_compiled_halves(tests):
    """Of a group that does not compile, those are named that do not compile by themselves."""
    edits = [mutants.Edit(str(number), "", (), frozenset()) for number in range(7)]
    said = mutants.compiler_said
    try:
        for wrong in ([], ["0"], ["6"], ["2", "3"], ["1", "5"], [it.name for it in edits]):
            mutants.compiler_said = lambda _, group, wrong=wrong: [f"error of {it.name}" for it in group if it.name in wrong]
            for count in (2, 7):
                tests.same(f"{wrong} of {count}", mutants.not_compiled(None, edits[:count]),
                    [(it, f"error of {it}") for it in wrong if int(it) < count])
    finally:
        mutants.compiler_said = said


def test_groups(tests):
    """A group is of so many mutants at most; a constant's mutant is shown by the laws that name it, if there are some."""
    with tempfile.TemporaryDirectory() as top:
        crate = kit.Crate("small:", {})
        crate.folder = f"{top}/crates/small"
        many = "".join(f"pub fn f{k}() -> u32 {{\n    number{k}x\n}}\n" for k in range(mutants.MOST_IN_A_GROUP + 5))
        write(f"{crate.folder}/src/lib.rt", f"pub const MOST: u32 = 3;\n{many}pub fn user() -> u32 {{\n    MOST\n}}\n")
        edits = [mutants.Edit(f"{k}", "", (("src/lib.rt", f"number{k}x", "0"),), frozenset([mutants.Function("small::", f"f{k}")])) for k in range(65)]
        groups = mutants.grouped(crate, edits)
        tests.see("no group is too large, and none is lost", [len(it) for it in groups] == [60, 5] and len({it.name for group in groups for it in group}) == 65,
                  [len(it) for it in groups])
        witnesses = lambda: {it.name for it in mutants.functions_naming(crate, "const MOST: u32 = 3;")}
        tests.same("a constant is shown by its users", witnesses(), {"user"})
        write(f"{crate.folder}/src/laws.rt", "pub fn law() {\n    MOST\n}\n")
        tests.same("by a law alone, if there is one", witnesses(), {"law"})
        tests.same("a text that declares nothing", mutants.functions_naming(crate, "number1x"), [])
        write(f"{crate.folder}/mutants/a.edit", "file: src/lib.rt\nold: use super\nnew: use other\n")
        tests.same("the module of a file", [mutants.module_of(crate, it) for it in ("src/lib.rt", "src/main.rt", "src/a/b.rt")], ["small::", "small::", "small::a::b::"])


def test_separation(tests):
    """A function without a proof file and one that it calls, even through others, are changed in different groups if there are several."""
    with tempfile.TemporaryDirectory() as top:
        crate = kit.Crate("small:", {})
        crate.folder = f"{top}/crates/small"
        functions = (f"pub fn {it}() -> u32 {{\n    {it}1 + {it}2 + {low}()\n}}\n" for it, low in ("ax", "bc", "cd", "dx", "ed"))
        write(f"{crate.folder}/src/lib.rt", "".join(functions))
        edit = lambda name: mutants.Edit(name, "", (("src/lib.rt", name, "0"),), frozenset([mutants.Function("small::", name[0])]))
        edits = [edit(it) for it in ("a1", "a2", "d1", "b1", "e1")]
        names = lambda: [[it.name for it in group] for group in mutants.grouped(crate, edits)]
        tests.same("callers are apart from what they call", names(), [["a1", "d1"], ["a2", "b1", "e1"]])
        write(f"{crate.folder}/proofs/b/Answers.antt", "")
        tests.same("but for one with a proof file", names(), [["a1", "d1", "b1"], ["a2", "e1"]])
        edits[2:] = [edit(it) for it in ("e1", "d1")]
        tests.same("in the other order, too", names(), [["a1", "e1"], ["a2", "d1"]])


def test_files(tests):
    """Files in order, their texts, and links where there are any."""
    with tempfile.TemporaryDirectory() as top:
        names = [f"{one}{other}/{last}" for one in "dacb" for other in "fhge" for last in ("z", "y", "x.txt")]
        random.Random(1).shuffle(names)
        for it in names:
            write(f"{top}/{it}", it)
        tests.same("files below a folder, in order", list(kit.files_below(top)), sorted(names))
        tests.same("a file that there is not", (kit.text_of(f"{top}/none"), kit.bytes_of(f"{top}/none"), [*kit.files_below(f"{top}/none")]),
            ("", b"", []))
        with open(f"{top}/bytes", "wb") as file:
            file.write(b"\xff \xe2\x89\xa1\r\n")
        tests.same("a text with a byte that is none of UTF-8", (kit.text_of(f"{top}/bytes"), kit.bytes_of(f"{top}/bytes")),
            ("\ufffd \u2261\n", b"\xff \xe2\x89\xa1\r\n"))
        kit.link(f"{top}/de", f"{top}/one"), kit.link(f"{top}/de", f"{top}/one"), kit.link(f"{top}/none", f"{top}/two")
        tests.same("links", (os.stat(f"{top}/one/z").st_ino, os.path.exists(f"{top}/two")), (os.stat(f"{top}/de/z").st_ino, False))
        linked, os.link = os.link, lambda *_: (_ for _ in ()).throw(OSError(18, "another file system"))
        try:
            kit.link(f"{top}/ae", f"{top}/copied"), kit.link(f"{top}/ae/z", f"{top}/copied.z")
        finally:
            os.link = linked
        tests.same("copies", [kit.text_of(f"{top}/{it}") for it in ("copied/z", "copied/x.txt", "copied.z")], ["ae/z", "ae/x.txt", "ae/z"])


def test_crates(tests):
    """The crates' checksums, and how many checks run beside one another."""
    with tempfile.TemporaryDirectory() as top:
        top_before, kit.TOP = kit.TOP, top
        write(f"{top}/tools/product.sh", "#!/bin/sh\necho half\nexit 1\n", 0o755)
        try:
            kit.Crate("small:", {}).sources()
            tests.see("a checksum that cannot be made", False)
        except subprocess.CalledProcessError:
            tests.see("a checksum that cannot be made is an error", True)
        finally:
            kit.TOP = top_before
    before = kit.MEMORY_OF_A_CHECK
    try:
        kit.MEMORY_OF_A_CHECK = 1 << 60
        tests.same("one check at least", kit.lanes(), 1)
        kit.MEMORY_OF_A_CHECK = 1
        tests.same("one for each processor at most", kit.lanes(), len(os.sched_getaffinity(0)))
    finally:
        kit.MEMORY_OF_A_CHECK = before
    processors, text_of = os.sched_getaffinity, kit.text_of
    try:
        os.sched_getaffinity = lambda _: range(64)
        for free, lanes in ((33, 6), (30, 6), (29, 5), (4, 1)):
            kit.text_of = lambda _, free=free: f"MemTotal: 9 kB\nMemAvailable:   {free << 20} kB\n"
            tests.same(f"checks in {free} GiB", kit.lanes(), lanes)
    finally:
        os.sched_getaffinity, kit.text_of = processors, text_of


TESTS = (test_files, test_crates, test_each_outcome, test_checks, test_records, test_faults_of_runs, test_workspace, test_jobs, test_prepared,
    test_calls, test_compiled_halves, test_groups, test_separation)
