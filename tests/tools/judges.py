"""Tests each rule of the tools that judge by a stored wrong input beside a right one: what a check of the prover means, which mutants are
tried together and recorded, where files may be, which words and lengths documents may have, what repeats the table, and which files of
dist/ are those of the sources. A stand-in for the toolchain is on the path where one is needed."""
import contextlib
import hashlib
import os
import re
import shutil
import subprocess
import tempfile

import kit
import language
import layout
import mutants
import reference
import table
from small import TOP, lay_tools, run, run_apart, write

Kind = mutants.Kind
# what a check printed, its status, the texts that were changed, and the outcome with its message
OPEN, UNREACHED = "logic=not-proved\n", "BAD EDIT: it did not reach the prover: "
CHECKS = (
    ("a proved crate", 0, "fn a::b: proved\nlogic=proved\n", (), Kind.MISSED, "the crate is still proved with it"),
    ("an open goal", 1, f"note: src/lib.rt:3: it is not proved that x\nfn a::b: not proved\n{OPEN}", (), Kind.BY_GOAL,
        "note: src/lib.rt:3: it is not proved that x"),
    ("an error with its goal", 1, f"src/lib.rt:3:1: error: `b`: the clause is open\n{OPEN}", (), Kind.BY_GOAL,
        "src/lib.rt:3:1: error: `b`: the clause is open"),
    ("a note with a place", 1, f"note: src/lib.rt:3:5: it is not proved\nsrc/lib.rt:3:5: help: add one\n{OPEN}", (), Kind.BY_GOAL,
        "note: src/lib.rt:3:5: it is not proved"),
    ("a goal that quotes such words", 1, f"src/lib.rt:3:1: error: `b`: `x` where `f is no name` is open\n{OPEN}", (), Kind.BY_GOAL,
        "src/lib.rt:3:1: error: `b`: `x` where `f is no name` is open"),
    ("an error in a proof", 1, f"proofs/b/Answers.antt:3:1: error: this goal is open\n{OPEN}", (), Kind.BY_GOAL,
        "proofs/b/Answers.antt:3:1: error: this goal is open"),
    ("an error in two lines", 1, f"fn a::b: not proved\nproofs/b/A.antt:3:1: error: this goal\n    is open\n{OPEN}", (), Kind.BY_GOAL,
        "proofs/b/A.antt:3:1: error: this goal is open"),
    ("a name that went in the second", 1, f"fn a::b: not proved\nproofs/b/A.antt:3:1: error: `x`\n    has no field `y`\n{OPEN}", (), Kind.BY_SHAPE,
        "proofs/b/A.antt:3:1: error: `x` has no field `y`"),
    ("a name that went, by another path", 1, f"./proofs/b/A.antt:3:1: error: `x` has no field `y`\n{OPEN}", (), Kind.BY_SHAPE,
        "./proofs/b/A.antt:3:1: error: `x` has no field `y`"),
    ("a name that went, and a goal", 1, f"proofs/b/A.antt:3:1: error: `x` has no field `y`\nsrc/lib.rt:1:1: error: `c`: a goal\n{OPEN}", (),
        Kind.BY_GOAL, "src/lib.rt:1:1: error: `c`: a goal"),
    ("a limit", 3, "fn a::b: could not tell\nno verdict\n", (), Kind.AT_LIMIT, "no verdict"),
    ("a limit with status 1", 1, "fn a::b: could not tell\nno verdict\n", (), Kind.UNSURE, f"{UNREACHED}fn a::b: could not tell no verdict"),
    ("status 3 with no limit", 3, "no verdict\n", (), Kind.UNSURE, f"{UNREACHED}no verdict"),
    ("a killed check", -9, OPEN, (), Kind.UNSURE, f"{UNREACHED}logic=not-proved"),
    ("another status", 2, OPEN, (), Kind.UNSURE, f"{UNREACHED}logic=not-proved"),
    ("a check with another end", 1, "".join(f"line {it}\n" for it in range(9)), (), Kind.UNSURE,
        f"{UNREACHED}line 0 line 1 line 2 line 3 line 4 line 5"),
    ("one function", 1, "fn a::b: not proved\nonly=a::b\n", (), Kind.BY_GOAL, "fn a::b: not proved"),
    ("a text of src/ that is not read", 1, f"fn a::b: proved\nsrc/lib.rt:1:1: error: expected a word\n{OPEN}", (), Kind.UNSURE,
        "BAD EDIT: src/lib.rt:1:1: error: expected a word"),
    ("the same by another path", 0, f"./src/a/b.rt:1:12: error: expected a word\n{OPEN}", (), Kind.UNSURE,
        "BAD EDIT: ./src/a/b.rt:1:12: error: expected a word"),
    ("a changed proof that is not read", 1, f"proofs/A.antt:1:1: error: expected a word\n{OPEN}", ("proofs/A.antt",), Kind.UNSURE,
        "BAD EDIT: proofs/A.antt:1:1: error: expected a word"),
    ("one that is not changed", 1, f"proofs/A.antt:1:1: error: expected a word\n{OPEN}", ("proofs/B.antt",), Kind.BY_GOAL,
        "proofs/A.antt:1:1: error: expected a word"),
    ("a kept library that is stale", 1, f"module `Rattle-low-1`. Run the lower steps again\n{OPEN}", (), Kind.UNSURE,
        "BAD EDIT: the kept work of a library could not be used"),
    ("a proved crate with a stale library", 0, "module `Rattle-low-1`. Run the lower steps again\n", (), Kind.UNSURE,
        "BAD EDIT: the kept work of a library could not be used"),
    *((f"a text in which something {it}", 1, f"specs/A.antt:1:1: error: `f`: it {it} there\n{OPEN}", (), Kind.UNSURE,
        f"BAD EDIT: specs/A.antt:1:1: error: `f`: it {it} there")
        for it in ("is not in scope", "has no field", "is no name", "operand is missing", "expected the end", "cannot continue")),
    *((f"a proof in which something {it}", 1, f"proofs/b/A.antt:1:1: error: it {it}\n{OPEN}", (), kind, f"proofs/b/A.antt:1:1: error: it {it}")
        for it, kind in (("has no field", Kind.BY_SHAPE), ("is not in scope", Kind.BY_SHAPE), ("has no `x`", Kind.BY_SHAPE),
            ("was not admitted", Kind.BY_SHAPE), ("is not in scope here, so what is shown is `u`", Kind.BY_GOAL), ("is open", Kind.BY_GOAL))),
)
# how a report begins that names a mutant
REPORTS = {Kind.BY_GOAL: "refused", Kind.BY_SHAPE: "NOT REFUSED BY A GOAL (a proof names what was removed)",
    Kind.AT_LIMIT: "NOT REFUSED BY A GOAL (at a limit of the prover's)", Kind.MISSED: "NOT REFUSED", Kind.UNSURE: "NOT TRIED"}
# a mutant's text, and why it cannot be applied
EDITS = (
    ("file: src/lib.rt\nold: one\nnew: two\n", None),
    ("file: src/lib.rt\nold: one\nnew:\n", None),
    ("# why\n\nfile: src/lib.rt\nold: one\nnew: two\nand more: of it\n", None),
    ("file: src/lib.rt\nold: one\nnew: two\nold: three\nnew: four\n", None),
    ("file: src/lib.rt\nold: twice\nnew: x\n", "in src/lib.rt 2 times, and not once"),
    ("file: src/lib.rt\nold: never\nnew: x\n", "in src/lib.rt 0 times, and not once"),
    ("file: src/lib.rt\nold: one\nnew: two\nold: one\nnew: x\n", "in src/lib.rt 0 times"),
    ("old: one\nnew: two\n", "before any 'file:'"),
    ("file: src/lib.rt\nnew: two\n", "before any 'file:' or 'old:'"),
    ("file: src/../secret\nold: one\nnew: two\n", "names no file below"),
    ("file: /etc/passwd\nold: one\nnew: two\n", "names no file below"),
    ("file: out/lib.rt\nold: one\nnew: two\n", "names no file below"),
    ("file: src/lib.rt\nold: one\n", "it has no 'old:' and 'new:' pair"),
    ("", "it has no 'old:' and 'new:' pair"),
)
SOURCE = """const LIMIT: u32 = 3; // ≡

pub fn first() -> u32 {
    one + second()
}

fn second() -> u32 {
    three
}

impl Point {
    pub fn moved(self) -> Point {
        twice(self)
    }
}

impl fmt::Display for Point {
    fn moved(self) -> u32 {
        LIMIT + twice
    }
}

use inner::One;

fn last() -> u32 {
    One + 5
}
"""


class Ran:
    def __init__(self, status, said):
        self.status, self.said, self.raw = status, said, said

    def last(self):
        return self.said.rstrip("\n").rpartition("\n")[2]


def test_outcomes(tests):
    """What a check printed decides what its mutant comes to, and only a goal refuses one."""
    for what, status, said, texts, kind, message in CHECKS:
        tests.same(what, mutants.outcome_of(Ran(status, said), {it: "" for it in texts}), (kind, message))
    for kind in Kind:
        outcome = mutants.Outcome("x.edit", kind, "why " * 90)
        tests.same(f"the report of {kind.name}", (outcome.is_refused(), outcome.line(kit.Crate("small:", {}))),
            (kind is Kind.BY_GOAL, f"mutant small/x.edit: {REPORTS[kind]}: {'why ' * 40}"))
    several = "note: src/lib.rt:1: it is not proved that p\nfn a::b: not proved\nfn a::c: no proof; it calls b\nfn a::d: no proof: the plan did not prove q; it calls b\nfn a::e: proved\n"
    tests.same("each open goal is its own function's", mutants.goals_of(several), {"a::b": "note: src/lib.rt:1: it is not proved that p",
            "a::d": "q"})
    before = "note: src/lib.rt:1: it is not proved that p\nfn a::b: proved\nfn a::c: not proved\nfn a::d: no proof; it calls c\n"
    tests.same("what is noted of one function is not said of the next", mutants.goals_of(before), {})
    by_error = "proofs/m/b/Answers.antt:3:1: error: this is open\n  in two lines\nfn a::m::b: no proof\nfn a::m::c: not proved\n"
    by_error = by_error.replace("no proof\n", "not proved\n", 1)
    tests.same("an error in its proof is its goal", mutants.goals_of(by_error), {"a::m::b": "this is open in two lines"})
    places = "\n".join(f"{it}/A.antt:3:1: error: {said}" for it, said in (("proofs/m/bb", "of another"), ("./proofs/m/+b", "`x` has no field `y`"),
        ("proofs/b", "of another module"), ("./proofs/m/+b", "first"), ("proofs/m/b", "second"), ("proofs/m/Point/moved", "of a method")))
    said = f"{places}\nfn a::m::b: not proved; it waits\nfn a::m::Point::moved: not proved\nfn a::m::c: not proved\n"
    went = "proofs/m/b/A.antt:3:5: error: `step` has no field `moved`\nfn a::m::b: no proof\nfn a::m::b: not proved\n"
    tests.same("a name that went is no goal", mutants.goals_of(went), {})
    tests.same("which error is a function's", mutants.goals_of(said), {"a::m::b": "first", "a::m::Point::moved": "of a method"})
    free = mutants.Function("a::m::", "moved")
    tests.same("a function by its module and its name", [free.is_at(it) for it in ("a::m::moved", "a::m::removed", "a::moved", "b::m::moved")],
        [True, False, False, False])
    paths = [f"a::m::f{it}" for it in range(9)] + ["a::m::<closure>", "a::m::moved"]
    tests.same("a check of a function and of three others, by their paths in the crate", mutants.only_of(paths, [free]),
        ["--only", "m::moved", "--only", "m::f0", "--only", "m::f3", "--only", "m::f6"])
    tests.same("a check of what is unknown", mutants.only_of(paths, [mutants.Function("a::m::", "gone")]), [])
    method = mutants.Function("a::", "moved", "Point")
    tests.see("a method by its block",
            method.is_at("a::other::Point::moved") and not any(map(method.is_at, ("a::PointDisplay::moved", "a::EndPoint::moved", "a::moved"))))


def crate_in(top):
    """Returns a crate of SOURCE."""
    crate = kit.Crate("small:", {})
    crate.folder = f"{top}/crates/small"
    write(f"{crate.folder}/src/lib.rt", SOURCE)
    return crate


def edit_of(crate, name, *pairs):
    write(f"{crate.folder}/mutants/{name}.edit", "file: src/lib.rt\n" + "".join(f"old: {old}\nnew: {new}\n" for old, new in pairs))
    return mutants.read(crate, f"{crate.folder}/mutants/{name}.edit")[0]


def test_edits(tests):
    """A mutant is read only if each text occurs once below src/, specs/ or proofs/; mutants of one function are not tried together."""
    with tempfile.TemporaryDirectory() as top:
        write(f"{top}/src/lib.rt", "one twice three twice\n")
        write(f"{top}/secret", "one\n")
        for text, wanted in EDITS:
            changes, why = mutants.changes_in(text, top)
            tests.see(f"{text!r}: {wanted}", (why is None and changes) if wanted is None else changes is None and wanted in why, why)
        crate = crate_in(top)
        first, second = edit_of(crate, "first", ("+ second()", "+ 1")), edit_of(crate, "second", ("    three", "    four"))
        again, over, trait = edit_of(crate, "again", ("    one ", "    two ")), edit_of(crate, "over", ("one + sec", "sec")), edit_of(crate, "trait",
                ("LIMIT + twice", "twice"))
        last, names = edit_of(crate, "last", ("    One + 5", "    One + 6")), edit_of(crate, "names", ("use inner::One;", "use inner::Two;"))
        constant = edit_of(crate, "constant", ("const LIMIT: u32 = 3", "const LIMIT: u32 = 4"))
        function = lambda name, block="": frozenset([mutants.Function("small::", name, block)])
        tests.same("the function of a mutant", [first.functions, second.functions, trait.functions], [function("first"), function("second"),
                function("moved", "PointDisplay")])
        several = edit_of(crate, "several", ("+ second()", "+ 1"), ("    three", "    four"), ("    One + 5", "    One + 6"))
        tests.same("the functions of one with several changes", several.functions, function("first") | function("second") | function("last"))
        os.remove(f"{crate.folder}/mutants/several.edit")
        tests.same("a function after a block is in none", last.functions, function("last"))
        tests.see("a line that brings in names is in no function", names.is_alone() and not names.witnesses, names)
        tests.see("a constant is in no function, and its users show it", constant.is_alone() and constant.witnesses == function("moved",
                "PointDisplay"), constant)
        write(f"{crate.folder}/specs/A.antt", "law one : Set\n")
        write(f"{crate.folder}/mutants/spec.edit", "file: specs/A.antt\nold: law one\nnew: law two\n")
        write(f"{crate.folder}/mutants/more.edit", "file: src/lib.rt\nold: three\nnew: four\nfile: specs/A.antt\nold: law one\nnew: law two\n")
        read = [mutants.read(crate, f"{crate.folder}/mutants/{it}.edit")[0] for it in ("spec", "more")]
        tests.same("a change of a definition is in no function", [(it.is_alone(), it.witnesses) for it in read], [(True, frozenset())] * 2)
        for it in ("spec", "more"):
            os.remove(f"{crate.folder}/mutants/{it}.edit")
        both = [edit_of(crate, "both", *pairs) for pairs in ((("const LIMIT: u32 = 3", "const LIMIT: u32 = 4"), ("    three", "    four")),
                (("    three", "    four"), ("const LIMIT: u32 = 3", "const LIMIT: u32 = 4")))]
        tests.same("nor is one that changes a function, too", [(it.functions, it.witnesses) for it in both],
            [(frozenset(), function("moved", "PointDisplay"))] * 2)
        heads = [edit_of(crate, "head", (it, "fn x()")) for it in ("fn second()", "pub fn first() ->", "pub fn moved(self)")]
        tests.same("a text that begins a function", [it.functions for it in heads],
            [function("second"), function("first"), function("moved", "Point")])
        for head, block in (("impl<'a, B: Chronicle> Guard<'a, B>", "Guard"), ("unsafe impl<P> model::Reads<P> for seat::Past<P>", "PastReadsP")):
            text = f"impl Other {{\n}}\n\n{head} {{\n    fn moved() {{}}\n}}\nfn free() {{}}\n"
            tests.same(f"the block of {head}", [mutants.block_at(text, text.index(it)) for it in ("fn moved", "fn free")], [block, ""])
        tests.same("two changes of one text overlap", mutants.applied(crate, [first, over]), None)
        echo = edit_of(crate, "echo", ("    One + 5", "    One + three"))
        three = edit_of(crate, "three", ("three", "four"))
        tests.same("and so do those of which one makes what another changes", mutants.applied(crate, [echo, three]), None)
        tests.see("two others are applied", "    four" in mutants.applied(crate, [first,
                second])["src/lib.rt"] and "    one + 1\n" in mutants.applied(crate, [first, second])["src/lib.rt"])
        groups = mutants.groups_of(crate, [first, second, again, trait, constant])
        tests.see("no group has two of one function",
                all(len({f for it in group for f in it.functions}) == sum(len(it.functions) for it in group) for group in groups), groups)
        tests.see("each is in one group, and a constant's by itself", sorted(it.name for group in groups for it in group) == ["again.edit",
                "constant.edit", "first.edit", "second.edit", "trait.edit"]
                  and [constant] in groups)
        many = [mutants.Edit(f"{k}.edit", "", (("src/lib.rt", "one", "two"),), frozenset([mutants.Function("small::", str(k))])) for k in range(3)]
        tests.same("an overlap makes another group", len(mutants.grouped(crate, many)), 3)
        before = mutants.sum_of.__globals__["kit"].Crate.sources
        try:
            kit.Crate.sources = lambda self: "sources"
            one = mutants.sum_of(crate)
            edit_of(crate, "second", ("three", "five"))
            two = mutants.sum_of(crate)
            edit_of(crate, "more", ("three", "five"))
            three = mutants.sum_of(crate)
            os.rename(f"{crate.folder}/mutants/more.edit", f"{crate.folder}/mutants/renamed.edit")
            four = mutants.sum_of(crate)
            kit.Crate.sources = lambda self: "others"
            sums = {one, two, three, four, mutants.sum_of(crate)}
            tests.same("the record's sum is that of the sources, and of the mutants and their names", len(sums), 5)
        finally:
            kit.Crate.sources = before


# ---- layout, words and lengths

RT = """#!/bin/sh
case $1 in version) echo rattle-test ;; doc) echo "$(dirname "$0")/kit/doc.md" ;; *) exit 9 ;; esac
"""
RATTLE = """#!/bin/sh
[ "$1 $2" = "fmt --check" ] && [ -z "${SILENT:-}" ] || exit 9
echo "it looks at $(($# - 2)) files"
bad=
for it in "$@"; do case $it in *.rt | *.antt) grep -q '  $' "$it" && bad=yes && echo "$it: not laid out" ;; esac; done
[ -z "${SAID:-}" ] || { echo "$SAID" >&2; exit 1; }
[ -z "$bad" ]
"""


# faults of the files of a crate, which has a test and a mutant: a file, its text, and what is said of it
MISLAID = (
    ("src/lib.rt", "#[test]\nfn a() {}  \n", "not in the layout of rt fmt"), ("specs/A.antt", "a  \n", "not in the layout of rt fmt"),
    ("src/without/about.rt", "#[test]\n#[test]\na  \n", "not in the layout of rt fmt"), ("tests/a.rt", "", "no check reads it there"),
    ("A.antt", "", "no check reads it there"), ("proofs/A.rt", "#[test]\n", None),
    ("mutants/two.edit", "file: src/lib.rt\nold: fn a\nnew: x\n", None),
    ("must-fail/two.edit", "file: src/lib.rt\nold: gone\nnew: x\n", "an 'old:' text is in src/lib.rt 0 times, and not once"),
)


def test_layouts(tests):
    """Files in the layout of the toolchain's formatter, below src/, specs/ and proofs/, with no links, and as many as are counted."""
    with tempfile.TemporaryDirectory() as top:
        lay_tools(top)
        write(f"{top}/path/rt", RT, 0o755), write(f"{top}/path/kit/bin/rattle", RATTLE, 0o755), write(f"{top}/path/kit/doc.md", "")
        env = {"PATH": f"{top}/path:{os.environ['PATH']}"}
        asked = lambda *words, **more: run(top, "tools/layout.py", *words, env={**env, **more})
        write(f"{top}/crates.txt", "# the crates\n\nsmall: # alone\n")
        for name in ("src/lib.rt", "specs/A.antt", "proofs/b/A.antt"):
            write(f"{top}/crates/small/{name}", "#[test]\nfn a() {}\n")
        write(f"{top}/crates/small/mutants/one.edit", "file: src/lib.rt\nold: fn a\nnew: fn b\n")
        write(f"{top}/crates/small/out/left.rt", "no check reads it  \n")
        tests.same("a layout, and the same again", [asked("--write"), asked()], [(0, "5 passed, 0 failed\n")] * 2)
        tests.same("a row for each crate", kit.text_of(f"{top}/.ci/counts.txt").splitlines()[1:], ["small 1 1"])
        for name, text, _ in MISLAID:
            write(f"{top}/crates/small/{name}", text)
        links = {"proofs/linked": "../src", "src/linked.txt": "lib.rt"}
        for name, target in links.items():
            os.symlink(target, f"{top}/crates/small/{name}")
        write(f"{top}/crates/another/src/lib.rt", "")
        rows = [f"crates/small/{name}: FAILED, {said}" for name, _, said in MISLAID if said]
        rows += [f"{top}/crates/small/{it}: FAILED, it is a link" for it in links] + ["crates/another/src/lib.rt: FAILED, no check reads it there"]
        rows += [f".ci/counts.txt: FAILED, {it}" for it in ("it says 'small 1 1'", "counted 'small 3 3'")]
        status, said = asked()
        tests.same("each fault is named", (status, sorted(said.splitlines())), (1, sorted([*rows, f"{12 - len(rows)} passed, {len(rows)} failed"])))
        shutil.rmtree(f"{top}/crates")
        write(f"{top}/crates.txt", "small:\nabove: small\n")
        write(f"{top}/crates/small/src/lib.rt", ""), write(f"{top}/crates/above/src/lib.rt", "#[test]\n// [test]\n#[test]\n")
        tests.same("two crates", asked("--write"), (0, "3 passed, 0 failed\n"))
        before = kit.text_of(f"{top}/.ci/counts.txt")
        tests.same("in the order of their names", before.splitlines()[1:], ["above 0 2", "small 0 0"])
        write(f"{top}/crates/small/src/lib.rt", "#[test]\n")
        tests.same("words that are none change nothing", (asked("--write", "more")[0], kit.text_of(f"{top}/.ci/counts.txt")), (2, before))
        tests.same("a formatter that names a file", asked(SAID="crates/small/src/lib.rt: odd")[1].splitlines()[0],
            "crates/small/src/lib.rt: FAILED, not in the layout of rt fmt")


def test_usage(tests):
    """A word that is none gets the usage on standard error, nothing on standard output, and a status."""
    with tempfile.TemporaryDirectory() as top:
        lay_tools(top)
        write(f"{top}/crates.txt", "")
        for tool in (language, layout, reference, table):
            name = f"tools/{tool.__name__}.py"
            for words in (["--other"], ["--write", "more"]):
                tests.same(f"the usage of {name} {words}", run_apart(top, name, *words), (2, "", f"{tool.__doc__}\n"))
        status, said, why = run_apart(top, "tools/mutants.py", "--other")
        tests.see("the usage of tools/mutants.py", (status, said) == (2, "") and why.startswith("usage: mutants.py"), (status, said, why))
        status, said, why = run_apart(top, "tools/mutants.py", "--help")
        tests.see("--help of tools/mutants.py", (status, why) == (0, "") and mutants.__doc__.strip() in said and "checks in parallel\n" in said, said)
        for tool in ("product.sh", "release.sh"):
            usage = re.sub(r"(?m)^# ?", "", re.match(r"#!.*\n((?:#.*\n)*)", kit.text_of(f"{TOP}/tools/{tool}"))[1])
            came = [run_apart(top, f"tools/{tool}", it) for it in ("--other", "--help")]
            tests.same(f"the usage of tools/{tool}", came, [(1, "", usage), (0, "", usage)])


# the files that readers read, each with how a sentence is prose in it, and how it is none
PROSE = {
    "README.md": ("{}\n", None), "docs/A.md": ("{}\n", None), "include/a.h": ("/* {} */\n", 'const char *a = "{}";\n'), "include/a.hpp": ("// {}\n",
            'auto a = "{}";\n'),
    "rust/hull/src/b.rs": ("mod b;\n    /// {}\n", "    // {}\n"), "man/a.3": ("{}\n", None), "python/a.py": ('"""{}"""\n', "a = '{}'\n"), "python/README.md": ("{}\n", None), "rust/hull/src/a.rs": ("/// {}\n",
            "// {}\n"),
    "man/a.1": ("{}\n", None), "web/README.md": ("{}\n", None), "docs/more/B.md": ("{}\n", None), "CONTRIBUTING.md": ("{}\n", None),
    "python/b.py": ('def f():\n    """{}"""\n', "def f():\n    # {}\n    pass\n"), "python/c.py": ('class C:\n    """{}"""\n',
        'class C:\n    a = "{}"\n'),
    "python/d.py": ('class C:\n    def f(self):\n        """{}"""\n', "x = 1  # {}\n"), "crates/small/src/b.rt": ("    /// {}\n", "    n // {}\n"),
    "web/a.d.ts": ("/** {} */\n", 'type A = "{}";\n'), "crates/small/src/a.rt": ("//! {}\n", "// {}\n"),
}
UNREAD = ("CHANGELOG.md", "docs/GLOSSARY.md", "python/a.txt", "c/a.c", "crates/small_tests/src/a.rt", "crates/small/out/a.rt", "tests/a.md")
SENTENCES = {"told": "It tells us.", "stands": "It stands.", "behind": "Behind it.", "alone": "Alone.", "where": "Where is it?",
        "lent": "One lends it.", "whoever": "Whoever.",
             "corner": "Two corners.", "wrong body": "A wrong-body and wrong bodies.", "desk": "Desks.", "outline": "An outline.", "room": "Rooms.", "teller": "A teller.", "hall": "Halls.",
             "door": "A door.", "fringe": "Fringes.", "of its own accord": "Of its own accord.", "nobody else": "Nobody else."}


def test_words(tests):
    """Each word of the old dialect is counted in each kind of page, in prose and not in code; the limits only fall."""
    tests.same("a sentence for each word", set(SENTENCES), set(language.RARE))
    for word, sentence in SENTENCES.items():
        found = {it: len(language.occurrences(sentence, pattern)) for it, pattern in language.RARE.items()}
        tests.same(f"'{word}'", found, {it: (2 if it == "wrong body" else 1) if it == word else 0 for it in language.RARE})
    tests.same("parts of words are none", sum(len(language.occurrences("understands rooming shallow doorway nowhere talent cornered",
            it)) for it in language.RARE.values()), 0)
    with tempfile.TemporaryDirectory() as top:
        lay_tools(top)
        for path, (prose, _) in PROSE.items():
            write(f"{top}/{path}", prose.format("It stands."))
        for path in UNREAD:
            write(f"{top}/{path}", "/// It stands.\n")
        limits = {it: 0 for it in language.RARE} | {"stands": len(PROSE)}
        write(f"{top}/.ci/language.txt", "# limits\n" + "".join(f"{it} {count}\n" for it, count in limits.items()))
        tests.accepts("as many as are allowed, in each kind of page", top, "tools/language.py")
        write(f"{top}/.ci/language.txt", "# limits\n" + "".join(f"{it} {count}\n" for it, count in (limits | {"stands": len(PROSE) - 1}).items()))
        tests.refuses("one more", f"'stands': FAILED, {len(PROSE)} times, and .ci/language.txt allows {len(PROSE) - 1}", top, "tools/language.py")
        said = run(top, "tools/language.py", "--where", "stands")[1]
        tests.see("--where names each page", all(f"{it}: " in said for it in PROSE) and not any(f"{it}: " in said for it in UNREAD), said)
        for path, (_, code) in PROSE.items():
            write(f"{top}/{path}", (code or "{}").format("It stands." if code else "Plain."))
        said = run(top, "tools/language.py", "--write")
        tests.see("--write lowers the limits", said[0] == 0 and "\nstands 0\n" in kit.text_of(f"{top}/.ci/language.txt"), said)
        tests.accepts("code is no prose", top, "tools/language.py")
        os.remove(f"{top}/.ci/language.txt")
        write(f"{top}/README.md", "A table.\n  Two desks, one desk.\nTables\nDESK\n"), write(f"{top}/docs/A.md", "A desk\n")
        where = [run(top, "tools/language.py", "--where", it) for it in ("desk", "tables?", "shelf")]
        tests.same("--where prints the lines with a word", where, [(0, "README.md: Two desks, one desk.\nREADME.md: DESK\ndocs/A.md: A desk\n"),
                                                                  (0, "README.md: A table.\nREADME.md: Tables\n"), (0, "")])
        write(f"{top}/docs/A.md", "Plain.\n")
        before = kit.text_of(f"{top}/.ci/language.txt")
        for words in (["--other"], ["--where"], ["--write", "desk"], ["README.md"]):
            tests.same(f"words that are none: {words}", (run(top, "tools/language.py", *words)[0], kit.text_of(f"{top}/.ci/language.txt")),
                (2, before))
        write(f"{top}/README.md", "Two desks.\n")
        tests.refuses("a word with no limit", "'desk': FAILED, 1 times, and .ci/language.txt allows 0", top, "tools/language.py")


def test_lengths(tests):
    """Pages that are made of comments are what these say, and documents are no longer than they may be."""
    with tempfile.TemporaryDirectory() as top:
        lay_tools(top)
        write(f"{top}/crates.txt", "small:\ncalls: small\n")
        write(f"{top}/crates/small/src/lib.rt",
                "//! What it is about.\n//! In two lines.\n//!\n//! More.\npub use inner::{Two, One};\npub use inner::Three;\nuse other::Four;\n")
        write(f"{top}/crates/small/specs/Lib.antt", "-- All names.\n\n-- What only passes on\npub passed : Set\n")
        sets = ("-- All about sets\n\n-- What a set is, a | b.\npub set : Set\n\n-- Hidden.\nhidden : Set\n\n-- Is it one?\npub asked : Set\n\n"
                "-- (as before)\nabbrev pub aside : Set\npub beside : Set\n\npub bare : Set\n\n-- Rules.\npub ruleset rules\n")
        write(f"{top}/crates/small/specs/Sets.antt", sets)
        write(f"{top}/crates/calls/src/lib.rt", "//! Callers.\n")
        write(f"{top}/crates/calls/src/of.rt", "//! A caller of `small`.\nfn call() {}\n")
        for page in reference.PARTS:
            write(f"{top}/{page}", "| A cell | another |\n")
        tests.refuses("a page that is not written", "crates/small/CALLING.md: FAILED", top, "tools/reference.py")
        tests.accepts("--write", top, "tools/reference.py", "--write")
        page = kit.text_of(f"{top}/crates/small/CALLING.md")
        tests.see("its page",
                page.startswith("# Calling `small`\n\nWhat it is about. In two lines.\n") and "```rust\nfn call() {}\n```" in page and "\n`One`, `Three`, `Two`.\n" in page, page)
        tests.accepts("the same again", top, "tools/reference.py")
        write(f"{top}/crates/small/CALLING.md", f"{page}\n")
        tests.refuses("a line more", "crates/small/CALLING.md: FAILED", top, "tools/reference.py")
        write(f"{top}/crates/small/CALLING.md", page)
        tests.same("--definitions, twice", [run(top, "tools/reference.py", "--definitions") for _ in range(2)], [(0, "out/DEFINITIONS.md\n")] * 2)
        text = kit.text_of(f"{top}/out/DEFINITIONS.md")
        tests.see("the definitions that contracts can name",
                "| `set` | What a set is, a \\| b. |\n" in text and "**Sets.** All about sets.\n" in text and "hidden" not in text
                and "| `asked` | Is it one? |\n| `aside`, `beside` | (as before) |\n" in text
                and not any(it in text for it in ("bare", "passed", "Rules")), text)
        tests.same("by crates that have some", re.findall("(?m)^## (.*)", text), ["small"])
        write(f"{top}/crates/calls/src/of.rt", "//! A caller of `small`.\nfn call() { again }\n")
        tests.refuses("a caller that has changed", "crates/small/CALLING.md: FAILED", top, "tools/reference.py")
        run(top, "tools/reference.py", "--write")
        for name, (what, most, _) in reference.PARTS.items():
            for count, is_right in ((most, True), (most + 1, False)):
                write(f"{top}/{name}", f"| A cell | {'word ' * count}|\n" if what == "a cell" else f"{'word ' * count}\n")
                if is_right:
                    tests.accepts(f"{what} of {count} words", top, "tools/reference.py")
                else:
                    tests.refuses(f"{what} of {count} words", f"{name}: FAILED, {what} has {count} words of {most}", top, "tools/reference.py")
            write(f"{top}/{name}", "| A cell |\n")
        there = sum(len(kit.text_of(f"{top}/{it}").split()) for it in reference.PARTS)
        write(f"{top}/docs/LONG.md", "word " * (reference.BY_HAND - there))
        tests.accepts("as many words as there may be", top, "tools/reference.py")
        made = "\n<!-- written by a tool -->\nmany words\n<!-- end of what it writes -->\n"
        write(f"{top}/docs/LONG.md", "word " * (reference.BY_HAND - there - 1) + f"{made}word{made}")
        tests.accepts("and those that a tool writes, in two stretches", top, "tools/reference.py")
        write(f"{top}/docs/more/LONG.md", "word\n")
        tests.refuses("one more", f"docs: FAILED, {reference.BY_HAND + 1} words, and {reference.BY_HAND} may be", top, "tools/reference.py")
        tests.same("a word that is none", run(top, "tools/reference.py", "--other")[0], 2)


def without_lines(text, first, step):
    """Returns a file without the middle line of each step-th stretch that repeats the table, from the first, and for each of these its mark with
    what the table's tool says of it."""
    said = []
    for mark in re.findall(r"written by tools/table\.py: ([^\n]*?)(?: \*/| -->)?$", text, re.M)[first::step]:
        if mark.startswith("a case for each"):  # (of which a case that no other is like may be any)
            continue
        found = re.search(table.STRETCH % re.escape(mark), text)
        lines = found[1].splitlines(True)
        left = lines[: len(lines) // 2] + lines[len(lines) // 2 + 1 :]
        present, wanted = next((one, other) for one, other in zip([*left, ""], lines) if one != other)
        said.append(f"{mark}: it says '{present.strip()}' and not '{wanted.strip()}': tools/table.py --write")
        text = text[: found.start(1)] + "".join(left) + text[found.end(1) :]
    return text, said


def lay_places(top):
    """Lays a repository with the tables and all files that repeat them. Returns the paths of these, none if this is no checkout of git."""
    lay_tools(top)
    found = subprocess.run(["git", "grep", "-lI", "written by tools/table.py: "], cwd=TOP, capture_output=True, text=True, check=False).stdout.split()
    marked = [it for it in found if not it.startswith(("tools/", "tests/", "docs/DEV", "docs/ARCH"))]
    for path in {"VERSION", *(f"tables/{it}.txt" for it in ("calls", "interface", "languages")), "crates.txt", *table.VERSIONS, *marked}:
        write(f"{top}/{path}", kit.text_of(f"{TOP}/{path}"))
    return marked


def test_each_place(tests):
    """Each stretch that repeats the table fails if a line of it is gone, and --write puts it back; so does each place of the version."""
    with tempfile.TemporaryDirectory() as top:
        marked = lay_places(top)
        if not marked:
            print("skipped: the places of the table: this is no checkout of git")
            return
        count = len({*marked, *table.VERSIONS}) + 2
        tests.same("all places are as the table says", run(top, "tools/table.py"), (0, f"{count} passed, 0 failed\n"))
        for first, step in ((0, 1), (0, 2), (1, 2)):
            texts = {path: without_lines(kit.text_of(f"{TOP}/{path}"), first, step) for path in marked}
            for path, (text, _) in texts.items():
                write(f"{top}/{path}", text)
            wanted, failed = [f"{path}: FAILED, {it}" for path, (_, said) in texts.items() for it in said], sum(bool(it[1]) for it in texts.values())
            status, said = run(top, "tools/table.py")
            tests.same(f"a line is gone from each {step}th stretch", (status, sorted(said.splitlines())),
                (1, sorted([*wanted, f"{count - failed} passed, {failed} failed"])))
            tests.see("many stretches", len(wanted) > 60 // step, wanted)
            tests.same("--write", run(top, "tools/table.py", "--write"), (0, f"{count} passed, 0 failed\n"))
            tests.same("puts them back", [it for it in marked if kit.text_of(f"{top}/{it}") != kit.text_of(f"{TOP}/{it}")], [])
        version = kit.text_of(f"{TOP}/VERSION").strip()
        write(f"{top}/VERSION", "9.9.9\n")
        wanted = {it: f"{it}: FAILED, the version: it says '{version}' and not '9.9.9': tools/table.py --write" for it in table.VERSIONS}
        tests.same("each place of another version", run(top, "tools/table.py"),
            (1, "".join(f"{it}\n" for it in wanted.values()) + f"{count - len(wanted)} passed, {len(wanted)} failed\n"))
        alone = (1, f"{wanted['CHANGELOG.md']}\n{count - 1} passed, 1 failed\n")
        tests.same("--write writes all but the list of changes, which is by hand", 
            [run(top, "tools/table.py", *it) for it in (["--write"], [])], [alone] * 2)
        coming, released = "## Coming\n\nMore.\n\n- Still more.\n", kit.text_of(f"{TOP}/CHANGELOG.md").partition(f"\n## {version}\n")[2]
        write(f"{top}/CHANGELOG.md", f"# Changes\n\n{coming}\n## 9.9.9\n\n- New.\n\n## {version}\n{released}")
        tests.same("which may begin with what is coming", run(top, "tools/table.py"), (0, f"{count} passed, 0 failed\n"))


def test_table_itself(tests):
    """The table's own rules: consecutive numbers, names that occur once, fields and replies that there are."""
    def row(number, name, said="x"):
        return table.Row(number, name, None, said, None)

    right = {"code": [row(3, "A", "see `x` and `high`"), row(4, "B")], "kind": [row(1, "K", "it: A, B")], "reply": [row(1, "R")], "call": [row(1,
            "C", "it: R; more")]}
    cases = (
        ("as it should be", {}, []),
        ("with groups of no number", {"group": [row(None, "G"), row(None, "H")]}, []),
        ("with a number left out", {"code": [row(3, "A"), row(5, "B")]}, ["the numbers of each code don't go on from one to the next"]),
        ("with a number twice", {"code": [row(3, "A"), row(3, "B")]}, ["the numbers of each code don't go on from one to the next"]),
        ("with numbers that fall", {"code": [row(3, "A"), row(2, "B")]}, ["the numbers of each code don't go on from one to the next"]),
        ("with a name twice", {"code": [row(3, "A"), row(4, "B"), row(5, "B")]}, ["B is the name of two of a code"]),
        ("with a field that is none", {"code": [row(3, "A", "see `z`, not `number`"), row(4, "B")]}, ["code A: a reply has no field z"]),
        ("with a code that is none", {"kind": [row(1, "K", "it: A, D, E; `x` is not read")]}, ["kind K: D is no code", "kind K: E is no code"]),
        ("with a reply that is none", {"call": [row(1, "C", "it: R, S; more")]}, ["call C: S is no reply"]),
    )
    for what, lists, wanted in cases:
        tests.same(f"the table {what}", [*table.faults_in({**right, **lists})], wanted)


def test_cases(tests):
    """A case is like the first of its form but for names and layout; one that is missing is written, one that is too many is gone."""
    call = lambda number, name, said: table.Row(number, name, None, said, None)
    rows = [call(0, "ADD", "add x y: R"), call(1, "PLACE", "place x y: R"), call(2, "COUNT", "count: R")]
    lists = {"call": rows, "kind": [], "reply": [call(0, "R", "r")]}
    add, count = "    Call::Add => Pair { x, y },\n", "    Call::Count => none(Add),\n"
    place = add.replace("Add", "Place")
    laid_out = "    Call::Place => Pair {\n        x,\n        y,\n    },\n"
    for what, text, wanted in (("all", add + place + count, None), ("another layout", add + laid_out + count, None),
        ("another order", place + count + add, None), ("one that is missing", add + count, add + count + place),
        ("another value", add + place.replace("x", "z") + count, add + place + count),
        ("the first is changed", add.replace("x", "z") + place, (add + place).replace("x", "z"))):
        tests.same(f"cases: {what}", table.cases(text, rows, table.Row.camel, lists), wanted or text)
    for length, wanted in ((105, "words = m.A{0} ∷ m.B\n    ∷ []\n"), (106, "words = m.A{0}\n    ∷ m.B ∷ []\n")):
        came = table.list_of("words", [call(0, "a" * length, ""), call(1, "B", "")], "m")
        tests.same(f"a list with a name of {length}", came, wanted.format("a" * (length - 1)))


# ---- dist/

SMALL_PRODUCTS = """# products
x86_64/libhull.a hull_c: c/a.c include/a.h
x86_64/hullbook hullbook:
web/hull.wasm hull_c: web/build.py
"""


def sum_of(path):
    with open(path, "rb") as file:
        return hashlib.sha256(file.read()).hexdigest()


def lay_products(top):
    """Lays a repository with three products, of which dist/ has the bytes and the sums."""
    lay_tools(top)
    write(f"{top}/tools/products.txt", SMALL_PRODUCTS)
    write(f"{top}/crates.txt", "low:\nhull_c staticlib: low\nhullbook: hull_c\nother:\n")
    for crate in ("low", "hull_c", "hullbook", "other"):
        for part in ("src/lib.rt", "specs/A.antt", "proofs/A.antt"):
            write(f"{top}/crates/{crate}/{part}", f"{crate} {part}\n")
    for name in ("c/a.c", "c/b.c", "include/a.h", "web/build.py"):
        write(f"{top}/{name}", f"{name}\n")
    write(f"{top}/VERSION", "7.8.9\n")
    for name, crate in (("x86_64/libhull.a", "hull_c"), ("x86_64/hullbook", "hullbook"), ("web/hull.wasm", "hull_c")):
        write(f"{top}/dist/{name}", f"bytes of {name}\n")
        sources, others = (run(top, "tools/product.sh", *words)[1].strip() for words in (("sum", crate), ("others", name)))
        with open(f"{top}/dist/SUMS", "a", encoding="utf-8") as file:
            file.write(f"file {name} sha256={sum_of(f'{top}/dist/{name}')} bytes=1 crate={crate} sources={sources} others={others}\n")


def test_found(tests):
    """A file of dist/ is found only if its crate's sources, those below, and its other files are those of its sums, and so are its bytes."""
    with tempfile.TemporaryDirectory() as top:
        lay_products(top)
        names = ("x86_64/libhull.a", "x86_64/hullbook", "web/hull.wasm")

        def statuses():
            return [run(top, "tools/product.sh", "find", it)[0] for it in names]

        write(f"{top}/path/sort", f'#!/bin/sh\n[ "${{LC_ALL:-}}" = C ] || set -- -r "$@"\nexec {shutil.which("sort")} "$@"\n', 0o755)
        language = {"PATH": f"{top}/path:{os.environ['PATH']}", "LC_ALL": "xx"}
        said = run(top, "tools/product.sh", "find", names[0], env=language)
        tests.same("in a language that sorts otherwise", said, (0, f"{top}/dist/{names[0]}\n"))
        tests.same("all are found", [run(top, "tools/product.sh", "find", it) for it in names], [(0, f"{top}/dist/{it}\n") for it in names])
        tests.same("all have their bytes", run(top, "tools/product.sh", "check"), (0, "3 passed, 0 failed\n"))
        changes = (  # a file, and which products it makes stale
            ("crates/low/src/lib.rt", [1, 1, 1]), ("crates/low/specs/A.antt", [1, 1, 1]), ("crates/low/proofs/A.antt", [1, 1,
                    1]), ("crates/hull_c/src/more.rt", [1, 1, 1]),
            ("crates/hullbook/src/lib.rt", [0, 1, 0]), ("crates/other/src/lib.rt", [0, 0, 0]), ("crates/low/mutants/a.edit", [0, 0, 0]), ("c/a.c",
                    [1, 0, 0]),
            ("include/a.h", [1, 0, 0]), ("c/b.c", [0, 0, 0]), ("web/build.py", [0, 0, 1]), ("dist/x86_64/libhull.a", [2, 0,
                    0]), ("dist/web/hull.wasm", [0, 0, 2]),
        )
        for name, wanted in changes:
            before = kit.text_of(f"{top}/{name}")
            write(f"{top}/{name}", before + "x")
            tests.same(f"{name} is changed", statuses(), wanted)
            write(f"{top}/{name}", before) if before else os.remove(f"{top}/{name}")
        crates = kit.text_of(f"{top}/crates.txt")
        for changed, wanted in ((crates.replace("other:", "other: low"), [0, 0, 0]), (crates.replace("hull_c staticlib", "hull_c"), [1, 1, 1]),
                ("# a comment\n" + crates, [0, 0, 0])):
            write(f"{top}/crates.txt", changed)
            tests.same(f"crates.txt is {changed!r}", statuses(), wanted)
        write(f"{top}/crates.txt", crates)
        tests.same("put copies what is found", (run(top, "tools/product.sh", "put", names[0], f"{top}/copy")[0], kit.text_of(f"{top}/copy")), (0,
                f"bytes of {names[0]}\n"))
        tests.same("ready", run(top, "tools/product.sh", "ready", names[0])[0], 0)
        write(f"{top}/dist/{names[0]}", "others\n")
        damaged = f"dist/{names[0]}: FAILED, its bytes are not those of dist/SUMS"
        tests.same("check", run(top, "tools/product.sh", "check"), (1, f"{damaged}\n2 passed, 1 failed\n"))
        write(f"{top}/dist/web/more", "")
        write(f"{top}/dist/others", "")
        rows = [damaged, *(f"dist/{it}: FAILED, dist/SUMS does not name it" for it in ("others", "web/more"))]
        status, said = run(top, "tools/product.sh", "check")
        tests.same("files that SUMS does not name", (status, sorted(said.splitlines())), (1, ["2 passed, 3 failed", *sorted(rows)]))
        os.remove(f"{top}/dist/others")
        os.remove(f"{top}/dist/web/more")
        os.remove(f"{top}/dist/{names[0]}")
        tests.refuses("a file that is gone", "2 passed, 1 failed", top, "tools/product.sh", "check")
        tests.same("words that are none", [run(top, "tools/product.sh", *words)[0] for words in ((), ("other",), ("find",), ("sum", "a", "b"))], [1,
                1, 1, 1])


def test_made(tests):
    """What was proved here is found if it was made of these sources; and dist/ without a file is not right."""
    with tempfile.TemporaryDirectory() as top:
        lay_products(top)
        find = lambda word="program": run(top, "tools/product.sh", word, "hullbook")
        here = f"{top}/crates/hullbook/out/{os.uname().machine}/hullbook"
        tests.same("the released program", find(), (0, f"{top}/dist/x86_64/hullbook\n"))
        tests.same("none is linked here", find("linked")[0], 1)
        write(f"{top}/dist/x86_64/hullbook", "damaged\n")
        tests.same("a damaged one is not taken", find(), (2, ""))
        write(f"{top}/crates/hullbook/out/hullbook", "linked here\n"), run(top, "tools/product.sh", "made", "hullbook")
        tests.same("but one of the same sources that was made here", find(), (0, f"{here}\n"))
        write(f"{top}/crates/hullbook/src/lib.rt", "changed\n")
        tests.same("of other sources there is none", find()[0], 1)
        write(f"{top}/crates/hullbook/out/hullbook", "linked here\n"), write(f"{top}/crates/hullbook/out/hullbook.o", "object\n")
        tests.same("what a proof left is kept", run(top, "tools/product.sh", "made", "hullbook"), (0, ""))
        tests.same("and found", [find(), find("linked"), kit.text_of(here)], [(0, f"{here}\n")] * 2 + ["linked here\n"])
        tests.same("it is ready, and put", [run(top, "tools/product.sh", *words)[0] for words in (("ready", "x86_64/hullbook"),
                ("put", "x86_64/hullbook", f"{top}/copy"))] + [kit.text_of(f"{top}/copy")], [0, 0, "linked here\n"])
        tests.same("the object beside it", kit.text_of(f"{here}.o"), "object\n")
        left = [kit.text_of(f"{top}/crates/hullbook/out/hullbook{end}") for end in ("", ".o")]
        tests.same("what the proof left stays", left, ["linked here\n", "object\n"])
        write(f"{top}/crates/low/src/lib.rt", "changed below\n")
        tests.same("of others again it is not", [find()[0], find("linked")[0], run(top, "tools/product.sh", "ready", "x86_64/hullbook")[0]], [1, 1, 1])
        tests.same("a page of other sources is not taken", run_apart(top, "tools/product.sh", "make", "web/hull.wasm", f"{top}/page"),
            (69, "", "tools/product.sh: web/out was made of other sources: run web/build.py, then node web/page.mjs\n"))
        write(f"{top}/web/out/made-of", run(top, "tools/product.sh", "sum", "hull_c")[1]), write(f"{top}/web/out/hull.wasm", "built\n")
        tests.same("one of these is", (run(top, "tools/product.sh", "make", "web/hull.wasm", f"{top}/page")[0], kit.text_of(f"{top}/page")), (0, "built\n"))
        write(f"{top}/dist/SUMS", "")
        for name in ("x86_64/libhull.a", "x86_64/hullbook", "web/hull.wasm"):
            os.remove(f"{top}/dist/{name}")
        tests.same("dist/ without a file", run(top, "tools/product.sh", "check"), (1, "0 passed, 0 failed\n"))


RELEASE_RT = "#!/bin/sh\n[ \"$1\" = version ] && echo \"${TOOLCHAIN:-kit-1}\"\n"
RELEASE_TOOL = """#!/bin/sh
case $(basename "$0") in ldd) number=${LIBRARY:-1} ;; *) number=${COMPILER:-1} ;; esac
[ "$1" != --version ] || echo "$(basename "$0") $number"
"""
# makes the released bytes, but for the files of OTHER and BROKEN, and takes those of STALE for changed
RELEASE_PRODUCT = """#!/bin/sh
is_in() { case " $2 " in *" $1 "*) ;; *) return 1 ;; esac; }
case $1 in
make) ! is_in "$2" "${BROKEN:-}" || exit 70; if is_in "$2" "${OTHER:-}"; then echo other; else echo "bytes of $2"; fi >"$3" ;;
find) ! is_in "$2" "${STALE:-}" || exit 1; echo "$2" ;;
*) exec "$(dirname "$0")/real.sh" "$@" ;;
esac
"""
SAME, WAS_SAME, DIFFERS = "the same to the byte", "was the same to the byte when the record was made", "FAILED, made again it has other bytes"


class Release:
    """A repository with four products, and stand-ins for what makes and compares them."""

    def __init__(self, top):
        self.top, self.names = top, ("x86_64/libhull.a", "x86_64/hullbook", "web/hull.wasm", "aarch64/libhull.a")
        lay_products(top)
        os.rename(f"{top}/tools/product.sh", f"{top}/tools/real.sh")
        write(f"{top}/tools/products.txt", f"{SMALL_PRODUCTS}aarch64/libhull.a hull_c: c/a.c\n")
        write(f"{top}/tools/product.sh", RELEASE_PRODUCT, 0o755)
        for name, text in (("rt", RELEASE_RT), ("gcc", RELEASE_TOOL), ("aarch64-linux-gnu-gcc", RELEASE_TOOL), ("ldd", RELEASE_TOOL)):
            write(f"{top}/path/{name}", text, 0o755)
        os.makedirs(f"{top}/temporary files")

    def run(self, *words, **env):
        """Returns the status and what is printed, without where two files differ."""
        path = f"{self.top}/path:{os.environ['PATH']}"
        status, said = run(self.top, "tools/release.sh", *words, env={"PATH": path, "TMPDIR": f"{self.top}/temporary files", **env})
        return status, re.sub(r"(?m)^.* differ: .*\n", "", said)

    def sums(self):
        return kit.text_of(f"{self.top}/dist/SUMS")

    def report(self, *said, checked="4 passed, 0 failed", passed=None, failed=0):
        """Returns the status and the lines of a comparison, with these words of each file."""
        count = sum(it in (SAME, WAS_SAME) for it in said) if passed is None else passed
        failed = failed or said.count(DIFFERS)
        rows = "".join(f"dist/{name}: {it if it in (SAME, WAS_SAME, DIFFERS) else f'not compared, {it}'}\n" for name, it in zip(self.names, said))
        return (1 if failed else 0), f"{checked}\n{rows}{count} passed, {failed} failed\n"


def test_release(tests):
    """A release notes each file's sums, and leaves dist/ as it was if a file cannot be made."""
    with tempfile.TemporaryDirectory(prefix="a folder ") as top:
        it = Release(top)
        write(f"{top}/dist/x86_64/older", "of a release before\n")
        before = it.sums()
        tests.same("a file that cannot be made", it.run(BROKEN="x86_64/hullbook"), (70, "made x86_64/libhull.a\n"))
        tests.same("leaves dist/ as it was", (it.sums(), os.path.exists(f"{top}/dist/x86_64/older")), (before, True))
        tests.same("a release", it.run(), (0, "".join(f"made {name}\n" for name in it.names)))
        rows = "".join(f"file {name} sha256={sum_of(f'{top}/dist/{name}')} bytes={os.path.getsize(f'{top}/dist/{name}')} crate={crate} "
                       f"sources={run(top, 'tools/real.sh', 'sum', crate)[1].strip()} others={run(top, 'tools/real.sh', 'others', name)[1].strip()}\n"
                       for name, crate in zip(it.names, ("hull_c", "hullbook", "hull_c", "hull_c")))
        head = "# Each file here: its checksum and size, and the checksums of the sources that it was made of " \
               "(tools/release.sh, tools/product.sh).\n" \
               "version 7.8.9\ntoolchain kit-1\ncompiler-x86_64 gcc 1\ncompiler-aarch64 aarch64-linux-gnu-gcc 1\nlibrary-x86_64 ldd 1\n"
        tests.same("its sums", it.sums(), head + rows)
        tests.same("its files", sorted(kit.files_below(f"{top}/dist")), sorted([*it.names, "SUMS"]))
        tests.same("by a link, from another folder", (os.symlink(f"{top}/tools/release.sh", f"{top}/linked"),
            run("/", f"{top}/linked", env={"PATH": f"{top}/path:{os.environ['PATH']}"})[0], it.sums()), (None, 0, head + rows))
        tests.same("nothing temporary is left", os.listdir(f"{top}/temporary files"), [])


def test_comparison(tests):
    """--compare fails for each file that is not the same to the byte, and passes over those that cannot be made here, which it names."""
    with tempfile.TemporaryDirectory() as top:
        it = Release(top)
        it.run()
        write(f"{top}/web/out/made-of", run(top, "tools/real.sh", "sum", "hull_c")[1])
        tests.same("the same bytes", it.run("--compare"), it.report(*[SAME] * 4))
        for what in ("OTHER", "BROKEN"):
            for one, other, wanted in ((0, 2, (DIFFERS, SAME, DIFFERS, SAME)), (1, 3, (SAME, DIFFERS, SAME, DIFFERS))):
                came = it.run("--compare", **{what: f"{it.names[one]} {it.names[other]}"})
                tests.same(f"{what} of the files {one} and {other}", came, it.report(*wanted))
        changed, tool, compiler = "its sources have changed since the release", "it was made by kit-1", "it was made by another C compiler"
        library = "it was made with another C library"
        for more, wanted in (({"STALE": f"{it.names[0]} {it.names[2]}"}, (changed, SAME, changed, SAME)),
                             ({"TOOLCHAIN": "kit-2"}, (tool, tool, SAME, tool)),
                             ({"COMPILER": "2"}, (compiler, compiler, SAME, compiler)), ({"LIBRARY": "2"}, (library, library, SAME, SAME))):
            tests.same(f"not compared with {more}", it.run("--compare", **more), it.report(*wanted))
        without = ":".join(one for one in os.environ["PATH"].split(":") if not os.path.exists(f"{one}/rt"))
        tests.same("without the toolchain", it.run("--compare", PATH=without), it.report(tool, tool, SAME, tool))
        os.remove(f"{top}/web/out/made-of")
        tests.same("a page that was not built", it.run("--compare"), it.report(SAME, SAME, "web/build.py was not run here", SAME))
        write(f"{top}/dist/{it.names[1]}", "changed\n")
        wrong = f"dist/{it.names[1]}: FAILED, its bytes are not those of dist/SUMS\n3 passed, 1 failed"
        tests.same("a released file with other bytes than its sum", it.run("--compare", STALE=it.names[1]),
            it.report(SAME, changed, "web/build.py was not run here", SAME, checked=wrong, failed=1))


def test_record(tests):
    """--record notes which files are the same, and --changed makes only those again that the record does not have as they are."""
    with tempfile.TemporaryDirectory() as top:
        it, record = Release(top), f"{top}/.ci/compared.txt"
        it.run()
        write(f"{top}/web/out/made-of", run(top, "tools/real.sh", "sum", "hull_c")[1])
        with contextlib.suppress(FileNotFoundError):
            os.remove(record)
        tests.same("files without a record", it.run("--changed", OTHER=it.names[0]), it.report(DIFFERS, SAME, SAME, SAME))
        tests.same("a record of a file with other bytes", it.run("--record", OTHER=it.names[0]), it.report(DIFFERS, SAME, SAME, SAME))
        tests.see("is none", not os.path.exists(record))
        tests.same("a record", it.run("--record"), it.report(*[SAME] * 4))
        rows = [f"{row} toolchain=kit-1 compiler={compiler}" for row, compiler in zip(it.sums().splitlines()[6:],
            ("gcc 1", "gcc 1", "", "aarch64-linux-gnu-gcc 1"))]
        rule = "# the released files that were made again and were the same to the byte; tools/release.sh --record writes this file"
        tests.same("its lines", kit.text_of(record).splitlines(), [rule, *rows])
        tests.same("files of the record are not made again", it.run("--changed", OTHER=it.names[0]), it.report(*[WAS_SAME] * 4))
        tests.same("but they are by --compare", it.run("--compare", OTHER=it.names[0]), it.report(DIFFERS, SAME, SAME, SAME))
        sums, tool, compiler = it.sums(), "it was made by kit-2", "it was made by another C compiler"
        for old, new, wanted in (("compiler-x86_64 gcc 1", "compiler-x86_64 gcc 2", (compiler, compiler, WAS_SAME, WAS_SAME)),
                                 ("toolchain kit-1", "toolchain kit-2", (tool, tool, SAME, tool)),
                                 (" crate=hullbook", " crate=hullbook more=1", (WAS_SAME, SAME, WAS_SAME, WAS_SAME))):
            write(f"{top}/dist/SUMS", sums.replace(old, new))
            tests.same(f"a record with {old}", it.run("--changed"), it.report(*wanted))


TESTS = (test_outcomes, test_edits, test_layouts, test_usage, test_words, test_lengths, test_each_place, test_table_itself,
    test_cases, test_found, test_made, test_release, test_comparison, test_record)
