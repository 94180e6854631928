"""Tests the whole output of the tools that judge documents and layouts, and the whole of each file that they write, on small repositories."""
import os
import string
import sys
import tempfile

import kit
import reference
from judges import RATTLE, RT, SENTENCES
from small import lay_tools, run, run_apart, write


def counted_words(rates, **counts):
    """Returns the rows of tools/language.py for the words of the dialect, all but these with none."""
    return "".join(f"'{it}' {counts.get(it, 0)} times, {rates.get(it, '0.00')} per 1,000\n" for it in SENTENCES)


def test_language_output(tests):
    """tools/language.py prints sums with and without the comments of Rattle, a row for each word and the faults, and writes a row for each."""
    with tempfile.TemporaryDirectory() as top:
        lay_tools(top)
        write(f"{top}/README.md", "If you run it, it says what is there.\n")
        write(f"{top}/docs/A.md", "Two desks, and your desk of its own accord.\n")
        write(f"{top}/crates/small/src/a.rt", "//! It tells, if asked, if so.\n")
        sums = "all: 24 words, 'if' 125.00 per 1,000, 'you' 83.33 per 1,000\n" \
               "without the comments of Rattle: 18 words, 'if' 55.56 per 1,000, 'you' 111.11 per 1,000\n"
        rows = counted_words({"told": "41.67", "desk": "83.33", "of its own accord": "41.67"}, told=1, desk=2, **{"of its own accord": 1})
        rule = "# word, how often it may occur in what readers read (tools/language.py); these numbers may only fall\n"
        limits = {**dict.fromkeys(SENTENCES, 3), "told": 0, "of its own accord": 1}
        write(f"{top}/.ci/language.txt", rule + "".join(f"{it} {count}\n" for it, count in limits.items() if it != "desk"))
        faults = "".join(f"'{it}': FAILED, {count} times, and .ci/language.txt allows 0: tools/language.py --where '{it}'\n"
            for it, count in (("told", 1), ("desk", 2)))
        tests.same("two words too many", run_apart(top, "tools/language.py"), (1, f"{sums}{rows}{faults}{len(SENTENCES) - 2} passed, 2 failed\n", ""))
        fault = "'told': FAILED, 1 times, and .ci/language.txt allows 0: tools/language.py --where 'told'\n"
        tests.same("--write lowers what is lower, raises none, and adds a word that has no row", run_apart(top, "tools/language.py", "--write"),
            (1, f"{sums}{rows}{fault}{len(SENTENCES) - 1} passed, 1 failed\n", ""))
        counts = {**dict.fromkeys(SENTENCES, 0), "desk": 2, "of its own accord": 1}
        tests.same("its rows", kit.text_of(f"{top}/.ci/language.txt"), rule + "".join(f"{it} {count}\n" for it, count in counts.items()))
        write(f"{top}/README.md", f"  A desk {'and another ' * 20}\nIf so.\n"), write(f"{top}/crates/small/src/a.rt", "")
        tests.same("--where prints at most 160 letters of a line", run_apart(top, "tools/language.py", "--where", "desk"),
            (0, f"README.md: {('A desk ' + 'and another ' * 20)[:160]}\ndocs/A.md: Two desks, and your desk of its own accord.\n", ""))
        for it in "DBECA":
            write(f"{top}/{it}.md", "Halls.\n"), write(f"{top}/man/{it.lower()}.3", "A hall.\n")
        rows = [f"{it}.md: Halls.\n" for it in "ABCDE"] + [f"man/{it}.3: A hall.\n" for it in "abcde"]
        tests.same("--where of many files, in order", run_apart("/", f"{top}/tools/language.py", "--where", "hall"), (0, "".join(rows), ""))
        tests.same("--where of a frequent word", run_apart(top, "tools/language.py", "--where", "you"),
            (0, "docs/A.md: Two desks, and your desk of its own accord.\n", ""))


def test_layout_output(tests):
    """tools/layout.py prints each fault and the counts, without the toolchain too."""
    with tempfile.TemporaryDirectory() as top:
        lay_tools(top)
        write(f"{top}/rt/rt", RT, 0o755), write(f"{top}/rt/kit/bin/rattle", RATTLE, 0o755), os.makedirs(f"{top}/none")
        write(f"{top}/crates.txt", "small:\nbare:\n")
        write(f"{top}/crates/small/src/lib.rt", "fn a() {}\n"), write(f"{top}/crates/small/src/b.rt", "#[test]\n")
        write(f"{top}/crates/small/out/a.rt", "left by a command\n"), os.symlink("a.rt", f"{top}/crates/small/out/linked")
        write(f"{top}/crates/small/mutants/one.edit", "file: src/lib.rt\nold: fn a\nnew: fn b\n")
        asked = lambda *words, path="rt", **env: run(top, "tools/layout.py", *words, env={"PATH": f"{top}/{path}:{os.environ['PATH']}", **env})
        tests.same("--write", asked("--write"), (0, "4 passed, 0 failed\n"))
        rule = "# crate, number of mutants, number of tests; `tools/layout.py --write` writes this file\n"
        tests.same("the counts", kit.text_of(f"{top}/.ci/counts.txt"), f"{rule}bare 0 0\nsmall 1 1\n")
        write(f"{top}/crates/small/src/b.rt", "#[test]\n  \n#[test]\n"), write(f"{top}/crates/small/more/c.rt", "fn a() {}\n")
        os.symlink("lib.rt", f"{top}/crates/small/src/linked"), write(f"{top}/crates/small/mutants/one.edit", "new: x\n")
        write(f"{top}/crates/bare/mutants/two.edit", "file: more/a.rt\nold: x\nnew: y\n")
        faults = ["crates/small/src/b.rt: FAILED, not in the layout of rt fmt", "crates/small/more/c.rt: FAILED, no check reads it there",
            f"{top}/crates/small/src/linked: FAILED, it is a link",
            "crates/bare/mutants/two.edit: FAILED, a 'file:' line names no file below src/, specs/ or proofs/",
            "crates/small/mutants/one.edit: FAILED, a 'new:' line is before any 'file:' or 'old:' line",
            *(f".ci/counts.txt: FAILED, {it}" for it in ("it says 'bare 0 0'", "it says 'small 1 1'", "counted 'bare 1 0'", "counted 'small 1 2'"))]
        tests.same("one fault of each kind", asked(), (1, "".join(f"{it}\n" for it in [*faults, "0 passed, 9 failed"])))
        skipped = "the layout of rt fmt: skipped, there is no toolchain"
        alone = "".join(f"{it}\n" for it in [skipped, *faults[1:], "0 passed, 8 failed"])
        tests.same("without the toolchain", run(top, sys.executable, "tools/layout.py", env={"PATH": f"{top}/none"}), (1, alone))
        write(f"{top}/none/rt", "#!/bin/sh\necho rattle-test\nexit 1\n", 0o755)
        tests.same("with one that fails", asked(path="none"), (1, alone))
        several = "\n".join(f"line {it}" for it in range(30))
        said = "it looks at 3 files\n" + "".join(f"line {it}\n" for it in range(19)) + "".join(f"{it}\n" for it in faults[1:])
        write(f"{top}/crates/small/src/b.rt", "#[test]\n#[test]\n")
        tests.same("a formatter that says something else", asked(SAID=several), (1, f"{said}0 passed, 28 failed\n"))
        said = "rt fmt: FAILED, exit status 9\n" + "".join(f"{it}\n" for it in faults[1:])
        tests.same("one that fails and says nothing", asked(SILENT="yes"), (1, f"{said}0 passed, 9 failed\n"))
        tests.same("from another folder", run("/", f"{top}/tools/layout.py", env={"PATH": f"{top}/rt:{os.environ['PATH']}", "SILENT": "yes"}),
            (1, f"{said}0 passed, 9 failed\n"))


# of a crate its files, and the pages that are made of these
COMMENTED = {
    "crates/small/src/lib.rt": "//! What it is about.\n//! In two lines.\n//!\n//! More.\n"
        "pub use inner::{Two, One};\npub use inner::deep::Three;\npub use Four;\n",
    "crates/small/src/a/example.rt": "//! Doing it: an example to copy.\n\nfn call() {}\n",
    "crates/small/specs/Lib.antt": "-- All names\npub passed : Set\n",
    "crates/small/specs/Sets.antt": "-- All about\n-- sets\n\n-- What a set is,\n-- a | b\npub set : Set\n\n"
        "-- of two\nabbrev pub pair : Set\n3 pub other : Set\n\n"
        "pub bare : Set\n\n-- (both)\npub record Both : Set\n\n-- is it?\nunfoldable pub asked : Set\n",
    "crates/small/specs/deep/More.antt": "-- More\n\n-- hidden\npub hidden : Set\n",
    "crates/small/specs/Words.txt": "-- no definition\npub word : Set\n",
    "crates/run/src/main.rt": "//! The program.\n",
    "crates/run/specs/Main.antt": "-- What runs.\n\n-- ends\npub end : Set\n",
    "crates/bare/src/lib.rt": "//! Nothing.\n", "crates/bare/specs/None.antt": "-- None\n\nhidden : Set\n",
    "crates/user/src/lib.rt": "//! Users.\n", "crates/user/src/of.rt": "//! A caller of `bare`, and more.\n",
}
CALLING = """# Calling `small`

What it is about. In two lines.

## A caller

This is `crates/small/src/a/example.rt`, which is proved. What each function requires and ensures is written above its body in `src/`.

```rust

fn call() {}
```

## What callers can name

`Four`, `One`, `Three`, `Two`.

`tools/reference.py --write` writes this page.
"""
DEFINITIONS = """# Definitions

What each definition means that a public contract can name, crate by crate, in the words of the comment above it. The definitions
themselves are in `crates/NAME/specs/MODULE.antt`, and they decide. A whole number is of any size, and a list of points represents a set.

## small

What it is about. In two lines.

**Sets.** All about sets.

| Name | What it says |
|---|---|
| `set` | What a set is, a \\| b. |
| `pair`, `other` | of two. |
| `Both` | (both) |
| `asked` | is it? |

## run

The program.

**Main.** What runs.

| Name | What it says |
|---|---|
| `end` | ends. |
"""


def test_reference_output(tests):
    """The pages that tools/reference.py writes of comments, what it prints of pages that differ, and of what is too long."""
    with tempfile.TemporaryDirectory() as top:
        lay_tools(top)
        write(f"{top}/crates.txt", "small:\nbare:\nrun:\nuser: bare\n")
        for path, text in COMMENTED.items():
            write(f"{top}/{path}", text)
        for page in reference.PARTS:
            write(f"{top}/{page}", "A word.\n")
        pages = ("crates/small/CALLING.md", "crates/bare/CALLING.md")
        differ = "".join(f"{it}: FAILED, it is not what the comments and callers say: tools/reference.py --write\n" for it in pages)
        tests.same("two pages that are not there", run(top, "tools/reference.py"), (1, f"{differ}2 passed, 2 failed\n"))
        tests.same("--write", run(top, "tools/reference.py", "--write"), (0, "4 passed, 0 failed\n"))
        tests.same("the page of a crate with an example", kit.text_of(f"{top}/{pages[0]}"), CALLING)
        tests.see("the page of one with a caller", "This is `crates/user/src/of.rt`, " in kit.text_of(f"{top}/{pages[1]}"))
        tests.same("--definitions", run(top, "tools/reference.py", "--definitions"), (0, "out/DEFINITIONS.md\n"))
        tests.same("the definitions", kit.text_of(f"{top}/out/DEFINITIONS.md"), DEFINITIONS)
        write(f"{top}/crates/small/src/lib.rt", f"//! {'a ' * 99}\npub use inner::{{{', '.join(string.ascii_letters)}}};\n")
        write(f"{top}/docs/PROVED.md", f"Before.\n| a | {'cell ' * 61}|\n"), write(f"{top}/docs/ARCHITECTURE.md", f"{'one ' * 36}\n")
        write(f"{top}/docs/B.md", "word " * 20000), write(f"{top}/docs/b.txt", "no page\n")
        too_long = "docs: FAILED, 20104 words, and 20000 may be\n" \
                   "docs/PROVED.md: FAILED, a cell has 61 words of 60: cell cell cell cell cell cell cell cell\n" \
                   "docs/ARCHITECTURE.md: FAILED, a sentence has 36 words of 35: one one one one one one one one\n"
        differ = differ.partition("\n")[0]
        tests.same("one page that differs, and three that are too long", run(top, "tools/reference.py"),
            (1, f"{differ}\n{too_long}2 passed, 4 failed\n"))
        write(f"{top}/docs/ASSURANCE.md", "| a bug | `small`: `it-is-there`, `it-is-not` |\nNo row: `not-a-mutant`\n")
        write(f"{top}/crates/small/mutants/it-is-there.edit", "file: src/lib.rt\n")
        tests.same("a mutant that is named and not there", run(top, "tools/reference.py"),
            (1, f"{differ}\n{too_long.replace('20104', '20115')}docs/ASSURANCE.md: FAILED, no crate has a mutant it-is-not\n1 passed, 5 failed\n"))
        run(top, "tools/reference.py", "--write")
        lines = [len(it) for it in kit.text_of(f"{top}/{pages[0]}").splitlines()]
        tests.same("the lengths of its lines", [it for it in lines if it > 120], [139, 134, 139])


TESTS = (test_language_output, test_layout_output, test_reference_output)
