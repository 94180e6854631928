#!/usr/bin/env python3
"""Finds in seconds what would fail the gate after an hour: the layout of files, mutants that no longer fit, and counts that differ.

    tools/layout.py [--write]

Each .rt and .antt file must be in the layout of `rt fmt`. Each text that a mutant of must-fail/ or mutants/ replaces must occur once in
its file. Each crate must have as many mutants and tests as .ci/counts.txt says, so that none is lost by accident (--write writes that
file). .rt and .antt files may only be in src/, specs/ and proofs/, since no check reads others, and crates may contain no links.
Prints a line for each fault; the last line is 'N passed, M failed', each file counted.
"""
import os
import subprocess
import sys

sys.path.insert(0, os.path.dirname(os.path.abspath(__file__)))
import kit  # noqa: E402 (the path comes first)
import mutants  # noqa: E402

COUNTS = f"{kit.TOP}/.ci/counts.txt"
HEAD = "# crate, number of mutants, number of tests; `tools/layout.py --write` writes this file\n"


def files_of_crates(*endings):
    """Returns the paths of the files of the crates with these endings, except those that commands made."""
    paths = (f"crates/{it}" for it in kit.files_below(f"{kit.TOP}/crates"))
    return [it for it in paths if it.endswith(endings) and it.split("/")[2] != "out"]


def not_laid_out(sources):
    """Returns the faults of the files that are not in the layout of `rt fmt`."""
    if not kit.version():
        print("the layout of rt fmt: skipped, there is no toolchain")
        return []
    looked = subprocess.run([f"{kit.toolchain()}/bin/rattle", "fmt", "--check", *sources], capture_output=True, text=True, check=False)
    if not looked.returncode:
        return []
    said = (looked.stdout + looked.stderr).splitlines() or [f"rt fmt: FAILED, exit status {looked.returncode}"]
    return [f"{it}: FAILED, not in the layout of rt fmt" for it in sources if any(it in line for line in said)] or said[:20]


def misplaced(sources):
    """Returns the faults of files that no check reads, and of links, which could lead a check elsewhere."""
    faults = [f"{it}: FAILED, no check reads it there" for it in sources if it.split("/")[2] not in kit.SOURCES or it.split("/")[1] not in kit.crates()]
    for at, folders, names in os.walk(f"{kit.TOP}/crates"):
        folders[:] = [it for it in folders if it != "out"]
        faults += [f"{at}/{it}: FAILED, it is a link" for it in [*folders, *names] if os.path.islink(f"{at}/{it}")]
    return faults


def counts():
    """Returns the numbers of mutants and tests of each crate, in the form of .ci/counts.txt."""
    rows = [(it.name, len(mutants.files_of(it)), it.count(r"#\[test\]")) for it in sorted(kit.crates().values(), key=lambda it: it.name)]
    return HEAD + "".join(f"{name} {edits} {tests}\n" for name, edits, tests in rows)


def main(words):
    os.chdir(kit.TOP)
    if words not in ([], ["--write"]):
        print(__doc__, file=sys.stderr)
        return 2
    if words:
        with open(COUNTS, "w", encoding="utf-8") as text:
            text.write(counts())
    sources, edits = files_of_crates(".rt", ".antt"), files_of_crates(".edit")
    faults = not_laid_out(sources) + misplaced(sources)
    for it in edits:
        why = mutants.changes_in(kit.text_of(it), os.path.dirname(os.path.dirname(it)))[1]
        faults += [f"{it}: FAILED, {why}"] if why else []
    counted, written = counts().splitlines(), kit.text_of(COUNTS).splitlines()
    faults += [f".ci/counts.txt: FAILED, it says '{it}'" for it in written if it not in counted]
    faults += [f".ci/counts.txt: FAILED, counted '{it}'" for it in counted if it not in written]
    print(*faults, sep="\n", end="\n" if faults else "")
    print(f"{max(0, len(sources) + len(edits) + 1 - len(faults))} passed, {len(faults)} failed")
    return 1 if faults else 0


if __name__ == "__main__":
    sys.exit(main(sys.argv[1:]))
