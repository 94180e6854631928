#!/usr/bin/env python3
"""Writes what is made of comments: beside each library that has a caller in `callers` the page CALLING.md, with that caller and all public
names.

    tools/reference.py                 compares, and tests the lengths of the pages in docs/ and the mutants that one of them names
    tools/reference.py --write         writes these pages
    tools/reference.py --definitions   writes out/DEFINITIONS.md: what each definition means that a public contract can name

A definition that a contract can name is `pub` at the head of a line of specs/, with its comment above it. The last line is
'N passed, M failed'.
"""
import os
import re
import sys
import textwrap

sys.path.insert(0, os.path.dirname(os.path.abspath(__file__)))
import kit  # noqa: E402 (the path comes first)

# a public definition, but for what only passes names on
DEFINITION = re.compile(r"^(?:(?:abbrev|unfoldable|opaque|infix[lr]?|\d+)\s+)*pub\s+(?!use\b|mod\b|open\b|ruleset\b)(?:(?:record|data|abbrev|unfoldable|opaque)\s+)*(\S+)")
HEAD = """# Definitions

What each definition means that a public contract can name, crate by crate, in the words of the comment above it. The definitions
themselves are in `crates/NAME/specs/MODULE.antt`, and they decide. A whole number is of any size, and a list of points represents a set.
"""
WIDTH = 140
CALLING = """# Calling `{name}`

{about}

## A caller

This is `{path}`, which is proved. What each function requires and ensures is written above its body in `src/`.

```rust
{code}```

## What callers can name

{names}

`tools/reference.py --write` writes this page.
"""
# how many words docs/ may have, and how many a section of a page may have: what a section is, and where one ends
BY_HAND = 20000
# the page whose tables name mutants
MUTANTS = "docs/ASSURANCE.md"
PARTS = {
    "docs/PROVED.md": ("a cell", 60, r"\||(?m:^(?!\|).*\n)"),
    "docs/DECISIONS.md": ("a decision", 120, r"\n\n(?=\*\*|#)"),
    "docs/ARCHITECTURE.md": ("a sentence", 35, r"(?<=[.:;])\s+(?=[A-Z`*])|\n\n|\n *(?:- |\d+\. )|\|"),
}
def comment_above(lines, at):
    """The comment whose last line is above that one, as one text."""
    found = []
    while at > 0 and lines[at - 1].startswith("--"):
        at -= 1
        found.insert(0, lines[at][2:].strip())
    return " ".join(found)


def cell(text):
    """A text as a cell of a table: with its first letter unchanged, and one stop at its end."""
    text = text.replace("|", "\\|")
    return text if not text or text.endswith((".", "?", ")")) else f"{text}."


def definitions_in(path):
    """The public definitions of a file, each with its comment; those that are together under one comment as one."""
    lines, found = kit.text_of(path).splitlines(), []
    for at, line in enumerate(lines):
        name = DEFINITION.match(line)
        if name:
            said = comment_above(lines, at)
            if not said and found and lines[at - 1]:
                found[-1][0].append(name[1])
            else:
                found.append(([name[1]], said))
    return [(names, said) for names, said in found if said]


def head_of(path):
    """The comment at the head of a file, as one text."""
    lines = kit.text_of(path).splitlines()
    end = next((at for at, it in enumerate(lines) if not it.startswith("--")), len(lines))
    return comment_above(lines, end)


def about(crate):
    """The first paragraph of a crate's own page."""
    root = "main" if crate.is_program else "lib"
    text = re.match(r"(?://!.*\n)*", kit.text_of(f"{crate.folder}/src/{root}.rt"))[0]
    return " ".join(it.removeprefix("//!").strip() for it in text.partition("//!\n")[0].splitlines())


def files_in(crate, part):
    """The files of specs/ or proofs/ right in it, but for those that only name others, by their names."""
    folder = f"{crate.folder}/{part}"
    return [it.removesuffix(".antt") for it in kit.files_below(folder) if "/" not in it and it.endswith(".antt") and it != "Lib.antt"]


def definitions():
    """Returns the text of out/DEFINITIONS.md."""
    text = [HEAD]
    for crate in kit.crates().values():
        modules = [(it, head_of(f"{crate.folder}/specs/{it}.antt"), definitions_in(f"{crate.folder}/specs/{it}.antt")) for it in files_in(crate, "specs")]
        modules = [it for it in modules if it[2]]
        if not modules:
            continue
        text.append(f"\n## {crate.name}\n\n{about(crate)}\n")
        for module, said, found in modules:
            text.append(f"\n**{module}.** {cell(said)}\n\n| Name | What it says |\n|---|---|\n")
            text += [f"| {', '.join(f'`{it}`' for it in names)} | {cell(said)} |\n" for names, said in found]
    return "".join(text)


def callers():
    """The files that are examples for callers of a crate, by that crate's name: the first line of a file says so."""
    found = {}
    for crate in kit.crates().values():
        for file, text in crate.texts():
            said = re.match(r"//! A caller of `(\w+)`|//! .*: an example to copy\.", text)
            if said:
                found[said[1] or crate.name] = f"crates/{crate.name}/{file}"
    return found


def names_of(crate):
    """What a crate's root shows of its own to others, in the order of their names."""
    shown = re.findall(r"(?m)^pub use [\w:]*?(?:(\w+)|\{([^}]*)\});", kit.text_of(f"{crate.folder}/src/lib.rt"))
    return sorted({it.strip() for one, many in shown for it in [one, *many.split(",")] if it.strip()})


def calling(name, path):
    """The text of a crate's CALLING.md."""
    crate, code = kit.crates()[name], kit.text_of(f"{kit.TOP}/{path}").partition("\n")[2]
    names = ", ".join(f"`{it}`" for it in names_of(crate))
    return CALLING.format(name=name, about=textwrap.fill(about(crate), WIDTH), path=path, code=code, names=textwrap.fill(f"{names}.", WIDTH))


def pages():
    """What this writes: each page's path, with its text."""
    for name, path in callers().items():
        yield f"crates/{name}/CALLING.md", calling(name, path)


def too_long():
    """What of docs/ is longer than it may be, a line each."""
    pages = [f"docs/{it}" for it in kit.files_below(f"{kit.TOP}/docs") if it.endswith(".md")]
    count = sum(len(re.sub(r"(?s)<!-- written by.*? writes -->", "", kit.text_of(f"{kit.TOP}/{it}")).split()) for it in pages)
    if count > BY_HAND:
        yield f"docs: FAILED, {count} words, and {BY_HAND} may be"
    for page, (what, most, end) in PARTS.items():
        for part in re.split(end, kit.text_of(f"{kit.TOP}/{page}")):
            if len(part.split()) > most:
                yield f"{page}: FAILED, {what} has {len(part.split())} words of {most}: {' '.join(part.split()[:8])}"


def missing_mutants():
    """The mutants that a table names and that no crate has, a line each."""
    path = f"{kit.TOP}/{MUTANTS}"
    rows = [it for it in (kit.text_of(path) if os.path.isfile(path) else "").splitlines() if it.startswith("|")]
    for name in sorted({it for row in rows for it in re.findall(r"`([a-z0-9]+(?:-[a-z0-9]+)+)`", row)}):
        if not any(os.path.isfile(f"{kit.TOP}/crates/{crate}/{of}/{name}.edit") for crate in kit.crates() for of in ("mutants", "must-fail")):
            yield f"{MUTANTS}: FAILED, no crate has a mutant {name}"


def main(words):
    if words == ["--definitions"]:
        os.makedirs(f"{kit.TOP}/out", exist_ok=True)
        with open(f"{kit.TOP}/out/DEFINITIONS.md", "w", encoding="utf-8") as file:
            file.write(definitions())
        print("out/DEFINITIONS.md")
        return 0
    if words not in ([], ["--write"]):
        print(__doc__, file=sys.stderr)
        return 2
    passed = failed = 0
    for page, text in pages():
        if words:
            with open(f"{kit.TOP}/{page}", "w", encoding="utf-8") as file:
                file.write(text)
        same = kit.text_of(f"{kit.TOP}/{page}") == text
        passed, failed = passed + same, failed + (not same)
        if not same:
            print(f"{page}: FAILED, it is not what the comments and callers say: tools/reference.py --write")
    for faults in ([*too_long()], [*missing_mutants()]):
        print("".join(f"{it}\n" for it in faults), end="")
        passed, failed = passed + (not faults), failed + len(faults)
    print(f"{passed} passed, {failed} failed")
    return 1 if failed else 0


if __name__ == "__main__":
    sys.exit(main(sys.argv[1:]))
