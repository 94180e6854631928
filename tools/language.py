#!/usr/bin/env python3
"""Counts words of the project's old dialect in what its readers read, so that they only become fewer.

    tools/language.py [--write] [--where WORD]

It reads README and the other pages, the headers, the manual pages, the docstrings of Python and Rust, the types of JavaScript, and the public comments of
Rattle. For each word of .ci/language.txt it prints the count and the count per 1,000 words; more than that file says is a failure. --write
lowers the numbers of that file to what is there, and never raises one. --where prints the lines with a word. docs/GLOSSARY.md says what to
write instead. The last line is 'N passed, M failed'.
"""
import ast
import os
import re
import sys

sys.path.insert(0, os.path.dirname(os.path.abspath(__file__)))
import kit  # noqa: E402 (the path comes first)

LIMITS = ".ci/language.txt"
HEAD = "# word, how often it may occur in what readers read (tools/language.py); these numbers may only fall\n"
# each word as a pattern; the second kind should be frequent, and is only printed
RARE = {
    "told": r"told|tells?", "stands": r"stands?", "behind": r"behind", "alone": r"alone", "where": r"where", "lent": r"lent|lends?", "whoever": r"whoever",
    "corner": r"corners?", "wrong body": r"wrong[ -]bod(?:y|ies)", "desk": r"desks?", "outline": r"outlines?", "room": r"rooms?", "teller": r"tellers?",
    "hall": r"halls?", "door": r"doors?", "fringe": r"fringes?", "of its own accord": r"of its own accord", "nobody else": r"nobody else",
}
FREQUENT = {"if": r"if", "you": r"you|your"}


def comments_of(path, text):
    """Returns what of a file its readers read as prose."""
    if path.endswith(".py"):
        nodes = (it for it in ast.walk(ast.parse(text)) if isinstance(it, (ast.Module, ast.ClassDef, ast.FunctionDef)))
        return "\n".join(ast.get_docstring(it) or "" for it in nodes)
    if path.endswith((".rs", ".rt")):
        return "\n".join(re.findall(r"(?m)^\s*//[/!] ?(.*)", text))
    if path.endswith((".h", ".hpp", ".ts")):
        return "\n".join(re.findall(r"(?s)/\*.*?\*/|//[^\n]*", text))
    return text


def pages():
    """Yields the paths of the files that are read."""
    yield from (it for it in sorted(os.listdir(kit.TOP)) if it.endswith(".md") and it != "CHANGELOG.md")
    for folder, endings in (("docs", (".md",)), ("include", (".h", ".hpp")), ("man", (".1", ".3")), ("python", (".py", ".md")), ("rust/hull/src", (".rs",)),
                            ("web", (".d.ts", ".md")), ("crates", (".rt",))):
        for it in kit.files_below(f"{kit.TOP}/{folder}"):
            if it.endswith(endings) and "/out/" not in f"/{it}" and it != "GLOSSARY.md" and not re.match(r"\w+_tests/", it):
                yield f"{folder}/{it}"


def occurrences(text, pattern):
    return re.findall(rf"(?i)\b(?:{pattern})\b", text)


def main(words):
    texts = {it: comments_of(it, kit.text_of(f"{kit.TOP}/{it}")) for it in pages()}
    if words[:1] == ["--where"] and len(words) == 2:
        pattern = {**RARE, **FREQUENT}.get(words[1], words[1])
        for path, text in texts.items():
            print("".join(f"{path}: {line.strip()[:160]}\n" for line in text.splitlines() if occurrences(line, pattern)), end="")
        return 0
    if words not in ([], ["--write"]):
        print(__doc__, file=sys.stderr)
        return 2
    whole = "\n".join(texts.values())
    size, counts = len(whole.split()), {name: len(occurrences(whole, pattern)) for name, pattern in RARE.items()}
    limits = {it.rpartition(" ")[0]: int(it.rpartition(" ")[2]) for it in kit.text_of(f"{kit.TOP}/{LIMITS}").splitlines() if not it.startswith("#")}
    if words:
        limits = {it: min(limits.get(it, counts[it]), counts[it]) for it in RARE}
        with open(f"{kit.TOP}/{LIMITS}", "w", encoding="utf-8") as text:
            text.write(HEAD + "".join(f"{name} {limit}\n" for name, limit in limits.items()))
    pages_only = "\n".join(text for path, text in texts.items() if not path.startswith("crates/"))
    for what, text in (("all", whole), ("without the comments of Rattle", pages_only)):
        count = len(text.split())
        print(f"{what}: {count} words", *(f"'{name}' {1000 * len(occurrences(text, it)) / count:.2f} per 1,000" for name, it in FREQUENT.items()), sep=", ")
    faults = [f"'{it}': FAILED, {counts[it]} times, and {LIMITS} allows {limits.get(it, 0)}: tools/language.py --where '{it}'" for it in RARE if counts[it] > limits.get(it, 0)]
    print(*(f"'{it}' {counts[it]} times, {1000 * counts[it] / size:.2f} per 1,000" for it in RARE), *faults, sep="\n")
    print(f"{len(RARE) - len(faults)} passed, {len(faults)} failed")
    return 1 if faults else 0


if __name__ == "__main__":
    sys.exit(main(sys.argv[1:]))
