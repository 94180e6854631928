#!/usr/bin/env python3
"""Writes the numbers, names and words of tables/calls.txt, what repeats the calls of tables/interface.txt, and the version of the file VERSION.

    tools/table.py [--write]

Each place is a marked stretch of a file, between the comments 'written by tools/table.py: WHAT' and 'end of what tools/table.py writes'; or a
line with the version. In a stretch 'a case for each call' (or question, kind or reply) of a file of Rattle, calls with the same operands have cases
that differ only by their names: each is written like the case of the first of them, if that has one. Without --write it prints what would change.
Each file is counted, and the tables too; the numbers of a list must be consecutive; the last line is 'N passed, M failed'.
"""
import os
import re
import sys
from collections import namedtuple

sys.path.insert(0, os.path.dirname(os.path.abspath(__file__)))
import interface  # noqa: E402 (the path comes first)
import kit  # noqa: E402

TABLE = "tables/calls.txt"
LINE = re.compile(r"(\w+) (?:(\d+) )?(\w+)(?: \((.*?)\))?: (.*)")
STRETCH = r"(?ms)^[^\n]*written by tools/table\.py: %s\b[^\n]*\n(.*?)^[^\n]*end of what tools/table\.py writes"
CASES = re.compile(r"written by tools/table\.py: (a case for each (call|question|kind|reply)( word)?\b.*)")
FIELDS = {"x", "y", "other_x", "other_y", "number", "high"}
# the places of the version: file, and a pattern that occurs once, with the version as its group
VERSIONS = {
    "include/hull_common.h": r'(?m)^#define HULL_VERSION "(.*)"$',
    "python/hull.py": r'(?m)^__version__ = "(.*)"$',
    "rust/hull/Cargo.toml": r'(?m)^version = "(.*)"$',
    "web/package.json": r'(?m)^ *"version": "(.*)",$',
    "CHANGELOG.md": r"\A# Changes\n\n(?:## Coming\n(?:(?!## ).*\n)*)?## (.*)\n",
}

Row = namedtuple("Row", "number name mark said group")


class Row(Row):
    """A line of the table: its number, its name in capitals, its mark, its sentence, and its group."""

    def camel(self):
        """Returns the name in the form TooMany."""
        return "".join(it.capitalize() for it in self.name.split("_"))

    def small(self):
        """Returns the name in the form tooMany."""
        return self.camel()[0].lower() + self.camel()[1:]

    def words(self):
        """Returns the word of a call or reply, as texts spell it, and its operands."""
        return self.said.partition(":")[0].split()

    def in_set(self):
        """Returns the name of a call or reply in `hull_set`."""
        return self.mark if self.mark and self.mark[0].isupper() else self.camel()


def table():
    """Returns the rows of the table by list."""
    lists, group = {"group": []}, None
    for line in re.sub(r"\n +", " ", kit.text_of(f"{kit.TOP}/{TABLE}")).splitlines():
        if line and not line.startswith("#"):
            kind, number, name, mark, said = LINE.fullmatch(line).groups()
            group = Row(None, name, mark, said, None) if kind == "group" else group
            lists.setdefault(kind, []).append(group if kind == "group" else Row(int(number), name, mark, said, group))
    lists = {kind: rows if kind == "group" else sorted(rows, key=lambda it: it.number) for kind, rows in lists.items()}
    return {**lists, "question": [it for it in lists["call"] if it.group.name == "answers"]}


def faults_in(lists):
    """Yields the faults of the table itself."""
    for kind, rows in lists.items():
        numbers, names = [it.number for it in rows], [it.name for it in rows]
        if kind != "group" and numbers != list(range(numbers[0], numbers[0] + len(rows))):
            yield f"the numbers of each {kind} don't go on from one to the next"
        yield from (f"{it} is the name of two of a {kind}" for it in set(names) if names.count(it) > 1)
    for row in lists["code"]:
        yield from (f"code {row.name}: a reply has no field {it}" for it in re.findall("`(.*?)`", row.said) if it not in FIELDS)
    for kind, others in (("kind", "code"), ("call", "reply")):
        known = {it.name for it in lists[others]}
        for row in lists[kind]:
            yield from (f"{kind} {row.name}: {it} is no {others}" for it in answers(row) if it not in known)


def answers(row):
    """Returns the names of the replies to a kind or call."""
    return row.said.rpartition(": ")[2].partition(";")[0].split(", ")


def header(rows, prefix):
    """Returns the rows of an enum of C, each with its comment."""
    lines = interface.aligned([(f"    HULL_{prefix}{it.name} = {it.number}{',' if it is not rows[-1] else ''}", it.said) for it in rows])
    heads = ["" if row.group == before.group else f"\n    /* {row.group.said} */\n" for before, row in zip([rows[0], *rows], rows)]
    return "".join(map(str.__add__, heads, lines))


def documented(rows, mark, width, variant):
    """Returns the variants of an enum, each below its sentence as a comment with that mark."""
    return "".join(f"{interface.wrapped(f'{it.said[0].upper()}{it.said[1:]}.', width, mark, mark)}    {variant(it)}\n" for it in rows)


def manual(rows):
    """Returns a list of codes for a manual page."""
    said = (interface.wrapped(re.sub("`(.*?)`", r"\\fI\1\\fR", it.said), 130, "", "") for it in rows)
    return ";\n".join(f".TP\n.B HULL_{it.name}\n{text[:-1]}" for it, text in zip(rows, said)) + ".\n"


def chosen(rows, kind, depth, otherwise):
    """Returns the word that a field spells, as a chain of `if` of Rattle."""
    inner, outer = " " * depth, " " * (depth + 4)
    tests = (f"if field == {kind}::{it.camel()}.text() {{\n{outer}Some({kind}::{it.camel()})\n{inner}}} else " for it in rows)
    return f"{inner}{''.join(tests)}{{\n{outer}{otherwise}\n{inner}}}\n"


def equations(rows, function, value, module):
    """Returns a function of a definition, a line for each row."""
    return "".join(f"{function} {module}.{it.camel()} = {value(it)}\n" for it in rows)


def list_of(name, rows, module, end="[]"):
    """Returns a list of a definition."""
    text = interface.wrapped(f"{name} = {' ∷ '.join([*(f'{module}.{it.camel()}' for it in rows), end])}", 121, "", "    ")
    return text.replace(" ∷\n    ", "\n    ∷ ")


def definitions(calls, changes, answered):
    """Returns the words as definitions."""
    spell = lambda kind, rows: equations(rows, f"{kind}_word_text", lambda it: f'codes "{it.words()[0]}"', kind)
    return f"""
-- how a call word is spelled
abbrev pub call_word_text : CallWord → List ℕ
{spell("call", calls)}
-- all call words
abbrev pub call_words : List CallWord
{list_of("call_words", calls, "call")}
-- how a reply word is spelled
abbrev pub reply_word_text : ReplyWord → List ℕ
{spell("reply", changes + answered)}
-- the reply words that answer a question
abbrev pub answer_words : List ReplyWord
{list_of("answer_words", answered, "reply")}
-- all reply words: first those that tell what a change did
abbrev pub reply_words : List ReplyWord
{list_of("reply_words", changes, "reply", "answer_words")}
"""


def words_table(lists):
    """Returns the table of calls and replies of docs/FORMATS.md."""
    replies, text = {it.name: it for it in lists["reply"]}, "| Call | Spelled | | Reply | Spelled |\n|---|---|---|---|---|\n"
    for call in lists["call"]:
        possible = [replies[it] for it in answers(call)]
        names = ", ".join(dict.fromkeys(it.in_set() for it in possible))
        text += f"| {call.camel()} | `{call.said.partition(':')[0]}` | | {names} | {', '.join(f'`{it.said}`' for it in possible)} |\n"
    return text


def stretches(lists):
    """Yields each marked stretch: its file, its mark, and its text."""
    codes, relations, calls, replies = (lists[it] for it in ("code", "relation", "call", "reply"))
    kinds = [it._replace(group=None) for it in lists["kind"]]
    proved, numbered = [it for it in codes if "in C" not in (it.mark, it.group.mark)], lambda it: f"{it.camel()} = {it.number},"
    quoted = [f'"{it.small()}"' for it in relations]
    object_of = lambda fields: interface.wrapped(", ".join(fields) + ",", 140, "    ", "    ")
    asked = [it._replace(said=it.said.partition(":")[0]) for it in kinds]
    made = {it.name: it.said.partition("; ")[2] or next(kind.said for kind in asked if kind.name == it.name) for it in calls}
    operand = {it.name: {"X": "(Point)", "DX": "(Direction)"}.get("".join(it.words()[1:2]), "") for it in calls}
    yield "include/hull_common.h", "kinds", header(kinds, "KIND_")
    yield "include/hull_common.h", "codes", header(codes, "")
    refusals = [it for it in codes if it.mark in ("refuses", "fails")]
    yield "include/hull_common.h", "refusals", "".join(f"    case HULL_{it.name}:{' return 1;' * (it is refusals[-1])}\n" for it in refusals)
    yield "include/hull_common.h", "names", "".join(f'    case HULL_{it.name}: return "HULL_{it.name}";\n' for it in codes)
    yield "include/hull.h", "relations", header(relations, "RELATION_")
    yield "include/hull.hpp", "relations", ",\n".join(f"    {it.small()} = HULL_RELATION_{it.name}" for it in relations) + "\n"
    for what, rows in (("codes", codes), ("kinds", kinds)):
        yield "rust/hull/src/raw.rs", what, "".join(f"    pub const {it.name}: u32 = {it.number};\n" for it in rows)
        yield "python/hull.py", what, "".join(f"    {it.name} = {it.number}\n" for it in rows)
    yield "rust/hull/src/polygon.rs", "relations", documented(relations, "    /// ", 135, lambda it: f"{it.camel()},")
    yield "rust/hull/src/answer.rs", "relations", "".join(f"        {it.number} => Relation::{it.camel()},\n" for it in relations)
    yield "python/hull.py", "relations", documented(relations, "    #: ", 135, lambda it: f"{it.name} = {it.number}")
    yield "web/hull.js", "relations", f"    {', '.join(quoted)},\n"
    yield "web/hull.d.ts", "relations", f"    | {' | '.join(quoted)};\n"
    yield "web/journal.js", "operands", object_of(f"{it.words()[0]}: {len(it.words()) - 1}" for it in calls)
    yield "web/hull.js", "kinds", object_of(f"{it.small()}: {it.number}" for it in kinds)
    yield "web/hull.js", "codes", object_of(f"{it.small()}: {it.number}" for it in codes if it.group.name in ("sets", "polygons"))
    yield "man/hull.3", "refusals", manual([it for it in codes if it.mark == "refuses"])
    forms = [f'"{it}"' if " " in it else it for it in (row.said.partition(":")[0] for row in calls)]
    yield "man/hullbook.1", "calls", f""".BR {' ", " '.join(forms[:-1])} " or " {forms[-1]} ;\n"""
    yield "docs/FORMATS.md", "words", words_table(lists)
    for path, what, rows, module in (
        ("hull_reply/specs/Encoded", "code", proved, "code"),
        ("hull_reply/specs/Requests", "kind", kinds, "kind"),
        ("hull_c/specs/Pairs", "relation", relations, "relation"),
    ):  # `rt fmt` leaves an empty line after a definition
        yield f"crates/{path}.antt", f"{what}s", equations(rows, f"{what}_number", lambda it: it.number, module) + "\n"
    yield "crates/hull_reply/src/code.rt", "codes", documented(proved, "    /// ", 120, numbered)
    yield "crates/hull_reply/src/kind.rt", "kinds", documented(asked, "    /// ", 120, numbered)
    variants = documented([it._replace(said=made[it.name]) for it in calls], "    /// ", 120, lambda it: f"{it.camel()}{operand[it.name]},")
    yield "crates/hull_set/src/call.rt", "calls", variants
    yield "crates/hull_reply/src/kind.rt", "numbers", "".join(f"            {it.number} => Some(Kind::{it.camel()}),\n" for it in kinds)
    yield "crates/hull_c/src/pairs.rt", "relations", "".join(f"        Relation::{it.camel()} => {it.number},\n" for it in relations)
    changes, answered = ([it for it in replies if it.group.name == name] for name in ("changes", "answers"))
    for kind, rows in (("CallWord", calls), ("ReplyWord", replies)):
        yield "crates/hull_text/src/words.rt", f"each {kind}", "".join(f"    {it.camel()},\n" for it in rows)
        spelled = (f'            {kind}::{it.camel()} => b"{it.words()[0]}",\n' for it in rows)
        yield "crates/hull_text/src/words.rt", f"text of {kind}", "".join(spelled)
    yield "crates/hull_text/src/words.rt", "call of a field", chosen(calls, "CallWord", 8, "None")
    yield "crates/hull_text/src/words.rt", "answer of a field", chosen(answered, "ReplyWord", 4, "None")
    yield "crates/hull_text/src/words.rt", "reply of a field", chosen(changes, "ReplyWord", 8, "answer_word(field)")
    yield "crates/hull_text/specs/Words.antt", "words", definitions(calls, changes, answered)


def form(row, lists):
    """Returns the form of a call, kind or reply: its operands, and its mark if others have the same or it is no name."""
    like = next((it for it in lists["call"] if it.name == row.name), row) if row in lists["kind"] else row
    marked = [it.mark for it in lists["reply"]].count(row.mark) > 1 or row.in_set() != row.mark
    return (*like.words()[1:], row.mark if marked else None)


def cases(text, rows, name, lists):
    """Returns a stretch with a case for each row, those present first: each like the case of the first row of its form, except for layout."""
    bare = lambda case: re.sub(r",(?=\s*[)}])|\s", "", case)
    indent = " " * min(len(it) - len(it.lstrip()) for it in text.splitlines() if it)
    known, present, first, found = {name(it): it for it in rows}, {}, {}, ""
    for case in re.split(rf"(?m)^(?={indent}[^\s}}])", text.rstrip("\n") + "\n")[1:]:
        key = next((it for it in re.findall(r"(?:\.|::)(\w+)", case) if it in known), "")
        present[key] = present.get(key, "") + case
    for key in [name(it) for it in rows]:
        first.setdefault(form(known[key], lists), known[key])
    for key in dict.fromkeys([*(it for it in present if it), *map(name, rows)]):
        row, alike = known[key], first[form(known[key], lists)]
        spellings = lambda it: (it.in_set(), it.camel(), f"Answers{it.camel()}", f"one_reply_to_{it.name.lower()}")
        names = dict(zip(spellings(alike), spellings(row)))
        wanted = re.sub(r"\b\w+\b", lambda it: names.get(it[0], it[0]), present.get(name(alike), ""))
        case = present.get(key, "")
        found += case if bare(case) == bare(wanted) else wanted
    return found + text[len(text.rstrip("\n")) + 1 :]


def stretches_of_cases(lists):
    """Yields each stretch of cases: its file, its mark, and its text."""
    for crate in kit.crates().values():
        for path in (f"crates/{crate.name}/{part}/{it}" for part in kit.SOURCES for it in kit.files_below(f"{crate.folder}/{part}")):
            text = kit.text_of(f"{kit.TOP}/{path}")
            for what, kind, word in CASES.findall(text):
                found = re.search(STRETCH % re.escape(what), text)
                yield path, what, cases(found[1], lists[kind], Row.camel if word else Row.in_set, lists) if found else ""


def places(lists):
    """Yields each place: its file, the pattern whose group it is, its mark, and the text that it must have."""
    version = kit.text_of(f"{kit.TOP}/VERSION").strip()
    yield from ((path, pattern, "the version", version) for path, pattern in VERSIONS.items())
    yield from ((it[0], STRETCH % re.escape(it[1]), *it[1:]) for it in [*stretches(lists), *stretches_of_cases(lists), *interface.stretches()])


def main(words):
    if words not in ([], ["--write"]):
        print(__doc__, file=sys.stderr)
        return 2
    lists = table()
    files, faults, codes = {}, {TABLE: [*faults_in(lists)]}, {it.name for it in lists["code"]}
    faults[interface.TABLES[-1]] = [f"{it.name}: {no} is no code" for it in interface.description().values() for no in {*it.words("codes")} - codes]
    for path, pattern, what, wanted in places(lists):
        text = files.setdefault(path, kit.text_of(f"{kit.TOP}/{path}"))
        found = [*re.finditer(pattern, text)]
        if len(found) != 1:
            faults.setdefault(path, []).append(f"{what} occurs {len(found)} times")
        elif found[0][1] != wanted and words and path != "CHANGELOG.md":
            files[path] = text[: found[0].start(1)] + wanted + text[found[0].end(1) :]
            with open(f"{kit.TOP}/{path}", "w", encoding="utf-8") as file:
                file.write(files[path])
        elif found[0][1] != wanted:
            lines = zip([*found[0][1].splitlines(), ""], [*wanted.splitlines(), ""])
            present, wanted_line = next(((a, b) for a, b in lines if a != b), ("more", ""))
            faults.setdefault(path, []).append(f"{what}: it says '{present.strip()}' and not '{wanted_line.strip()}': tools/table.py --write")
    for path, said in faults.items():
        print(*(f"{path}: FAILED, {it}" for it in said), sep="\n", end="\n" if said else "")
    failed = sum(bool(it) for it in faults.values())
    print(f"{len(files) + 2 - failed} passed, {failed} failed")
    return 1 if failed else 0


if __name__ == "__main__":
    sys.exit(main(sys.argv[1:]))
