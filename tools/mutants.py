#!/usr/bin/env python3
"""Tries mutants of crates, many in one check, and prints for each which goal of a proof refused it.

    tools/mutants.py [CRATE | CRATE/NAME..]   tries all mutants, or those of these crates, or these
    tools/mutants.py --changed                tries those of the crates whose sources differ from the record .ci/mutants.txt
    tools/mutants.py --changed --known        the same, without the crates that the record does not have yet, which it names
    tools/mutants.py --record CRATE..         the same for these crates, and notes in the record that all were refused
    tools/mutants.py --compile [CRATE..]      only tests that they compile, in some 20 seconds a group

A mutant is a wrong body of a function: a file crates/CRATE/mutants/NAME.edit, or one of must-fail/, which `rt ci` tries one by one. It
has lines `file: src/x.rt`, then pairs of lines `old: TEXT` and `new: TEXT`. A function is proved from the contracts of what it calls, not
from their bodies, so mutants of different functions are tried in one check, and each has to show as an unproved goal of its own function.
One that does not is tried again by itself. Sources are never changed: each check has a copy.

A goal refuses a mutant if it is a clause of a contract or an obligation of the body, such as an index within its bounds. A mutant that
fails only because a proof file names what it removed, or because the prover reached a limit, counts as not refused. The last line is
'N passed, M failed'.
"""
import argparse
import glob
import hashlib
import os
import re
import sys
from concurrent.futures import ThreadPoolExecutor
from dataclasses import dataclass
from enum import Enum

sys.path.insert(0, os.path.dirname(os.path.abspath(__file__)))
import kit  # noqa: E402 (the path comes first)
from kit import TOP  # noqa: E402

# the crates at whose sources all mutants were refused
RECORD = f"{TOP}/.ci/mutants.txt"
HEAD = "# of each crate the checksum of its sources and mutants at which every mutant was refused; tools/mutants.py --record writes this file\n"
# at most so many mutants in a group, so that the groups of a large crate are tried in parallel
MOST_IN_A_GROUP = 60
# where a function begins, and where a block of methods does, of a trait or of none
FUNCTION = re.compile(r"\bfn\s+([A-Za-z_0-9]+)")
BLOCK = re.compile(r"""^(?:unsafe\ )?impl(?:<[^{}]*?>)?\ (?:(?:\w+::)*(?P<trait>\w+)(?:<(?P<of>\w+)>|<[^{}]*?>)?\ for\ )?
    (?:\w+::)*(?P<type>\w+)""", re.M | re.X)
# a call: the type or module of its path, the dot of a method, and the name
CALL = re.compile(r"(?:\b(\w+)::|(\.))?\b(\w+)(?:::<[^>]*>)?\(")
# a line that brings names in
IMPORTS = re.compile(r"\s*(?:pub |ghost )?use ")
# what antt says of a proof file that names something removed; not what it says of how it shows a type
NAMES_WHAT_WENT = re.compile(r"has no field|is not in scope(?! here, so what is shown)|has no `|was not admitted")
# what rattle says of an unproved goal, above the line of its function
NOTE_OF_A_GOAL = re.compile(r"note: src/\S+: it is not proved that ")
# what a check says of a function that it proved, which may wait, or require something of its callers
PROVED = re.compile(r"^fn (\S+): proved\b", re.M)
# what a check says if what is kept of a library no longer fits
STALE = re.compile(r"module .Rattle-(\w+)-.*Run the lower steps again")
# how the last line begins of a check that refused a crate, or some of its functions
NOT_PROVED = ("logic=not-proved", "only=")
# what antt says of a text that it cannot read; a false statement reads well
UNREAD = re.compile(r"is not in scope|has no field|is no name|operand is missing|expected the end|cannot continue")


@dataclass(frozen=True)
class Function:
    """A function that a mutant changes: its name, the module of its file, and for a method the `impl` block that contains it. A check
    names a method by the module of its type, which may be that of another file."""

    module: str
    name: str
    block: str = ""

    def is_at(self, path):
        """Returns whether a check can mean it by that path."""
        if self.block:
            return path.endswith(f"::{self.block}::{self.name}")
        return path.startswith(self.module) and path.endswith(f"::{self.name}")


@dataclass(frozen=True)
class Edit:
    """A mutant: its name, its changes as (file, old, new), the functions that contain them, and if one is in no function,
    such as that of a constant, the functions that name what it changes."""

    name: str
    path: str
    changes: tuple
    functions: frozenset
    witnesses: frozenset = frozenset()

    def is_alone(self):
        """Returns whether it changes no known function, so that it needs a check of its own."""
        return not self.functions


class Kind(Enum):
    """The possible outcomes of a mutant, with the words for them."""

    BY_GOAL = "refused"
    BY_SHAPE = "NOT REFUSED BY A GOAL (a proof names what was removed)"
    AT_LIMIT = "NOT REFUSED BY A GOAL (at a limit of the prover's)"
    MISSED = "NOT REFUSED"
    UNSURE = "NOT TRIED"


@dataclass(frozen=True)
class Outcome:
    """The outcome of a mutant, and the prover's message."""

    edit: str
    kind: Kind
    message: str

    def is_refused(self):
        """Returns whether a goal refused it: a name in a proof, or a limit, says nothing about the contract."""
        return self.kind is Kind.BY_GOAL

    def line(self, crate):
        """Returns the line that reports it."""
        return f"mutant {crate.name}/{self.edit}: {self.kind.value}: {self.message[:160]}"


def functions_at(crate, file, old):
    """Returns the functions that a text in a file belongs to: those that begin in it, else the one that contains it."""
    if not file.startswith("src/"):
        return []
    text = kit.text_of(f"{crate.folder}/{file}")
    start = text.find(old)
    opened = [it for it in FUNCTION.finditer(text, start) if it.start() < start + len(old)]
    before = [*FUNCTION.finditer(text, 0, start)]
    return [Function(module_of(crate, file), it[1], block_at(text, it.start())) for it in opened or before[-1:]]


def block_at(text, at):
    """Returns the `impl` block that contains a function at that place of a text, as a check names it: the type and the trait."""
    if text[text.rfind("\n", 0, at) + 1] != " ":
        return ""
    blocks = [*BLOCK.finditer(text, 0, at)]
    return "".join(blocks[-1][it] or "" for it in ("type", "trait", "of")) if blocks else ""


def module_of(crate, file):
    """Returns the module of a file below src/, followed by two colons."""
    inside = re.sub(r"^(lib|main)$", "", file.removeprefix("src/").removesuffix(".rt")).replace("/", "::")
    return "::".join(it for it in (crate.name, inside) if it) + "::"


def functions_naming(crate, old):
    """Returns the functions that name the constant or variant that a text declares; if some of them are laws, only those."""
    declared = re.findall(r"\b(?:const|static)\s+(\w+)|^\s*([A-Z]\w*)\s*[=,({]", old)
    names = [word for it in declared for word in it if word]
    if not names:
        return []
    found, named = [], re.compile(rf"\b(?:{'|'.join(names)})\b")
    for file, text in crate.texts():
        module, starts = module_of(crate, file), [*FUNCTION.finditer(text)]
        ends = [it.start() for it in starts[1:]] + [len(text)]
        found += [Function(module, it[1], block_at(text, it.start())) for it, end in zip(starts, ends) if named.search(text, it.end(), end)]
    return [it for it in found if "::laws::" in it.module] or found


def changes_in(text, folder):
    """Returns the changes (file, old, new) of a mutant's text, or why they cannot be applied to the crate in that folder."""
    changes, file, old, texts = [], "", None, {}
    for line in text.splitlines():
        if line.startswith("file: "):
            file = line[6:].strip()
            if os.path.normpath(file) != file or file.partition("/")[0] not in kit.SOURCES:
                return None, "a 'file:' line names no file below src/, specs/ or proofs/"
            texts.setdefault(file, kit.text_of(f"{folder}/{file}"))
        elif line.startswith("old: "):
            old = line[5:]
        elif line.startswith("new:"):
            new = line[4:].removeprefix(" ")
            if not file or not old:
                return None, "a 'new:' line is before any 'file:' or 'old:' line"
            if texts[file].count(old) != 1:
                return None, f"an 'old:' text is in {file} {texts[file].count(old)} times, and not once"
            texts[file] = texts[file].replace(old, new)
            changes.append((file, old, new))
            old = None
    return (tuple(changes), None) if changes else (None, "it has no 'old:' and 'new:' pair")


def read(crate, path):
    """Returns the mutant in that file, or why it cannot be applied."""
    changes, why = changes_in(kit.text_of(path), crate.folder)
    if why:
        return None, why
    # a line that only imports names is in no function, and affects those that use them
    found = [functions_at(crate, file, old) for file, old, _ in changes if not IMPORTS.match(old)]
    everywhere = [] if all(found) else [name for _, old, _ in changes for name in functions_naming(crate, old)]
    inside = [name for names in found for name in names] if all(found) else []
    return Edit(os.path.basename(path), path, changes, frozenset(inside), frozenset(everywhere)), None


def applied(crate, edits):
    """Returns the texts of the changed files with all these mutants in them, or None if their changes overlap."""
    texts = {}
    for edit in edits:
        for file, old, new in edit.changes:
            texts.setdefault(file, kit.text_of(f"{crate.folder}/{file}"))
            if texts[file].count(old) != 1:
                return None
            texts[file] = texts[file].replace(old, new)
    return texts


def calls_in(crate):
    """Returns the crate's functions, each an `impl` block or none and a name, with those that it seems to call: by a path those of that
    type, by a dot any methods of that name, and otherwise functions outside such blocks."""
    said = {}
    for _, text in crate.texts():
        starts = [*FUNCTION.finditer(text), None]
        for begun, then in zip(starts, starts[1:]):
            body = text[begun.end() : then.start() if then else len(text)]
            said.setdefault((block_at(text, begun.start()), begun[1]), set()).update(CALL.findall(body))

    def can_be(block, call, at):
        kind, of_method, _ = call
        if kind[:1].isupper():
            return bool(at[0]) and (block if kind == "Self" else at[0]).startswith(at[0] if kind == "Self" else kind)
        return bool(at[0]) == bool(of_method)

    named = {}
    for at in said:
        named.setdefault(at[1], []).append(at)
    return {it: {at for call in calls for at in named.get(call[2], ()) if can_be(it[0], call, at)} for it, calls in said.items()}


def has_proof_file(crate, block, name):
    """Returns whether some function of that name has a file with answers or a proof."""
    return bool(glob.glob(f"{crate.folder}/proofs/**/{block and block + '/'}{name}/*.antt", recursive=True))


def reached(calls, functions):
    """Returns the functions that these can call, directly or through others."""
    found, todo = set(), [it for function in functions for it in calls.get(function, ())]
    while todo:
        function = todo.pop()
        if function not in found:
            found.add(function)
            todo += calls[function]
    return found


def grouped(crate, edits):
    """Returns groups of mutants that can be tried at once: no two change the same function, or overlap. A function without
    a proof file is not searched while one that it calls is refused, so it is in another group if possible."""
    groups, calls = [], calls_in(crate)
    changed = {it: {(function.block, function.name) for function in it.functions} for it in edits}
    below = {it: reached(calls, {at for at in changed[it] if not has_proof_file(crate, *at)}) for it in edits}

    def fits(edit, group):
        others = frozenset().union(*(it.functions for it in group))
        return len(group) < MOST_IN_A_GROUP and not edit.functions & others and applied(crate, [*group, edit]) is not None

    def conflicts(edit, group):
        return sum(bool(below[edit] & changed[it] or below[it] & changed[edit]) for it in group)

    def of_one_function(edit):
        return max(sum(function in it.functions for it in edits) for function in edit.functions)

    # mutants of the functions with most mutants first: they need the most groups
    for edit in sorted(edits, key=of_one_function, reverse=True):
        fitting = [it for it in groups if fits(edit, it)]
        if fitting:
            min(fitting, key=lambda it: conflicts(edit, it)).append(edit)
        else:
            groups.append([edit])
    return groups


def goals_of(output):
    """Returns what a check says of each function, by its path, that has an unproved goal of its own, and does not only call such ones."""
    found, noted = {}, None
    for line in output.split("\n"):
        if NOTE_OF_A_GOAL.match(line):
            noted = noted or line
        at = re.match(r"fn (\S+): (?:no proof: .*?did not prove (.*?)(?:; it calls .*)?|not proved(?:;.*)?)$", line)
        if at:
            said = at[2] or error_at(output, at[1]) or noted
            if said:
                found.setdefault(at[1], said)
        if line.startswith("fn "):
            noted = None
    return found


def error_at(output, path):
    """Returns the first error of a check in the proof of the function of that path, except one that names something removed, which
    an indented line may say."""
    *above, name = path.split("::")[1:]
    folder = re.escape("/".join(["proofs", *above])) + rf"/\+?{re.escape(name)}"
    errors = re.findall(rf"^(?:\./)?{folder}/\S+?:\d+:\d+: error: (.*(?:\n  .*)*)", output, re.M)
    return next((re.sub(r"\n +", " ", it) for it in errors if not NAMES_WHAT_WENT.search(it)), None)


def is_unread(line, texts):
    """Returns whether antt could not read a text of src/ or specs/, or one that was changed, so that no contract was tried."""
    at = re.match(r"(?:\./)?(\S+?):\d+:\d+: error: (?:(`[^`]*`): )?(.*)", line)
    if not at or at[1] not in texts and not at[1].startswith(("src/", "specs/")):
        return False
    return not at[2] or bool(UNREAD.search(re.sub(r"`[^`]*`", "", at[3])))


def outcome_of(ran, texts):
    """Returns the outcome of a check of the crate with these texts, as a kind and a message; as `rt must-fail` judges it."""
    lines = ran.said.rstrip("\n").split("\n")
    unread = next((it for it in lines if is_unread(it, texts)), None)
    if unread or STALE.search(ran.said):
        return Kind.UNSURE, f"BAD EDIT: {unread or 'the kept work of a library could not be used'}"
    if ran.status == 0:
        return Kind.MISSED, "the crate is still proved with it"
    if ran.status == 3 and any("could not tell" in it for it in lines):
        return Kind.AT_LIMIT, lines[-1]
    if ran.status != 1 or not lines[-1].startswith(NOT_PROVED):
        return Kind.UNSURE, f"BAD EDIT: it did not reach the prover: {' '.join(lines[:6])}"
    # an error may continue in indented lines
    said = [it for it in re.sub(r"\n  +", " ", ran.said).split("\n")
            if re.match(r"(note: )?\S+:\d+:\d+:", it) and (": error" in it or it.startswith("note: "))]
    by_goal = [it for it in said if not (it.startswith(("proofs/", "./proofs/")) and NAMES_WHAT_WENT.search(it))]
    return (Kind.BY_SHAPE, said[0]) if said and not by_goal else (Kind.BY_GOAL, (by_goal or lines)[0])


def only_of(paths, functions):
    """Returns the flags for a check of these functions, and of a few others that still have to be proved; none if the functions are
    unknown."""
    changed = [it for it in paths if any(function.is_at(it) for function in functions)]
    others = [it for it in paths if it not in changed and re.fullmatch(r"[\w:]+", it)]
    asked = changed + others[:: max(1, len(others) // 3)][:3] if changed else []
    return [word for it in asked for word in ("--only", it.partition("::")[2])]


def check(crate, texts, kept, only=()):
    """Checks the crate, or the functions that the flags name, in a folder of its own with these texts, reusing what is kept."""
    with kit.Workspace(crate, texts, kept) as workspace:
        return workspace.rt("check", "--jobs", "1", *only)


def tried_alone(crate, edit, kept, paths):
    """Returns the outcome of one mutant in a check of its own: of the functions that it changes, else of the whole crate."""
    texts, only = applied(crate, [edit]), only_of(paths, edit.functions or edit.witnesses)
    for words in [only, []] if only else [[]]:
        kind, said = outcome_of(check(crate, texts, kept, words), texts)
        if kind in (Kind.BY_GOAL, Kind.BY_SHAPE):
            break
    return Outcome(edit.name, kind, said)


def functions_of(crate, kept):
    """Returns the paths of the crate's functions, from a check that reuses what is kept and only adds a comment; none if that
    refuses the crate, since then no refusal means anything. If nothing is kept yet, its work is kept."""
    top = "src/main.rt" if crate.is_program else "src/lib.rt"
    texts = {top: kit.text_of(f"{crate.folder}/{top}").replace("#![tactic(auto)]", "#![tactic(auto)] // unchanged", 1)}
    with kit.Workspace(crate, texts, kept) as workspace:
        ran = workspace.rt("check", "--jobs", "1")
    return PROVED.findall(ran.said) if outcome_of(ran, texts)[0] is Kind.MISSED else []


def tried(crate, group, kept, paths):
    """Returns the outcomes of a group, tried in one check of its functions; a mutant that does not show there gets a check of its own."""
    if len(group) == 1:
        return [tried_alone(crate, group[0], kept, paths)]
    only = only_of(paths, frozenset().union(*(it.functions for it in group)))
    ran = check(crate, applied(crate, group), kept, only)
    if ran.status != 1 or not ran.last().startswith(NOT_PROVED):
        half = len(group) // 2
        return tried(crate, group[:half], kept, paths) + tried(crate, group[half:], kept, paths)
    goals, outcomes = goals_of(ran.said), []
    for edit in group:
        said = next((said for path, said in sorted(goals.items()) if any(it.is_at(path) for it in edit.functions)), None)
        outcomes.append(tried_alone(crate, edit, kept, paths) if said is None else Outcome(edit.name, Kind.BY_GOAL, said))
    return outcomes


def compiler_said(crate, group):
    """Returns the compiler's errors for a crate with these mutants, without proving anything."""
    said = check(crate, applied(crate, group), None, ["--only", ""]).said
    return [it.strip() for it in said.split("\n") if re.search(r"\berror\[[\w-]+\]", it)]


def not_compiled(crate, group):
    """Returns the mutants of a group that do not compile, each with the compiler's message."""
    errors = compiler_said(crate, group)
    if not errors or len(group) == 1:
        return [(it.name, errors[0]) for it in group if errors]
    half = len(group) // 2
    return not_compiled(crate, group[:half]) + not_compiled(crate, group[half:])


def compile_all(crates, names):
    """Prints which mutants of these crates do not compile. Returns the status of the command."""
    passed = failed = 0
    for crate in crates:
        edits, bad = edits_of(crate, names.get(crate.name, ()))
        faults = [(it.edit, it.message) for it in bad]
        for group in groups_of(crate, edits):
            faults += not_compiled(crate, group)
        for name, said in faults:
            print(f"mutant {crate.name}/{name}: FAILED: {said[:200]}", flush=True)
        passed, failed = passed + len(edits) + len(bad) - len(faults), failed + len(faults)
    print(f"{passed} passed, {failed} failed")
    return 1 if failed or not passed else 0


def files_of(crate):
    """Returns the files of a crate's mutants, those of must-fail/ first."""
    folders = [f"{crate.folder}/{it}" for it in ("must-fail", "mutants")]
    return [f"{at}/{name}" for at in folders if os.path.isdir(at) for name in sorted(os.listdir(at))]


def edits_of(crate, names=()):
    """Returns the mutants of a crate, or those of these names, and outcomes for those that cannot be applied."""
    edits, bad, files = [], [], {os.path.basename(it): it for it in files_of(crate)}
    for name in [f"{it}.edit" for it in names] or files:
        edit, why = read(crate, files[name]) if name.endswith(".edit") and name in files else (None, "no file NAME.edit")
        if why:
            bad.append(Outcome(name, Kind.UNSURE, f"BAD EDIT: {why}"))
        else:
            edits.append(edit)
    return edits, bad


def groups_of(crate, edits):
    """Returns all groups of a crate's mutants, those that need a check of their own last."""
    return grouped(crate, [it for it in edits if not it.is_alone()]) + [[it] for it in edits if it.is_alone()]


def tried_in_groups(crate, kept, names=()):
    """Returns the outcomes of a crate's mutants, reusing what that folder keeps, and the number of groups."""
    edits, outcomes = edits_of(crate, names)
    groups, paths = groups_of(crate, edits), functions_of(crate, kept)
    if not paths:
        return [Outcome("the crate itself", Kind.UNSURE, "it is refused without any change")], 0
    for group in groups:
        outcomes += tried(crate, group, kept, paths)
    return outcomes, len(groups)


def prepare(crate):
    """Checks a crate, reusing what is kept; that builds the libraries below it. Returns whether it is proved."""
    ran = kit.Ran(["rt", "check"], crate.folder)
    if ran.status:
        print(*ran.raw.splitlines()[-20:], sep="\n")
    return ran.status == 0


def work(crate, names):
    """Returns the outcomes of a crate's mutants, or of those of these names."""
    return tried_in_groups(crate, f"{crate.folder}/out/incremental", names)[0]


def recorded():
    """Returns the crates of the record with the checksum of the sources at which all of their mutants were refused."""
    return dict(it.split() for it in kit.text_of(RECORD).splitlines() if not it.startswith("#"))


def sum_of(crate):
    """Returns the checksum of a crate's sources and mutants, as the record has it."""
    sums = hashlib.sha256(crate.sources().encode())
    for it in files_of(crate):
        sums.update(os.path.basename(it).encode() + kit.bytes_of(it))
    return sums.hexdigest()[:32]


def record(crates):
    """Notes in the record that all mutants of these crates were refused at their sources as they are."""
    rows = {name: sum for name, sum in recorded().items() if name in kit.crates()} | {it.name: sum_of(it) for it in crates}
    with open(RECORD, "w", encoding="utf-8") as text:
        text.write(HEAD + "".join(f"{name} {rows[name]}\n" for name in sorted(rows)))


def chosen(given):
    """Returns the crates to try, with the names of their mutants, none for all."""
    names = {}
    for crate, _, name in (it.partition("/") for it in given.crates):
        names.setdefault(crate, []).extend([name] if name else [])
    crates = [it for it in kit.crates().values() if (not names or it.name in names) and files_of(it)]
    if given.changed:
        known = recorded()
        unknown = [it for it in crates if given.known and it.name not in known]
        if unknown:
            print(f"not in the record, and tried only by --record: {' '.join(it.name for it in unknown)}")
        crates = [it for it in crates if it not in unknown and known.get(it.name) != sum_of(it)]
    return crates, names


def try_all(crates, names, jobs):
    """Tries mutants of crates and prints the outcome of each. Returns the numbers refused and not refused, and the crates with one that was not."""
    passed, failed, bad = 0, 0, set()
    with ThreadPoolExecutor(jobs) as pool:
        for crate, outcomes in zip(crates, pool.map(lambda it: work(it, names.get(it.name, ())), crates)):
            for it in outcomes:
                print(it.line(crate), flush=True)
                passed, failed = passed + it.is_refused(), failed + (not it.is_refused())
                bad |= set() if it.is_refused() else {crate.name}
    return passed, failed, bad


def main():
    words = argparse.ArgumentParser(description=__doc__, formatter_class=argparse.RawDescriptionHelpFormatter)
    for flag in ("--changed", "--known", "--record", "--compile"):
        words.add_argument(flag, action="store_true")
    words.add_argument("--jobs", type=int, default=0, help="checks in parallel")
    words.add_argument("crates", nargs="*")
    given = words.parse_args()
    os.chdir(TOP)
    crates, names = chosen(given)
    unknown = [it for it in names if it not in kit.crates()]
    if unknown:
        print(f"tools/mutants.py: there is no crate {unknown[0]}\n0 passed, 1 failed")
        return 2
    if given.changed and not crates:
        unchanged = sum(it.name in recorded() for it in kit.crates().values())
        print(f"no crate with mutants differs from the record .ci/mutants.txt\n{unchanged} passed, 0 failed")
        return 0
    unproved = [it.name for it in crates if not prepare(it)]
    if unproved:
        print(f"not proved without any change: {' '.join(unproved)}\n0 passed, {len(unproved)} failed")
        return 1
    if given.compile:
        return compile_all(crates, names)
    # the crates with the most mutants first, so that none of them runs alone at the end
    crates.sort(key=lambda it: -len(files_of(it)))
    passed, failed, bad = try_all(crates, names, given.jobs or kit.lanes())
    if given.record:
        record([it for it in crates if it.name not in bad and not names.get(it.name)])
    print(f"{passed} passed, {failed} failed")
    return 1 if failed or not passed else 0


if __name__ == "__main__":
    sys.exit(main())
