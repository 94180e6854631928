"""Asks every question of polygons, sets, growing hulls and seats that tables/interface.txt describes, in each language, and compares the answers:

    ask.py TOP PREFIX FOLDER

TOP is the repository, PREFIX has the installed library, FOLDER gets the programs, and has the crate as libhull.rlib if Rust is there. The
questions are lines of text: all about the polygons of a small grid, and others at random and at the ends of the range. The module for Python
answers here. For C, C++, Rust and JavaScript a program is written with a case for each question, which the description gives, and answers with
a line for each. The answers must be right by plain.py, those of all languages the same, and in C each described code must come, and no other.
A language that is not there is named. Prints how many questions were asked; exits with 1 if an answer is wrong.
"""
import functools
import itertools
import math
import os
import random
import re
import shutil
import struct
import subprocess
import sys
from fractions import Fraction

TOP, PREFIX, FOLDER = sys.argv[1:]
HERE = os.path.dirname(os.path.abspath(__file__))
sys.path[:0] = [HERE, f"{TOP}/tools"]
import interface  # noqa: E402 (the path comes first)
import plain  # noqa: E402
from hull import GrowingHull, Hull, OutOfRange, Polygon, SharedHull, ZeroDirection  # noqa: E402

LIMIT = 1 << 40
# how many questions of a kind are asked of a grid, at most; at random; and at the ends of the range
OF_A_GRID, AT_RANDOM, AT_ENDS = 7000, 400, 200
ENDS = (-LIMIT, 1 - LIMIT, -1, 0, 1, LIMIT - 1, LIMIT)
LENGTHS = (Fraction(0), Fraction(1, 2), Fraction(1), Fraction(7, 5), Fraction(2))
# the kinds of arguments that are lists of points, by where they are in a question
LISTS = {"polygon": 0, "prepared set": 0, "asked growing": 0, "other": 1}
# those that are points of any kind, and what the names of their questions begin with
SETS = {"prepared set": "set_", "asked growing": "growing_"}
# what a seat is called, in languages whose seats have methods
SEATS = {"C++": "(*seat)", "Rust": "seat.as_mut().unwrap()"}
# of each language: its program, and how that writes a case
LANGUAGES = {
    "C++": ("answer.cpp", 'if (name == "{name}") return answer_{answer}({object}.{method}({words})), true;'),
    "Rust": ("answer.rs", '"{name}" => answer_{answer}({object}.{method}({words})),'),
    "C": ("answer.c", 'if (strcmp(name, "{name}") == 0) {'
                      ' const {gives} r = {function}({words}); return note(name, {code}), answer_{answer}(r), 1; }'),
    "JavaScript": ("answer.mjs", "{name}: (polygon, other, n) => ANSWERS.{answer}({method}({words})),"),
}


# ---- questions


def grid(width, height, left=0):
    return list(itertools.product(range(left, width), range(left, height)))


@functools.lru_cache(maxsize=None)
def polygons_of(width, height):
    """Returns all convex polygons of a grid."""
    points = grid(width, height)
    return sorted({plain.hull_of(some) for count in range(len(points) + 1) for some in itertools.combinations(points, count)})


def choices(kind, width, height, reach):
    """Returns what an argument of a kind may be on a grid, as tuples: two points of a segment, else one value."""
    if kind in LISTS:
        points = grid(width, height)
        subsets = (some for count in range(len(points) + 1) for some in itertools.combinations(points, count))
        return [(it,) for it in (subsets if kind in SETS else polygons_of(width, height))]
    if kind == "segment":
        return list(itertools.product(grid(width + 1, height + 1), repeat=2))
    values = {"point": grid(width + 1, height + 1), "length": LENGTHS}.get(kind, grid(reach + 1, reach + 1, -reach))
    return [(it,) for it in values]


def of_a_grid(kinds):
    """Yields the arguments of all questions of the largest grid that has few enough."""
    for size in ((3, 3, 2), (3, 2, 2), (2, 2, 2), (2, 2, 1)):
        several = [choices(kind, *size) for kind in kinds]
        if math.prod(map(len, several)) <= OF_A_GRID:
            return (sum(it, ()) for it in itertools.product(*several))
    raise ValueError(f"the smallest grid has too many questions with {kinds}")


def listed(kind, points):
    """Returns points as an argument of a kind: a set has them as they are, a polygon the vertices of their hull."""
    return tuple(points) if kind in SETS else plain.hull_of(points)


def cut(point):
    return tuple(max(-LIMIT, min(LIMIT, it)) for it in point)


def near_length(polygon, others, numbers):
    """Returns a fraction near the distance of a polygon and what follows it, small enough for each language."""
    squared = plain.squared_distance(polygon, plain.hull_of(itertools.chain(*(it if it and isinstance(it[0], tuple) else (it,) for it in others if it))))
    near = numbers.choice(plain.bounds(squared or Fraction(0)))
    length = Fraction(near).limit_denominator(min(numbers.choice((1, 9, 1 << 20, 1 << 29)), (1 << 49) // int(near + 1)))
    return max(Fraction(0), length + numbers.choice((0, 0, 1, Fraction(-1, 7))))


def drawn(kinds, numbers, reach):
    """Returns the arguments of a question by chance, all near one place; many points are beside a vertex or an edge that was drawn before."""
    at, known, found = [numbers.randint(reach - LIMIT, LIMIT - reach) for _ in "xy"], [], ()

    def point():
        if not known or numbers.random() < 0.5:
            return tuple(a + numbers.randint(-reach, reach) for a in at)
        a, b, part = numbers.choice(known), numbers.choice(known), numbers.random()
        return cut(p + int((q - p) * part) + numbers.randint(-1, 1) for p, q in zip(a, b))

    for kind in kinds:
        if kind in LISTS:
            found += (listed(kind, (point() for _ in range(numbers.randint(kind == "polygon", 6)))),)
            known += found[-1]
        elif kind == "length":
            found += (near_length(found[0], found[1:], numbers),)
        elif kind in ("point", "segment"):
            found += tuple(point() for _ in range(1 + (kind == "segment")))
        else:
            found += (cut(plain.way(point(), point())),)
    return found


def at_ends(kinds, numbers):
    """Returns the arguments of a question at the ends of the range, some of them with a coordinate beyond."""
    last = LIMIT + (numbers.random() < 0.1)
    point = lambda ends=ENDS: (numbers.choice(ends), numbers.choice(ends))
    found = ()
    for kind in kinds:
        if kind in LISTS:
            found += (listed(kind, (point() for _ in range(numbers.randint(0, 5)))),)
        elif kind == "length":
            found += (Fraction(numbers.randint(0, 1 << 41), numbers.choice((1, 3, (1 << 32) - 1))),)
        else:
            found += tuple(point((*ENDS, last)) for _ in range(1 + (kind == "segment")))
    return found


def asked(it, numbers):
    """Yields the arguments of all questions of a kind."""
    kinds = it.words("takes")
    yield from of_a_grid(kinds)
    yield from (drawn(kinds, numbers, numbers.choice((3, 40, 1 << 20, 1 << 31, 1 << 38))) for _ in range(AT_RANDOM))
    yield from (at_ends(kinds, numbers) for _ in range(AT_ENDS))


def parts_of(it, arguments):
    """Returns the lists of points of a question, and its other arguments."""
    count = sum(kind in LISTS for kind in it.words("takes"))
    return arguments[:count], arguments[count:]


def line_of(name, it, arguments):
    """Returns a question as a line: its name, the polygons with their vertices, and the numbers."""
    polygons, others = parts_of(it, arguments)
    words = [name, len(polygons)]
    for polygon in polygons:
        words += [len(polygon), *itertools.chain(*polygon)]
    for other in others:
        words += (other.numerator, other.denominator) if isinstance(other, Fraction) else other
    return " ".join(map(str, words))


# ---- answers as texts


def of_points(word, points):
    return " ".join([*([word] if word else []), *(f"{x} {y}" for x, y in points)])


def feature(words):
    return lambda points: of_points(words[len(points)], points)


def hit_text(hit):
    part, points = hit
    return f"{feature(('start', 'vertex', 'edge'))(points)} {part.numerator}/{part.denominator}"


def motion_text(motion):
    by = "by theirs" if motion.moves else "by ours"
    return hit_text((motion.part, motion.at)) + (f" {of_points(by, [motion.vertex])}" if motion.vertex else "")


def distance_text(features):
    words = {(0, 0): "zero", (1, 1): "vertices", (1, 2): "vertex and edge", (2, 1): "edge and vertex"}
    return of_points(words[tuple(map(len, features))], sum(features, ()))


def named(value):
    return getattr(value, "name", value).lower()


def points_text(points):
    return of_points("", points)


# the text of an answer that is not None, by its kind
TEXTS = {
    "place": named, "relation": named, "number": str, "number or none": str, "whether": lambda it: str(it).lower(), "tangents": points_text,
    "box": points_text, "two points": points_text, "separation": points_text, "point": lambda it: of_points("", [it]),
    "nearest": feature(("covered", "vertex", "edge")), "strip": lambda it: of_points("strip", it), "distance": distance_text,
    "witness": lambda it: of_points(named(it.shows), it.points), "hit": hit_text, "motion": motion_text,
    "bounds": lambda it: " ".join(map(str, struct.unpack("QQ", struct.pack("dd", *it)))), "squared": lambda it: f"{it.numerator}/{it.denominator}",
}


def text_of(it, value):
    return "none" if value is None else TEXTS[it["answer"]](value)


@functools.lru_cache(maxsize=1 << 10)
def made(name, points):
    """Returns what a question is asked of: a seat of a shared hull, a hull, a growing one, or a polygon."""
    if not name.startswith("seat_"):
        return {"set": Hull, "growing": GrowingHull}.get(name.partition("_")[0], Polygon)(points)
    seat = SharedHull(capacity=None, seats=1, limit=64).acquire_seat(0)
    for x, y in points:
        seat.add(x, y)
    return seat


def in_python(name, it, arguments):
    """Returns the answer of the module for Python as a text."""
    polygons, others = parts_of(it, arguments)
    first, *more = (made(name, points) for points in polygons)
    for other in others:
        more += (other,) if isinstance(other, Fraction) else other
    try:
        return text_of(it, getattr(first, it.method)(*more))
    except (OutOfRange, ZeroDirection) as fault:
        return type(fault).__name__


# ---- which answers are right


def fault_of(it, arguments):
    """Returns the fault of a question, '' if it has none."""
    points = [other for other in parts_of(it, arguments)[1] if not isinstance(other, Fraction)]
    if any(abs(number) > LIMIT for point in points for number in point):
        return "OutOfRange"
    return "ZeroDirection" if "ZERO_DIRECTION" in it.words("codes") and points[-1] == (0, 0) else ""


def parsed(text):
    """Returns the word of an answer, its points, and how far along a way they are."""
    part = re.search(r" (\d+)/(\d+)", text)
    text = text.replace(part[0], "") if part else text
    numbers = [int(it) for it in re.findall(r"-?\d+", text)]
    word = re.sub(r" ?-?\d+", "", text).strip()
    return word, tuple(zip(numbers[::2], numbers[1::2])), part and Fraction(int(part[1]), int(part[2]))


def is_right(name, it, arguments, text):
    """Returns whether a text is a right answer."""
    fault = fault_of(it, arguments)
    if fault:
        return text == fault
    wanted = getattr(plain, it.method)(*((plain.hull_of(arguments[0]), *arguments[1:]) if name.startswith(("set_", "growing_", "seat_")) else arguments))
    if name not in plain.IS_RIGHT:
        return text == text_of(it, wanted)
    if text == "none":
        return wanted is None or name == "separation_from_segment" and wanted
    word, points, part = parsed(text)
    try:
        return wanted is not None and part in (None, wanted) and plain.IS_RIGHT[name](wanted, word, points, *arguments)
    except (KeyError, ValueError):  # another word, or another number of points
        return False


# ---- programs


def words_in(language, kind, at, count):
    """Returns an argument of a kind in a language: the numbers that it has in C begin at n[at]."""
    if kind in LISTS:
        which = LISTS[kind]
        in_c = {"prepared set": ["loaded()"], "asked growing": ["grown()"]}.get(kind, [f"vertices[{which}]", f"counts[{which}]"])
        return in_c if language == "C" else ["other"] * which
    numbers = [f"n[{at + i}]" for i in range(count)]
    if language in ("C", "JavaScript"):
        return numbers
    if kind == "length":
        return [f"std::uint64_t({numbers[0]})", f"std::uint32_t({numbers[1]})"] if language == "C++" else [f"{numbers[0]} as u64", f"{numbers[1]} as u32"]
    return [f"{'at' if language == 'Rust' else 'point'}(n, {at + i})" for i in range(0, count, 2)]


def case_of(language, name, it):
    """Returns the line of a program that answers a question."""
    words, at, answer = [], 0, it["answer"].replace(" ", "_")
    for kind in it.words("takes"):
        count = len(it.every[f"argument {kind}"].words("C"))
        words += words_in(language, kind, at, count)
        at += 0 if kind in LISTS else count
    values = {"name": name, "function": it.name, "gives": it["gives"], "code": "r.hit.code" if it["gives"] == "hull_motion" else "r.code", "answer": answer,
              "method": it.method, "object": {"set": "hull", "growing": "grown", "seat": SEATS.get(language, "")}.get(name.partition("_")[0], "polygon")}
    if language == "JavaScript":  # (a few questions are functions of another module)
        is_function = language in it.words("by hand") and name == "first_meeting"
        words = ["polygon"] * is_function + words
        values.update(method=("" if is_function else "polygon.") + interface.in_camels(it.method), answer=interface.in_camels(answer))
    return re.sub(r"\{(\w+)\}", lambda word: {**values, "words": ", ".join(words)}[word[1]], LANGUAGES[language][1])


def commands(language, path):
    """Returns the command that compiles a program and the one that runs it, or None if what they need is not there."""
    out, installed, warned = f"{path}.out", [f"-I{PREFIX}/include", path, f"-L{PREFIX}/lib"], ["-Wall", "-Wextra", "-Werror"]
    if language == "C" and shutil.which("cc"):
        return ["cc", "-std=c11", *warned, *installed, "-lhull", "-o", out], [out]
    if language == "C++" and shutil.which("c++"):
        return ["c++", "-std=c++17", *warned, *installed, "-lhull", "-lhull_shared", "-lpthread", "-o", out], [out]
    if language == "Rust" and shutil.which("rustc") and os.path.exists(f"{FOLDER}/libhull.rlib"):
        paths = ["-L", f"native={PREFIX}/lib", "-L", FOLDER, "--extern", f"hull={FOLDER}/libhull.rlib"]
        return ["rustc", "--edition", "2021", "-D", "warnings", *paths, path, "-o", out], [out]
    if language == "JavaScript" and shutil.which("node"):
        module = subprocess.run([f"{TOP}/tools/product.sh", "find", "web/hull32.wasm"], capture_output=True, text=True, check=False).stdout.strip()
        return (["true"], ["node", path, f"{TOP}/web/hull.js", module]) if module else None
    return None


def is_offered(language, name, it):
    """Returns whether a language has a method for the question."""
    return language in (it.words("only") or [language]) and (not name.startswith("seat_") or language in SEATS)


def started(language, every):
    """Writes the program of a language, and returns the process that compiles it and answers the questions, or None."""
    file, path = LANGUAGES[language][0], f"{FOLDER}/{LANGUAGES[language][0]}"
    with open(f"{HERE}/{file}", encoding="utf-8") as text:
        source = text.read()
    cases = "\n".join(case_of(language, name, it) for name, it in every.items() if is_offered(language, name, it))
    with open(path, "w", encoding="utf-8") as text:
        text.write(re.sub(r"[^\n]*@CASES@[^\n]*", lambda _: cases, source))
    both = commands(language, path)
    if both is None:
        print(f"{language}: skipped, what it needs is not there")
        return None
    quoted = [" ".join(f"'{word}'" for word in command) for command in both]
    return subprocess.Popen(["sh", "-c", f"{quoted[0]} && {quoted[1]} < '{FOLDER}/questions' > '{path}.answers' 2> '{path}.codes'"])


def read(path):
    with open(path, encoding="utf-8") as text:
        return text.read().splitlines()


def wrong_in(language, process, questions, lines, wanted):
    """Yields what is wrong with the answers of a program."""
    path = f"{FOLDER}/{LANGUAGES[language][0]}"
    if process.wait() != 0:
        yield f"{language}: it ended with {process.returncode}: {read(f'{path}.codes')[-3:]}"
    found = read(f"{path}.answers")
    if len(found) != len(lines):
        yield f"{language}: {len(found)} answers to {len(lines)} questions"
    for (name, it, arguments), line, answer, right in zip(questions, lines, found, wanted):
        if answer != right and is_offered(language, name, it) and not (name in plain.IS_RIGHT and is_right(name, it, arguments, answer)):
            yield f"{language}: {line}: {answer}, and not {right}"


def wrong_codes(every):
    """Yields the questions whose codes in C are not those that they are described with."""
    seen = {}
    for line in sorted({*read(f"{FOLDER}/answer.c.codes")}):
        name, code = line.split()
        seen.setdefault(name, set()).add(code)
    for name, it in every.items():
        other = seen.get(name, set()) ^ {*it.words("codes")}
        if other and is_offered("C", name, it):
            yield f"C: {name}: {', '.join(sorted(other))} is described and did not come, or came and is not described"


def main():
    described = [it for it in interface.description().values() if "answer" in it]
    every = {SETS.get(it.words("takes")[0], "") + it.method: it for it in described} | {f"seat_{it.method}": it for it in described if "kind" in it}
    numbers = random.Random(1)
    questions = [(name, it, arguments) for name, it in every.items() for arguments in asked(it, numbers)]
    lines = [line_of(*question) for question in questions]
    with open(f"{FOLDER}/questions", "w", encoding="utf-8") as text:
        text.write("".join(f"{line}\n" for line in lines))
    running = {language: process for language in LANGUAGES for process in [started(language, every)] if process}
    answers = [in_python(*question) for question in questions]
    wrong = [f"Python: {line}: {answer}" for question, line, answer in zip(questions, lines, answers) if not is_right(*question, answer)]
    for language, process in running.items():
        wrong += wrong_in(language, process, questions, lines, answers)
    wrong += wrong_codes(every) if "C" in running else []
    print(*wrong[:20], sep="\n", end="\n" if wrong else "")
    print(f"{len(every)} questions, {len(lines)} times, in {1 + len(running)} languages: {len(wrong)} wrong")
    return 1 if wrong or not lines else 0


sys.exit(main())
