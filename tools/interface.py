"""Writes, for tools/table.py, what repeats the description of calls in tables/interface.txt, as tables/languages.txt says that languages do."""
import configparser
import re
import textwrap

import kit

TABLES = ("tables/languages.txt", "tables/interface.txt")
WIDTH = 140


def wrapped(text, width, first, others):
    """Returns a text in lines of at most that width, with these indents. A field stays with its number, and the end of a comment with its text."""
    text = re.sub(r"(?<=\w:) (?=\d+,)| (?=\*/$)", "\u00a0", re.sub(r"O\([^.;]*?\)", lambda it: it[0].replace(" ", "\u00a0"), text))
    lines = textwrap.fill(text, width, initial_indent=first, subsequent_indent=others, break_long_words=False, break_on_hyphens=False)
    return lines.replace("\u00a0", " ") + "\n"


def aligned(rows):
    """Returns lines of C, with their comments in one column."""
    wide = max(len(line) for line, _ in rows) + 1
    return [wrapped(f"{said} */", WIDTH, f"{line:{wide}}/* ", " " * wide + " * ") if said else f"{line}\n" for line, said in rows]


def fitted(line):
    """Returns a line of code in lines of at most WIDTH, each after the first below what follows the outermost bracket that is open there."""
    if len(line) <= WIDTH:
        return line
    opened, commas = [len(line) - len(line.lstrip())], []
    for column, sign in enumerate(line[:WIDTH]):
        opened = [*opened, column + 1] if sign in "([{" else opened[:-1] or opened if sign in ")]}" else opened
        commas += [(len(opened), -column, opened[-1])] * (sign == ",")
    _, at, indent = min(commas, default=(0, 0, 0))
    return f"{line[:1 - at]}\n{fitted(' ' * indent + line[2 - at:])}" if at else line


def in_camels(name):
    """Returns a name in the form tooMany."""
    return re.sub(r"_(\w)", lambda it: it[1].upper(), name)


class Item(dict):
    """An item of the description: its texts by key, templates with their lines; `every` has all items by name."""

    def __init__(self, name, texts, group, every):
        lines = {key: text.strip().split("\n") for key, text in texts.items()}
        super().__init__({key: "".join(f"{it[1:]}\n" for it in text) if text[0][:1] == "|" else " ".join(text) for key, text in lines.items()})
        self.name, self.group, self.every, self.method = name, group, every, self.get("name", name.replace("hull_polygon_", ""))
        self.kinds = [every[f"argument {it}"] for it in self.words("takes")]

    def __missing__(self, key):
        raise SystemExit(f"{TABLES[-1]}: {self.name} has no {key}")

    def words(self, key):
        return [it for it in self.get(key, "").split(", ") if it]

    def is_method(self, language, first):
        return "answer" in self and self.words("takes")[0] == first and language in {*(self.words("only") or [language])} - {*self.words("by hand")}

    def parameters(self):
        """Returns the type and the name of each parameter in C, or of each field of a struct, with its comment."""
        fields = re.sub(r"\n +", " ", self.get("fields", "")).splitlines() or [it for kind in self.kinds for it in kind.words("C")]
        return [re.fullmatch(r"([\w *]*[ *]|)(\w+)(?:: (.*))?", it).groups() for it in fields]

    def type_in(self, language, type):
        """Returns a type of C in a language, '' if it has none."""
        name = type.replace("const ", "").strip(" *")
        found = (self.every.get(f"type {name}") or self.every.get(f"struct {name}") or {}).get(language, "")
        pointers = {"Rust": found and f"*{'const' if 'const' in type else 'mut'} " * type.count("*") + found, "Python": "_address"}
        return pointers.get(language, found) if "*" in type else found

    def sentence(self, language):
        """Returns the comment of a method, or of a declaration in C."""
        notes = (it.get(f"{language} says") for it in [*self.kinds, self.every.get(f"answer {self.get('answer')}", {})])
        text = " ".join([self["says"], *dict.fromkeys(filter(None, notes))])
        if language == "C":
            text = self.get("C") or re.sub(r"^Returns whether ([^.;]*)", r"Returns HULL_NUMBER with 1 if \1, else with 0", text)
            cost = "" if "as" in self else self.get("cost", "").replace("O(1)", "")
            text += cost and f" {'' if cost[:2] == 'O(' else 'It takes '}{cost}."
        return re.sub(r"\{(\w+)\}", lambda it: self.every[f"language {language}"][it[1]], text)

    def comment(self, language):
        first, others, end = self.every[f"language {language}"]["comment"].split("'")[1::2]
        return wrapped(f"{self.sentence(language)}{end}", 130 if language == "C" else WIDTH, first, others)

    def in_c(self):
        """Returns what the templates of C are filled with."""
        pairs, gives = [(type, name) for type, name, _ in self.parameters()], self["gives"]
        lengths = {name: length for (type, name), (_, length) in zip(pairs, pairs[1:]) if "*" in type and re.search("count|capacity|length", length)}
        return {"also": "", **self, "name": self.name, "gives": gives + " " * (gives[-1:] != "*"), "comment": self.comment("C"),
                "parameters": ", ".join(f"{type}{name}" for type, name in pairs), "names": ", ".join(name for _, name in pairs), "refusal": f"{gives[5:].replace('reply', 'hull')}_refusal",
                "short": self.name[5:], "arrays": ", ".join(f"hull_array({name}, {lengths[name]})" if name in lengths else name for _, name in pairs),
                "fault": "fault_of(vertices, count)" if "other" not in self.words("takes") else "fault_of_both(vertices, count, others, other_count)"}

    def in_method(self, language):
        """Returns what the templates of methods are filled with."""
        words, parameters, passed = self.every[f"language {language}"], [], {}
        make, _, value = (it.strip() for it in self.every[f"answer {self['answer']}"][language].partition("->"))
        made, type = make if "{}" in make else f"{make}({{}})", value
        if language == "Rust":
            made, type = (made, f"Result<{value}, Fault>") if "OUT_OF_RANGE" in self.words("codes") else (f"answer::certain({made})", value)
        for kind in self.kinds:
            parameter, _, given = (it.strip() for it in kind[language].partition("->"))
            parameters += [parameter] if parameter else []
            names = [it.split()[-1].strip("*") for it in kind.words("C")]
            passed.update({**dict.fromkeys(names, ""), **dict(zip(names, re.split(r", (?![^()]*\))", given)))})
        function, _, asked = self.get("as", "").rstrip(")").partition("(") if language != "C++" else ("", "", "")
        asked = [passed.get(it, it.replace("HULL_KIND_", words.get("kind", ""))) for it in asked.split(", ") if it] or passed.values()
        before = "".join(f"{it['C++ before']} " for it in self.kinds if language == "C++" and "C++ before" in it)
        spell, kind = in_camels if "Script" in language else str, self.get("kind", "")
        values = {"function": function or self.name, "passed": ", ".join(it for it in asked if it), "type": type, "make": make, "before": before,
                  "parameters": ", ".join(parameters), "method": spell(self.method), "comment": self.comment(language.replace("JavaS", "TypeS")),
                  "kind": words.get("kind", "") + (in_camels(kind.lower()) if spell == in_camels else kind), "value": value,
                  "names": ", ".join(it.split(": ")[0].split(" ")[-1] for it in parameters) or words.get("nothing", ""),
                  "numbers": ", ".join([*filter(None, passed.values())][language in ("C++", "Rust"):])}
        return {**values, "made": made.replace("{}", filled(words.get("reply", ""), values).rstrip("\n"))}


def filled(template, values):
    """Returns a template with its words replaced, in lines of at most WIDTH."""
    text = re.sub(r"\{([a-z]+)\}", lambda it: values[it[1]], template).replace(", )", ")")
    return "".join(f"{fitted(line)}\n" for line in text.splitlines())


def description():
    """Returns the items of the description by name, in order."""
    parser = configparser.ConfigParser(delimiters=("=",), comment_prefixes=("#",), interpolation=None, empty_lines_in_values=False)
    parser.optionxform = str
    parser.read_string("".join(kit.text_of(f"{kit.TOP}/{table}") for table in TABLES))
    every, group = Item("the description", {}, "", {}), ""
    for name in parser.sections():
        group = name.removeprefix("group ") if name.startswith("group ") else group
        every[name] = Item(name, parser[name], group, every)
    return every


def struct_in(language, it):
    """Returns a struct as a language declares it: in C each field has its comment, in JavaScript its offset."""
    words, rows, at, offsets = it.every[f"language {language}"], it.parameters(), 0, []
    for type, name, _ in rows:
        size = int(it.every.get(f"type {type.strip()}", {}).get("bytes", 8))
        at += -at % min(size, 8)
        offsets.append(f"{in_camels(name)}: {at}")
        at += size
    types = [{"name": name, "type": it.type_in(language, type), "note": it.type_in("note", type) or "Any"} for type, name, _ in rows]
    lists = {key: "".join(filled(words[key], fields) for fields in types) for key in ("fields", "notes") if key in words}
    if language == "C":
        lists["fields"] = "".join(aligned([(f"    {type}{name};", said) for type, name, said in rows]))
    comment = it.comment("C") if language == "C" else it.comment("C++").replace("    //", "///")
    values = {**lists, "name": it.get(language, it.name[7:]), "size": str(at + -at % 8), "offsets": ", ".join(offsets), "comment": comment}
    return filled(words["struct"], values)


def synopsis(it):
    """Returns the declaration of a function for a manual page, with its parameters in italics."""
    values = it.in_c()
    words = re.sub(r"(\w+)(?=, |$)", r'" \1 "', values["parameters"])[:-1].replace('" void ', 'void"')
    text = f'"{values["gives"]}{it.name}({words});'.replace('void");', 'void);"').replace(" ", "\u00a0").replace('\u00a0",', ' ",')
    return f".BI {wrapped(text, WIDTH - 15, '', '')}".replace('\n", ', ' ,\n.BI "                  ')


def reference(it):
    """Returns the line of a function in docs/REFERENCE.md."""
    said = re.split(r"[.:;] ", it.sentence("C++" if "answer" in it else "C").replace("HULL_NUMBER with ", ""))[0].rstrip(".")
    names = [f"`{it.method}`", f"`{in_camels(it.method)}`"] if "answer" in it else it.get("names", " | ").split("|")
    return f"| `{it.name}` | {' | '.join(name.strip() for name in names)} | {said} | {it.get('cost', '')} |\n"


def declared_in(language, it):
    """Returns the declaration of a function of C for Rust or Python, '' if a type of it has no name there."""
    types = [(name, it.type_in(language, type)) for type, name, _ in it.parameters() if type]
    words, gives = [f"{name}: {type}" if language == "Rust" else type for name, type in types], it.type_in(language, it["gives"])
    values = {**it.in_c(), "parameters": ", ".join(words), "gives": gives}
    return filled(it.every[f"language {language}"]["declaration"], values).replace(" -> ()", "") if gives and all(type for _, type in types) else ""


def stretches():
    """Yields each marked stretch: its file, its mark, and its text."""
    every = description()
    structs, calls = ([it for it in every.values() if key in it] for key in ("fields", "takes"))
    declared = [it for it in calls if it.name.startswith("hull_")]
    linked = [it for it in declared if "as" not in it and "by hand" not in it.group]
    in_c = lambda template, calls: [filled(every["language C"][template or it["shim"]], it.in_c()) for it in calls]
    groups = dict.fromkeys(it.group for it in every.values() if it.group)
    for group in (it for it in groups if "by hand" not in it):
        inside = [it for it in every.values() if it.group == group and it in structs + declared]
        text = "\n".join(struct_in("C", it) if it in structs else in_c("function" if "as" in it else "declaration", [it])[0] for it in inside)
        yield group.partition(": ")[2], group.partition(": ")[0], text
    for header, shims in (("hull", "c/exports.c"), ("hull_shared", "c/shared_exports.c")):
        headers = (f"/{header}.h", "/hull_service.h") if header == "hull_shared" else (f"/{header}.h",)
        here = [[it for it in declared if it.group == group] for group in groups if group.endswith(headers)]
        passing = [it for it in sum(here, []) if "shim" in it]
        yield shims, "proved functions", "".join(in_c("proved", passing))
        yield shims, "functions", "\n".join(in_c("", [it for it in passing if it["shim"] != "by hand"]))
        yield "rust/hull/src/raw.rs", f"functions of {header}", "".join(declared_in("Rust", it) for it in sum(here, []) if it in linked)
        yield f"man/{header}.3", "synopsis", ".PP\n".join("".join(map(synopsis, group)) for group in here if group)
        yield "docs/REFERENCE.md", f"functions of {header}", "".join(map(reference, sum(here, [])))
    signatures = (declared_in("Python", it) for it in linked if it.words("takes")[0] in ("points", "polygon", "polygons"))
    yield "python/hull.py", "signatures", wrapped("".join(signatures).replace(", ", ",\u00a0").replace("\n", " "), WIDTH, " " * 8, " " * 8)
    for language, words in ((name[9:], it) for name, it in every.items() if name.startswith("language ")):
        if "structs in" in words:
            yield words["structs in"], "structs", "".join(struct_in(language, it) for it in structs if language in it).rstrip("\n") + "\n"
        for mark, first in (("questions", "polygon"), ("sets", "prepared set"), ("seats", "prepared set"), ("growing", "asked growing")):
            text = "".join(filled(words[mark], it.in_method(language)) for it in calls if mark in words and it.is_method(language, first))
            if text:
                yield words[f"{mark} in"], mark, text.rstrip("\n") + "\n"
