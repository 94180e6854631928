"""Tests the completions of bash, zsh and fish: each offers the commands and the flags that the synopses name, and no others. Those of zsh and
fish are compared with what they have to ask their shells for; that of bash runs."""
import re
import shutil
import tempfile

import kit
from small import TOP, run, write

COMPLETIONS = f"{TOP}/tools/completions"
SYNOPSIS = re.search(r"(?s)synopsis='(.*?)SCRIPT and", kit.text_of(f"{TOP}/tools/terminal.sh"))[1]
COMMANDS = re.findall(r"hullbook (\w+)", SYNOPSIS)
# the flags of each command, and those of hulldraw
FLAGS = {it: set(re.findall(r"--(\w+)", re.search(rf"hullbook {it}\b[^\n]*", SYNOPSIS)[0])) for it in COMMANDS}
DRAWN = set(re.findall(r"--(\w+)", re.search(r"(?s)\.SH SYNOPSIS(.*?)\.SH", kit.text_of(f"{TOP}/man/hulldraw.1"))[1].replace("\\-", "-")))
# what follows a flag: a file or a number
FOLLOWS = {"after": "file", **{it: "number" for it in ("capacity", "limit", "first", "line", "size")}}


def asked_of_zsh(service):
    """Returns what the completion of zsh asks for when that program is completed."""
    script = f'_arguments() {{ printf "%s\\n" "$@"; }}; service={service}; . "{COMPLETIONS}/_hullbook"'
    return run(TOP, "sh", "-c", script)[1].splitlines()


def test_texts(tests):
    """The completions of zsh and fish name the same flags, with the same descriptions, and what follows each."""
    tests.same("the commands", COMMANDS, ["run", "check", "compact", "upgrade"])
    text = kit.text_of(f"{COMPLETIONS}/hullbook.fish")
    about = dict(re.findall(r"(?m) -l (\w+).* -d '(\w[^']*\w)'$", text))
    wanted = [f"complete -c hullbook -n __fish_use_subcommand -a '{' '.join(COMMANDS)}'"]
    flags = [(f"hullbook -n '__fish_seen_subcommand_from {command}'", it) for command in COMMANDS for it in FLAGS[command]]
    flags += [("hulldraw", it) for it in DRAWN]
    kinds = {"file": " -r", "number": " -x", None: ""}
    wanted += [f"complete -c {program} -l {it}{kinds[FOLLOWS.get(it)]} -d '{about.get(it)}'" for program, it in flags]
    tests.same("fish", sorted(it for it in text.splitlines() if not it.startswith("#")), sorted(wanted))
    kinds = {"file": ":journal:_files", "number": ":number:", None: ""}
    for service, more, names in (("hullbook", [f"1:command:({' '.join(COMMANDS)})", "*:file:_files"], set().union(*FLAGS.values())),
                                 ("hulldraw", ["1:journal:_files"], DRAWN), ("other", [], [])):
        wanted = [*more, *(f"--{it}[{about.get(it)}]{kinds[FOLLOWS.get(it)]}" for it in names)]
        tests.same(f"zsh: {service}", sorted(asked_of_zsh(service)), sorted(wanted))
    tests.see("zsh: its programs", kit.text_of(f"{COMPLETIONS}/_hullbook").startswith("#compdef hullbook hulldraw\n"))


def offered_by_bash(top, line):
    """Returns what bash offers for the last word of a line, or for the one before a bar, in a folder."""
    words, at = line.replace("|", "").split(" "), line.partition("|")[0].count(" ")
    quoted = " ".join(f"'{it}'" for it in words)
    script = f". '{COMPLETIONS}/hullbook.bash'; COMP_WORDS=({quoted}); COMP_CWORD={at}; " \
             f"f=$(complete -p {words[0]} | sed 's/.*-F \\([^ ]*\\) .*/\\1/'); $f; printf '<%s>' \"${{COMPREPLY[@]}}\""
    return sorted(it for it in re.split("[<>]", run(top, "bash", "-c", script)[1]) if it)


def test_bash(tests):
    """bash offers commands, then the flags of the command, and files."""
    if not shutil.which("bash"):
        print("skipped: completions of bash: there is no bash")
        return
    with tempfile.TemporaryDirectory() as top:
        files = ("other.txt", "script.txt", "two words.txt")
        for it in files:
            write(f"{top}/{it}", "")
        of_run, drawn, every = sorted(f"--{it}" for it in FLAGS["run"]), sorted(f"--{it}" for it in DRAWN), sorted(files)
        for line, wanted in (
            ("hullbook ", sorted(COMMANDS)), ("hullbook c", ["check", "compact"]), ("hullbook x", []), ("hullbook -", []), ("hullbook --l", []),
            ("hullbook run ", every), ("hullbook run s", ["script.txt"]), ("hullbook run tw", files[2:]), ("hullbook run --l", ["--limit"]),
            ("hullbook run --limit", ["--limit"]), ("hullbook run script.txt --after o", ["other.txt"]), ("hullbook other ", every),
            ("hullbook run script.txt --after other.txt -", of_run), ("hullbook other -", []), ("hulldraw ", every), ("hulldraw tw", files[2:]),
            ("hulldraw -", drawn), ("hulldraw --", drawn), ("hulldraw s --b", ["--bridges"]), ("hulldraw script.txt --", drawn),
            ("hulldraw script.txt o", ["other.txt"]), ("hulldraw --b| o", ["--bridges"]), ("hulldraw o| s", ["other.txt"]),
            ("hullbook ch| --explain", ["check"]), ("hullbook run --l| s", ["--limit"]), ("hullbook run s| --limit", ["script.txt"]),
        ):
            tests.same(f"bash: {line}", offered_by_bash(top, line), list(wanted))
        for it in COMMANDS:
            for words in ("-", "other.txt --", "other.txt script.txt --"):
                tests.same(f"bash: flags of {it} {words}", offered_by_bash(top, f"hullbook {it} {words}"), sorted(f"--{flag}" for flag in FLAGS[it]))
        for it in ("hullbook", "hulldraw"):
            said = run(top, "bash", "-c", f". '{COMPLETIONS}/hullbook.bash'; complete -p {it}")
            tests.same(f"bash: its completion of {it}", said, (0, f"complete -o filenames -F _{it} {it}\n"))


TESTS = (test_texts, test_bash)
