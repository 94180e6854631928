#!/usr/bin/env python3
"""Makes each trial of crates/memory_trials again and again, each time with another of its requests for memory refused.

The trial itself looks at what stands after the refusal, and says in which stage it fell. Every stage that can come has to
come, and none other may.

    words        while the words of the trial were read: no line, status 4
    set-up       before what is tried began
    refused      in what is tried
    later phase  in the second phase of a script: the first ran whole
    first add    in the first call of a phase: its reply is `nomemory`
    second add   .. in the second
    vertices     in the call for the vertices, to the list for the journal or to the one for the caller
    whole        to nothing that is tried: to the list by which the trial looks at its set, or to the start of a thread

A plain set grows by several points at once: its second add asks for nothing. A tree keeps its first point without a box:
its first add asks for nothing. An add of a live point asks for nothing in either.

The program is built once, as `rt try` does: with no proof, and with checks that stop it at the first bad access, also after
a refusal. What refuses and starts the runs (sweep.c) is linked with it. With ample memory it has to write
what crates/memory_trials/stdout has. The last line counts the refusals that were met and came in their stage; the status is
not 0 where something else came.

To try another function, give it a trial (crates/memory_trials/src) and a line below.
"""
import collections
import os
import re
import shutil
import sys
import tempfile

HERE = os.path.dirname(os.path.abspath(__file__))
TOP = os.path.dirname(os.path.dirname(HERE))
sys.path.insert(0, f"{TOP}/tools")
import kit  # noqa: E402 (the path comes first)

# the trials, each with the stages that have to come beside `words`
TRIALS = {
    "plain_add": ["refused", "whole"],
    "tree_add": ["refused", "whole"],
    "plain_again": ["set-up", "whole"],
    "tree_again": ["set-up", "whole"],
    "plain_vertices": ["set-up", "refused", "whole"],
    "tree_vertices": ["set-up", "refused", "whole"],
    "plain_open": ["refused"],
    "tree_open": ["refused"],
    "plain_serve": ["set-up", "refused"],
    "tree_serve": ["set-up", "refused"],
    "check": ["set-up", "refused"],
    "plain_lock": ["set-up", "refused"],
    "tree_lock": ["set-up", "refused"],
    "workers": ["set-up", "refused"],
    "plain_phase": ["set-up", "refused", "whole"],
    "tree_phase": ["set-up", "refused", "whole"],
    "plain_phases": ["set-up", "refused", "first add", "vertices", "whole"],
    "tree_phases": ["set-up", "refused", "second add", "vertices", "whole"],
    "script": ["refused"],
    "journal": ["refused"],
    "upgrade": ["set-up", "refused"],
    "plain_later_phase": ["set-up", "refused", "later phase", "first add"],
    "tree_later_phase": ["set-up", "refused", "later phase", "second add"],
    "plain_reopen": ["set-up", "refused"],
    "tree_reopen": ["set-up", "refused"],
    "plain_drain": ["set-up", "refused", "vertices"],
    "tree_drain": ["set-up", "refused", "vertices"],
    "parts": ["set-up", "refused"],
    "compact": ["set-up", "refused"],
}


def told():
    """What the program writes of all trials, built once and run for each: of each trial the lines of its runs behind `== NAME`."""
    os.environ["RT_ALLOW_C"] = "memory_trials"
    with kit.Workspace(kit.crates()["memory_trials"]) as room, tempfile.TemporaryDirectory() as cases:
        os.mkdir(f"{room.folder}/c")
        shutil.copy(f"{HERE}/sweep.c", f"{room.folder}/c/sweep.c")
        for name in TRIALS:
            with open(f"{cases}/{name}", "w", encoding="utf-8"), open(f"{cases}/{name}.args", "w", encoding="utf-8") as words:
                words.write(f"{name}\n")
        return room.rt("try", "--cases", cases).said


def runs_of(said, name):
    """The runs of a trial: of each what it wrote, whether a request was refused, and its status."""
    block = re.search(rf"^== {name}\n(.*?)^(?:== |case={name} )", said, re.M | re.S)
    found = re.findall(r"(.*?)^(refused|ample): status (-?\d+)\n", block[1] if block else "", re.M | re.S)
    return [(text, met == "refused", int(status)) for text, met, status in found]


def stage_of(name, text, status):
    """The stage in which a run was refused its request, or what else came."""
    line = re.fullmatch(rf"{name} (.*)\n", text)
    if status == 4 and not re.search(rf"^{name} ", text, re.M):
        return "words"
    return line[1] if status == 0 and line else f"status {status}, {text[:200]!r}"


def judge(name, wanted, runs, ample):
    """Prints what came of a trial. How many of its refusals came in a stage that is wanted, and how many faults there are."""
    faults = [] if runs and runs[-1] == (ample, False, 0) else ["it does not come out whole with ample memory"]
    stages = collections.Counter(stage_of(name, text, status) for text, met, status in runs if met)
    faults += [f"no request was refused in the stage '{it}'" for it in wanted if not stages[it]]
    faults += [f"{count} times: {it}" for it, count in stages.items() if it not in wanted]
    print(f"{name}:", ", ".join(f"{it} {stages[it]}" for it in wanted))
    print(*(f"{name}: {it}" for it in faults), sep="\n", end="\n" if faults else "")
    return sum(stages[it] for it in wanted), len(faults)


def main():
    with open(f"{TOP}/crates/memory_trials/stdout", encoding="utf-8") as text:
        ample = {line.split()[0]: line for line in text}
    said, passed, failed = told(), 0, 0
    for name, wanted in TRIALS.items():
        well, ill = judge(name, ["words", *wanted], runs_of(said, name), ample.get(name))
        passed, failed = passed + well, failed + ill
    if set(ample) != set(TRIALS):
        print(f"FAILED: not both tried and in stdout: {' '.join(set(ample) ^ set(TRIALS))}")
        failed += 1
    if not passed:
        print(said[-2000:])
    print(f"{passed} passed, {failed} failed")
    return 1 if failed or not passed else 0


if __name__ == "__main__":
    sys.exit(main())
