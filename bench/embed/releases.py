#!/usr/bin/env python3
"""Each call of this libhull beside that of an earlier release, in one run: nanoseconds, and instructions by valgrind's callgrind.

    releases.py [REVISION [POINTS [LAYOUTS [ROUNDS]]]]

REVISION is a commit whose dist/ has the earlier release (6bcc03ef, which is 2.3.0, if none is given), POINTS how many points each polygon is
made of (24). Where code lies changes how long it takes, so each release is linked in several LAYOUTS (9), with its functions in an order and at
distances drawn at random (Curtsinger and Berger, 2013: Stabilizer). All programs are run in alternation, ROUNDS times (5). A time is the median
over the layouts of the least time in each; it is followed by half of the range between its quartiles. Needs g++, binutils and valgrind.
"""
import random
import re
import statistics
import subprocess
import sys
import tempfile
from pathlib import Path

HERE = Path(__file__).resolve().parent
TOP = HERE.parent.parent
CALLS = 16384


def run(*words, **options):
    """Runs a command, and returns what it wrote."""
    return subprocess.run([str(word) for word in words], check=True, capture_output=True, **options).stdout


def unpack(revision, room):
    """Writes an earlier release's headers and library to a folder."""
    run('tar', '-x', '-C', room, input=run('git', '-C', TOP, 'archive', revision, 'include', 'dist/x86_64/libhull.a'))


def functions(file):
    """Returns the names of an object's sections of code."""
    return re.findall(r'^ *\d+ (\.text.*?) +[\da-f]{8} +[\da-f]{16} ', run('objdump', '-hw', file, text=True), re.M)


def arrange(objects, seed, room):
    """Writes objects whose functions a linker puts in an order, and at distances, that the seed draws."""
    draw = random.Random(seed)
    places = [(file, name) for file in objects for name in functions(file)]
    order = draw.sample(range(len(places)), len(places))
    # (GNU ld sorts sections of these names)
    names = {place: f'.text.sorted.{at:05}' for place, at in zip(places, order)}
    gap = '.section {}_, "ax", @progbits\n.p2align 4\n.skip {}, 0x90\n'
    Path(room, 'gaps.s').write_text(''.join(gap.format(name, 16 * draw.randrange(8)) for name in names.values()) + '.section .note.GNU-stack\n')
    run('as', Path(room, 'gaps.s'), '-o', Path(room, 'gaps.o'))
    for file in objects:
        renamed = [f'--rename-section={name}={names[file, name]}' for name in functions(file)]
        run('objcopy', *renamed, file, Path(room, file.name))
    return [Path(room, file.name) for file in objects] + [Path(room, 'gaps.o')]


def link(include, library, layouts, room):
    """Returns the paths of the bench over a release, one for each layout."""
    room.mkdir()
    run('ar', 'x', library, cwd=room)
    defines = [] if 'hull_is_polygon' in Path(include, 'hull.h').read_text() else ['-DBEFORE_3_0']
    options = ['-std=c++17', '-O2', '-Wa,-mbranches-within-32B-boundaries', *defines, f'-I{include}']
    run('g++', *options, '-c', HERE / 'releases.cpp', '-o', room / 'releases.o')
    programs = []
    for seed in range(layouts):
        moved = Path(tempfile.mkdtemp(dir=room))
        run('g++', *arrange(sorted(room.glob('*.o')), seed, moved), '-o', moved / 'releases')
        programs.append(moved / 'releases')
    return programs


def times(programs, points, rounds):
    """Returns for each program the least nanoseconds of each call."""
    least = {program: {} for program in programs}
    for number in range(rounds):
        for program in programs[::1 if number % 2 == 0 else -1]:
            for line in run(program, points, text=True).splitlines():
                name, took = line.split()
                least[program][name] = min(least[program].get(name, float('inf')), float(took))
    return least


def instructions(program, points, room):
    """Returns the instructions of each call."""
    run('valgrind', '--tool=callgrind', f'--callgrind-out-file={room}/callgrind', program, points)
    counts = {}
    for dump in sorted(Path(room).glob('callgrind.*')):
        text = dump.read_text()
        name = re.search(r'^desc: Trigger: Client Request: (.*)', text, re.M)
        if name:
            counts[name[1]] = round(int(re.search(r'^(?:totals|summary): (\d+)', text, re.M)[1]) / CALLS)
        dump.unlink()
    return counts


def summed(least, programs, name):
    """Returns the median of a call's times over the programs, and half of the range between its quartiles."""
    took = [least[program][name] for program in programs]
    if len(took) < 2:
        return took[0], 0
    low, middle, high = statistics.quantiles(took, n=4, method='inclusive')
    return middle, (high - low) / 2


def main():
    revision, points, layouts, rounds = (sys.argv[1:] + ['6bcc03ef', '24', '9', '5'][len(sys.argv) - 1:])[:4]
    with tempfile.TemporaryDirectory() as room:
        unpack(revision, room)
        earlier = link(f'{room}/include', f'{room}/dist/x86_64/libhull.a', int(layouts), Path(room, 'earlier'))
        now = link(TOP / 'include', TOP / 'dist/x86_64/libhull.a', int(layouts), Path(room, 'now'))
        least = times([program for pair in zip(earlier, now) for program in pair], points, int(rounds))
        counted = [instructions(programs[0], points, room) for programs in (earlier, now)]
    print(f'{"call":28}{"earlier ns":>12}{"":8}{"now ns":>10}{"":8}{"more":>8}{"ratio":>7}{"earlier":>12}{"now":>9} instructions')
    for name in least[now[0]]:
        (before, spread_before), (took, spread) = summed(least, earlier, name), summed(least, now, name)
        print(f'{name:28}{before:12.1f} ±{spread_before:5.1f} {took:10.1f} ±{spread:5.1f} {took - before:+8.1f}{before / took:7.2f}'
              f'{counted[0][name]:12}{counted[1][name]:9}')


if __name__ == '__main__':
    main()
