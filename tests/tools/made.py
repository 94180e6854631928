"""Tests what tools/product.sh makes of changed sources, with stand-ins for the toolchain, the C compiler, the archiver and objcopy: which bytes a
library or a program has then, what is kept of a proof, the status of each failure, and that nothing is left."""
import os
import tempfile

import kit
from judges import sum_of
from small import lay_tools, run, write

MINE = os.uname().machine
OTHER = "aarch64" if MINE != "aarch64" else "x86_64"
# writes what it was asked for; a source with FAIL is not compiled
CC = """#!/bin/sh
all=$*
echo "$(basename "$0") $*" | sed "s#$TMPDIR/[^/ ]*#WORK#g" >>"$ASKED.cc"
while [ $# -gt 0 ]; do case $1 in -c) shift; source=$1 ;; -o) shift; to=$1 ;; *.o | *.a) cat "$1" >>"$to.parts" 2>/dev/null ;; esac; shift; done
if [ "${source:-}" ]; then ! grep -q FAIL "$source" && echo "object of $source" >"$to" || exit 1
else { echo "linked $(echo "$all" | grep -o -e '-nostdlib\\|soname,[^ ]*' | paste -sd ' ')"; cat "$to.parts"; } >"$to"; rm "$to.parts"; fi
"""
AR = '#!/bin/sh\nto=$2\nshift 2\ncat "$@" >>"$to"\n'
OBJCOPY = '#!/bin/sh\nfor it in "$@"; do to=$it; done\necho "renamed $(cat "${1#*=}")" >>"$to"\n'
# proves what has no WRONG; what it makes is the text of its source
RT = """#!/bin/sh
echo "$* in $(basename "$PWD")" >>"$ASKED"
[ "$1" != doc ] || { echo /kit/doc.md; exit; }
! grep -q WRONG src/lib.rt || { seq 30; echo it is not proved >&2; exit 1; }
case $1 in run) to=$(basename "$PWD") ;; *) to=lib$(basename "$PWD").a ;; esac
cat src/lib.rt >"out/$to"; [ "$1" = lib ] || echo object >"out/$to.o"
"""


NO_RT = "tools/product.sh: the sources of {} are not those of the release, and the toolchain that proves them (rt) is not installed\n"


class Made:
    """A repository with two libraries and a program, whose files in dist/ are those of the sources."""

    def __init__(self, top):
        self.top, self.work = top, f"{top}/temporary files"
        lay_tools(top), os.makedirs(self.work)
        for name, text in (("cc", CC), ("ar", AR), ("objcopy", OBJCOPY), ("rt/rt", RT)):
            for it in (name, f"others/{OTHER}-linux-gnu-{name.replace('cc', 'gcc')}"):
                write(f"{top}/path/{it}", text, 0o755)
        write(f"{top}/asked", "")
        self.products = [f"{it}/libhull.{end}" for it in (MINE, OTHER) for end in ("a", "so")] + [f"{MINE}/hullbook"]
        library = "hull_c: c/a.c c/b.c c/h.h include/a.h"
        more = {"a": f"{library}", "so": f"{library} python/calls.c python/owned.h"}
        rows = [f"{it} {more.get(it.rpartition('.')[2], 'hullbook:')}\n" for it in self.products]
        write(f"{top}/tools/products.txt", "".join(rows))
        write(f"{top}/crates.txt", "low:\nhull_c staticlib: low\nhullbook: low\n")
        for crate in ("low", "hull_c", "hullbook"):
            write(f"{top}/crates/{crate}/src/lib.rt", f"{crate}\n")
        for name, text in (("c/a.c", "hull_proved_add(hull_proved_add)\n"), ("c/b.c", "b\n"), ("include/a.h", "a\n"), ("python/calls.c", "c\n"),
                ("c/h.h", "h\n"), ("python/owned.h", "h\n")):
            write(f"{top}/{name}", text)
        for it in self.products:
            write(f"{top}/dist/{it}", f"released {it}\n")
            sums = [self.product(*words)[1].strip() for words in (("sum", "hullbook" if it.endswith("book") else "hull_c"), ("others", it))]
            with open(f"{top}/dist/SUMS", "a", encoding="utf-8") as file:
                file.write(f"file {it} sha256={sum_of(f'{top}/dist/{it}')} bytes=1 crate=x sources={sums[0]} others={sums[1]}\n")

    def environment(self, has_rt=False):
        path = f"{self.top}/path/rt:/usr/bin:/bin" if has_rt else "/usr/bin:/bin"
        return {"PATH": path, "CC": f"{self.top}/path/cc", "AR": f"{self.top}/path/ar", "TMPDIR": self.work, "ASKED": f"{self.top}/asked"}

    def product(self, *words, has_rt=False, folder=""):
        return run(folder or self.top, f"{self.top}/tools/product.sh", *words, env=self.environment(has_rt))

    def put(self, name, to="copy", **how):
        """Returns the status of a put, the bytes that it made, and what it left in the temporary folder."""
        if os.path.exists(f"{self.top}/{to}"):
            os.remove(f"{self.top}/{to}")
        status, said = self.product("put", name, f"{self.top}/{to}" if to == "copy" else to, **how)
        self.said = said
        return status, kit.text_of(f"{self.top}/{to}"), os.listdir(self.work)


def test_compiled(tests):
    """If only C has changed, it is compiled over the released proved code, in a folder that is gone afterwards."""
    with tempfile.TemporaryDirectory() as top:
        it = Made(top)
        tests.same("what is released is copied", [it.put(name) for name in it.products], [(0, f"released {name}\n", []) for name in it.products])
        archive = f"released {MINE}/libhull.a\nrenamed hull_add hull_proved_add\nobject of c/a.c\nobject of c/b.c\n"
        shared = f"linked -nostdlib soname,libhull.so\nobject of python/calls.c\n{archive}"
        write(f"{top}/python/calls.c", "changed\n")
        tests.same("a changed file of one library", [it.put(f"{MINE}/libhull.{end}") for end in ("a", "so")],
            [(0, f"released {MINE}/libhull.a\n", []), (0, shared, [])])
        write(f"{top}/c/b.c", "changed\n")
        tests.same("and of both", [it.put(f"{MINE}/libhull.{end}") for end in ("a", "so")], [(0, archive, []), (0, shared, [])])
        os.chmod(f"{top}/dist/{MINE}/libhull.a", 0o444)
        tests.same("over one that is read-only", (it.put(f"{MINE}/libhull.a"), os.stat(f"{top}/copy").st_mode & 0o777), ((0, archive, []), 0o644))
        os.makedirs(f"{top}/out")
        tests.same("to a path below the repository", it.put(f"{MINE}/libhull.a", "out/copy"), (0, archive, []))
        tests.same("to a path in the folder of the caller", (it.product("put", f"{MINE}/libhull.a", "here", folder=f"{top}/out")[0],
            kit.text_of(f"{top}/out/here"), os.path.exists(f"{top}/here")), (0, archive, False))
        tests.same("they are ready", [it.product("ready", name)[0] for name in it.products], [0] * 5)
        tests.same("what is released stays", kit.text_of(f"{top}/dist/{MINE}/libhull.a"), f"released {MINE}/libhull.a\n")
        for name in ("c/a.c", "c/b.c", "python/calls.c"):
            before = kit.text_of(f"{top}/{name}")
            write(f"{top}/{name}", f"FAIL {before}")
            came = [it.put(f"{MINE}/libhull.{end}") for end in ("a", "so")]
            tests.same(f"{name} is not compiled", came, [(71, "", []) if name[0] == "c" else (0, archive, []), (71, "", [])])
            write(f"{top}/{name}", before)
        write(f"{top}/dist/{MINE}/libhull.a", "damaged\n")
        ready = it.product("ready", f"{MINE}/libhull.so")[0]
        tests.same("none is made of a damaged archive", (ready, it.put(f"{MINE}/libhull.so"), it.said), (1, (69, "", []), NO_RT.format("hull_c")))
        bytes_of = f"tools/product.sh: dist/{MINE}/libhull.a has other bytes than dist/SUMS says\n"
        write(f"{top}/c/b.c", "b\n")
        tests.same("nor is a damaged one copied", (it.put(f"{MINE}/libhull.a"), it.said), ((1, "", []), bytes_of))
        write(f"{top}/crates/low/src/lib.rt", "changed\n")
        tests.same("proved code for another machine", (it.put(f"{OTHER}/libhull.a"), it.said), ((69, "", []),
            f"tools/product.sh: dist/{OTHER}/libhull.a was made of other sources, and only tools/release.sh makes it for another machine\n"))


def test_proved(tests):
    """If proved code has changed, it is proved first, and what an older proof left is not taken."""
    with tempfile.TemporaryDirectory() as top:
        it, places = Made(top), [("hullbook", "hullbook"), ("hull_c", "libhull_c.a")]
        for crate, _ in places:
            write(f"{top}/crates/{crate}/src/lib.rt", f"{crate} changed\n")
        names = [f"{MINE}/hullbook", f"{MINE}/libhull.a"]
        tests.same("without the toolchain", [(it.put(name), it.said) for name in names],
            [((69, "", []), NO_RT.format(crate)) for crate in ("hullbook", "hull_c")])
        tests.same("they are not ready", [it.product("ready", name)[0] for name in names], [1, 1])
        tests.same("a linked one is not found", it.product("linked", "hullbook")[0], 1)
        made = [(0, "hullbook changed\n", []), (0, "hull_c changed\nrenamed hull_add hull_proved_add\nobject of c/a.c\nobject of c/b.c\n", [])]
        tests.same("with it", [(it.put(name, has_rt=True), it.said) for name in names], [(one, "") for one in made])
        tests.same("each is proved once", kit.text_of(f"{top}/asked").splitlines(), ["run in hullbook", "lib in hull_c"])
        tests.same("and kept", [it.put(name) for name in names] + [it.product("ready", name)[0] for name in names], made + [0, 0])
        tests.same("with its object", kit.text_of(f"{top}/crates/hullbook/out/{MINE}/hullbook.o"), "object\n")
        for crate, _ in places:
            write(f"{top}/crates/{crate}/src/lib.rt", f"{crate} WRONG\n")
        why = "".join(f"{number}\n" for number in range(12, 31)) + "it is not proved\n"
        tests.same("one that is not proved, and the end of why", [(it.put(name, has_rt=True), it.said) for name in names], [((70, "", []), why)] * 2)
        command = 'tools/product.sh put "$1" copy 2>/dev/null'
        tests.same("what it says is no output", run(top, "sh", "-c", command, "", names[0], env=it.environment(has_rt=True)), (70, ""))
        tests.same("what was proved before is not found", [it.product("linked", "hullbook")[0], it.product("program", "hullbook")[0]], [1, 1])


def test_commands(tests):
    """Each C file is compiled for its processor, with the flags that it needs; a library for another one is proved for that."""
    with tempfile.TemporaryDirectory(prefix="a folder ") as top:
        it = Made(top)
        asked = lambda name: kit.text_of(f"{top}/{name}").replace(top, "TOP").splitlines()
        write(f"{top}/c/allocator.c", "memory\n")
        products = kit.text_of(f"{top}/tools/products.txt")
        write(f"{top}/tools/products.txt", products.replace("c/a.c", "c/a.c c/allocator.c"))
        flags = {MINE: "-std=gnu11 -O2 -fPIC -Iinclude", OTHER: "-std=gnu11 -O2 -fPIC -Iinclude"}
        flags["aarch64"] = f"{flags['aarch64']} -mno-outline-atomics"
        compiled = lambda processor, cc: [f"{cc} {flags[processor]}{more} -c c/{name}.c -o WORK/{name}.o"
            for name, more in (("a", ""), ("allocator", " -ffreestanding"), ("b", ""))]
        linked = lambda processor, cc: [f"{cc} {flags[processor]} -c python/calls.c -o WORK/calls/calls.o",
            f"{cc} -shared -nostdlib -s -Wl,--build-id=none -Wl,-soname,libhull.so -o TOP/a copy WORK/calls/calls.o"
            " -Wl,--whole-archive WORK/archive.a -Wl,--no-whole-archive -lgcc"]
        env = it.environment(has_rt=True)
        env.update(CC="cc", AR="ar", PATH=f"{top}/path:{top}/path/others:{env['PATH']}")
        for processor, cc, target in ((MINE, "cc", ""), (OTHER, f"{OTHER}-linux-gnu-gcc", f" --target {OTHER}-unknown-linux-gnu")):
            write(f"{top}/asked", ""), write(f"{top}/asked.cc", "")
            came = [run(top, "tools/product.sh", "make", f"{processor}/libhull.{end}", f"{top}/a copy", env=env) for end in ("a", "so")]
            tests.same(f"libraries for {processor}", came, [(0, "")] * 2)
            tests.same("how they are compiled", asked("asked.cc"), compiled(processor, cc) * 2 + linked(processor, cc))
            words = f"lib{target}" if processor == "x86_64" or target else f"lib --target {processor}-unknown-linux-gnu"
            tests.same("how they are proved", asked("asked"), [f"{words} in hull_c"])
            tests.see("what was proved is kept", os.path.exists(f"{top}/crates/hull_c/out/{processor}/made-of"))
        write(f"{top}/tools/products.txt", f"{products}x86_64/hulldraw hulldraw:\n")
        write(f"{top}/crates.txt", "low:\nhull_c staticlib: low\nhullbook: low\nhulldraw:\n")
        write(f"{top}/crates/hulldraw/src/lib.rt", "hulldraw\n")
        if MINE == "x86_64":
            write(f"{top}/asked", ""), write(f"{top}/asked.cc", "")
            came = [run(top, "tools/product.sh", "make", f"x86_64/{name}", f"{top}/a copy", env=env) for name in ("hullbook", "hulldraw")]
            tests.same("programs", came, [(0, "")] * 2)
            tests.same("how they are linked", asked("asked.cc"), [f"cc -static -s -Wl,--build-id=none -o TOP/a copy crates/{name}/out/x86_64/{name}.o"
                " /kit/c/libos_c.a /kit/c/liblibc_c.a -lpthread" for name in ("hullbook", "hulldraw")])
            tests.same("how they are proved", [line for line in asked("asked") if "run" in line], ["run in hullbook", "run in hulldraw"])


TESTS = (test_compiled, test_proved, test_commands)
