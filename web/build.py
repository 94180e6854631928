#!/usr/bin/env python3
"""Proves hull_c for WebAssembly and links hull.wasm: web/build.py [FOLDER], with the kit's rt on the path.

The sources are those of the repository, copied as they stand with no test, and without the module `threads` of hull_c, since a page
has one thread; one crate is another: `heap`, which names the allocator. The kit's own heap calls C's malloc, and for wasm64 a call of C can only be an import of the host. So the `heap`
of the page names that of a crate `web_heap`: the kit's crate std_heap with its proofs, made here by replacement of names, over
three imports in the place of libc's three functions and under the same contracts. All is checked again for wasm64, and its
last line says so. FOLDER (web/out where none is given) keeps what was proved for the next run, and has hull.wasm in the end,
without the sections that only name things, and where Binaryen's wasm-opt is, hull32.wasm: the same lowered to a 32-bit memory,
for engines that have no other. No proof reads that step; tests/web tries both modules.
"""
import os
import re
import shutil
import subprocess
import sys

TOP = os.path.dirname(os.path.dirname(os.path.abspath(__file__)))
sys.path.insert(0, f"{TOP}/tools")
import kit  # noqa: E402 (the path comes first)

LIBRARY, HEAP, HOST = "hull_c", "heap", "web_heap"
# what a page has no use for: tests, and that a hull may go to another thread, which is not proved of the host's heap
LEFT_OUT = re.compile(r"(?m)^(?:#\[cfg\(test\)\]\nmod (\w+)|mod (threads)|pub use (threads)::\w+);\n")

IMPORTS = '''// What the module's host gives in the place of C's heap: the contracts of libc's three functions.
ghost use Rattle.core.specs.Prelude.{◌≡◌, ℕ, ◌^◌, ◌<◌};
ghost use mir.Syntax.{Ty};
ghost use base.Fml.{fsep};
ghost use prog.Memory.{size, align};
ghost use prog.Align.{Dv};
ghost use types.Logic.{sem};
ghost use denote.RawPtr.{room_for};
ghost use Rattle.libc.specs.Heap.{chunk, got, Resize, Passes, filled, regot};

use core::rt::Memory;

#[link(wasm_import_module = "heap")]
'''
# the crate `heap` of a page, in the place of the one that names malloc
NAMED = {
    "src/lib.rt": "//! The heap that hulls take their memory from: the host's.\n#![tactic(auto)]\n\npub use web_heap::Heap;\n",
    "specs/Lib.antt": "pub mod Rows\n",
    "specs/Rows.antt": "pub use Rattle.web_heap.specs.contracts.Heap.{the_row as heap_row}\n",
    "proofs/Lib.antt": "pub mod Laws\n",
    "proofs/Laws.antt": "pub use Rattle.web_heap.proofs.Heap.TheLaws.{lowered, lowers, the_row_laws}\n",
}


def read(file):
    with open(file, encoding="utf-8") as text:
        return text.read()


def write(file, text):
    """Writes a file where it is not so already, so that a kept check stays one."""
    os.makedirs(os.path.dirname(file), exist_ok=True)
    if not os.path.isfile(file) or read(file) != text:
        with open(file, "w", encoding="utf-8") as out:
            out.write(text)


def sources_of(crate):
    """The files of a crate's sources, definitions and proofs, by their names within it."""
    for part in ("src", "specs", "proofs"):
        for at, _, names in os.walk(f"{crate}/{part}"):
            yield from (os.path.relpath(f"{at}/{it}", crate) for it in names if it.endswith((".rt", ".antt")))


def crates_below(name):
    """Returns a crate of the repository and all crates below it, each with what its line in crates.txt names."""
    crate = kit.crates()[name]
    return {it.name: it.line.partition(":")[2].split() for it in [crate, *reversed(crate.below())]}


def texts_of(crate):
    """The sources of a crate of the repository without what is left out."""
    gone = {"".join(names) for names in LEFT_OUT.findall(read(f"{crate}/src/lib.rt"))}
    return {it: LEFT_OUT.sub("", read(f"{crate}/{it}")) for it in sources_of(crate) if re.split(r"[/.]", it)[1] not in gone}


def imports_of(libc):
    """The extern block of libc's heap, as imports."""
    block = libc[libc.index('unsafe extern "C"') :].replace("rattle_", "web_").replace("crate::types", "libc::types")
    return IMPORTS + re.sub(r"(?m)^ *//.*\n", "", block)


def heap_of_the_host(rattle):
    """The kit's std_heap by other names, over imports of the host."""
    texts = {}
    for name in sources_of(f"{rattle}/std_heap"):
        if name == "src/impls.rt":
            continue
        text = re.sub(r"\bGlobal|(?<=\.)Global|Global(?=[A-Z])", "Heap", read(f"{rattle}/std_heap/{name}"))
        text = text.replace("pub mod impls;", "pub mod host;").replace("libc::heap::rattle_", "crate::host::web_")
        if name.endswith(".antt"):
            text = re.sub(r"Rattle\.libc\.(proofs|specs\.contracts)\.heap\.rattle_", rf"Rattle.{HOST}.\1.host.web_", text)
            text = text.replace("calls-crate::host::", f"calls-{HOST}::host::").replace("rattle_", "web_")
            text = text.replace("Rattle.std_heap", f"Rattle.{HOST}")
        texts[name.replace("Global", "Heap")] = text
    texts["src/host.rt"] = imports_of(read(f"{rattle}/libc/src/heap.rt"))
    return texts


def lay_out(folder, rattle):
    """Writes the crates for wasm64 to a folder, and takes away what they no longer have."""
    below = crates_below(LIBRARY)
    lines = {HOST: "core libc", HEAP: HOST} | {it: " ".join(low) for it, low in below.items() if it != HEAP}
    for name in lines:
        texts = heap_of_the_host(rattle) if name == HOST else NAMED if name == HEAP else texts_of(f"{TOP}/crates/{name}")
        crate = f"{folder}/crates/{name}"
        for gone in set(sources_of(crate)) - set(texts):
            os.remove(f"{crate}/{gone}")
        for file, text in texts.items():
            write(f"{crate}/{file}", text)
    # rt has a crate with imports say where its C lies: there is none
    os.makedirs(f"{folder}/crates/{HOST}/c", exist_ok=True)
    listed = (f"{it}{' wasm64' if it == LIBRARY else ''}: {low}\n" for it, low in lines.items())
    write(f"{folder}/crates.txt", "".join(listed))


def number_at(data, at):
    """The number in LEB128 at an index, and the index behind it."""
    number = shift = 0
    while True:
        number |= (data[at] & 127) << shift
        shift, at = shift + 7, at + 1
        if data[at - 1] < 128:
            return number, at


def strip(module, to):
    """Copies a module without its custom sections, which no engine needs: names, producers and features. All others stay as they are."""
    with open(module, "rb") as file:
        data = file.read()
    kept, at = data[:8], 8
    while at < len(data):
        size, begin = number_at(data, at + 1)
        kept += b"" if data[at] == 0 else data[at : begin + size]
        at = begin + size
    with open(to, "wb") as out:
        out.write(kept)


def lower(module, to):
    """Lowers the module to a 32-bit memory."""
    if not shutil.which("wasm-opt"):
        print("web/build.py: there is no wasm-opt (Binaryen): hull32.wasm is not made", file=sys.stderr)
        return
    subprocess.run(["wasm-opt", "--enable-memory64", "--enable-bulk-memory", "--enable-sign-ext", "--memory64-lowering", module, "-o", to], check=True)
    strip(to, to)


def main(words):
    folder, begun = os.path.abspath(words[0]) if words else f"{TOP}/web/out", kit.crates()[LIBRARY].sources()
    page = subprocess.run(["rt", "doc"], stdout=subprocess.PIPE, text=True, check=True).stdout.strip()
    lay_out(folder, os.path.join(os.path.dirname(page), "rattle"))
    ran = subprocess.run(["rt", "lib"], cwd=f"{folder}/crates/{LIBRARY}", env={**os.environ, "RT_ALLOW_C": HOST}, check=False)
    if ran.returncode == 0:
        strip(f"{folder}/crates/{LIBRARY}/out/{LIBRARY}.wasm", f"{folder}/hull.wasm")
        lower(f"{folder}/hull.wasm", f"{folder}/hull32.wasm")
        write(f"{folder}/made-of", f"{begun}\n")
    return ran.returncode


if __name__ == "__main__":
    sys.exit(main(sys.argv[1:]))
