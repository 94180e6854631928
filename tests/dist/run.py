#!/usr/bin/env python3
"""Tries what is released as a stranger would, with no toolchain on the machine: tests/dist/run.py

A copy of the repository with no history and nothing built stands in a folder of its own; the toolchain's folder is covered by an
empty one where the system allows it (unshare), and `rt` is on no path. There the README's first commands run, packages are made,
installed each in a folder of its own, and used: by a C compiler, CMake, Meson, cargo, pip, dpkg and npm. What is not on the machine is
skipped by name. If dist/ was made of other sources, the packages are made of these, where that takes no proof.

The last line is 'N passed, M failed'.
"""
import base64
import hashlib
import os
import pty
import re
import resource
import shutil
import subprocess
import sys
import tempfile
import zipfile

TOP = os.path.dirname(os.path.dirname(os.path.dirname(os.path.abspath(__file__))))
sys.path.insert(0, f"{TOP}/tools")
import kit  # noqa: E402 (the path comes first)
import packages  # noqa: E402

FIRST_ANSWER = 1.0  # seconds of processors
C_PROGRAM = """#include "hull.h"
#include <stdio.h>
int main(void) {
    hull_set *h = hull_new(100);
    if (h == NULL) return 1;
    for (int i = 0; i < 4; i++) hull_add(h, 10 * (i & 1), 10 * (i >> 1));
    printf("%d\\n", hull_place(h, 5, 5).code == HULL_INSIDE);
    hull_free(h);
    return 0;
}
"""
BOTH = """#include "hull.h"
#include "hull_shared.h"
int main(void) {
    hull_set *h = hull_new(10);
    hull_free(h);
    return hull_shared_gate_init(&(hull_shared_gate){0}, 1), 0;
}
"""
# a program that asks for another major version finds none
CMAKE_OF_ANOTHER_VERSION = """cmake_minimum_required(VERSION 3.13)
project(user C)
find_package(hull 2.4 QUIET)
message(STATUS "found: ${hull_FOUND}")
"""
CMAKE = """cmake_minimum_required(VERSION 3.13)
project(user C)
find_package(hull 3.0 REQUIRED)
add_executable(user user.c)
target_link_libraries(user hull::hull)
"""
MESON = """project('user', 'c')
executable('user', 'user.c', dependencies: dependency('hull'))
"""
RUST = """use hull::{Hull, Point};
fn main() {
    let mut hull = Hull::new(100).expect("memory");
    for i in 0..4 {
        hull.add(Point { x: 10 * (i & 1), y: 10 * (i >> 1) }).expect("added");
    }
    println!("{}", hull.doubled_area());
}
"""
PYTHON = "import hull; h = hull.Hull([(0, 0), (10, 0), (10, 10), (0, 10)]); s = hull.SharedHull(100, 2); s.close(); print(h.doubled_area(), h.place(5, 5).name)"
NODE = "import { load } from 'hullbook'; const { Hull } = await load(); const h = new Hull(100); h.addAll([[0, 0], [10, 0], [10, 10], [0, 10]]); console.log(String(h.doubledArea()));"


PAGE = """import { Tab } from "CLONE/tests/web/browser.mjs";
const tab = await Tab.open("file://CLONE/dist/web/index.html", [1280, 640]);
await tab.press("own");
for (const point of ["0, 0", "8, 0", "8, 6"]) {
    const at = await tab.value(`(() => {
        const { left, top } = document.getElementById("plane").getBoundingClientRect(), [x, y] = page.view.toScreen([${point}]);
        return [left + x, top + y];
    })()`);
    await tab.click(at);
}
const shown = [await tab.text("count"), await tab.text("area")].join(", ");
await tab.close();
console.log(shown);
process.exit(0);
"""
TYPED = """import { load, type Point } from 'hullbook';
export async function first(): Promise<Point> {
    const { Hull } = await load();
    const hull = new Hull();
    hull.addAll([[0, 0], [10, 0], [10, 10]]);
    const vertices: Point[] = hull.vertices(), area: bigint = hull.doubledArea();
    const place: "inside" | "on" | "outside" = hull.place(5, 5);
    return area > 0n && place === "on" ? vertices[0] : [0, 0];
}
"""


class Tries:
    """The tries, each counted, in a folder of their own with no toolchain."""

    def __init__(self, room):
        self.room, self.passed, self.failed = room, 0, 0
        self.path = ":".join(it for it in os.environ["PATH"].split(":") if not os.path.exists(f"{it}/rt"))
        folder = kit.toolchain() if kit.version() else ""
        cover = ["unshare", "-m", "sh", "-c", f"mount -t tmpfs none {folder} && exec \"$@\"", ""] if folder else []
        self.covered = cover if folder and subprocess.run([*cover, "true"], capture_output=True, check=False).returncode == 0 else []
        print(f"the toolchain is {'covered' if self.covered else 'on no path'}" if folder else "there is no toolchain here")

    def run(self, *words, at="", env=None, given=None):
        """Runs a command in a folder of the room. Its status and what it wrote to both streams."""
        env = {**os.environ, "PATH": self.path, "HOME": self.room, **(env or {})}
        ran = subprocess.run([*self.covered, *words], cwd=f"{self.room}/{at}", env=env, stdout=subprocess.PIPE, stderr=subprocess.STDOUT,
                             text=True, errors="replace", check=False, input=given or "")
        return ran.returncode, ran.stdout

    def see(self, what, is_so, told=""):
        """Counts a try."""
        self.passed, self.failed = self.passed + bool(is_so), self.failed + (not is_so)
        print(f"{what}: {'ok' if is_so else 'FAILED ' + str(told)[-700:]}", flush=True)

    def has(self, tool, what):
        """Whether a tool is on the machine; tells where not."""
        if not shutil.which(tool, path=self.path):
            print(f"skipped: {what}: there is no {tool}")
            return False
        return True

    def lay(self, folder, **files):
        """Lays files in a folder of the room."""
        os.makedirs(f"{self.room}/{folder}", exist_ok=True)
        for name, text in files.items():
            with open(f"{self.room}/{folder}/{name.replace('__', '.')}", "w", encoding="utf-8") as file:
                file.write(text)

    def prints(self, what, wanted, *words, **how):
        """Whether a command ends well and writes that."""
        status, told = self.run(*words, **how)
        self.see(what, status == 0 and told.strip().endswith(wanted), f"status {status}: {told}")


def changed(path, old, new):
    """Replaces a text in a file, or adds it at the end if there is none to replace. Returns the file's bytes before."""
    before = kit.bytes_of(path)
    with open(path, "wb") as file:
        file.write(before.replace(old, new, 1) if old else before + new)
    return before


def put_back(path, data):
    with open(path, "wb") as file:
        file.write(data)


def of_children():
    """Returns the seconds of processors that commands have taken, which do not depend on what else the machine does."""
    used = resource.getrusage(resource.RUSAGE_CHILDREN)
    return used.ru_utime + used.ru_stime


def try_clone(tries, stale):
    """Lays a fresh copy, whose programs start at once, by a link too, if they were made of these sources."""
    shutil.copytree(TOP, f"{tries.room}/clone", ignore=shutil.ignore_patterns(".git", "out", "target", "__pycache__"))
    if "x86_64/hullbook" in stale:
        print("skipped: the first answer of a fresh copy: the program has other sources than the release")
        return
    begun = of_children()
    status, told = tries.run("bin/hullbook", "run", "examples/placement.txt", at="clone")
    took = of_children() - begun
    tries.see(f"the first answer of a fresh copy, in {took:.2f} s", status == 0 and told.endswith("sum 8 journal 8 capacity 65536\n") and took < FIRST_ANSWER, told)
    os.symlink(f"{tries.room}/clone/bin/hullbook", f"{tries.room}/hullbook")
    tries.prints("the program by a link", "sum 8 journal 8 capacity 65536", f"{tries.room}/hullbook", "run", "examples/placement.txt", at="clone")
    try_absence(tries)
    try_terminal(tries)


def try_absence(tries):
    """Each cause for which there is no program has a message of its own, and status 69."""
    source, released = f"{tries.room}/clone/crates/hullbook/src/main.rt", f"{tries.room}/clone/dist/x86_64/hullbook"
    words = ("bin/hullbook", "run", "examples/placement.txt")
    before = changed(source, b"", b"// another\n")
    status, told = tries.run(*words, at="clone")
    tries.see("other sources with no toolchain", status == 69 and "made of other sources" in told and "not installed" in told, f"{status}: {told}")
    put_back(source, before)
    before = kit.bytes_of(released)
    put_back(released, before[:-1] + bytes([before[-1] ^ 1]))
    status, told = tries.run(*words, at="clone")
    tries.see("a damaged program", status == 69 and "is damaged" in told, f"{status}: {told}")
    status, told = tries.run("tools/product.sh", "check", at="clone")
    tries.see("a changed byte of dist/", status == 1 and "dist/x86_64/hullbook: FAILED" in told, told)
    put_back(released, before)
    tries.lay("other", uname='#!/bin/sh\ncase $1 in -s) echo Linux ;; *) echo riscv64 ;; esac\n')
    os.chmod(f"{tries.room}/other/uname", 0o755)
    status, told = tries.run(*words, at="clone", env={"PATH": f"{tries.room}/other:{tries.path}"})
    tries.see("another processor", status == 69 and "Linux on riscv64" in told, f"{status}: {told}")


def on_terminal(tries, *words):
    """Runs a program of the copy on a terminal. Returns its status and what the terminal shows."""
    def read(fd):
        try:
            return os.read(fd, 4096)
        except OSError:
            return b""

    shown, process, terminal = b"", *pty.fork()
    if process == 0:
        os.chdir(f"{tries.room}/clone")
        os.execve(words[0], words, {**os.environ, "PATH": tries.path})
    for part in iter(lambda: read(terminal), b""):
        shown += part
    return os.waitstatus_to_exitcode(os.waitpid(process, 0)[1]), shown.decode()


def try_terminal(tries):
    """On a terminal the wrapper says more than the proved program, with the same status; elsewhere it adds nothing."""
    tries.lay("texts", bad__txt="0 add 1 1\n0 add 01 2\n", many__txt="0 add 1 1\n" * 5)
    status, told = on_terminal(tries, "bin/hullbook")
    tries.see("the synopsis after a refusal, on a terminal", status == 2 and "usage: hullbook run SCRIPT" in told, told)
    status, told = on_terminal(tries, "bin/hullbook", "--version")
    tries.see("the version, on a terminal", status == 2 and f"hullbook {packages.version()}" in told, told)
    status, told = on_terminal(tries, "bin/hullbook", "run", f"{tries.room}/texts/bad.txt")
    tries.see("a fault and its line, on a terminal", status == 2 and "line 2: fault 2" in told and "line 2 is: 0 add 01 2" in told, told)
    status, told = on_terminal(tries, "bin/hullbook", "run", f"{tries.room}/texts/many.txt", "--capacity", "2")
    tries.see("calls that found the journal full, on a terminal", status == 0 and "3 of 5 calls found the journal full" in told, told)
    for words in (["--version"], ["run", f"{tries.room}/texts/bad.txt"]):
        status, told = tries.run("bin/hullbook", *words, at="clone")
        tries.see(f"no word more elsewhere: {words[0]}", status == 2 and told in ("hullbook: usage\n", "hullbook: line 2: fault 2\n"), told)


def try_page(tries, stale):
    """The released page, if it was made of these sources, runs from disk in a browser with no window: calls are made, and their answers shown."""
    if "web/index.html" in stale:
        print("skipped: the page: it has other sources than the release")
        return
    browser = next((it for it in ("chromium", "chromium-browser") if shutil.which(it, path=tries.path)), None)
    if not browser or not tries.has("node", "the page"):
        print("skipped: the page: there is no chromium or no node")
        return
    tries.lay("page", page__mjs=PAGE.replace("CLONE", f"{tries.room}/clone"))
    tries.prints("the page from disk, in Chromium", "3, 3 of them vertices, 24", "node", "page.mjs", at="page", env={"CHROMIUM": browser})


def try_install(tries):
    """What bin/install puts in place serves C, CMake, Meson, cargo and Python."""
    status, told = tries.run("bin/install", f"{tries.room}/prefix", at="clone")
    tries.see("bin/install", status == 0, told)
    modes = {it: os.stat(f"{tries.room}/prefix/{it}").st_mode & 0o777 for it in kit.files_below(f"{tries.room}/prefix")}
    wrong = [it for it, mode in modes.items() if mode != (0o755 if it.startswith("bin/") or it.endswith(".so") else 0o644)]
    tries.see("modes of installed files", not wrong, wrong)
    wanted = {"share/doc/hullbook/LICENSE", "lib/hull/hull/py.typed", "share/man/man3/hull.3", "share/hullbook/completions/hullbook.bash", "include/hull.hpp"}
    tries.see("licence, types, manual pages and completions are installed", wanted <= set(modes), wanted - set(modes))
    try_uninstall(tries)
    tries.lay("c", user__c=C_PROGRAM, both__c=BOTH)
    here = {"PKG_CONFIG_PATH": f"{tries.room}/prefix/lib/pkgconfig"}
    if tries.has("cc", "C") and tries.has("pkg-config", "C by pkg-config"):
        tries.prints("C by pkg-config", "1", "sh", "-c", "cc user.c $(pkg-config --cflags --libs hull) -o user && ./user", at="c", env=here)
        whole = f"-Wl,--whole-archive {tries.room}/prefix/lib/libhull.a {tries.room}/prefix/lib/libhull_shared.a -Wl,--no-whole-archive"
        tries.prints("both archives in one shared object", "", "sh", "-c", f"cc -shared -o both.so {whole}", at="c")
    if tries.has("cmake", "CMake"):
        tries.lay("cmake", user__c=C_PROGRAM, CMakeLists__txt=CMAKE)
        tries.prints("CMake", "1", "sh", "-c", f"cmake -B out -DCMAKE_PREFIX_PATH={tries.room}/prefix . >log 2>&1 && cmake --build out >>log 2>&1 && out/user || cat log", at="cmake")
        tries.lay("cmake_of_another_version", CMakeLists__txt=CMAKE_OF_ANOTHER_VERSION)
        tries.prints("CMake finds no other major version", "-- found: 0", "sh", "-c", f"cmake -B out -DCMAKE_PREFIX_PATH={tries.room}/prefix . | grep found:", at="cmake_of_another_version")
    if tries.has("meson", "Meson") and tries.has("ninja", "Meson"):
        tries.lay("meson", user__c=C_PROGRAM, meson__build=MESON)
        tries.prints("Meson", "1", "sh", "-c", "meson setup out >log 2>&1 && ninja -C out >>log 2>&1 && out/user || cat log", at="meson", env=here)
    tries.prints("Python beside its shared objects", "200 INSIDE", "python3", "-c", PYTHON, env={"PYTHONPATH": f"{tries.room}/prefix/lib/hull"})
    status, told = tries.run("bin/install", f"{tries.room}/usr", at="clone", env={"DESTDIR": f"{tries.room}/staged"})
    tries.see("bin/install below DESTDIR", status == 0 and os.path.exists(f"{tries.room}/staged{tries.room}/usr/lib/libhull.a"), told)


def try_uninstall(tries):
    """A failed installation changes nothing, and an installation can be taken back, beside files of others."""
    page = f"{tries.room}/clone/man/hull.3"
    os.rename(page, f"{page}.gone")
    status, told = tries.run("bin/install", f"{tries.room}/half", at="clone")
    tries.see("a failed installation leaves nothing", status != 0 and not os.path.exists(f"{tries.room}/half"), told)
    os.rename(f"{page}.gone", page)
    tries.lay("back/lib", others__txt="of others\n")
    status, told = tries.run("bin/install", f"{tries.room}/back", at="clone")
    tries.see("a second installation", status == 0, told)
    status, told = tries.run("bin/install", "--uninstall", f"{tries.room}/back", at="clone")
    left = [*kit.files_below(f"{tries.room}/back")]
    tries.see("--uninstall leaves the files of others, and no other", status == 0 and left == ["lib/others.txt"], f"{told} {left}")


def try_wheel(tries, wheel):
    """The sums of a wheel's record are those of its files, and it contains the shared objects and the types."""
    with zipfile.ZipFile(wheel) as archive:
        rows = [it.split(",") for it in archive.read(next(it for it in archive.namelist() if it.endswith("/RECORD"))).decode().splitlines()]
        wrong = [name for name, said, size in rows if said and (said != "sha256=" + base64.urlsafe_b64encode(hashlib.sha256(archive.read(name)).digest()).rstrip(b"=").decode()
                                                               or int(size) != len(archive.read(name)))]
        names = {name for name, *_ in rows}
    tries.see("the wheel's record", not wrong and {"hull/libhull.so", "hull/libhull_shared.so", "hull/py.typed", "hull/__init__.py"} <= names, f"{wrong} {names}")


def listing_of_package():
    """Returns the listing of web/README.md, in which what a comment after a call says has to be its result."""
    code = re.search(r"```js\n(.*?)```", kit.text_of(f"{TOP}/web/README.md"), re.DOTALL)[1]
    tried = re.sub(r"^(hull\.\w+\(.*\)); // (.*)$", r"deepEqual(\1, \2);", code, flags=re.MULTILINE)
    return f'import {{ deepEqual }} from "node:assert/strict";\n{tried}console.log("as it says");\n'


def try_links(tries, packages_at):
    """Each relative link of a page in a package leads to what is in the package."""
    for name in sorted(os.listdir(packages_at)):
        folder = f"{tries.room}/links/{name}"
        os.makedirs(folder)
        how = ["dpkg-deb", "-x"] if name.endswith(".deb") else ["unzip", "-q"] if name.endswith(".whl") else ["tar", "xf"]
        if not tries.has(how[0], f"links of {name}"):
            continue
        tries.run(*how, f"{packages_at}/{name}", *([folder] if name.endswith(".deb") else ["-d", folder] if name.endswith(".whl") else ["-C", folder]))
        pages = [it for it in kit.files_below(folder) if it.endswith((".md", "/METADATA", "/copyright"))]
        outside = [(it, link) for it in pages for link in packages.links_of(kit.text_of(f"{folder}/{it}")) if packages.is_absent(link, folder, it)]
        tries.see(f"each link of {name} leads to what is in it, or to an address", not outside, str(outside))


def try_packages(tries):
    """Each package is made, installed in a folder of its own, and used."""
    status, told = tries.run("bin/package", "--test", f"{tries.room}/packages", at="clone")
    tries.see("bin/package", status == 0, told)
    print(told, end="")
    at, version = f"{tries.room}/packages", packages.version()
    try_links(tries, at)
    if tries.has("cc", "the archive") and tries.has("pkg-config", "the archive"):
        os.makedirs(f"{tries.room}/unpacked")
        tries.prints("the archive, from any folder", "1", "sh", "-c", f"tar xJf {at}/hull-{version}-x86_64-linux.tar.xz && cd hull-* && export PKG_CONFIG_PATH=$PWD/lib/pkgconfig"
                     " && cc ../../c/user.c $(pkg-config --cflags --libs hull) -o user && ./user", at="unpacked")
    wheel = f"{at}/hullbook-{version}-py3-none-{packages.PLATFORMS.format('x86_64')}.whl"
    try_wheel(tries, wheel)
    if tries.run("python3", "-m", "venv", "venv")[0] == 0:
        tries.prints("the wheel, by pip", "200 INSIDE", "sh", "-c", f"venv/bin/pip install --no-index -q {wheel} && venv/bin/python -c '{PYTHON}'")
        tries.see("and removed", tries.run("sh", "-c", "venv/bin/pip uninstall -q -y hullbook && ! venv/bin/python -c 'import hull' 2>none")[0] == 0)
        tries.prints("the archive for pip, built and installed", "200 INSIDE", "sh", "-c",
                     f"venv/bin/pip install --no-index -q {at}/hullbook-{version}.tar.gz && venv/bin/python -c '{PYTHON}'")
    if tries.has("objdump", "symbols of the wheel"):
        script = f"unzip -q -o {wheel} -d wheel && objdump -T wheel/hull/*.so | grep -o 'GLIBC_[0-9.]*' | sort -uV | tail -n 1"
        newest = tries.run("sh", "-c", script)[1].strip()
        tries.see(f"symbols of the wheel need no newer C library than manylinux2014 has ({newest or 'none named'})",
                  not newest or [int(it) for it in newest.removeprefix("GLIBC_").split(".")] <= [2, 17], newest)
    if tries.has("dpkg-deb", "the package for dpkg"):
        tries.prints("the package for dpkg", "sum 8 journal 8 capacity 65536", "sh", "-c",
                     f"dpkg-deb -x {at}/hullbook_{version}_amd64.deb deb && deb/usr/bin/hullbook run clone/examples/placement.txt")
        if tries.has("lintian", "lintian"):
            told = tries.run("lintian", "--fail-on", "error", "--allow-root", f"{at}/hullbook_{version}_amd64.deb")
            tries.see("lintian sees no error", told[0] == 0, told[1])
    if tries.has("node", "npm") and tries.has("npm", "npm"):
        tries.lay("npm", package__json='{"type": "module"}\n', user__mjs=NODE)
        tries.prints("the package for npm", "200", "sh", "-c", f"npm install --offline --no-audit --no-fund --silent {at}/hullbook-{version}.tgz && node user.mjs", at="npm")
        tries.lay("npm", page__mjs=listing_of_package())
        tries.prints("the listing of the package's page", "as it says", "node", "page.mjs", at="npm")
        tries.lay("npm", typed__ts=TYPED)
        if tries.has("esbuild", "a bundle for browsers"):
            for platform in ("browser", "node"):
                tries.prints(f"esbuild for a {platform}", "", "esbuild", "user.mjs", "--bundle", "--format=esm", f"--platform={platform}", f"--outfile={platform}.mjs", at="npm")
            tries.prints("the bundle, in Node", "200", "sh", "-c", "cp -r node_modules/hullbook/out . && node node.mjs", at="npm")
        if tries.has("tsc", "types"):
            for target in ("ES2020", "ESNext"):
                tries.prints(f"tsc --strict, {target}", "", "tsc", "--strict", "--noEmit", "--skipDefaultLibCheck", "--target", target, "--module", target,
                             "--moduleResolution", "node", "typed.ts", at="npm")
    if tries.has("cargo", "the crate for Rust"):
        os.makedirs(f"{tries.room}/rust/src")
        tries.lay("rust/src", main__rs=RUST)
        tries.lay("rust", Cargo__toml=f'[package]\nname = "user"\nversion = "0.1.0"\nedition = "2021"\n[dependencies]\nhull = {{ path = "hull-{version}" }}\n')
        tries.prints("the crate for Rust", "200", "sh", "-c", f"tar xzf {at}/hull-{version}-rust.tar.gz && cargo run --offline -q", at="rust",
                     env={"HOME": os.environ.get("HOME", "/root")})
        # the oldest that is promised, where it is: Debian's
        if "1.63" in (tries.run("/usr/bin/rustc", "--version")[1] if os.path.exists("/usr/bin/rustc") else "") and os.path.exists("/usr/bin/cargo"):
            tries.prints("the crate for Rust, by Rust 1.63", "200", "sh", "-c", "rm Cargo.lock && /usr/bin/cargo run --offline -q", at="rust",
                         env={"RUSTC": "/usr/bin/rustc", "CARGO_TARGET_DIR": f"{tries.room}/oldest"})
        else:
            print("skipped: Rust 1.63, the oldest that is promised: it is not at /usr/bin")


def main():
    stale = packages.stale()
    if stale:
        print(f"the sources have changed since the release: {' '.join(stale)}")
    with tempfile.TemporaryDirectory() as room:
        tries = Tries(room)
        try_clone(tries, stale)
        try_page(tries, stale)
        if not any(it.startswith("x86_64/hull") for it in stale):
            try_install(tries)
            try_packages(tries)
        else:
            print("skipped: installation and packages: the programs have other sources than the release")
    print(f"{tries.passed} passed, {tries.failed} failed")
    return 1 if tries.failed or not tries.passed else 0


if __name__ == "__main__":
    sys.exit(main())
