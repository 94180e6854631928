"""Tests each text that tools/packages.py writes into a package, and what it prints, over stand-ins for the released files."""
import contextlib
import gzip
import io
import os
import re
import shutil
import tarfile
import tempfile
import zipfile

import kit
import packages
from installs import DEB, MADE, PRODUCT, elf, found, lay
from small import run, run_apart, write

METADATA = """Metadata-Version: 2.1
Name: hullbook
Version: 7.8.9
Summary: An exact dynamic planar convex hull of lattice points, formally verified
"""
WHEEL = """Wheel-Version: 1.0
Generator: bin/package
Root-Is-Purelib: false
Tag: py3-none-manylinux2014_aarch64
Tag: py3-none-musllinux_1_1_aarch64
"""
CONTROL = """Package: hullbook
Version: 7.8.9
Architecture: amd64
Section: math
Priority: optional
Maintainer: Rubzhegi maintainers <maintainers@users.noreply.rubzhegi.example>
Installed-Size: {size}
{depends}Suggests: python3
Description: exact dynamic planar convex hull of lattice points, formally verified
 The programs hullbook and hulldraw, and the libraries hull and hull_shared for
 C, C++, Rust and Python. Each call is proved against a specification.
"""
OVERRIDES = """# the programs are what was proved and tested, whatever C library there is
hullbook: statically-linked-binary
"""
CHANGES = """hullbook (7.8.9) unstable; urgency=low

  * Release 7.8.9: see changelog.gz.

 -- Rubzhegi maintainers <maintainers@users.noreply.rubzhegi.example>  Fri, 27 Nov 2026 00:00:00 +0000
"""


class Packed:
    """A repository whose programs are these files, and its packages, each made as bin/package makes it."""

    def __init__(self, room, **programs):
        self.top, self.out, self.room = f"{room}/repository", f"{room}/out", room
        lay(self.top), os.makedirs(self.out)
        for name, data in programs.items():
            with open(f"{self.top}/tools/{name}.elf", "wb") as file:
                file.write(data)
        one = 'made=$0; made=${made%/*}/${2##*/}.elf; [ "$1" != put ] || [ ! -f "$made" ] || exec cp "$made" "$3"\ncase'
        write(f"{self.top}/tools/product.sh", PRODUCT.replace("case", one, 1), 0o755)

    def made(self, make, *words):
        """Calls a function of packages.py for this repository."""
        before = packages.TOP, kit.TOP
        try:
            packages.TOP = kit.TOP = self.top
            kit.crates.cache_clear()
            return make(self.out, *words)
        finally:
            packages.TOP, kit.TOP = before
            kit.crates.cache_clear()


def test_deb_texts(tests):
    """The package for dpkg has its description, its changes, and the name of the C library that its programs need."""
    if not shutil.which("dpkg-deb"):
        print("skipped: the texts of the package for dpkg: there is no dpkg-deb")
        return
    for what, programs, depends in (
        ("static programs", [elf(1), elf(1, 2)], ""),
        ("one that needs a C library", [elf(1), elf(1, 3, names=b"GLIBC_2.34\0")], "Depends: libc6 (>= 2.34)\n"),
        ("two that do", [elf(3, names=b"GLIBC_2.36\0"), elf(1, 3, names=b"GLIBC_2.34\0")], "Depends: libc6 (>= 2.36)\n"),
    ):
        with tempfile.TemporaryDirectory() as room:
            it = Packed(room, hullbook=programs[0], hulldraw=programs[1])
            it.made(packages.make_deb)
            run(room, "dpkg-deb", "-R", f"{it.out}/{DEB}", f"{room}/deb")
            size = sum(os.path.getsize(f"{room}/deb/{name}") for name in kit.files_below(f"{room}/deb") if not name.startswith("DEBIAN/")) // 1024
            tests.same(f"its fields with {what}", kit.text_of(f"{room}/deb/DEBIAN/control"), CONTROL.format(size=size, depends=depends))
            about = f"{room}/deb/usr/share"
            tests.same("its overrides", kit.text_of(f"{about}/lintian/overrides/hullbook"), OVERRIDES)
            packed = kit.bytes_of(f"{about}/doc/hullbook/changelog.Debian.gz")
            tests.same("its changes", (gzip.decompress(packed).decode(), packed[4:9]), (CHANGES, b"\0\0\0\0\2"))
            times = {int(os.stat(f"{room}/deb/{name}").st_mtime) for name in kit.files_below(f"{room}/deb")}
            tests.same("its times", times, {315532800})


def test_deb_page(tests):
    """A page of what is installed that does not have what is said otherwise for dpkg is refused."""
    if not shutil.which("dpkg-deb"):
        print("skipped: the page of the package for dpkg: there is no dpkg-deb")
        return
    with tempfile.TemporaryDirectory() as room:
        it = Packed(room)
        write(f"{it.top}/docs/INSTALLED.md", "# Another page\n")
        try:
            said = it.made(packages.make_deb)
        except SystemExit as end:
            said = str(end)
        tests.see("another page", said.startswith("bin/package: docs/INSTALLED.md does not say once"), said)
        tests.same("no package is made", os.listdir(it.out), [])


def test_without_dpkg(tests):
    """What is printed if there is no dpkg-deb, and nothing is made."""
    which, said, output = shutil.which, io.StringIO(), io.StringIO()
    with tempfile.TemporaryDirectory() as room, contextlib.redirect_stderr(said), contextlib.redirect_stdout(output):
        try:
            shutil.which = lambda _: None
            packages.make_deb(room)
        finally:
            shutil.which = which
        made = os.listdir(room)
    why = "bin/package: dpkg-deb is not installed: the package for it is left out\n"
    tests.same("without dpkg-deb", (made, output.getvalue(), said.getvalue()), ([], "", why))


def test_descriptions(tests):
    """The packages for pip have their descriptions, and each archive its members in order."""
    with tempfile.TemporaryDirectory() as room:
        it = Packed(room)
        name = it.made(packages.make_wheel, "aarch64")
        tests.same("the name of a wheel", (name, os.listdir(it.out)), (MADE[3], [MADE[3]]))
        about = "hullbook-7.8.9.dist-info"
        with zipfile.ZipFile(f"{it.out}/{name}") as wheel:
            texts = {one: wheel.read(f"{about}/{one}").decode() for one in ("METADATA", "WHEEL", "LICENSE")}
            names = wheel.namelist()
        more = "License: MIT\nRequires-Python: >=3.8\nDescription-Content-Type: text/markdown\n\n" + kit.text_of(f"{it.top}/python/README.md")
        tests.same("its texts", texts, {"METADATA": METADATA + more, "WHEEL": WHEEL, "LICENSE": kit.text_of(f"{it.top}/LICENSE")})
        tests.same("its members, in order", names, [*(f"hull/{one}" for one in ("__init__.py", "libhull.so", "libhull_shared.so", "py.typed")),
            *(f"{about}/{one}" for one in ("METADATA", "WHEEL", "LICENSE", "RECORD"))])
        tests.same("the archive for pip", it.made(packages.make_sdist), "hullbook-7.8.9.tar.gz")
        it.made(packages.make_npm), it.made(packages.make_crate, ["x86_64"]), it.made(packages.make_tarball, "aarch64")
        for name in (MADE[1], *MADE[4:]):
            with tarfile.open(f"{it.out}/{name}") as archive:
                names = archive.getnames()
                at = names[0].partition("/")[0]
                wanted = [one for one in names if one.startswith(f"{at}/")]
                tests.same(f"the members of {name}, in order of folders", names,
                    [f"{at}/{one}" for one in ordered([one[len(at) + 1 :] for one in wanted])])
                if name == MADE[4]:
                    tests.same("its description", archive.extractfile(f"{at}/PKG-INFO").read().decode(), METADATA)
                    tests.same("what it has", {one.partition("/")[0] for one in (one[len(at) + 1 :] for one in names)}, {*(one.partition("/")[0]
                        for one in packages.FOR_PIP), "crates", "dist", "PKG-INFO"})
                    tests.same("of dist/", sorted(one for one in names if "/dist/" in one), [f"{at}/dist/{one}" for one in ("SUMS",
                        *(f"{processor}/{file}" for processor in ("aarch64", "x86_64") for file in ("hull.wasm", "hull32.wasm", "libhull.a")))])
                    tests.see("the modules of tools/", f"{at}/tools/kit.py" in names)
            if name.endswith("gz"):
                tests.same(f"{name} has no time of its own", kit.bytes_of(f"{it.out}/{name}")[4:8], b"\0\0\0\0")
        crate = [one for one in names if "/archives/" in one]
        tests.same("the archives of one processor", crate, [f"hull-7.8.9/archives/x86_64/{one}.a" for one in ("libhull", "libhull_shared")])


def texts_of(path):
    """Returns the texts of a package that may have links, by their paths."""
    if path.endswith(".whl"):
        with zipfile.ZipFile(path) as wheel:
            return {it: wheel.read(it).decode(errors="replace") for it in wheel.namelist()}
    with tarfile.open(path) as archive:
        return {it.name: archive.extractfile(it).read().decode(errors="replace") for it in archive.getmembers() if it.isfile()}


def leads_out(texts, page):
    """Returns the relative links of a page that lead to no member of its package, outside of the lines of programs."""
    prose = re.sub(r"(?ms)^```.*?^```|`[^`\n]*`", "", texts[page])
    links = [it.partition("#")[0] for it in re.findall(r"\]\(([^()\s]+)\)", prose) if not re.match("#|[a-z]+:", it)]
    folder = os.path.dirname(page)
    return [it for it in links if not any(f"{one}/".startswith(os.path.normpath(f"{folder}/{it}") + "/") for one in texts)]


def test_links(tests):
    """Each relative link of a page leads to what is in its package; any other is its text, and the repository's page is as it was."""
    page = "# A page\n\nSee [docs/PROVED.md](docs/PROVED.md), [this](LICENSE#top), [that](../LICENSE), `[a](b)`\nand [us](https://a.example/b).\n\n![A hull](c.svg)\n\n```c\n[&](x)\n```\n"
    inside = page.replace("[docs/PROVED.md](docs/PROVED.md)", "docs/PROVED.md").replace("[that](../LICENSE)", "that").replace("![A hull](c.svg)",
        "(A picture in the repository: A hull.)")
    with tempfile.TemporaryDirectory() as room:
        it = Packed(room, hullbook=elf(1), hulldraw=elf(1))
        for one in ("README.md", "docs/INSTALLED.md", "python/README.md", "web/README.md", "rust/hull/README.md"):
            write(f"{it.top}/{one}", page if one != "docs/INSTALLED.md" else page + "".join(old for old, _ in packages.DEB_PAGE))
        for make, words in ((packages.make_tarball, ["x86_64"]), (packages.make_wheel, ["x86_64"]), (packages.make_sdist, []), (packages.make_npm, []),
                (packages.make_crate, [["x86_64"]]), (packages.make_deb, [])):
            it.made(make, *words)
        tests.same("the repository's page", kit.text_of(f"{it.top}/README.md"), page)
        for name in [one for one in sorted(os.listdir(it.out)) if not one.endswith(".deb")]:
            texts = texts_of(f"{it.out}/{name}")
            pages = [one for one in texts if one.endswith(("README.md", "/METADATA"))]
            links = {one: leads_out(texts, one) for one in texts if one.endswith((".md", "/METADATA"))}
            tests.see(f"{name}: each link leads to what is in it", pages and not any(links.values()), links)
            has = inside if name.endswith("gz") or name.endswith("xz") else inside.replace("[this](LICENSE#top)", "this")
            tests.see(f"{name}: the others are text", all(texts[one].count(has) == 1 for one in pages[:1]), {one: texts[one] for one in pages[:1]})
        if shutil.which("dpkg-deb"):
            run(room, "dpkg-deb", "-x", f"{it.out}/{DEB}", f"{room}/deb")
            debian_page = kit.text_of(f"{room}/deb/usr/share/doc/hullbook/README.md")
            tests.see("the package for dpkg", debian_page.startswith(inside.replace("[this](LICENSE#top)", "this")), debian_page)


def ordered(names):
    """Returns paths in the order of a walk: the files of a folder by name, then its folders."""
    return sorted(names, key=lambda it: [(1, part) for part in it.split("/")[:-1]] + [(0, it.rpartition("/")[2])])


def test_printed(tests):
    """What bin/package prints of the packages that it makes, of files of other sources, and of words that are none."""
    with tempfile.TemporaryDirectory() as room:
        it = Packed(room, hullbook=elf(1), hulldraw=elf(1))
        package, before = f"{it.top}/bin/package", found(it.top)
        status, said, why = run_apart(room, package, "out/all")
        names = sorted([*MADE, *([DEB] if shutil.which("dpkg-deb") else [])])
        rows = "".join(f"{os.path.getsize(f'{room}/out/all/{name}'):9} {name}\n" for name in names)
        tests.same("the packages with their sizes", (status, said), (0, rows))
        tests.same("the repository is as it was", {name: mode for name, mode in found(it.top).items() if "__pycache__" not in name}, before)
        said = "bin/package: dist/ was made of other sources: x86_64/libhull.a web/hull.wasm; tools/release.sh makes it, with the toolchain\n"
        tests.same("files of other sources", run_apart(room, package, "none", env={"STALE": "x86_64/libhull.a web/hull.wasm"}), (69, "", said))
        for words, status in (([], 2), (["-x"], 2), (["a", "b"], 2), (["--test", "--help"], 0), (["--help"], 0), (["--help", "a"], 2)):
            output, errors = (f"{packages.__doc__}\n", "") if status == 0 else ("", f"{packages.__doc__}\n")
            tests.same(f"usage: {words}", run_apart(room, package, *words), (status, output, errors))


TESTS = (test_deb_texts, test_deb_page, test_without_dpkg, test_descriptions, test_links, test_printed)
