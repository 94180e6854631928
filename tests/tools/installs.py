"""Tests bin/install and bin/package in a small repository, whose products a stand-in for tools/product.sh makes: each installed file with
its mode and its bytes, what is left out and removed again, and each package with its members, sums and descriptions."""
import base64
import contextlib
import gzip
import hashlib
import io
import json
import os
import re
import shutil
import stat
import struct
import subprocess
import tarfile
import tempfile
import zipfile

from small import TOP, lay_tools, run, write
import packages

# the products are texts with their names; PRODUCT_STATUS is the status of a product that cannot be had, CANNOT names a processor that has
# none, STALE those of other sources
PRODUCT = """#!/bin/sh
case $1 in
put) [ -z "${PRODUCT_STATUS:-}" ] || exit "$PRODUCT_STATUS"; [ "${2%/*}" != "${CANNOT:-}" ] || exit 69; echo "product $2" >"$3"; chmod 600 "$3" ;;
find) case " ${STALE:-} " in *" $2 "*) exit 1 ;; esac; [ "${DAMAGED:-}" != "$2" ] || exit 2; echo "$0" ;;
*) exit 99 ;;
esac
"""
PROGRAMS = ("hullbook", "hulldraw")
# each installed file that is copied: where it is installed, and what it is a copy of
COPIES = {
    **{f"include/{it}": f"include/{it}" for it in ("hull.h", "hull_shared.h", "hull_common.h", "hull_exchange.h", "hull_service.h", "hull.hpp")},
    **{f"share/man/man3/{it}.3": f"man/{it}.3" for it in ("hull", "hull_shared")},
    "lib/cmake/hull/hull-config.cmake": "c/hull-config.cmake", "lib/hull/hull/__init__.py": "python/hull.py",
    "share/doc/hullbook/LICENSE": "LICENSE", "share/doc/hullbook/CHANGELOG.md": "CHANGELOG.md", "share/doc/hullbook/README.md": "docs/INSTALLED.md",
    **{f"lib/rust/hull/{it}": f"rust/hull/{it}" for it in ("Cargo.toml", "build.rs")},
    **{f"lib/rust/hull/src/{it}": f"rust/hull/src/{it}" for it in os.listdir(f"{TOP}/rust/hull/src")},
}
COPIES_OF_PROGRAMS = {
    **{f"share/man/man1/{it}.1": f"man/{it}.1" for it in PROGRAMS},
    **{f"share/hullbook/completions/{it}": f"tools/completions/{it}" for it in os.listdir(f"{TOP}/tools/completions")},
}
PRODUCTS = {"lib/libhull.a": "libhull.a", "lib/libhull_shared.a": "libhull_shared.a", "lib/hull/hull/libhull.so": "libhull.so",
            "lib/hull/hull/libhull_shared.so": "libhull_shared.so"}
PC = """prefix=${{pcfiledir}}/../..
includedir=${{prefix}}/include
libdir=${{prefix}}/lib

Name: {name}
Description: {about}
Version: 7.8.9
Cflags: -I${{includedir}}
Libs: -L${{libdir}} -l{name}{more}
"""
PCS = {
    "hull": PC.format(name="hull", about="An exact dynamic planar convex hull, formally verified", more=""),
    "hull_shared": PC.format(name="hull_shared", about="An exact dynamic planar convex hull that threads share, formally verified",
            more=" -lpthread"),
}
USAGE = "usage: bin/install [--library] PREFIX | bin/install --uninstall PREFIX\n"


def lay(top):
    """Lays the repository: of release 7.8.9, with the files that are installed and packed."""
    lay_tools(top)
    for it in ("include", "man", "python", "c", "rust", "examples", "docs", "web", "LICENSE", "CHANGELOG.md", "README.md", "HANDLES",
            "pyproject.toml"):
        if os.path.isdir(f"{TOP}/{it}"):
            shutil.copytree(f"{TOP}/{it}", f"{top}/{it}", ignore=shutil.ignore_patterns("__pycache__", "target", "out"))
        else:
            shutil.copy(f"{TOP}/{it}", f"{top}/{it}")
    write(f"{top}/VERSION", "7.8.9\n")
    write(f"{top}/tools/product.sh", PRODUCT, 0o755)
    write(f"{top}/crates.txt", "low:\nhull_c staticlib: low\nother:\nhull_shared staticlib: low\n")
    for crate in ("low", "hull_c", "other", "hull_shared"):
        write(f"{top}/crates/{crate}/src/lib.rt", f"// {crate}\n"), write(f"{top}/crates/{crate}/proofs/A.antt", f"-- {crate}\n")
        write(f"{top}/crates/{crate}/out/left", "not packed\n")
    for processor in ("x86_64", "aarch64", "web"):
        for it in ("libhull.a", "hull.wasm", "hull32.wasm"):
            write(f"{top}/dist/{processor}/{it}", f"released {processor} {it}\n")
    write(f"{top}/dist/SUMS", "sums\n")
    # (nothing is for others, but what is installed)
    for mode, which in (("640", ["!", "-perm", "/100"]), ("750", ["-perm", "/100"])):
        subprocess.run(["find", top, "-type", "f", *which, "-exec", "chmod", mode, "{}", "+"], check=True)


def contents(path):
    with open(path, "rb") as file:
        return file.read()


def found(prefix):
    """Returns the paths of all files below a folder, each with its mode."""
    paths = (os.path.join(at, it) for at, _, names in os.walk(prefix) for it in names)
    return {os.path.relpath(it, prefix): stat.S_IMODE(os.stat(it).st_mode) for it in paths}


def wanted(processor, has_programs):
    """Returns the paths that an installation has, each with its mode."""
    made = ["share/hullbook/installed", "lib/hull/hull/py.typed", "lib/cmake/hull/hull-config-version.cmake",
            *(f"lib/pkgconfig/{it}.pc" for it in PCS)]
    files = [*COPIES, *PRODUCTS, *made, *(COPIES_OF_PROGRAMS if has_programs else []), *(f"bin/{it}" for it in PROGRAMS if has_programs)]
    return {it: 0o755 if it.startswith("bin/") or it.endswith(".so") else 0o644 for it in files}


def has_its_bytes(top, prefix, processor, has_programs):
    """Returns the installed files that do not have the bytes that they should have."""
    copies = {**COPIES, **(COPIES_OF_PROGRAMS if has_programs else {})}
    made = {**PRODUCTS, **({f"bin/{it}": it for it in PROGRAMS} if has_programs else {})}
    wrong = [it for it, source in copies.items() if contents(f"{prefix}/{it}") != contents(f"{top}/{source}")]
    wrong += [it for it, name in made.items() if contents(f"{prefix}/{it}").decode() != f"product {processor}/{name}\n"]
    wrong += [it for it, text in PCS.items() if contents(f"{prefix}/lib/pkgconfig/{it}.pc").decode() != text]
    listed = contents(f"{prefix}/share/hullbook/installed").decode().splitlines()
    wrong += [] if listed == sorted(found(prefix)) else ["share/hullbook/installed"]
    return wrong + (["lib/hull/hull/py.typed"] if contents(f"{prefix}/lib/hull/hull/py.typed") else [])


def folders_of(prefix):
    return {stat.S_IMODE(os.stat(os.path.join(at, it)).st_mode) for at, names, _ in os.walk(prefix) for it in names}


def forms_of(room):
    """Returns the forms of an installation: a name, the words, the environment, the prefix, the processor, and whether programs are installed."""
    staged, mine = f"{room}/staged files", "x86_64"
    return (
        ("an installation", [f"{room}/all"], {}, f"{room}/all", mine, True),
        ("on another machine", [f"{room}/mine"], {"MACHINE": "aarch64"}, f"{room}/mine", "aarch64", False),
        ("with no processor's name", [f"{room}/empty"], {"HULL_PROCESSOR": ""}, f"{room}/empty", mine, True),
        ("the libraries only", ["--library", f"{room}/only"], {}, f"{room}/only", mine, False),
        ("for x86-64", [f"{room}/here"], {"HULL_PROCESSOR": "x86_64", "MACHINE": "aarch64"}, f"{room}/here", mine, True),
        ("for another processor", [f"{room}/other"], {"HULL_PROCESSOR": "aarch64"}, f"{room}/other", "aarch64", False),
        ("a prefix with spaces", [f"{room}/a b/c"], {}, f"{room}/a b/c", mine, True),
        ("below DESTDIR", [f"{room}/whole"], {"DESTDIR": staged}, f"{staged}{room}/whole", mine, True),
        ("a relative prefix", ["relative"], {"DESTDIR": ""}, f"{room}/a caller/relative", mine, True),
        ("a relative prefix below DESTDIR", ["relative"], {"DESTDIR": staged}, f"{staged}/relative", mine, True),
        ("where nothing is readable for others", [f"{room}/masked"], {"UMASK": "077"}, f"{room}/masked", mine, True),
    )


def test_install(tests):
    """What bin/install puts below a prefix, in each of its forms, is each file with its mode and bytes, and --uninstall removes it."""
    with tempfile.TemporaryDirectory() as room:
        top, work, caller = f"{room}/the repository", f"{room}/temporary files", f"{room}/a caller"
        lay(top), os.makedirs(work), os.makedirs(caller)
        write(f"{room}/path/uname", "#!/bin/sh\n[ $1 = -m ] && echo ${MACHINE:-x86_64}\n", 0o755)
        # (a language in which the order is another)
        write(f"{room}/path/sort", f'#!/bin/sh\n[ "${{LC_ALL:-}}" = C ] && exec {shutil.which("sort")} "$@"\n{shutil.which("sort")} -r "$@"\n', 0o755)
        there, made = set(os.listdir(top)), set(os.listdir(room))
        command = ("sh", "-c", 'umask "${UMASK:-022}"; exec "$@"', "", f"{top}/bin/install")
        for what, words, more, prefix, processor, has_programs in forms_of(room):
            env = {"TMPDIR": work, "PATH": f"{room}/path:{os.environ['PATH']}", **more}
            tests.same(f"{what}: status 0, and nothing is printed", run(caller, *command, *words, env=env), (0, ""))
            tests.same(f"{what}: each file with its mode", found(prefix), wanted(processor, has_programs))
            tests.same(f"{what}: each file has its bytes", has_its_bytes(top, prefix, processor, has_programs), [])
            tests.same(f"{what}: folders are open to all", folders_of(prefix) | {stat.S_IMODE(os.stat(prefix).st_mode)}, {0o755})
            tests.same(f"{what}: nothing temporary is left", os.listdir(work), [])
            made.add(os.path.relpath(prefix, room).partition("/")[0])
            tests.same(f"{what}: nothing is made beside it", (set(os.listdir(room)), set(os.listdir(top))), (made, there))
            if prefix not in (f"{room}/all", f"{room}/only"):
                os.remove(f"{prefix}/include/hull.h")
                tests.same(f"{what}: --uninstall, with a file that is gone", run(caller, *command, "--uninstall", words[-1], env=env), (0, ""))
                tests.same(f"{what}: it leaves the empty prefix", os.listdir(prefix), [])
        test_again(tests, top, f"{room}/all", work)
        test_version_file(tests, f"{room}/all")


def test_again(tests, top, prefix, work):
    """A second installation replaces each file as a whole; one that fails changes nothing; --uninstall leaves the files of others."""
    write(f"{prefix}/lib/others.txt", "of others\n")
    write(f"{prefix}/include/hull.h", "an older one\n", 0o600)
    before, opened = os.stat(f"{prefix}/lib/libhull.a").st_ino, open(f"{prefix}/include/hull.h", encoding="utf-8")
    with opened:
        tests.same("a second installation", run(top, "bin/install", prefix), (0, ""))
        tests.same("who has a file open keeps it", opened.read(), "an older one\n")
    tests.see("each file is another one", os.stat(f"{prefix}/lib/libhull.a").st_ino != before)
    mine = os.uname().machine
    tests.same("with the files of others, and no more", found(prefix), {**wanted(mine, mine == "x86_64"), "lib/others.txt": 0o644})
    kept = {it: contents(f"{prefix}/{it}") for it in found(prefix)}
    for status in (69, 70, 71):
        came, said = run(top, "bin/install", prefix, env={"PRODUCT_STATUS": str(status), "TMPDIR": work})
        tests.see(f"a product that fails with {status}", came == status and {it: contents(f"{prefix}/{it}") for it in found(prefix)} == kept,
                f"{came}: {said}")
        came, said = run(top, "bin/install", f"{prefix}.none", env={"PRODUCT_STATUS": str(status), "TMPDIR": work})
        tests.see("it leaves nothing", came == status and not os.path.exists(f"{prefix}.none") and not os.listdir(work), f"{came}: {said}")
    test_full_disk(tests, top, prefix, work)
    tests.same("--uninstall", run(top, "bin/install", "--uninstall", prefix), (0, ""))
    tests.same("it leaves the files of others", found(prefix), {"lib/others.txt": 0o644})
    tests.same("and their folders", os.listdir(prefix), ["lib"])
    message = f"bin/install: {prefix}/share/hullbook/installed is not there: nothing was installed below {prefix} by this command\n"
    tests.same("--uninstall again", run(top, "bin/install", "--uninstall", prefix), (1, message))
    write(f"{prefix}.file", "of others\n")
    status, said = run(top, "bin/install", f"{prefix}.file/below", env={"TMPDIR": work})
    tests.see("a prefix that cannot be made", status != 0 and said and contents(f"{prefix}.file") == b"of others\n" and not os.listdir(work), f"{status}: {said}")
    for words in ([], [""], ["-x"], ["--library"], [prefix, prefix], ["--library", "--uninstall"], ["--uninstall"]):
        tests.same(f"usage: {words}", run(top, "bin/install", *words), (2, USAGE))
    tests.same("usage: --help", run(top, "bin/install", "--help"), (0, USAGE))
    for words, status in (([], 2), (["-x"], 2), (["--help"], 0), (["--uninstall", f"{prefix}.none"], 1)):
        tests.same(f"{words}: messages are errors", run(top, "sh", "-c", 'bin/install "$@" 2>/dev/null', "", *words), (status, ""))
    os.symlink(f"{top}/bin/install", f"{work}.link")
    tests.same("by a link, from another folder", run("/", f"{work}.link", f"{prefix}.linked", env={"TMPDIR": work}), (0, ""))
    tests.same("all its files", found(f"{prefix}.linked"), wanted(mine, mine == "x86_64"))
    run(top, "bin/install", prefix)
    gone = "share/an older/file.txt"
    write(f"{prefix}/{gone}", "of an older version\n"), write(f"{prefix}/bin/others", "of others\n")
    write(f"{prefix}/share/hullbook/installed", contents(f"{prefix}/share/hullbook/installed").decode() + f"{gone}\n")
    tests.same("the libraries only, over all", run(top, "bin/install", "--library", prefix), (0, ""))
    tests.same("what only the installation before had is gone", found(prefix), {**wanted(mine, False), "lib/others.txt": 0o644, "bin/others": 0o644})
    tests.same("with its folders", os.path.exists(f"{prefix}/share/an older"), False)


def test_full_disk(tests, top, prefix, work):
    """An installation that finds no space for a file leaves what was there, and where there was nothing, nothing."""
    write(f"{work}.full/cp", f'#!/bin/sh\ncase $3 in */libhull_shared.so.new) printf x >"$3"; echo "no space" >&2; exit 1 ;; esac\n{shutil.which("cp")} "$@"\n', 0o755)
    env = {"TMPDIR": work, "PATH": f"{work}.full:{os.environ['PATH']}"}
    write(f"{prefix}/include/hull.h", "an older one\n")
    kept = {it: contents(f"{prefix}/{it}") for it in found(prefix)}
    tests.same("a full disk", run(top, "bin/install", prefix, env=env), (1, "no space\n"))
    tests.see("what was there stays", {it: contents(f"{prefix}/{it}") for it in found(prefix)} == kept, found(prefix))
    tests.same("a full disk, for the first time", run(top, "bin/install", f"{prefix}.full", env=env), (1, "no space\n"))
    tests.same("nothing is left there, and nothing temporary", (os.listdir(f"{prefix}.full"), os.listdir(work)), ([], []))


def test_version_file(tests, prefix):
    """CMake takes this version, older ones of its major version, and no other."""
    if not shutil.which("cmake"):
        print("skipped: the version that CMake finds: there is no cmake")
        return
    ranged = 'set(PACKAGE_FIND_VERSION_RANGE_MAX "{1}")\nset(PACKAGE_FIND_VERSION_MAX "{2}")\n{0}'
    script = 'set(PACKAGE_FIND_VERSION "{0}")\nset(PACKAGE_FIND_VERSION_MAJOR "{1}")\ninclude("{2}/lib/cmake/hull/hull-config-version.cmake")\n' \
             'message("${{PACKAGE_VERSION}} ${{PACKAGE_VERSION_COMPATIBLE}} ${{PACKAGE_VERSION_EXACT}}")\n'
    for asked, answer in (("7.8.9", "TRUE TRUE"), ("7.8.9.0", "TRUE TRUE"), ("7.8", "TRUE "), ("7.9", "FALSE "), ("8.0", "FALSE "), ("6.0", "FALSE "), ("7", "TRUE ")):
        write(f"{prefix}.cmake", script.format(asked, asked.partition(".")[0], prefix))
        tests.same(f"CMake asks for {asked}", run("/", "cmake", "-P", f"{prefix}.cmake")[1].rstrip("\n"), f"7.8.9 {answer}")
    for end, greatest, answer in (("INCLUDE", "7.8.9", "TRUE "), ("INCLUDE", "7.8.8", "FALSE "), ("EXCLUDE", "7.8.9", "FALSE "), ("EXCLUDE", "8", "TRUE ")):
        write(f"{prefix}.cmake", ranged.format(script.format("7.0", "7", prefix), end, greatest))
        tests.same(f"up to {greatest}, {end}", run("/", "cmake", "-P", f"{prefix}.cmake")[1].rstrip("\n"), f"7.8.9 {answer}")
    os.makedirs(f"{prefix}.root"), os.symlink(f"{prefix}/lib", f"{prefix}.root/lib")
    write(f"{prefix}.cmake", f'function(add_library)\nendfunction()\nfunction(set_target_properties)\nmessage("${{ARGN}}")\nendfunction()\n'
                             f'include("{prefix}.root/lib/cmake/hull/hull-config.cmake")\n')
    said = run("/", "cmake", "-P", f"{prefix}.cmake")[1]
    tests.see("by a link to its folder it finds what is installed", f"IMPORTED_LOCATION;{prefix}/lib/libhull.a;" in said and f"{prefix}/include" in said, said)


# ---- packages

MADE = ("hull-7.8.9-x86_64-linux.tar.xz", "hull-7.8.9-aarch64-linux.tar.xz", "hullbook-7.8.9-py3-none-manylinux2014_x86_64.musllinux_1_1_x86_64.whl",
        "hullbook-7.8.9-py3-none-manylinux2014_aarch64.musllinux_1_1_aarch64.whl", "hullbook-7.8.9.tar.gz", "hullbook-7.8.9.tgz", "hull-7.8.9-rust.tar.gz")
DEB = "hullbook_7.8.9_amd64.deb"


def members(path):
    """Returns the members of an archive, each with its bytes; their owners, times and modes are to be the same."""
    with tarfile.open(path) as archive:
        all_of_it = archive.getmembers()
        kinds = {(it.mtime, it.uid, it.gid, it.uname, it.gname) for it in all_of_it}
        modes = {it.name: it.mode for it in all_of_it}
        return {it.name: archive.extractfile(it).read() for it in all_of_it if it.isfile()}, kinds, modes


def test_archive(tests, out, name, prefix, processor):
    """The archive that runs from any folder has what is installed, with documents and examples."""
    texts, kinds, modes = members(f"{out}/{name}")
    top = f"hull-7.8.9-{processor}-linux/"
    tests.same(f"{name}: owner and time", kinds, {(315532800, 0, 0, "root", "root")})
    installed = wanted(processor, processor == "x86_64")
    tests.same(f"{name}: modes", {it: modes.get(top + it) for it in installed}, installed)
    more = {f"share/doc/hullbook/{it}.md" for it in ("EMBEDDING", "PLANNERS", "SHARED", "PROGRAM", "FORMATS")} | {"LICENSE", "CHANGELOG.md",
            "README.md"}
    more |= {f"share/doc/hullbook/examples/{os.path.relpath(f'{at}/{it}', f'{TOP}/examples')}" for at, _, them in os.walk(f"{TOP}/examples") for it in them}
    rest = {it.removeprefix(top) for it in texts} - set(installed)
    tests.see(f"{name}: documents and examples", rest == more,
            rest ^ more)
    tests.same(f"{name}: what it is of", texts[f"{top}lib/libhull.a"].decode(), f"product {processor}/libhull.a\n")
    tests.same(f"{name}: its page", texts[f"{top}README.md"], contents(f"{prefix}/share/doc/hullbook/README.md"))


def test_wheel(tests, out, name, processor):
    """A wheel has the module with its libraries, and a record of all sums and sizes."""
    with zipfile.ZipFile(f"{out}/{name}") as wheel:
        texts, infos = {it: wheel.read(it) for it in wheel.namelist()}, wheel.infolist()
    about = "hullbook-7.8.9.dist-info"
    record = [it.rsplit(",", 2) for it in texts[f"{about}/RECORD"].decode().splitlines()]
    sums = [[it, f"sha256={base64.urlsafe_b64encode(hashlib.sha256(data).digest()).rstrip(b'=').decode()}", str(len(data))] for it,
            data in texts.items()]
    tests.same(f"{name}: the record", sorted(record), sorted([*(it for it in sums if it[0] != f"{about}/RECORD"), [f"{about}/RECORD", "", ""]]))
    files = {"hull/__init__.py", "hull/libhull.so", "hull/libhull_shared.so", "hull/py.typed", *(f"{about}/{it}" for it in ("METADATA", "WHEEL",
            "LICENSE", "RECORD"))}
    tests.same(f"{name}: its files", set(texts), files)
    kinds = {(it.external_attr >> 16, it.date_time, it.compress_type) for it in infos}
    tests.same(f"{name}: modes, times and compression", kinds, {(0o644, (1980, 1, 1, 0, 0, 0), zipfile.ZIP_DEFLATED)})
    tags = [it for it in texts[f"{about}/WHEEL"].decode().splitlines() if it.startswith("Tag: ")]
    tests.same(f"{name}: its tags", tags, [f"Tag: py3-none-manylinux2014_{processor}", f"Tag: py3-none-musllinux_1_1_{processor}"])
    said = texts[f"{about}/METADATA"].decode()
    heads = ("Name: hullbook\n", "Version: 7.8.9\n", "Requires-Python: >=3.8\n", "Description-Content-Type: text/markdown\n")
    tests.see(f"{name}: what it is",
            all(it in said.partition("\n\n")[0] + "\n" for it in heads) and said.endswith(contents(f"{TOP}/python/README.md").decode()), said[:300])
    tests.same(f"{name}: the library", texts["hull/libhull.so"].decode(), f"product {processor}/libhull.so\n")
    tests.see(f"{name}: it is no pure module", "Root-Is-Purelib: false\n" in texts[f"{about}/WHEEL"].decode())


def test_sources(tests, top, out):
    """The archive for pip, that for npm, and the crate have what their builds need."""
    texts, kinds, modes = members(f"{out}/hullbook-7.8.9.tar.gz")
    at = "hullbook-7.8.9/"
    needed = ["VERSION", "pyproject.toml", "python/backend.py", "tools/packages.py", "bin/install", "include/hull.h", "c/gate.c", "dist/SUMS",
            "man/hull.3", "rust/hull/Cargo.toml",
              "docs/INSTALLED.md", "crates.txt", "crates/low/src/lib.rt", "crates/hull_c/src/lib.rt", "crates/hull_shared/src/lib.rt", "dist/x86_64/libhull.a", "dist/aarch64/libhull.a"]
    tests.same("the archive for pip", {it: texts.get(at + it) for it in needed}, {it: contents(f"{top}/{it}") for it in needed})
    tests.same("nothing that commands left", [it for it in texts if "__pycache__" in it or "/target/" in it], [])
    tests.same("it has nothing else of crates", {it for it in texts if "/crates/" in it}, {f"{at}crates/{it}/{part}" for it in ("low", "hull_c",
            "hull_shared") for part in ("src/lib.rt", "proofs/A.antt")})
    tests.see("its description",
            texts[f"{at}PKG-INFO"].startswith(b"Metadata-Version: 2.1\nName: hullbook\nVersion: 7.8.9\n") and modes[f"{at}bin/install"] == 0o755)
    tests.same("its owner and time", kinds, {(315532800, 0, 0, "root", "root")})
    texts, kinds, modes = members(f"{out}/hullbook-7.8.9.tgz")
    named = ["package.json", *json.loads(contents(f"{top}/web/package.json"))["files"]]
    places = {it: f"{top}/{'LICENSE' if it == 'LICENSE' else it.replace('out/', 'dist/web/') if it.startswith('out/') else 'web/' + it}" for it in named}
    tests.same("the package for npm", texts, {f"package/{it}": contents(place) for it, place in places.items()})
    tests.same("its modes, owner and time", (set(modes.values()), kinds), ({0o644}, {(315532800, 0, 0, "root", "root")}))
    texts, kinds, modes = members(f"{out}/hull-7.8.9-rust.tar.gz")
    files = {**{it.removeprefix("lib/rust/hull/"): contents(f"{top}/{source}") for it, source in COPIES.items() if it.startswith("lib/rust/")},
             "LICENSE": contents(f"{top}/LICENSE"),
             **{f"archives/{it}/{name}.a": f"product {it}/{name}.a\n".encode() for it in ("x86_64", "aarch64") for name in ("libhull",
                     "libhull_shared")}}
    tests.same("the crate", texts, {f"hull-7.8.9/{it}": data for it, data in files.items()})
    tests.same("its modes, owner and time", (set(modes.values()), kinds), ({0o644}, {(315532800, 0, 0, "root", "root")}))


def test_deb(tests, room, out):
    """The package for dpkg has what is installed where Debian has it, compressed pages, and a description."""
    if not shutil.which("dpkg-deb"):
        print("skipped: the package for dpkg: there is no dpkg-deb")
        return
    fields = dict(it.split(": ", 1) for it in run(room, "dpkg-deb", "-f", f"{out}/{DEB}")[1].splitlines() if not it.startswith(" "))
    tests.same("its fields", {it: fields.get(it) for it in ("Package", "Version", "Architecture", "Depends", "Section")},
               {"Package": "hullbook", "Version": "7.8.9", "Architecture": "amd64", "Depends": None, "Section": "math"})
    run(room, "dpkg-deb", "-x", f"{out}/{DEB}", f"{room}/deb")
    modes, about = found(f"{room}/deb"), "usr/share/doc/hullbook"
    moved = {"lib/hull/": "lib/python3/dist-packages/", "lib/rust/": "share/hullbook/rust/",
            "share/hullbook/completions/hullbook.bash": "share/bash-completion/completions/hullbook",
             "share/hullbook/completions/_hullbook": "share/zsh/vendor-completions/_hullbook",
             "share/hullbook/completions/hullbook.fish": "share/fish/vendor_completions.d/hullbook.fish", "share/doc/hullbook/LICENSE": "share/doc/hullbook/copyright"}
    files = {}
    for it in wanted("x86_64", True):
        place = next((new + it[len(old):] for old, new in moved.items() if it.startswith(old)), it)
        files[f"usr/{place}{'.gz' if place.startswith('share/man/') else ''}"] = 0o755 if it.startswith("bin/") else 0o644
    for gone in (f"{about}/CHANGELOG.md", "usr/share/hullbook/installed"):
        del files[gone]
    files.update({f"{about}/changelog.gz": 0o644, f"{about}/changelog.Debian.gz": 0o644, "usr/share/lintian/overrides/hullbook": 0o644})
    tests.same("its files and modes", modes, files)
    tests.same("its folders", folders_of(f"{room}/deb") | {stat.S_IMODE(os.stat(f"{room}/deb").st_mode)}, {0o755})
    tests.same("a manual page", gzip.decompress(contents(f"{room}/deb/usr/share/man/man3/hull.3.gz")), contents(f"{TOP}/man/hull.3"))
    changes = contents(f"{TOP}/CHANGELOG.md").decode().replace("[docs/GLOSSARY.md](docs/GLOSSARY.md)", "docs/GLOSSARY.md")
    tests.same("its changes", gzip.decompress(contents(f"{room}/deb/{about}/changelog.gz")).decode(), changes)
    page = contents(f"{room}/deb/{about}/README.md").decode()
    named = {it for it in re.findall(r"`(/usr/share/hullbook/rust/hull|copyright|changelog.gz|dpkg -r hullbook)`", page)}
    tests.same("its page names where its files are", named, {"/usr/share/hullbook/rust/hull", "copyright", "changelog.gz", "dpkg -r hullbook"})
    tests.same("and no others", [it for it in ("lib/rust", "lib/hull", "completions`", "LICENSE", "CHANGELOG", "bin/install") if it in page], [])
    tests.see("its entry",
            gzip.decompress(contents(f"{room}/deb/{about}/changelog.Debian.gz")).startswith(b"hullbook (7.8.9) unstable; urgency=low\n"))
    tests.see("its size, in units of 1024 bytes",
            abs(int(fields["Installed-Size"]) - sum(os.path.getsize(f"{room}/deb/{it}") for it in modes) // 1024) <= 1, fields)
    owners = {it.split()[1] for it in run(room, "dpkg-deb", "-c", f"{out}/{DEB}")[1].splitlines()}
    tests.same("its owner", owners, {"root/root"})


def elf(*kinds, names=b""):
    """Returns a program's file with program headers of these kinds (3 is that of an interpreter), and these names."""
    head = b"\x7fELF".ljust(32, b"\0") + struct.pack("<Q", 64) + bytes(14) + struct.pack("<HH", 56, len(kinds))
    return head.ljust(64, b"\0") + b"".join(struct.pack("<I", kind).ljust(56, b"\0") for kind in kinds) + names


def test_needed(tests):
    """A program that is linked dynamically depends on the newest version of the C library that it names."""
    names = b"GLIBC_2.4\0GLIBC_2.34\0GLIBC_2.17\0GLIBC_PRIVATE\0"
    with tempfile.TemporaryDirectory() as room:
        for what, data, wanted in (("static", elf(1, 2, names=names), ""), ("dynamic", elf(1, 3, 2, names=names), "libc6 (>= 2.34)"),
                                   ("dynamic, by its first header", elf(3, 1, names=names), "libc6 (>= 2.34)"),
                                   ("dynamic with no names", elf(3, 1), ""), ("of no header", elf(names=names), "")):
            with open(f"{room}/program", "wb") as file:
                file.write(data)
            tests.same(f"a program, {what}", packages.needed_library(f"{room}/program"), wanted)


def test_no_dpkg(tests):
    """Without dpkg-deb the package for it is left out, which is said."""
    which, said = shutil.which, io.StringIO()
    with tempfile.TemporaryDirectory() as room, contextlib.redirect_stderr(said):
        try:
            shutil.which = lambda _: None
            packages.make_deb(room)
        finally:
            shutil.which = which
        tests.same("without dpkg-deb", (os.listdir(room), "dpkg-deb is not installed" in said.getvalue()), ([], True))


def test_packages(tests):
    """bin/package makes each package whole, the same each time, and none if a file is of other sources."""
    with tempfile.TemporaryDirectory() as room:
        top, out, work = f"{room}/repository", f"{room}/out", f"{room}/temporary"
        lay(top), os.makedirs(work)
        for it in ("hull.wasm", "hull32.wasm", "index.html"):
            write(f"{top}/web/out/{it}", f"built here, not released: {it}\n")
        for it in ("rust/hull/Cargo.lock", "rust/hull/target/left", "python/__pycache__/hull.pyc", "tools/__pycache__/kit.pyc", "crates/low/mutants/a.edit"):
            write(f"{top}/{it}", "left by a command\n")
        # (of a program the head of its ELF file is read)
        write(f"{top}/tools/product.sh", PRODUCT.replace("chmod 600", "case $2 in */hull[bd]*) head -c 100 /dev/zero >>\"$3\" ;; esac; chmod 600"),
                0o755)
        # (dpkg-deb sees files of another owner than root, where it can be so)
        owned = f'#!/bin/sh\nfor it in "$@"; do [ ! -d "$it" ] || chown -R 1234:1234 "$it" 2>/dev/null; done\nexec {shutil.which("dpkg-deb")} "$@"\n'
        if shutil.which("dpkg-deb"):
            write(f"{room}/path/dpkg-deb", owned, 0o755)
        env = {"TMPDIR": work, "PATH": f"{room}/path:{os.environ['PATH']}"}
        status, said = run(top, "bin/package", out, env=env)
        names = sorted([*MADE, *([DEB] if shutil.which("dpkg-deb") else [])])
        tests.see("bin/package", status == 0 and sorted(it.split()[1] for it in said.splitlines() if it[:9].strip().isdigit()) == names,
                f"{status}: {said}")
        tests.same("its packages", sorted(os.listdir(out)), names)
        tests.same("nothing temporary is left", os.listdir(work), [])
        run(top, "bin/install", f"{room}/prefix")
        for processor in ("x86_64", "aarch64"):
            test_archive(tests, out, f"hull-7.8.9-{processor}-linux.tar.xz", f"{room}/prefix", processor)
            test_wheel(tests, out, f"hullbook-7.8.9-py3-none-manylinux2014_{processor}.musllinux_1_1_{processor}.whl", processor)
        test_sources(tests, top, out)
        test_deb(tests, room, out)
        write(f"{room}/again/{MADE[0]}", "an older one\n"), write(f"{room}/again/others", "of others\n")
        run(top, "bin/package", f"{room}/again", env={"DESTDIR": f"{room}/elsewhere"})
        tests.same("in a folder that is there, beside the files of others", sorted(os.listdir(f"{room}/again")), sorted([*names, "others"]))
        tests.same("the same bytes again", [it for it in names if contents(f"{out}/{it}") != contents(f"{room}/again/{it}")], [])
        test_stale(tests, top, room, names)


def test_stale(tests, top, room, names):
    """With files of other sources nothing is made; with --test, what can be for this processor."""
    mine = os.uname().machine
    for stale in ("x86_64/libhull.a", "web/hull.wasm", "aarch64/libhull_shared.so"):
        status, said = run(top, "bin/package", f"{room}/none", env={"STALE": stale})
        tests.see(f"{stale} of other sources", status == 69 and f"made of other sources: {stale};" in said and not os.path.exists(f"{room}/none"),
                f"{status}: {said}")
    status, said = run(top, "bin/package", f"{room}/none", env={"DAMAGED": "web/hull.wasm"})
    tests.see("a damaged file", status == 69 and "web/hull.wasm;" in said and not os.path.exists(f"{room}/none"), f"{status}: {said}")
    run(top, "bin/package", "--test", f"{room}/all")
    tests.same("--test of a release makes all", sorted(os.listdir(f"{room}/all")), names)
    others = {"x86_64", "aarch64"} - {mine}
    status, said = run(top, "bin/package", "--test", f"{room}/tested", env={"STALE": "web/hull.wasm", "CANNOT": " ".join(others)})
    tests.see("--test", status == 0 and sorted(os.listdir(f"{room}/tested")) == [it for it in names if not any(other in it for other in others)],
            f"{status}: {said}")
    status, said = run(top, "bin/package", f"{room}/failed", env={"PRODUCT_STATUS": "70"})
    tests.see("a package that fails leaves nothing", status != 0 and not os.path.exists(f"{room}/failed"), f"{status}: {said}")
    for words, wanted_status in (([], 2), (["a", "b"], 2), (["-x"], 2), (["--test"], 2), (["--help"], 0)):
        status, said = run(top, "bin/package", *words)
        tests.see(f"usage of bin/package: {words}", status == wanted_status and "bin/package [--test] OUT" in said, f"{status}: {said}")


def test_package_words(tests):
    """bin/package finds its tool by a link, passes each word on as one, and says if there is no Python 3."""
    with tempfile.TemporaryDirectory() as room:
        top = f"{room}/the repository"
        os.makedirs(f"{top}/bin"), os.makedirs(f"{room}/without"), shutil.copy(f"{TOP}/bin/package", f"{top}/bin/package")
        write(f"{top}/tools/packages.py", "import sys\nprint(sys.argv[1:])\nsys.exit(len(sys.argv))\n")
        os.symlink(f"{top}/bin/package", f"{top}/linked")
        for command in ("bin/package", f"{top}/bin/package", f"{top}/linked"):
            tests.same(f"{os.path.basename(command)}: words", run(top, command, "--test", "a folder", "*"), (4, "['--test', 'a folder', '*']\n"))
        for it in ("sh", "dirname", "readlink"):
            os.symlink(shutil.which(it), f"{room}/without/{it}")
        for it in ("python", "python2"):
            write(f"{room}/without/{it}", "#!/bin/sh\necho of another Python\n", 0o755)
        env, message = {"PATH": f"{room}/without"}, "bin/package: it needs Python 3: apt-get install python3\n"
        tests.same("without Python 3", run(top, "bin/package", "out", env=env), (69, message))
        tests.same("it is no output", run(top, "sh", "-c", "bin/package out 2>errors", env=env), (69, ""))
