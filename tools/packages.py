#!/usr/bin/env python3
"""Makes the packages of a release from dist/, without the toolchain: bin/package [--test] OUT

    hull-VERSION-PROCESSOR-linux.tar.xz      headers, archives, shared objects, pkg-config, CMake, Rust, Python, documents, examples;
                                             on x86-64 the programs
    hullbook-VERSION-py3-none-*.whl          for pip, on any Linux (glibc or musl): the module `hull` with its shared objects
    hullbook-VERSION.tar.gz                  for pip: what the wheels are made of
    hullbook_VERSION_amd64.deb               for dpkg, if dpkg-deb is installed
    hullbook-VERSION.tgz                     for npm: the module in WebAssembly with its types
    hull-VERSION-rust.tar.gz                 for cargo: the crate `hull` with its archives

The bytes depend only on the files: each member has the time 0 of 1980. All packages are made in a temporary folder first, so a failure
leaves OUT as it was. Exits with 69 if dist/ was made of other sources; with --test it then makes what it can for this processor, of these
sources, to be tested and not to be released.
"""
import base64
import gzip
import hashlib
import io
import json
import os
import re
import shutil
import struct
import subprocess
import sys
import tarfile
import tempfile
import zipfile

sys.path.insert(0, os.path.dirname(os.path.realpath(__file__)))
import kit  # noqa: E402 (the path comes first)
from kit import TOP  # noqa: E402

PROCESSORS = ("x86_64", "aarch64")
# the systems that a wheel is for: the shared objects name no C library, so that they load beside glibc and musl
PLATFORMS = "manylinux2014_{0}.musllinux_1_1_{0}"
MEMBER_TIME, ZIP_TIME = 315532800, (1980, 1, 1, 0, 0, 0)
DESCRIPTION = "An exact dynamic planar convex hull of lattice points, formally verified"
MAINTAINER = "Rubzhegi maintainers <maintainers@users.noreply.rubzhegi.example>"
# what docs/INSTALLED.md says otherwise in the package for dpkg, in which files are elsewhere
DEB_PAGE = (
    ("`import hull`, with `lib/hull` on the module path;", "`import hull`;"),
    ("the crate in `lib/rust/hull`: `cargo add --path`",
     "the crate in `/usr/share/hullbook/rust/hull`: `cargo add --path`, and `HULL_PREFIX=/usr` set for `cargo`"),
    ("`man hullbook`; completions are in `share/hullbook/completions`", "`man hullbook`; bash, zsh and fish find their completions"),
    ("`LICENSE` (MIT) and `CHANGELOG.md` are", "`copyright` (MIT) and `changelog.gz` are"),
    ("`bin/install --uninstall PREFIX` of the repository, or your\npackage manager.", "`dpkg -r hullbook`."),
)
# a link or a picture of Markdown; or code, in which there is none
LINK = re.compile(r"(?ms)^```.*?^```|`[^`\n]*`|(!?)\[([^\[\]]*)\]\(([^()\s]+)\)")
# what the archive for pip needs of the repository
FOR_PIP = ("LICENSE", "README.md", "CHANGELOG.md", "VERSION", "HANDLES", "crates.txt", "pyproject.toml", "bin", "tools", "include", "c", "python",
           "rust", "man", "docs/INSTALLED.md")


def version():
    """Returns the version of the release."""
    return kit.text_of(f"{TOP}/VERSION").strip()


def install(processor, prefix, *flags):
    """Installs the files of a processor below a folder."""
    subprocess.run([f"{TOP}/bin/install", *flags, prefix], check=True, env={**os.environ, "HULL_PROCESSOR": processor, "DESTDIR": ""})


def is_absent(link, folder, page):
    """Returns whether a link of a page leads to what is not below the folder; an address or a place in the page does not."""
    path = os.path.normpath(os.path.join(os.path.dirname(page), link.partition("#")[0]))
    return not re.match(r"#|[a-z]+:", link) and (path.startswith("..") or not os.path.exists(f"{folder}/{path}"))


def links_of(page):
    """Returns what the links of a page lead to."""
    return [it[3] for it in LINK.finditer(page) if it[3]]


def with_links_inside(text, folder, page):
    """Returns a page whose links to what is not below the folder are their texts."""
    def link(found):
        if not found[3] or not is_absent(found[3], folder, page):
            return found[0]
        return f"(A picture in the repository: {found[2]}.)" if found[1] else found[2]

    return LINK.sub(link, text)


def keep_links_inside(folder):
    """Writes the pages below a folder so that no link leads out of it."""
    for it in [it for it in kit.files_below(folder) if it.endswith(".md")]:
        text = kit.text_of(f"{folder}/{it}")
        if with_links_inside(text, folder, it) != text:
            mode = os.stat(f"{folder}/{it}").st_mode
            os.remove(f"{folder}/{it}")  # (it may be one file with that of the repository)
            write(f"{folder}/{it}", with_links_inside(text, folder, it))
            os.chmod(f"{folder}/{it}", mode)


def archive(path, folder, name, mode):
    """Writes a folder as an archive whose members are below that name, in order, owned by root. Its pages link to what is in it only."""
    def member(info):
        info.mtime, info.uid, info.gid, info.uname, info.gname = MEMBER_TIME, 0, 0, "root", "root"
        info.mode = 0o755 if info.isdir() or info.mode & 0o100 else 0o644
        return info

    keep_links_inside(folder)
    data = io.BytesIO()
    with tarfile.open(fileobj=data, mode="w" if mode == "gz" else f"w:{mode}", format=tarfile.PAX_FORMAT) as out:
        for it in kit.files_below(folder):
            out.add(f"{folder}/{it}", f"{name}/{it}", filter=member)
    with open(path, "wb") as out:
        out.write(gzip.compress(data.getvalue(), mtime=0) if mode == "gz" else data.getvalue())


def make_tarball(out, processor):
    """Makes the archive that runs from any folder, with documents and examples."""
    name = f"hull-{version()}-{processor}-linux"
    with tempfile.TemporaryDirectory() as work:
        install(processor, work, *([] if processor == "x86_64" else ["--library"]))
        shutil.copy(f"{TOP}/LICENSE", work)
        shutil.copy(f"{TOP}/CHANGELOG.md", work)
        shutil.copy(f"{TOP}/docs/INSTALLED.md", f"{work}/README.md")
        shutil.copytree(f"{TOP}/examples", f"{work}/share/doc/hullbook/examples")
        for it in ("EMBEDDING", "PLANNERS", "SHARED", "PROGRAM", "FORMATS"):
            shutil.copy(f"{TOP}/docs/{it}.md", f"{work}/share/doc/hullbook")
        archive(f"{out}/{name}.tar.xz", work, name, "xz")


def make_wheel(out, processor):
    """Makes the package for pip: a zip of the module, its shared objects and its description. Returns the file's name."""
    about, tag = f"hullbook-{version()}.dist-info", f"py3-none-{PLATFORMS.format(processor)}"
    with tempfile.TemporaryDirectory() as work:
        install(processor, work, "--library")
        files = {it: kit.bytes_of(f"{work}/lib/hull/{it}") for it in kit.files_below(f"{work}/lib/hull")}
    files[f"{about}/METADATA"] = (
        f"Metadata-Version: 2.1\nName: hullbook\nVersion: {version()}\nSummary: {DESCRIPTION}\nLicense: MIT\nRequires-Python: >=3.8\n"
        f"Description-Content-Type: text/markdown\n\n{with_links_inside(kit.text_of(f'{TOP}/python/README.md'), os.devnull, 'README.md')}").encode()
    tags = "".join(f"Tag: py3-none-{it}\n" for it in PLATFORMS.format(processor).split("."))
    files[f"{about}/WHEEL"] = f"Wheel-Version: 1.0\nGenerator: bin/package\nRoot-Is-Purelib: false\n{tags}".encode()
    files[f"{about}/LICENSE"] = kit.bytes_of(f"{TOP}/LICENSE")
    record = f"{about}/RECORD"
    sums = {it: base64.urlsafe_b64encode(hashlib.sha256(data).digest()).rstrip(b"=").decode() for it, data in files.items()}
    files[record] = "".join([*(f"{it},sha256={sums[it]},{len(data)}\n" for it, data in files.items()), f"{record},,\n"]).encode()
    name = f"hullbook-{version()}-{tag}.whl"
    with zipfile.ZipFile(f"{out}/{name}", "w", zipfile.ZIP_DEFLATED) as wheel:
        for it, data in files.items():
            info = zipfile.ZipInfo(it, ZIP_TIME)
            info.external_attr, info.compress_type = 0o644 << 16, zipfile.ZIP_DEFLATED
            wheel.writestr(info, data)
    return name


def make_sdist(out):
    """Makes the archive that pip builds wheels from, with the released files and what decides whether they are current. Returns its name."""
    name = f"hullbook-{version()}"
    with tempfile.TemporaryDirectory() as work:
        for it in FOR_PIP:
            if os.path.isdir(f"{TOP}/{it}"):
                shutil.copytree(f"{TOP}/{it}", f"{work}/{it}", ignore=shutil.ignore_patterns("__pycache__", "target", "out"))
            else:
                os.makedirs(os.path.dirname(f"{work}/{it}"), exist_ok=True)
                shutil.copy(f"{TOP}/{it}", f"{work}/{it}")
        for crate in {low.name: low for it in ("hull_c", "hull_shared") for low in [*kit.crates()[it].below(), kit.crates()[it]]}.values():
            for part in kit.SOURCES:
                kit.link(f"{crate.folder}/{part}", f"{work}/crates/{crate.name}/{part}")
        for processor in PROCESSORS:
            shutil.copytree(f"{TOP}/dist/{processor}", f"{work}/dist/{processor}")
        shutil.copy(f"{TOP}/dist/SUMS", f"{work}/dist/SUMS")
        with open(f"{work}/PKG-INFO", "w", encoding="utf-8") as text:
            text.write(f"Metadata-Version: 2.1\nName: hullbook\nVersion: {version()}\nSummary: {DESCRIPTION}\n")
        archive(f"{out}/{name}.tar.gz", work, name, "gz")
    return f"{name}.tar.gz"


def needed_library(path):
    """Returns the dependency of a program on the C library, '' if it is linked statically."""
    data = kit.bytes_of(path)
    at, size, count = struct.unpack_from("<Q", data, 32)[0], *struct.unpack_from("<HH", data, 54)
    is_dynamic = any(struct.unpack_from("<I", data, at + size * it)[0] == 3 for it in range(count))
    symbols = [tuple(int(number) for number in it.split(b".")) for it in set(re.findall(rb"GLIBC_(\d+\.\d+)\0", data))]
    return f"libc6 (>= {'.'.join(str(it) for it in max(symbols))})" if is_dynamic and symbols else ""


def write(path, text):
    with open(path, "w", encoding="utf-8") as file:
        file.write(text)


def write_gzip(path, text):
    with open(path, "wb") as file:
        file.write(gzip.compress(text, 9, mtime=0))


def make_deb(out):
    """Makes the package for dpkg."""
    if not shutil.which("dpkg-deb"):
        print("bin/package: dpkg-deb is not installed: the package for it is left out", file=sys.stderr)
        return
    with tempfile.TemporaryDirectory() as work:
        os.chmod(work, 0o755)
        install("x86_64", f"{work}/usr")
        # (a distribution has its own folders for Python's modules, for sources of crates and for completions)
        for source, target in (("lib/hull", "lib/python3/dist-packages"), ("lib/rust", "share/hullbook/rust")):
            os.makedirs(os.path.dirname(f"{work}/usr/{target}"), exist_ok=True)
            os.rename(f"{work}/usr/{source}", f"{work}/usr/{target}")
        for source, target in (("hullbook.bash", "bash-completion/completions/hullbook"), ("_hullbook", "zsh/vendor-completions/_hullbook"),
                               ("hullbook.fish", "fish/vendor_completions.d/hullbook.fish")):
            os.makedirs(os.path.dirname(f"{work}/usr/share/{target}"), exist_ok=True)
            os.rename(f"{work}/usr/share/hullbook/completions/{source}", f"{work}/usr/share/{target}")
        os.rmdir(f"{work}/usr/share/hullbook/completions")
        os.remove(f"{work}/usr/share/hullbook/installed")
        about = f"{work}/usr/share/doc/hullbook"
        os.rename(f"{about}/LICENSE", f"{about}/copyright")
        os.remove(f"{about}/CHANGELOG.md")
        write_gzip(f"{about}/changelog.gz", with_links_inside(kit.text_of(f"{TOP}/CHANGELOG.md"), about, "changelog").encode())
        page = kit.text_of(f"{about}/README.md")
        for old, new in DEB_PAGE:
            if page.count(old) != 1:
                sys.exit(f"bin/package: docs/INSTALLED.md does not say once what DEB_PAGE of tools/packages.py replaces: {old}")
            page = page.replace(old, new)
        write(f"{about}/README.md", page)
        keep_links_inside(f"{work}/usr")
        entry = f"hullbook ({version()}) unstable; urgency=low\n\n  * Release {version()}: see changelog.gz.\n\n -- {MAINTAINER}  Fri, 27 Nov 2026 00:00:00 +0000\n"
        write_gzip(f"{about}/changelog.Debian.gz", entry.encode())
        for it in [*kit.files_below(f"{work}/usr/share/man")]:
            write_gzip(f"{work}/usr/share/man/{it}.gz", kit.bytes_of(f"{work}/usr/share/man/{it}"))
            os.remove(f"{work}/usr/share/man/{it}")
        os.makedirs(f"{work}/usr/share/lintian/overrides")
        write(f"{work}/usr/share/lintian/overrides/hullbook",
              "# the programs are what was proved and tested, whatever C library there is\nhullbook: statically-linked-binary\n")
        size = sum(os.path.getsize(f"{work}/{it}") for it in kit.files_below(work)) // 1024
        needed = {needed_library(f"{work}/usr/bin/{it}") for it in ("hullbook", "hulldraw")} - {""}
        os.makedirs(f"{work}/DEBIAN")
        with open(f"{work}/DEBIAN/control", "w", encoding="utf-8") as text:
            text.write(f"Package: hullbook\nVersion: {version()}\nArchitecture: amd64\nSection: math\nPriority: optional\n"
                       f"Maintainer: {MAINTAINER}\nInstalled-Size: {size}\n" + "".join(f"Depends: {it}\n" for it in sorted(needed)[-1:]) +
                       f"Suggests: python3\nDescription: {DESCRIPTION[3:]}\n"
                       " The programs hullbook and hulldraw, and the libraries hull and hull_shared for\n C, C++, Rust and Python. Each call is proved against a specification.\n")
        for at, folders, names in os.walk(work):
            for it in [*folders, *names]:
                os.chmod(f"{at}/{it}", 0o755 if it in folders or os.access(f"{at}/{it}", os.X_OK) and "/bin" in at else 0o644)
        call = ["dpkg-deb", "--build", "--root-owner-group", work, f"{out}/hullbook_{version()}_amd64.deb"]
        subprocess.run(call, check=True, stdout=subprocess.DEVNULL, env={**os.environ, "SOURCE_DATE_EPOCH": str(MEMBER_TIME)})


def make_npm(out):
    """Makes the package for npm, of the files that web/package.json names."""
    said = json.loads(kit.text_of(f"{TOP}/web/package.json"))
    with tempfile.TemporaryDirectory() as work:
        for it in ["package.json", *said["files"]]:
            os.makedirs(os.path.dirname(f"{work}/{it}"), exist_ok=True)
            released = f"{TOP}/dist/web/{os.path.basename(it)}"
            beside = f"{TOP}/web/{it}" if it != "LICENSE" else f"{TOP}/LICENSE"
            shutil.copy(released if os.path.exists(released) else beside, f"{work}/{it}")
        archive(f"{out}/hullbook-{version()}.tgz", work, "package", "gz")


def make_crate(out, processors):
    """Makes the crate for cargo, with the archives of these processors."""
    name = f"hull-{version()}"
    with tempfile.TemporaryDirectory() as work:
        shutil.copytree(f"{TOP}/rust/hull", work, dirs_exist_ok=True, ignore=shutil.ignore_patterns("target", "Cargo.lock"))
        for processor in processors:
            os.makedirs(f"{work}/archives/{processor}")
            for it in ("libhull.a", "libhull_shared.a"):
                subprocess.run([f"{TOP}/tools/product.sh", "put", f"{processor}/{it}", f"{work}/archives/{processor}/{it}"], check=True)
        shutil.copy(f"{TOP}/LICENSE", work)
        archive(f"{out}/{name}-rust.tar.gz", work, name, "gz")


def stale():
    """Returns the files of dist/ that were made of other sources."""
    files = [it.split()[0] for it in kit.text_of(f"{TOP}/tools/products.txt").splitlines() if it and not it.startswith("#")]
    return [it for it in files if subprocess.run([f"{TOP}/tools/product.sh", "find", it], stdout=subprocess.DEVNULL, check=False).returncode]


def main(words):
    is_test = words[:1] == ["--test"]
    words = words[is_test:]
    if len(words) != 1 or words[0].startswith("-"):
        print(__doc__, file=sys.stdout if words == ["--help"] else sys.stderr)
        return 0 if words == ["--help"] else 2
    others = stale()
    processors = [os.uname().machine] if is_test and others else PROCESSORS
    if others and not is_test:
        print(f"bin/package: dist/ was made of other sources: {' '.join(others)}; tools/release.sh makes it, with the toolchain", file=sys.stderr)
        return 69
    with tempfile.TemporaryDirectory() as work:
        for processor in processors:
            make_tarball(work, processor)
            make_wheel(work, processor)
        for make in (make_sdist, make_deb, make_npm):
            make(work)
        make_crate(work, processors)
        os.makedirs(words[0], exist_ok=True)
        for it in sorted(os.listdir(work)):
            shutil.move(f"{work}/{it}", f"{words[0]}/{it}")
            print(f"{os.path.getsize(f'{words[0]}/{it}'):9} {it}")
    return 0


if __name__ == "__main__":
    sys.exit(main(sys.argv[1:]))
