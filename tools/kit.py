"""What the tools share: the repository's files and crates, and workspaces in which the toolchain's command `rt` runs on a changed copy.

Two runs of `rt` wait for each other if one crate is below both. So each runs in a workspace of its own: a folder with a crates.txt, the
crate, and hard links to the crates below it and to the libraries that were built of them. The tools use only what `rt help` documents."""
import contextlib
import functools
import os
import re
import shutil
import subprocess
import tempfile

TOP = os.path.dirname(os.path.dirname(os.path.abspath(__file__)))
# the folders of a crate that a proof reads
SOURCES = ("src", "specs", "proofs")
# the memory that a check may take, in bytes
MEMORY_OF_A_CHECK = 5 << 30


@functools.lru_cache(maxsize=None)
def version():
    """Returns what `rt version` prints, or '' if the toolchain is not installed."""
    try:
        return subprocess.run(["rt", "version"], capture_output=True, text=True, check=True).stdout.strip()
    except (OSError, subprocess.CalledProcessError):
        return ""


@functools.lru_cache(maxsize=None)
def toolchain():
    """Returns the toolchain's folder, which contains the page that `rt doc` names."""
    return os.path.dirname(subprocess.run(["rt", "doc"], capture_output=True, text=True, check=True).stdout.strip())


def files_below(folder):
    """Yields the files below a folder, by their paths within it, in order."""
    for at, folders, names in os.walk(folder):
        folders.sort()
        yield from (os.path.relpath(os.path.join(at, it), folder) for it in sorted(names))


def text_of(path):
    """Returns the text of a file, or '' if there is none."""
    with contextlib.suppress(FileNotFoundError), open(path, encoding="utf-8", errors="replace") as text:
        return text.read()
    return ""


def bytes_of(path):
    """Returns the bytes of a file, or none if there is none."""
    with contextlib.suppress(FileNotFoundError), open(path, "rb") as data:
        return data.read()
    return b""


class Crate:
    """A crate of the repository, as its line in crates.txt describes it."""

    def __init__(self, line, known):
        head, _, uses = line.partition(":")
        self.line, self.name = line, head.split()[0]
        self.folder = os.path.join(TOP, "crates", self.name)
        self.uses = [known[it] for it in uses.split() if it in known]
        self.is_program = os.path.exists(f"{self.folder}/src/main.rt")

    @functools.lru_cache(maxsize=None)
    def below(self):
        """Returns the crates of the repository below it, each after those below that one."""
        return list(dict.fromkeys(low for it in self.uses for low in [*it.below(), it]))

    @functools.lru_cache(maxsize=None)
    def sources(self):
        """Returns the checksum of all files that it and the crates below it are made of."""
        return subprocess.run([f"{TOP}/tools/product.sh", "sum", self.name], capture_output=True, text=True, check=True).stdout.strip()

    def texts(self):
        """Yields the path within the crate and the text of each file of its code, in order."""
        yield from ((f"src/{it}", text_of(f"{self.folder}/src/{it}")) for it in files_below(f"{self.folder}/src") if it.endswith(".rt"))

    def count(self, pattern):
        """Returns how often a pattern occurs in its code."""
        return sum(len(re.findall(pattern, text)) for _, text in self.texts())


@functools.lru_cache(maxsize=None)
def crates():
    """Returns the crates of the repository by name, lowest first."""
    known = {}
    for line in text_of(f"{TOP}/crates.txt").splitlines():
        line = line.partition("#")[0].strip()
        if line:
            crate = Crate(line, known)
            known[crate.name] = crate
    return known


def link(source, target):
    """Copies a folder or a file by hard links, or by its bytes if the file system has none."""
    def link_one(one, other):
        try:
            os.link(one, other)
        except FileExistsError:
            pass
        except OSError:
            shutil.copy2(one, other)

    if os.path.isdir(source):
        shutil.copytree(source, target, copy_function=link_one, dirs_exist_ok=True)
    elif os.path.exists(source):
        link_one(source, target)


class Ran:
    """What a command printed and returned; `said` is without what `rt` itself adds."""

    def __init__(self, command, folder):
        ran = subprocess.run(command, cwd=folder, stdin=subprocess.DEVNULL, stdout=subprocess.PIPE, stderr=subprocess.STDOUT, check=False)
        self.status, self.raw = ran.returncode, ran.stdout.decode("utf-8", "replace")
        self.said = "".join(it for it in self.raw.splitlines(True) if not it.startswith("rt: "))

    def last(self):
        """Returns the last line that the prover printed."""
        return self.said.rstrip("\n").rpartition("\n")[2]


class Workspace:
    """A workspace for a crate, with these texts in place of its files', which begins with what is kept of its checks."""

    def __init__(self, crate, texts=None, kept=None):
        self.crate, self.texts, self.kept = crate, texts or {}, kept

    def __enter__(self):
        crate = self.crate
        os.makedirs(f"{crate.folder}/out", exist_ok=True)
        self.top = tempfile.mkdtemp(prefix=f"workspace-{os.getpid()}-", dir=f"{crate.folder}/out")
        with open(f"{self.top}/crates.txt", "w", encoding="utf-8") as text:
            text.writelines(f"{it.line}\n" for it in [*crate.below(), crate])
        for it in [*crate.below(), crate]:
            for part in SOURCES:
                link(f"{it.folder}/{part}", f"{self.top}/crates/{it.name}/{part}")
        for it in crate.below():
            link(f"{it.folder}/out/rlib", f"{self.top}/crates/{it.name}/out/rlib")
        self.folder = f"{self.top}/crates/{crate.name}"
        os.makedirs(f"{self.folder}/out")
        if self.kept:
            link(self.kept, f"{self.folder}/out/incremental")
        for path, text in self.texts.items():
            os.remove(f"{self.folder}/{path}")
            with open(f"{self.folder}/{path}", "w", encoding="utf-8") as file:
                file.write(text)
        return self

    def __exit__(self, *_):
        shutil.rmtree(self.top, ignore_errors=True)

    def rt(self, *words):
        """Runs `rt` with these words on the workspace's crate."""
        return Ran(["rt", *words], self.folder)


def lanes():
    """Returns how many checks to run beside one another: as many as there are processors and memory."""
    free = re.search(r"^MemAvailable: +(\d+) kB", text_of("/proc/meminfo"), re.M)
    return max(1, min(len(os.sched_getaffinity(0)), int(free[1]) * 1024 // MEMORY_OF_A_CHECK if free else 1))
