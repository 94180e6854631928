"""What the tests of the tools share: small repositories, running a tool of one, and counting what came of it."""
import os
import shutil
import subprocess
import sys

TOP = os.path.dirname(os.path.dirname(os.path.dirname(os.path.abspath(__file__))))
sys.path.insert(0, f"{TOP}/tools")


def write(path, text, mode=0o644):
    """Writes a file and the folders above it."""
    os.makedirs(os.path.dirname(path), exist_ok=True)
    with open(path, "w", encoding="utf-8") as file:
        file.write(text)
    os.chmod(path, mode)


class Tests:
    """The tests, each counted."""

    def __init__(self):
        self.passed = self.failed = 0

    def see(self, what, is_so, said=""):
        """Counts one."""
        self.passed, self.failed = self.passed + bool(is_so), self.failed + (not is_so)
        print(f"{what}: {'ok' if is_so else f'FAILED {str(said)[-600:]}'}", flush=True)

    def same(self, what, came, wanted):
        """Counts whether two values are equal."""
        self.see(what, came == wanted, f"{came!r}, and not {wanted!r}")

    def refuses(self, what, message, top, *words, status=1, **how):
        """Counts whether a tool prints that message, ends with that status, and does not end in '0 failed'."""
        came, said = run(top, *words, **how)
        self.see(what, came == status and message in said and not said.rstrip().endswith(" 0 failed"), f"status {came}: {said}")

    def accepts(self, what, top, *words, **how):
        """Counts whether a tool ends with status 0 and '0 failed'."""
        came, said = run(top, *words, **how)
        self.see(what, came == 0 and said.rstrip().endswith(" 0 failed"), f"status {came}: {said}")


def run(top, *words, env=None):
    """Runs a tool of a small repository. Returns its status and what it printed."""
    ran = subprocess.run(words, cwd=top, stdin=subprocess.DEVNULL, stdout=subprocess.PIPE, stderr=subprocess.STDOUT, text=True, check=False,
                         env={**os.environ, **(env or {})})
    return ran.returncode, ran.stdout


def run_apart(top, *words, env=None):
    """Runs a tool of a small repository. Returns its status, its output and its errors."""
    ran = subprocess.run(words, cwd=top, stdin=subprocess.DEVNULL, capture_output=True, text=True, check=False, env={**os.environ, **(env or {})})
    return ran.returncode, ran.stdout, ran.stderr


def lay_tools(top):
    """Copies the tools into a small repository."""
    for it in ("tools", ".ci", "bin"):
        shutil.copytree(f"{TOP}/{it}", f"{top}/{it}", ignore=shutil.ignore_patterns("__pycache__"))
    if os.path.exists(f"{top}/.ci/mutants.txt"):
        os.remove(f"{top}/.ci/mutants.txt")
