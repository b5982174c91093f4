"""What the tests share: running the command, and files made from the examples."""
from __future__ import annotations

import os
import subprocess
import sys
import tempfile
import unittest
from dataclasses import dataclass
from pathlib import Path

TOP = Path(__file__).resolve().parents[2]
DESIGN = TOP / "companions" / "design"
EXAMPLES = TOP / "examples"
TASK_FILES = sorted(path.name for path in EXAMPLES.glob("*.toml"))


@dataclass(frozen=True)
class Ran:
    """How a command ended, and what it printed."""

    status: int
    out: str
    err: str


def environment(**extra: str) -> dict[str, str]:
    """The environment of a command: this Python, and what is given."""
    return {**os.environ, "PYTHON": sys.executable, **extra}


def design(*words: str, **extra: str) -> Ran:
    """Runs `design` at the top of the repository."""
    done = subprocess.run([str(DESIGN), *words], cwd=TOP, env=environment(**extra), capture_output=True, text=True, check=False)
    return Ran(done.returncode, done.stdout, done.stderr)


def example(name: str) -> str:
    """The text of an example."""
    return (EXAMPLES / name).read_text(encoding="utf-8")


class DesignTest(unittest.TestCase):
    """A test with a folder of its own."""

    def setUp(self) -> None:
        folder = tempfile.TemporaryDirectory()
        self.addCleanup(folder.cleanup)
        self.folder = Path(folder.name)

    def write(self, name: str, text: str | bytes) -> str:
        """Writes a file, and gives its path."""
        path = self.folder / name
        path.write_bytes(text if isinstance(text, bytes) else text.encode("utf-8"))
        return str(path)

    def done(self, *words: str) -> str:
        """What a command prints that ends well."""
        ran = design(*words)
        self.assertEqual(ran.status, 0, f"{words}: {ran.out}{ran.err}")
        return ran.out
