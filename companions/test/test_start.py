"""How commands begin and end: help, packages, a program that is not built, refused files."""
from __future__ import annotations

import os
import shlex
import shutil
import subprocess
import sys
from pathlib import Path

from rcp_design.cli import COMMANDS

from .support import DesignTest, design, example

ANSWERS = {"lint": (0, 1)}


class StartTest(DesignTest):
    """What all commands share."""

    def script(self, name: str, text: str) -> str:
        """Writes an executable script."""
        path = self.write(name, f"#!/bin/sh\n{text}\n")
        Path(path).chmod(0o755)
        return path

    def words_of(self, name: str, file: str) -> list[str]:
        """Words that run a command on a file."""
        more = {"fewest": ["--recovery", "3"], "compare": [file], "timeline": ["examples/motor.csv", "--svg", str(self.folder / "x")],
                "trace": ["examples/motor.csv"], "range": ["examples/motor.csv"]}
        return [name, file, *more.get(name, [])]

    def test_the_example_of_each_help_works(self) -> None:
        for name in COMMANDS:
            with self.subTest(name):
                told = self.done(name, "--help")
                words = shlex.split(told[told.index("companions/design "):].strip().replace("/tmp/", f"{self.folder}/"))[1:]
                self.assertEqual(words[0], name)
                ran = design(*words)
                self.assertIn(ran.status, ANSWERS.get(name, (0,)), ran.err)

    def test_all_commands_are_listed(self) -> None:
        told = self.done("--help")
        for name in COMMANDS:
            self.assertIn(f"  {name} ", told)

    def test_an_unknown_command_has_a_near_one(self) -> None:
        ran = design("fewset")
        self.assertEqual(ran.status, 2)
        self.assertIn("fewest", ran.err)

    def test_a_program_that_is_not_there(self) -> None:
        for name in COMMANDS:
            with self.subTest(name):
                ran = design(*self.words_of(name, "examples/drone.toml"), "--rcp", str(self.folder / "none"))
                self.assertEqual(ran.status, 13, ran.err)
                self.assertIn("rcp can't be run", ran.err)
                self.assertNotIn("Traceback", ran.err)

    def test_a_program_that_can_not_be_built(self) -> None:
        path = self.script("rcp", "echo 'rcp: the program has to be built, and rt is not on PATH' >&2; exit 13")
        ran = design("whatif", "examples/motor.toml", RCP=path)
        self.assertEqual(ran.status, 13)
        self.assertIn("rt is not on PATH", ran.err)
        self.assertIn("not built", ran.err)

    def test_a_refused_file_gives_its_line_and_status(self) -> None:
        path = self.write("file.toml", example("drone.toml").replace("replicas = 4", "replicas = 40"))
        for name in COMMANDS:
            if name == "where":
                continue
            with self.subTest(name):
                ran = design(*self.words_of(name, path))
                self.assertEqual(ran.status, 3, ran.out + ran.err)
                self.assertIn("task file refused: E03 replicas", ran.err)
                self.assertNotIn("Traceback", ran.err)

    def test_a_file_that_is_not_there(self) -> None:
        for name in COMMANDS:
            with self.subTest(name):
                ran = design(*self.words_of(name, "/nowhere.toml"))
                self.assertEqual(ran.status, 6, ran.out + ran.err)
                self.assertNotIn("Traceback", ran.err)

    def test_a_refused_journal_gives_its_line_and_status(self) -> None:
        path = self.write("journal.csv", "frame,kind,a,b,c,d\n0,jump,,,,\n")
        for words in (["timeline", "--svg", str(self.folder / "x")], ["trace"], ["range"]):
            with self.subTest(words[0]):
                ran = design(words[0], "examples/motor.toml", path, *words[1:])
                self.assertEqual((ran.status, ran.err), (5, "journal refused: J04 row 1\n"))

    def test_a_python_without_packages(self) -> None:
        python = self.script("python", f'exec {sys.executable} -S "$@"')
        ran = design("whatif", "examples/motor.toml", PYTHON=python)
        self.assertEqual(ran.status, 14)
        self.assertIn("python3-tomlkit", ran.err)
        self.assertNotIn("Traceback", ran.err)

    def test_a_first_python_without_packages_is_passed_over(self) -> None:
        if subprocess.run(["/usr/bin/python3", "-c", "import tomlkit, pulp"], capture_output=True, check=False).returncode:
            self.skipTest("Debian's Python does not have the packages")
        self.script("python3", f'exec {sys.executable} -S "$@"')
        ran = design("whatif", "examples/motor.toml", PYTHON="", PATH=f"{self.folder}:{os.environ['PATH']}")
        self.assertEqual(ran.status, 0, ran.err)

    def test_a_python_without_the_solver_s_package(self) -> None:
        import tomlkit
        (self.folder / "lib").mkdir()
        (self.folder / "lib" / "tomlkit").symlink_to(Path(tomlkit.__file__).parent)
        python = self.script("python", f'exec {sys.executable} -S "$@"')
        ran = design("fewest", "examples/motor.toml", "--recovery", "2", PYTHON=python, PYTHONPATH=str(self.folder / "lib"))
        self.assertEqual(ran.status, 14)
        self.assertIn("python3-pulp", ran.err)

    def test_a_path_without_the_solver(self) -> None:
        (self.folder / "bin").mkdir()
        for name in ("bash", "readlink", "dirname", "find", "flock"):
            (self.folder / "bin" / name).symlink_to(shutil.which(name))
        ran = design("fewest", "examples/motor.toml", "--recovery", "2", PATH=str(self.folder / "bin"), PYTHON=sys.executable)
        self.assertEqual(ran.status, 14, ran.err)
        self.assertIn("coinor-cbc", ran.err)

    def test_no_python_at_all(self) -> None:
        ran = design("whatif", "examples/motor.toml", PYTHON=self.script("python", "exit 1"))
        self.assertEqual(ran.status, 14)
        self.assertIn("python3", ran.err)
