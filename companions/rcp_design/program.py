"""Runs `rcp`: its forms of words, its answers and its refusals."""
from __future__ import annotations

import subprocess
from dataclasses import dataclass
from pathlib import Path

from .answers import Event, Frame, IdealFrame, Thinned, Verdict, read_events, read_ideal, read_replay, read_thinned, read_verdict
from .stop import NO_PROGRAM, USAGE, Refused, Stop

TOP = Path(__file__).resolve().parents[2]
SCRIPT = TOP / "rcp"
BUILT = TOP / "crates" / "rcp_cli" / "out" / "rcp_cli"
STDIN = "/dev/stdin"

DONE = 0
CYCLE = 4


@dataclass(frozen=True)
class Answer:
    """What `rcp` printed, and the status that it ended with."""

    status: int
    text: str


class Rcp:
    """The program. By default the script at the top of the repository is asked once, which builds it; then what it built."""

    def __init__(self, path: str | None = None) -> None:
        self.calls = 0
        self._path = path
        self._program = path

    def run(self, *words: str, stdin: str | None = None) -> Answer:
        """Runs the program on these words, and `stdin` as what it reads from /dev/stdin."""
        if self._program is None:
            self._program = self._build()
        self.calls += 1
        return self._call(self._program, words, stdin)

    def ask(self, *words: str, stdin: str | None = None) -> str:
        """The text of a form of words; a refusal stops the command with its line and status."""
        answer = self.run(*words, stdin=stdin)
        if answer.status != DONE:
            raise self._refusal(answer)
        return answer.text

    def check(self, text: str) -> Verdict:
        """What `check` says of a task file's text: a recovery length with its walk, or a cycle."""
        answer = self.run("check", STDIN, stdin=text)
        if answer.status not in (DONE, CYCLE):
            raise self._refusal(answer)
        return read_verdict(answer.text)

    def check_file(self, path: str) -> Verdict:
        """The same of a file."""
        answer = self.run("check", path)
        if answer.status not in (DONE, CYCLE):
            raise self._refusal(answer)
        return read_verdict(answer.text)

    def thin(self, text: str) -> Thinned | None:
        """What `thin` leaves of a task file's text; None where its pattern has a cycle."""
        answer = self.run("thin", STDIN, stdin=text)
        if answer.status not in (DONE, CYCLE):
            raise self._refusal(answer)
        return read_thinned(answer.text) if answer.status == DONE else None

    def ideal(self, path: str, journal: str, stdin: str | None = None) -> list[IdealFrame]:
        """The run of the single processor."""
        return read_ideal(self.ask("ideal", path, journal, stdin=stdin))

    def replay(self, path: str, journal: str, stdin: str | None = None) -> list[Frame]:
        """The run of the replicas."""
        return read_replay(self.ask("replay", path, journal, "rs", stdin=stdin))

    def events(self, path: str, journal: str) -> list[Event] | None:
        """The timed events, or None where this program does not have the form yet."""
        answer = self.run("events", path, journal, "first")
        if answer.status == USAGE:
            return None
        if answer.status != DONE:
            raise self._refusal(answer)
        return read_events(answer.text)

    @staticmethod
    def _refusal(answer: Answer) -> Stop:
        line = answer.text.strip() or f"rcp ended with status {answer.status} and printed nothing"
        return Refused(line, answer.status if answer.status > 0 else NO_PROGRAM)

    def _build(self) -> str:
        answer = self._call(str(SCRIPT), (), None)
        if answer.status == NO_PROGRAM or not BUILT.exists():
            raise Stop("rcp is not built, and its script could not build it", NO_PROGRAM)
        return str(BUILT)

    @staticmethod
    def _call(program: str, words: tuple[str, ...], stdin: str | None) -> Answer:
        given = (stdin or "").encode("utf-8", "surrogateescape")
        try:
            done = subprocess.run([program, *words], input=given, stdout=subprocess.PIPE, check=False)
        except OSError as error:
            raise Stop(f"rcp can't be run: {program}: {error.strerror}", NO_PROGRAM) from None
        if done.returncode == NO_PROGRAM:
            raise Stop("rcp is not built, and its script could not build it", NO_PROGRAM)
        return Answer(done.returncode, done.stdout.decode("utf-8", "surrogateescape"))
