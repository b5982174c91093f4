"""The place of a fault, on files that are refused: the place is where the edit was made."""
from __future__ import annotations

from dataclasses import dataclass

from .support import DesignTest, design, example

MOTOR = example("motor.toml")


@dataclass(frozen=True)
class Case:
    """An edit of the motor's file, the code that it is refused with, and the text at the place with how far into it."""

    code: str
    old: str
    new: str
    place: str
    into: int = 0
    told: str = ""

    @property
    def text(self) -> str:
        """The edited file."""
        return MOTOR.replace(self.old, self.new, 1)

    @property
    def line_and_column(self) -> tuple[int, int]:
        """The place, counted from 1."""
        offset = self.text.index(self.place) + self.into
        return self.text[:offset].count("\n") + 1, offset - self.text.rfind("\n", 0, offset)


CASES = [
    Case("E02", "replicas = 3", "replicas = ", "replicas = \n", 11),
    Case("E02", 'initial = 0\n\n[[task]]', 'initial = 9223372036854775808\n\n[[task]]', "9223372036854775808", told="64 bits"),
    Case("E02", "[timing]", "[timing", "[timing\n", 7),
    Case("E03", "replicas = 3", "replicas = 12", "12"),
    Case("E03", "replicas = 3", "replicas = 3\nrecovery_limit = 2", "recovery_limit", told="format = 2"),
    Case("E03", "skew = 50\n", "", "[timing]", told="`skew`"),
    Case("E03", "delay_min = 100", "delay_min = 100\ndelay_mix = 1", "delay_mix", told="delay_min"),
    Case("E03", 'name = "pos"\ninitial = 0', 'name = "pos"\ninitial = "0"', '"0"'),
    Case("E03", 'name = "pos"\ninitial = 0', 'name = "pos"\ninitial = 0\nvote = "median"', 'vote = "median"', told="format = 2"),
    Case("E03", 'name = "pos"\ninitial = 0', 'name = "pos"', '[[cell]]\nname = "pos"', told="`initial`"),
    Case("E03", '["sense", "integrate"]', '["sense", 3]', "3]"),
    Case("E04", 'name = "err"', 'name = "cmd"', '"cmd"\ninitial = 0\n\n[[cell]]\nname = "sum"'),
    Case("E04", 'name = "sum"', 'name = "Sum"', '"Sum"'),
    Case("E05", "cmd - pos;", "cmd - ;", "- ;", 2),
    Case("E05", "cmd - pos;", "cmd - pos", 'cmd - pos"', 9),
    Case("E06", "cmd - pos;", "cmd - poz;", "poz", told="did you mean pos?"),
    Case("E06", '"err := cmd - pos;"', '"""\nerr := cmd\n  - poz;"""', "poz", told="`sense`"),
    Case("E06", '"err := cmd - pos;"', "'err := cmd - poz;'", "poz"),
    Case("E06", '"err := cmd - pos;"', '"err :=\\tcmd - \\u0070oz;"', "\\u0070oz"),
    Case("E06", 'value = "sum"', 'value = "som + 1"', "som", told="did you mean sum?"),
    Case("E07", "err := cmd - pos;", "cmd := pos;", "cmd :="),
    Case("E08", '"integrate"]', '"integate"]', '"integate"', told="did you mean integrate?"),
    Case("E08", 'votes = ["pos"]', 'votes = ["pod"]', '"pod"', told="did you mean pos?"),
    Case("E09", 'votes = ["sum"]', 'votes = ["sum", "sum"]', ', "sum"]', 2),
    Case("E10", "sync = 6000", "sync = 1000", "[timing]", told="rule 4"),
]


class TaskFileTest(DesignTest):
    """`where FILE`."""

    def check_place(self, text: str | bytes, code: str, place: tuple[int, int], told: str) -> None:
        """The answer begins with the file, the line and the column, and a caret stands below."""
        path = self.write("file.toml", text)
        ran = design("where", path)
        self.assertEqual(ran.status, 3, ran.err)
        self.assertTrue(ran.out.startswith(f"{path}:{place[0]}:{place[1]}: {code}"), ran.out)
        self.assertIn(told, ran.out)
        self.assertEqual(ran.out.splitlines()[2].index("^"), place[1] + 1)

    def test_each_fault_has_its_place(self) -> None:
        for case in CASES:
            with self.subTest(code=case.code, new=case.new):
                self.check_place(case.text, case.code, case.line_and_column, case.told)

    def test_line_ends_and_a_byte_order_mark_move_nothing(self) -> None:
        for case in CASES[15:17]:
            self.check_place(case.text.replace("\n", "\r\n"), case.code, case.line_and_column, case.told)
            self.check_place("\ufeff" + case.text, case.code, case.line_and_column, case.told)

    def test_a_byte_that_is_no_text_has_its_place(self) -> None:
        data = MOTOR.encode().replace(b"replicas", b"repl\xffcas", 1)
        line = MOTOR[:MOTOR.index("replicas = 3")].count("\n") + 1
        self.check_place(data, "E02", (line, 5), "UTF-8")

    def test_tables_in_a_line_have_places(self) -> None:
        head, tail = MOTOR.split("[[cell]]", 1)[0], MOTOR[MOTOR.index("[[task]]"):]
        inline = 'cell = [{name = "pos", initial = 0}, {name = "err", initial = 0, x = 1}, {name = "sum", initial = 0}]\n'
        text = inline + head + tail
        self.check_place(text, "E03", (1, inline.index("x = 1") + 1), "`x`")

    def test_a_cycle_stands_at_a_slots_votes(self) -> None:
        text = MOTOR.replace('votes = ["pos"]', "votes = []")
        path = self.write("file.toml", text)
        ran = design("where", path)
        self.assertEqual(ran.status, 4)
        self.assertIn("0:pos 1:pos", ran.out)

    def test_a_good_file_is_not_refused(self) -> None:
        self.assertEqual(self.done("where", "examples/motor.toml"), "not refused\n")


@dataclass(frozen=True)
class Journal:
    """The lines of a journal below its header, the code, and the place."""

    code: str
    rows: str
    line: int
    column: int
    header: str = "frame,kind,a,b,c,d\n"


JOURNALS = [
    Journal("J02", "0,down,1,,\n1,end,,,,\n", 2, 1),
    Journal("J03", "0;sensor;cmd;1;;\n", 1, 1, "frame;kind;a;b;c;d\n"),
    Journal("J04", "0,sensr,cmd,1,,\n1,end,,,,\n", 2, 3),
    Journal("J04", ",,,,,\n1,end,,,,\n", 2, 2),
    Journal("J05", "0,sensor,cmd,10.0,,\n1,end,,,,\n", 2, 14),
    Journal("J05", "0,sensor,cmd,+1,,\n1,end,,,,\n", 2, 14),
    Journal("J05", "0,sensor,cmd,1e3,,\n1,end,,,,\n", 2, 14),
    Journal("J05", "\n\n0,sensor,cmd, 1,,\n1,end,,,,\n", 4, 14),
    Journal("J05", '0,"sensor","speed",1,,\n1,end,,,,\n', 2, 12),
    Journal("J06", "3,down,1,,,\n2,down,1,,,\n4,end,,,,\n", 3, 1),
    Journal("J07", "0,down,3,,,\n1,end,,,,\n", 2, 1),
    Journal("J08", "0,down,1,,,\r\n\r\n0,down,1,,,\r\n1,end,,,,\r\n", 4, 1),
    Journal("J09", "1,end,,,,\n,,,,,\n", 3, 1),
]


class JournalTest(DesignTest):
    """`where FILE JOURNAL`."""

    def test_each_fault_has_its_line(self) -> None:
        for journal in JOURNALS:
            with self.subTest(code=journal.code, rows=journal.rows):
                path = self.write("journal.csv", journal.header + journal.rows)
                ran = design("where", "examples/motor.toml", path)
                self.assertEqual(ran.status, 5, ran.err)
                self.assertTrue(ran.out.startswith(f"{path}:{journal.line}:{journal.column}: {journal.code}"), ran.out)

    def test_a_journal_that_does_not_end_says_so(self) -> None:
        path = self.write("journal.csv", "frame,kind,a,b,c,d\n0,down,1,,,\n")
        ran = design("where", "examples/motor.toml", path)
        self.assertEqual((ran.status, ran.out.startswith(f"{path}:2: J09")), (5, True), ran.out)

    def test_an_empty_journal_has_no_header(self) -> None:
        ran = design("where", "examples/motor.toml", self.write("journal.csv", ""))
        self.assertEqual(ran.status, 5)
        self.assertIn("J03", ran.out)

    def test_utf_16_has_no_header(self) -> None:
        path = self.write("journal.csv", "frame,kind,a,b,c,d\n1,end,,,,\n".encode("utf-16"))
        ran = design("where", "examples/motor.toml", path)
        self.assertEqual((ran.status, "J03" in ran.out), (5, True), ran.out + ran.err)
