#!/usr/bin/env python3
"""Tests of tests/cases.py: what a file of cases says, and that each difference is found. In the gate.

usage: python3 checks/test_cases.py

The program is a script that writes a report, a message and a file, whatever it is asked.
"""
import tempfile
import unittest
from pathlib import Path

import common  # pylint: disable=unused-import
import cases

PROGRAM = """#!/bin/sh
case $1 in
asm) printf image > image; echo ok ;;
run) printf sent > out; printf '0 PASS\\nend 1\\n'; printf 'first\\nlast words\\n' >&2; exit 3 ;;
verify) echo 'refused V1 slot 0'; printf 'why\\nslot 0\\n' >&2; exit 2 ;;
*) exit 0 ;;
esac
"""
RIGHT = """\
== A run
file image 'XB' 0a at 1 58
$ xdpvm run image
1> 0 PASS
1> end 1
2> first
2> ...words
status 3
file other 'sent'
same out other

== Numbers
each n 1..3
file a 'x' cut {n}
$ xdpvm {n}
"""
SHORT = """\
let WORD exit
text r0 = 2; $WORD
verify refused V1 slot 0
says ...y
    slot 0
bytes 'image'
each n 0 2..3
source 'a{n}'
asm ok
"""


class Files(unittest.TestCase):
    def setUp(self) -> None:
        self.room = tempfile.TemporaryDirectory()
        self.addCleanup(self.room.cleanup)
        program = Path(self.room.name) / "xdpvm"
        program.write_text(PROGRAM, encoding="utf-8")
        program.chmod(0o755)
        self.programs = dict.fromkeys(("xdpvm", "xdpvm_survey", "xdpvm_filter"), str(program))

    def found(self, text: str) -> tuple[int, list[str]]:
        """How many cases a text has, and the lines by which they differ."""
        path = Path(self.room.name) / "a.case"
        path.write_text(text, encoding="utf-8")
        every = cases.cases_of(path)
        return len(every), [it.split("\n")[0].partition(": ")[2] for found in cases.tried(self.programs, every) for it in found]

    def test_right_cases(self) -> None:
        self.assertEqual(self.found(RIGHT), (4, []))
        self.assertEqual(self.found(SHORT), (4, []))

    def test_each_difference(self) -> None:
        for old, new in (
            ("1> end 1", "1> end 2"),
            ("1> end 1\n", ""),
            ("2> first", "2> last"),
            ("2> ...words", "2> ...word."),
            ("2> ...words\n", ""),
            ("status 3\n", ""),
            ("other 'sent'", "other 'send'"),
            ("same out other", "same out none"),
        ):
            with self.subTest(old):
                self.assertEqual(len(self.found(RIGHT.replace(old, new))[1]), 1)

    def test_each_difference_in_short(self) -> None:
        for old, new, count in (
            ("V1 slot 0\n", "V1 slot 1\n", 1),
            ("says ...y", "says ...x", 1),
            ("    slot 0", "    slot", 1),
            ("bytes 'image'", "bytes 'images'", 1),
            ("asm ok", "asm no", 3),
            ("verify refused V1 slot 0", "verify ok bound 2", 1),
        ):
            with self.subTest(old):
                self.assertEqual(len(self.found(SHORT.replace(old, new))[1]), count)

    def test_what_no_case_has(self) -> None:
        for text in ("text $NOTHING\n", "text a\nwhatever b\n", "== a\n$ another word\n"):
            with self.subTest(text), self.assertRaises(cases.WrongCase):
                self.found(text)

    def test_bytes(self) -> None:
        for parts, wanted in (
            ("'a\\n\\x00' 3*0a", b"a\n\0\n\n\n"),
            ("2*'ab' cut 3 at 1 ff", b"a\xffa"),
            ("", b""),
        ):
            self.assertEqual(cases.bytes_of(parts), wanted)

    def test_lines_that_repeat(self) -> None:
        self.assertEqual(cases.filled("2 x a{i}\nb{n}", {"n": 7}), "a0\na1\nb7")
        self.assertEqual(cases.filled("a{i}", {}), "a{i}")


if __name__ == "__main__":
    unittest.main()
