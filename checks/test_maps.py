#!/usr/bin/env python3
"""Tests of what maps begin with: variables and constants of objects, the file of maps beside an image, types of maps
that become others, and the options of xdp.py. In the gate; `python3 checks/test_maps.py [PROGRAM [FILTER]]` runs them.

PROGRAM is the default of xdp.py, FILTER the xdpvm_filter beside it; what needs FILTER is left out where there is
none."""
import glob
import os
import shutil
import struct
import subprocess
import sys
import tempfile
import unittest
import unittest.mock
from collections.abc import Iterator

from common import PYTHON, TOP, bytes_of

sys.dont_write_bytecode = True
import image
import image_maps
import map_files
import sources
from core_relocations import Kernel
from image_link import Linker
from image_values import is_of_values, lines_of
from objects import NO_BITS, Object, Refused, Relocation

MADE = os.path.join(TOP, "tests/objects/made")
EXAMPLES = os.path.join(TOP, "examples")
GIVEN = sys.argv[1:3]
PROGRAM = GIVEN[0] if GIVEN else sources.the_xdpvm()


def stored(name: str) -> Iterator[str]:
    """The objects of a source of tests/objects, by each compiler."""
    found = sorted(glob.glob(f"{MADE}/{name}.*.o"))
    assert len(found) >= 4
    yield from found


def the_filter() -> str | None:
    """The program for maps that are filled, if it is there."""
    if len(GIVEN) > 1:
        return GIVEN[1]
    try:
        return sources.the_filter(PROGRAM)
    except sources.Failed:
        return None


class Values(unittest.TestCase):
    """Sections of variables and constants become arrays that begin with their bytes."""

    def test_each_section_that_is_named_begins_with_its_bytes(self) -> None:
        """The lines are those of the sections' own bytes, under the names of the maps."""
        for path in [*stored("values"), *stored("tables")]:
            made, it = image.made(bytes_of(path)), Object(bytes_of(path))
            begins = {}
            for index, name in enumerate(made.names):
                section = it.names.index(name)
                self.assertTrue(is_of_values(name))
                if it.types[section] != NO_BITS:
                    begins[index] = it.bodies[section]
            with self.subTest(path):
                self.assertGreater(len(begins), 0)
                self.assertEqual(made.fill, lines_of(begins))

    def test_zeros_have_no_lines(self) -> None:
        """Images of objects whose variables begin as zeros are as they were."""
        for path in [*stored("variables"), *stored("globals"), *stored("calls")]:
            self.assertEqual(image.made(bytes_of(path)).fill, "")
        self.assertEqual(lines_of({3: bytes(8), 1: b"\0\1"}), "map 1 00000000 0001\n")

    def test_a_section_that_is_too_large_is_named(self) -> None:
        """A map's value has a limit, and a place after the section's end is no place of it."""
        it = Object(bytes_of(f"{MADE}/values.clang14.o"))
        for size, said in (
            (5000, r"its section \.data has 5,000 bytes, and a map's value has at most 4,096"),
            (4, r"byte \d+ of \.data is named in program"),
        ):
            it.sizes[it.names.index(".data")] = size
            with self.subTest(size), self.assertRaisesRegex(Refused, said):
                Linker(it, Kernel(None)).link(image.chosen(it, None, None))

    def test_an_address_in_a_value_is_named(self) -> None:
        """What is known only where the program is loaded cannot be in a value."""
        it = Object(bytes_of(f"{MADE}/values.clang14.o"))
        home, own = it.names.index(".data"), it.relocations
        at = {8: Relocation(it.symbols[1], 2)}
        with unittest.mock.patch.object(it, "relocations", lambda section: at if section == home else own(section)):
            with self.assertRaisesRegex(Refused, r"has an address, at byte 8 of \.data: a map's value has numbers"):
                Linker(it, Kernel(None)).link(image.chosen(it, None, None))

    def test_an_address_that_is_not_the_variables_own_is_named(self) -> None:
        """gcc's assembler writes a variable's address, which is 0 only at the beginning of its section."""
        it = Object(bytes_of(f"{MADE}/values.clang14.o"))
        with unittest.mock.patch.object(it, "has_addresses", lambda: True):
            with self.assertRaisesRegex(Refused, "is named in program.* by an address that is not its own"):
                Linker(it, Kernel(None)).link(image.chosen(it, None, None))

    def test_too_many_sections(self) -> None:
        """A section is a map, and an image has at most 16."""
        maps = image_maps.Maps()
        for number in range(16):
            self.assertEqual(maps.add(f".data.{number}", struct.pack("<HHII", 2, 4, 8, 1)), number)
        with self.assertRaisesRegex(Refused, "with .rodata there are 17 maps, and an image has at most 16"):
            maps.add(".rodata", struct.pack("<HHII", 2, 4, 8, 1))


class Kinds(unittest.TestCase):
    """Types of maps that become others."""

    def test_what_each_becomes(self) -> None:
        """A line says why it is exact, or what differs; a map that drops old keys only becomes another where that is
        asked for."""
        one, full = "one processor runs the filter", "an update with a new key is refused"
        for kind, becomes, exact, differs in (
            (1, 1, 0, 0),
            (2, 2, 0, 0),
            (5, 1, 1, 0),
            (6, 2, 1, 0),
            (9, 1, 0, 1),
            (10, 1, 1, 1),
        ):
            its = image_maps.map_type("a", kind, True)
            with self.subTest(kind):
                self.assertEqual((its.kind, one in its.note, full in its.note), (becomes, bool(exact), bool(differs)))
        for kind, said in ((9, r"LRU_HASH \(9\); with --lru-as-hash it becomes HASH"), (11, "there are HASH")):
            with self.subTest(kind), self.assertRaisesRegex(Refused, said):
                image_maps.map_type("a", kind, False)


class InFolder(unittest.TestCase):
    """Commands in a folder of their own."""

    def setUp(self) -> None:
        self.folder = tempfile.mkdtemp()
        self.addCleanup(shutil.rmtree, self.folder)

    def path(self, name: str) -> str:
        """A file of the folder."""
        return os.path.join(self.folder, name)

    def write(self, name: str, text: str) -> None:
        """Writes a file of the folder."""
        with open(self.path(name), "w", encoding="utf-8") as file:
            file.write(text)

    def ran(self, tool: str, *words: str) -> "subprocess.CompletedProcess[str]":
        """A tool on these words."""
        command = [PYTHON, os.path.join(TOP, "tools", tool), *words]
        return subprocess.run(command, cwd=self.folder, capture_output=True, text=True, timeout=100, check=False)


class Beside(InFolder):
    """The file of maps beside an image."""

    def test_it_is_written_and_removed(self) -> None:
        """With an image whose variables begin with values it is there, and with one without them it goes."""
        self.assertEqual(self.ran("image.py", f"{MADE}/values.clang14.o", "a.image").returncode, 0)
        self.assertIn("map 0 00000000 7011", map_files.lines_beside(self.path("a.image")))
        self.assertEqual(self.ran("image.py", f"{MADE}/variables.clang14.o", "a.image").returncode, 0)
        self.assertEqual(os.listdir(self.folder), ["a.image"])

    def test_another_image_does_not_take_it(self) -> None:
        """Its first line has the image's sum."""
        self.ran("image.py", f"{MADE}/values.clang14.o", "a.image")
        shutil.copy(f"{EXAMPLES}/pass.image", self.path("a.image"))
        for tool, more in (("xdp.py", ["--xdpvm", sys.executable]), ("object.py", ["a.o", "--unverified"])):
            said = self.ran(tool, "a.image", *more).stderr
            self.assertIn("a.image.maps: it is of another image than a.image", said)

    def test_a_file_of_another_tool_stays(self) -> None:
        """It is not written over, and not taken."""
        self.write("a.image.maps", "map 0 00000000 00\n")
        said = self.ran("image.py", f"{MADE}/values.clang14.o", "a.image")
        self.assertEqual((said.returncode, os.listdir(self.folder)), (1, ["a.image.maps"]))
        self.assertIn("a.image.maps: it is there, and image.py did not make it", said.stderr)
        self.assertEqual(self.ran("image.py", f"{MADE}/variables.clang14.o", "a.image").returncode, 0)
        self.assertEqual(map_files.lines_beside(self.path("a.image")), "")

    def test_one_that_cannot_be_read_is_named(self) -> None:
        """It is not taken for none."""
        self.ran("image.py", f"{MADE}/values.clang14.o", "a.image")
        with unittest.mock.patch.object(map_files, "open", side_effect=PermissionError(13, "no"), create=True):
            with self.assertRaises(PermissionError) as why:
                map_files.lines_beside(self.path("a.image"))
        self.assertEqual(why.exception.filename, self.path("a.image.maps"))

    def test_an_image_on_standard_output_has_no_place_for_it(self) -> None:
        """Then nothing is written."""
        said = self.ran("image.py", f"{MADE}/values.clang14.o", "-")
        self.assertEqual((said.returncode, said.stdout), (1, ""))
        self.assertIn("which are written beside the image: - has to be a file", said.stderr)

    def test_an_input_is_refused_before_anything_is_written(self) -> None:
        """Neither the image nor the file of maps may be one that is read."""
        shutil.copy(f"{MADE}/values.clang14.o", self.path("a.o"))
        for words in (["a.o", "a.o"], ["--source", "b.maps", "a.o", "b"]):
            self.write("b.maps", map_files.MARK)
            said = self.ran("image.py", *words)
            self.assertIn("it is one of the files that are read", said.stderr)
            self.assertEqual(sorted(os.listdir(self.folder)), ["a.o", "b.maps"])


class Commands(InFolder):
    """Messages of commands that do not come to a run."""

    def test_words_that_do_not_go_together(self) -> None:
        """They are named."""
        xdp, its = ["xdp.py", "--xdpvm", sys.executable], f"{EXAMPLES}/pass.image"
        for words, said in (
            ([*xdp, its, "--maps", "list.maps"], "--maps, --maps-out and --hits go with a CAPTURE"),
            ([*xdp, its, "-", "--maps", "-"], "standard input can be CAPTURE or MAPS, and not both"),
        ):
            ran = self.ran(*words)
            self.assertNotEqual(ran.returncode, 0)
            self.assertIn(said, ran.stderr)

    def test_a_program_that_is_not_there(self) -> None:
        """It is named before anything runs."""
        with unittest.mock.patch.dict(os.environ, {"XDPVM_FILTER": "nowhere"}):
            with self.assertRaisesRegex(sources.Failed, "no program nowhere, which runs a filter on maps that are filled"):
                sources.the_filter(PROGRAM)

    def test_a_script_that_has_no_values_does_not_run(self) -> None:
        """run.sh takes no values, and says so."""
        words = ["bash", f"{EXAMPLES}/run.sh", "run", "quota", "firewall"]
        with unittest.mock.patch.dict(os.environ, {"XDPVM": shutil.which("true") or ""}):
            ran = subprocess.run(words, capture_output=True, text=True, timeout=100, check=False)
        self.assertNotEqual(ran.returncode, 0)
        self.assertIn("its variables begin with values (quota.image.maps); xdp.py runs it with them", ran.stderr)

    def test_lines_of_a_map_that_is_no_section(self) -> None:
        """object.py fills sections only from the file beside an image."""
        shutil.copy(f"{EXAMPLES}/talkers.image", self.path("a.image"))
        data = bytes_of(self.path("a.image"))
        self.write("a.image.maps", map_files.first_line(data) + "map 0 c0000201 0100000000000000\n")
        said = self.ran("object.py", "--unverified", "a.image", "a.o")
        self.assertEqual((said.returncode, os.path.exists(self.path("a.o"))), (1, False))
        self.assertIn("a.image.maps: map 0 is no memory of the program's; --fill takes its lines", said.stderr)

    def test_an_object_says_what_it_begins_with(self) -> None:
        """And image.py reads the same values back."""
        self.ran("image.py", f"{MADE}/values.clang14.o", "a.image")
        said = self.ran("object.py", "--unverified", "a.image", "a.o")
        self.assertIn("a.o: map0, map1, map3 begin with the values of a.image.maps: each loader fills them in", said.stderr)
        self.assertEqual(self.ran("image.py", "a.o", "b.image").returncode, 0)
        self.assertEqual(bytes_of(self.path("a.image.maps")), bytes_of(self.path("b.image.maps")))


@unittest.skipUnless(the_filter(), "there is no program xdpvm_filter")
class Runs(InFolder):
    """xdp.py, on maps that are filled and kept."""

    def xdp(self, *words: str) -> "subprocess.CompletedProcess[str]":
        """xdp.py on these words."""
        with unittest.mock.patch.dict(os.environ, {"XDPVM_FILTER": os.path.abspath(the_filter() or "")}):
            return self.ran("xdp.py", "--xdpvm", os.path.abspath(PROGRAM), *words)

    def test_what_is_kept_goes_on(self) -> None:
        """Two runs, the second on what the first one kept, count as one run over both captures."""
        its = [f"{EXAMPLES}/talkers.image", f"{EXAMPLES}/talkers.frames"]
        first = self.xdp(*its, "sent.frames", "--maps-out", "kept.maps")
        self.assertEqual(first.returncode, 0, first.stderr)
        kept = bytes_of(self.path("kept.maps")).decode()
        self.assertTrue(kept.startswith("map 0 c0000201 0a00000000000000\n"))
        again = self.xdp(*its, "--maps", "kept.maps", "--maps-out", "-")
        self.assertEqual((again.returncode, again.stdout[:32]), (0, "map 0 c0000201 1400000000000000\n"), again.stderr)

    def test_a_refusal_has_the_line_of_the_users_file(self) -> None:
        """Though what the image begins with is given before it."""
        self.ran("image.py", f"{MADE}/values.clang14.o", "a.image")
        self.write("list.maps", "# a list\n\nmap 0 0000 00\n")
        said = self.xdp("a.image", f"{EXAMPLES}/talkers.frames", "--maps", "list.maps", "--maps-out", "kept.maps")
        self.assertEqual(said.returncode, 2, said.stderr)
        self.assertRegex(said.stdout, r"\nrefused M\d line 3 column \d+\n\Z")
        self.assertRegex(said.stderr, r"(?m)^list\.maps:3:\d+$")
        self.assertFalse(os.path.exists(self.path("kept.maps")))

    def test_a_trace_shows_lines_of_c(self) -> None:
        """Where runs stopped, by the type information of the object."""
        said = self.xdp(f"{MADE}/balance.clang14.o", f"{EXAMPLES}/two.frames", "--trace", "--limit", "3")
        self.assertEqual(said.returncode, 0, said.stderr)
        first, line = said.stderr.splitlines()[:2]
        self.assertRegex(first, "^frame 0 and 1 more, slot 3: ")
        self.assertRegex(line, r"^  .*balance\.c:\d+: BEGIN\(packet, context\);$")

    def test_outputs_are_no_inputs(self) -> None:
        """Nor one another."""
        self.write("list.maps", "")
        its = [f"{EXAMPLES}/pass.image", f"{EXAMPLES}/two.frames"]
        for words, said in (
            (["--maps", "list.maps", "--maps-out", "list.maps"], "list.maps: it is one of the files that are read"),
            (["a.frames", "--maps-out", "a.frames"], "a.frames: OUT and --maps-out are one file"),
        ):
            ran = self.xdp(*its, *words)
            self.assertEqual(ran.returncode, 1)
            self.assertIn(said, ran.stderr)
        self.assertEqual(os.listdir(self.folder), ["list.maps"])


if __name__ == "__main__":
    unittest.main(argv=sys.argv[:1])
