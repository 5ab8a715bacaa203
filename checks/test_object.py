#!/usr/bin/env python3
"""Tests of object.py that need no root: objects are read back by image.py, and by libbpf where that is installed; damaged
images and wrong map lines are refused. In the gate; `python3 checks/test_object.py` runs them.

What needs root, loading and attaching, is in attacks/interfaces.py; round trips of many images are in
attacks/object_sweep.py.
"""
import glob
import os
import subprocess
import sys
import tempfile
import unittest
import unittest.mock
from collections.abc import Mapping, Sequence

import common
from common import PYTHON, TOP, built, bytes_of, text_of, write

sys.dont_write_bytecode = True
import image
import libbpf
import object_check
import object_link
import object_load
from image_values import lines_of
from object_image import Program, Refused, Row, map_names, tags
from object_maps import Entry, Lines, dumped
from objects import Refused as Unreadable

TOOL = os.path.join(TOP, "tools/object.py")
EXAMPLES = os.path.join(TOP, "examples")
XDPVM = built()
PASS = [(0xB7, 0, 0, 0, 2), (0x95, 0, 0, 0, 0)]
HASH, ARRAY = Row(1, 4, 8, 256), Row(2, 4, 8, 2)


def stored() -> list[str]:
    return sorted(glob.glob(f"{EXAMPLES}/*.image") + glob.glob(f"{EXAMPLES}/compiled/*.image"))


def image_of(code: Sequence[tuple[int, int, int, int, int]], rows: Sequence[Row] = (), magic: bytes = b"XBP1") -> bytes:
    """An image: instructions as opcode, destination, source, offset and imm."""
    return common.image_of(b"".join(common.insn(*it) for it in code), rows, int(magic[3:]))


def value(register: int, number: int, offset: int) -> list[tuple[int, int, int, int, int]]:
    """A wide load of an address in a map's value."""
    return [(0x18, register, 6, 0, number), (0, 0, 0, 0, offset)]


def object_of(
    data: bytes,
    name: str = "xdpvm_prog",
    maps: str | None = None,
    is_pinned: bool = False,
    values: Mapping[int, bytes] | None = None,
) -> bytes:
    program = Program(data)
    wanted = object_link.Wanted(name, map_names(program, maps, name), is_pinned, None, values or {})
    return object_link.Maker(program, wanted, object_link.lines_of_listing("an.image", program, "")).object()


def ran(*words: str) -> "subprocess.CompletedProcess[str]":
    """object.py on these words, with the program that was built, or none."""
    command = [PYTHON, TOOL, "--xdpvm", XDPVM, *words]
    return subprocess.run(command, cwd=EXAMPLES, capture_output=True, text=True, timeout=100, check=False)


class Objects(unittest.TestCase):
    def test_image_py_makes_the_same_image_of_an_object(self) -> None:
        self.assertGreater(len(stored()), 50)
        for path in stored():
            whole = bytes_of(path)
            with self.subTest(path):
                self.assertEqual(image.bytes_of(image.made(object_of(whole))), whole)

    def test_sections_of_variables_keep_the_indexes_of_their_maps(self) -> None:
        code = [*value(1, 2, 8), *value(2, 0, 0), (0x18, 3, 5, 0, 1), (0, 0, 0, 0, 0), *PASS]
        for magic in (b"XBP1", b"XBP2"):
            whole = image_of(code, [Row(2, 4, 16, 1), HASH, Row(2, 4, 4096, 1), ARRAY], magic)
            for maps in (None, "a,b,c,d", "z,y,x,w"):
                self.assertEqual(image.bytes_of(image.made(object_of(whole, maps=maps))), whole)

    def test_sections_begin_with_their_values(self) -> None:
        """The object that image.py reads gives the same image, and the same map lines."""
        code = [*value(1, 2, 8), *value(2, 0, 0), (0x18, 3, 5, 0, 1), (0, 0, 0, 0, 0), *PASS]
        whole = image_of(code, [Row(2, 4, 16, 1), HASH, Row(2, 4, 4096, 1), ARRAY])
        for values in ({0: bytes(range(16))}, {2: bytes(4095) + b"\1"}, {0: b"\7" * 16, 2: b"\10" * 4096}):
            made = image.made(object_of(whole, maps="d,c,b,a", values=values))
            self.assertEqual((image.bytes_of(made), made.fill), (whole, lines_of(values)))

    def test_functions_in_another_order_are_told(self) -> None:
        code = [(0x85, 0, 1, 0, 4), (0x85, 0, 1, 0, 1), *PASS, *PASS, *PASS]  # slot 0 calls 6, slot 1 calls 4
        code[0], code[1] = (0x85, 0, 1, 0, 5), (0x85, 0, 1, 0, 2)
        whole = image_of(code)
        self.assertFalse(Program(whole).is_in_order_of_calls())
        again = image.bytes_of(image.made(object_of(whole)))
        self.assertNotEqual(again, whole)
        self.assertTrue(Program(again).is_in_order_of_calls())
        self.assertEqual(image.bytes_of(image.made(object_of(again))), again)

    def test_an_object_is_the_same_each_time(self) -> None:
        for path in stored():
            self.assertEqual(object_of(bytes_of(path)), object_of(bytes_of(path)))

    def test_damaged_images_are_refused(self) -> None:
        whole = bytes_of(f"{EXAMPLES}/talkers.image")
        for end in range(len(whole)):
            with self.assertRaises(Refused):
                object_of(whole[:end])
        for at in range(len(whole)):
            changed = bytearray(whole)
            changed[at] ^= 1 << at % 8
            try:
                image.made(object_of(bytes(changed)))
            except (Refused, Unreadable):
                pass

    def test_what_an_object_cannot_have_is_named(self) -> None:
        both = [*value(1, 0, 0), (0x18, 1, 5, 0, 0), (0, 0, 0, 0, 0), *PASS]
        for code, name, maps, said in [
            (both, "a", None, r"map 0 \(map0\) is loaded both as a map"),
            ([*value(1, 0, 0), *PASS], "a", None, "has 2 entries, not one"),
            ([(0x85, 0, 1, 0, -1), *PASS], "a", None, "slot 0 calls the program itself"),
            (PASS, "9lives", None, "'9lives' is no name"),
            (PASS, "a" * 16, None, "15 in all at most"),
            (PASS, "a", "b,c", "--maps has 2 names, and the image has 1 maps"),
            (PASS, "map0", None, "one name, map0"),
        ]:
            with self.subTest(said), self.assertRaisesRegex(Refused, said):
                object_of(image_of(code, [ARRAY]), name, maps)

    def test_libbpf_finds_the_program_and_the_maps(self) -> None:
        library = libbpf.library()
        if library is None:
            self.skipTest("there is no libbpf.so.1 (Debian: libbpf1)")
        for path in stored():
            whole = bytes_of(path)
            for is_pinned in (False, True):
                found = library.found(object_of(whole, "a_filter", is_pinned=is_pinned))
                program = Program(whole)
                with self.subTest(path):
                    self.assertEqual(found.programs, [("a_filter", "xdp", libbpf.XDP)])
                    self.assertEqual(found.rows, [program.rows[index] for index in object_link.map_order(program)])

    def test_tags_leave_the_maps_out(self) -> None:
        """Two programs that differ in the index of a map only are one to the kernel; the tags of `r0 = 2; exit`, computed
        by sha256sum and sha1sum of its sixteen bytes."""
        self.assertEqual(tags(Program(image_of(PASS))), ["614b434cd8324ecc", "3b185187f1855c4c"])
        one, other = (image_of([(0x18, 1, 5, 0, index), (0, 0, 0, 0, 0), *PASS], [HASH, HASH]) for index in (0, 1))
        self.assertEqual(tags(Program(one)), tags(Program(other)))


class MapLines(unittest.TestCase):
    rows = [HASH, ARRAY]

    def test_lines_of_a_report(self) -> None:
        text = "# a list\n\n0 PASS 54 34\n1 TRAP access 13 2\nmap 0 c0000201 0a00000000000000\nmap 1 01000000 FFFFffff00000000\n"
        text += "end 2\nfault F2 at 38\n"
        wanted = [Entry(0, bytes([192, 0, 2, 1]), b"\n" + bytes(7)), Entry(1, b"\1\0\0\0", b"\xff" * 4 + bytes(4))]
        self.assertEqual(Lines("list", self.rows).entries(text), wanted)

    def test_wrong_lines_are_refused_with_their_place(self) -> None:
        for line, said in [
            ("map 0 c00002 0a00000000000000", "list:2:7: a key of map 0 has 4 bytes, so 8 digits, and here are 6"),
            ("map 0 c0000201 0a", "list:2:16: a value of map 0 has 8 bytes, so 16 digits, and here are 2"),
            ("map 0 c00g0201 0a00000000000000", "list:2:10: 'g' is no hexadecimal digit"),
            ("map 2 c0000201 0a00000000000000", "list:2:5: there is no map 2: the image has maps 0 to 1"),
            ("map -1 c0000201 0a00000000000000", "list:2:5: there is no map -1: the image has maps 0 to 1"),
            ("map 1 02000000 0a00000000000000", "list:2:7: map 1 is an array whose last key is 01000000"),
            ("map 0 c0000201", "list:2:15: a map line has an index, a key and a value"),
            ("map", "list:2:4: a map line has an index, a key and a value"),
            ("map 0 c0000201 0a00000000000000 1", "list:2:33: nothing comes after the value"),
            ("  mapp 0", "list:2:3: this is no line of a report, and no comment"),
            ("1 pass", "list:2:1: this is no line of a report, and no comment"),
        ]:
            with self.subTest(line), self.assertRaises(Refused) as caught:
                Lines("list", self.rows).entries(f"end 0\n{line}\nend 1\n")
            self.assertEqual(str(caught.exception), said)

    def test_more_keys_than_a_map_has_room_for(self) -> None:
        lines = [Entry(0, bytes([k, 0, 0, 0]), bytes(8)).line() for k in range(3)]
        self.assertEqual(len(Lines("list", [Row(1, 4, 8, 3)]).entries("\n".join(lines + lines))), 6)
        with self.assertRaisesRegex(Refused, "list:3:7: map 0 has room for 2 keys, and this is one more"):
            Lines("list", [Row(1, 4, 8, 2)]).entries("\n".join(lines))

    def test_what_bpftool_dumps_is_in_the_order_of_a_report(self) -> None:
        def shown(keys: list[bytes]) -> bytes:
            rows = [f'{{"key":{words(key)},"value":["0x01"],"formatted":{{"key":[1],"value":1}}}}' for key in keys]
            return ("[" + ",".join(rows) + "]").encode()

        def words(data: bytes) -> str:
            return "[" + ",".join(f'"0x{it:02x}"' for it in data) + "]"

        keys = [b"\0\1\0\0", b"\2\0\0\0", b"\1\0\0\0"]
        self.assertEqual([it.key for it in dumped(3, True, shown(keys))], sorted(keys))
        self.assertEqual([it.key for it in dumped(3, False, shown(keys))], [keys[2], keys[1], keys[0]])
        self.assertEqual(dumped(3, True, shown(keys))[0].line(), "map 3 00010000 01")


class Check(unittest.TestCase):
    def test_rows_are_those_of_the_page(self) -> None:
        table = (
            text_of(os.path.join(TOP, "docs/DECISIONS.md")).split("| less strict here | Linux |\n|---|---|\n")[1].split("\n\n")[0]
        )
        self.assertEqual([f"| {row.here} | {row.linux} |" for row in object_check.ROWS], table.splitlines())

    def test_rules(self) -> None:
        deep = [(0x7A, 10, 0, -512, 0), (0x85, 0, 1, 0, 2), *PASS, (0x7A, 10, 0, -8, 0), *PASS]
        again = [(0x85, 0, 1, 0, 2), *PASS, (0x85, 0, 1, 0, -1), *PASS]
        back = [(0xBF, 2, 10, 0, 0), (0x17, 2, 0, 0, 8), *PASS]
        moved = [(0xBF, 2, 10, 0, 0), (0x07, 2, 0, 0, -500), (0x85, 0, 1, 0, 2), *PASS, (0x72, 10, 0, -1, 0), *PASS]
        loop = [(0x55, 2, 0, -1, 0), *PASS]
        for code, bound, said in [
            (PASS, 2, []),
            ([(0x67, 2, 0, 0, 64), *PASS], 3, [(True, "slot 0 shifts 64 bits by 64")]),
            ([(0xC4, 2, 0, 0, -1), *PASS], 3, [(True, "slot 0 shifts 32 bits by -1")]),
            ([(0x67, 2, 0, 0, 63), (0x6F, 2, 3, 0, 99), *PASS], 4, []),
            ([(0x94, 2, 0, 0, 0), *PASS], 3, [(True, "slot 0 divides by 0")]),
            (
                [(0xDB, 2, 1, 4, 0), (0xC3, 2, 1, 4, 0), *PASS],
                4,
                [(False, "slot 0 has an atomic instruction of 8 bytes at +4")],
            ),
            (back, 4, [(True, "slot 1 subtracts from a stack pointer")]),
            (deep, 6, [(True, "the call frames of the functions at slots 0 and 4 have 528 bytes of stack")]),
            (moved, 7, [(True, "the call frames of the functions at slots 0 and 5 have 528 bytes of stack")]),
            (again, 9, [(True, "the functions at slots 0, 3, 3, 3, 3, 3, 3, 3 and 3 are a chain of calls")]),
            (loop, 8192, []),
            (
                loop,
                8193,
                [
                    (
                        False,
                        "a run may take 8,193 instructions, with the loop that ends at slot 0: it is refused if over"
                        " 8,192 jumps of one run may go either way",
                    )
                ],
            ),
        ]:
            found = object_check.findings(Program(image_of(code)), bound)
            self.assertEqual([(it.is_sure, it.said) for it in found], said)

    def test_refusals_of_the_kernel_have_their_rows(self) -> None:
        for words, place in [
            ("invalid shift 64", 0),
            ("div by zero", 0),
            ("math between pkt pointer and register with unbounded min value is not allowed", 1),
            ("R2 min value is negative, either use unsigned index or do a if (index >=0) check.", 2),
            ("R3 subtraction from stack pointer prohibited", 3),
            ("cannot return stack pointer to the caller", 4),
            ("R3 !read_ok", 5),
            ("infinite loop detected at insn 4", 6),
            ("The sequence of 8193 jumps is too complex.", 7),
            ("BPF program is too large. Processed 1000001 insn", 7),
            ("combined stack size of 2 calls is 1024. Too large", 8),
            ("the call stack of 8 frames is too deep !", 9),
            ("R9 32-bit pointer arithmetic prohibited", 5),
            ("R8 invalid mem access 'scalar'", 5),
            ("R0 invalid mem access 'map_value_or_null'", 5),
            ("R1 pointer arithmetic on map_value_or_null prohibited, null-check it first", 5),
            ("R3 pointer arithmetic on pkt_end prohibited", 5),
            ("misaligned stack access off 0+-12+0 size 8", 5),
            ("invalid size of register spill", 5),
            ("program of this type cannot use helper bpf_unspec#0", 5),
            ("misaligned value access off 0+0+1 size 8", 10),
            ("same insn cannot be used with different pointers", 11),
            ("R2 pointer arithmetic with it prohibited for !root", 12),
        ]:
            self.assertEqual(object_check.row_of(words), object_check.ROWS[place], words)
        self.assertIsNone(object_check.row_of("unknown func 9"))


class Commands(unittest.TestCase):
    """The command line, where nothing is loaded."""

    @unittest.skipUnless(os.access(XDPVM, os.X_OK), "there is no program crates/xdpvm/out/xdpvm")
    def test_nothing_is_written_of_what_is_refused(self) -> None:
        with tempfile.TemporaryDirectory() as folder:
            old, cut = f"{folder}/old.o", f"{folder}/cut.image"
            write(old, b"old")
            write(cut, bytes_of(f"{EXAMPLES}/talkers.image")[:-1])
            for words, status, said in [
                (["unguarded.image", old], 2, "the packet bytes are not proved to be there"),
                (["damaged.image", old], 2, "slot 1"),
                ([cut, old], 1, f"{cut}: the image is damaged: its length is not that of its parts"),
                (["two.frames", old], 1, "two.frames: this is no image"),
                (["--source", "filter.text", "pass.image", old], 1, "pass.image: it is not the image of filter.text"),
                (["--maps", "a", "pass.image", old], 1, "pass.image: --maps has 1 names, and the image has 0 maps"),
                (["none.image", old], 1, "object.py: none.image: no such file or folder"),
                (["pass.image", "pass.image"], 1, "object.py: pass.image: it is one of the files that are read"),
                (
                    ["--source", "pass.text", "pass.image", "pass.text"],
                    1,
                    "pass.text: it is one of the files that are read",
                ),
            ]:
                done = ran(*words)
                with self.subTest(words):
                    self.assertEqual((done.returncode, bytes_of(old)), (status, b"old"), done.stderr)
                    self.assertIn(said, done.stderr)
                    self.assertNotIn("Traceback", done.stderr)
            self.assertEqual(sorted(os.listdir(folder)), ["cut.image", "old.o"])

    @unittest.skipUnless(os.access(XDPVM, os.X_OK), "there is no program crates/xdpvm/out/xdpvm")
    def test_lines_are_those_of_the_text(self) -> None:
        with tempfile.TemporaryDirectory() as folder:
            made = f"{folder}/made.o"
            rows: list[tuple[list[str], str, int | None, str]] = [
                (["--source", "firewall.text"], f"{EXAMPLES}/firewall.text", None, "exit"),
                ([], "firewall.image", 1, "r2 = *(u32 *)(r1 + 0)"),
            ]
            for words, file, number, text in rows:
                done = ran(*words, "firewall.image", made)
                self.assertEqual((done.returncode, done.stdout, done.stderr), (0, "", ""))
                found = image.made(bytes_of(made)).lines
                line = found[-1] if number is None else found[0]
                assert line is not None
                self.assertEqual(os.path.basename(line.file), os.path.basename(file))
                self.assertTrue(number in (None, line.number) and text in line.text, line)

    def test_arguments(self) -> None:
        for words, said in [
            (["pass.image"], "the files are IMAGE and OBJECT here, and 1 are given"),
            (["--read", "in0", "pass.image"], "the files are none here, and 1 are given"),
            (["--fill", "x", "pass.image", "x.o"], "--fill is for --load"),
            (["--load", "in0", "--by", "ip", "--keep", "pass.image"], "--fill and --keep need --by bpftool"),
            (["--load", "in0", "--pin", "pass.image"], "--pin is for objects that other loaders take"),
            (["--load", "in0", "--unload", "in0"], "not allowed with argument"),
        ]:
            done = ran(*words)
            self.assertEqual(done.returncode, 1)
            self.assertIn(said, done.stderr.splitlines()[0])

    def test_help(self) -> None:
        done = ran("--help")
        self.assertEqual(done.returncode, 0)
        self.assertRegex(done.stdout, r"(?s)^usage: python3 tools/object.py IMAGE OBJECT.*\nexamples:\n    .*exit status is ")

    def test_a_tool_that_is_not_there_is_named_with_its_package(self) -> None:
        for name, package in object_load.PACKAGES.items():
            with unittest.mock.patch("shutil.which", lambda *_, **__: None), self.assertRaises(object_load.Failed) as caught:
                object_load.tool(name)
            self.assertEqual(str(caught.exception), f"there is no {name}; Debian's package {package} has it")


if __name__ == "__main__":
    unittest.main()
