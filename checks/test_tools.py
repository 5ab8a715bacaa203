#!/usr/bin/env python3
"""Tests of frames.py, image.py, xdp.py, survey.py and kernel.py, on formats and on damaged files. In the gate;
`python3 checks/test_tools.py` runs them.

Texts of frames and objects are cut at each byte and changed byte by byte: the result is a message, never a
traceback. What kernel.py says is tested without bpf(2).
"""
import contextlib
import ctypes
import errno
import glob
import gzip
import io
import os
import struct
import subprocess
import sys
import tempfile
import unittest
import unittest.mock

sys.dont_write_bytecode = True
from common import PYTHON, TOP, bytes_of, insn, there
import frames
import image
import inputs
import kernel
import kernel_calls
import objects
import packed
import runs
import sources
import survey

HERE, EXAMPLES = f"{TOP}/tools", f"{TOP}/examples"


def content(name: str) -> bytes:
    return bytes_of(os.path.join(EXAMPLES, name))


def frames_in(text: bytes) -> tuple[list[frames.Frame], Exception | None]:
    """The frames of a text, and why reading ended early: None, or an error of frames.py."""
    found = []
    try:
        for one in frames.read_text(io.BytesIO(text).readline):
            found.append(one)
    except (frames.Damaged, inputs.NoText) as why:
        return found, why
    return found, None


def written(magic: bytes, found: list[frames.Frame]) -> bytes:
    out: list[bytes] = []
    frames.write_stream(iter(found), magic, out.append)
    return b"".join(out)


TEXT = b"""# two frames
frame 1000 interface 1 queue 2 reason 7
  0000: ca fe                                           |..|
  6f6f
frame 18446744073709551615 # without bytes
"""


class Frames(unittest.TestCase):
    def setUp(self) -> None:
        self.said: list[str] = []

        def tell(message: str) -> None:
            self.said.append(message)

        frames.tell = tell

    def test_a_text_of_frames(self) -> None:
        found = [frames.Frame(1000, 1, 2, b"\xca\xfeoo", 7), frames.Frame(2**64 - 1, 0, 0, b"")]
        self.assertEqual(frames_in(TEXT), (found, None))
        record = struct.pack("<QIIII", 1000, 1, 2, 4, 7) + b"\xca\xfeoo" + struct.pack("<QIIII", 2**64 - 1, 0, 0, 0, 0)
        self.assertEqual(written(b"XPF2", found), b"XPF2" + record)

    def test_changed_bytes_are_an_answer(self) -> None:
        for at in range(len(TEXT)):
            frames_in(TEXT[:at])
            for byte in (0, 1, 10, 32, 49, 127, 128, 255):
                frames_in(TEXT[:at] + bytes([byte]) + TEXT[at + 1 :])

    def test_a_number_of_any_length_is_an_answer(self) -> None:
        for digits, is_right in (("0" * 9000 + "7", True), ("9" * 20, False), ("9" * 21, False), ("9" * 9000, False)):
            found, why = frames_in(f"frame {digits}\n".encode())
            self.assertEqual((len(found), why is None), (is_right, is_right))

    def test_a_frame_that_is_too_long(self) -> None:
        long, short = frames.Frame(1, 0, 0, bytes(9217)), frames.Frame(2, 0, 0, b"\1")
        self.assertEqual(written(b"XPF1", [long, short]), b"XPF1" + struct.pack("<QIII", 2, 0, 0, 1) + b"\1")
        kept = struct.pack("<QIIII", 1, 0, 0, 0, 2**32 - 1) + struct.pack("<QIIII", 2, 0, 0, 1, 0)
        self.assertEqual(written(b"XPF2", [long, short]), b"XPF2" + kept + b"\1")

    def test_many_frames_that_are_too_long_are_counted(self) -> None:
        for magic in (b"XPF1", b"XPF2"):
            self.said.clear()
            written(magic, [frames.Frame(1, 0, 0, bytes(9217))] * 2003)
            self.assertEqual((len(self.said), self.said[-1]), (4, "2,000 more frames are too long"))


class PackedFiles(unittest.TestCase):
    def test_what_is_packed_comes_member_after_member(self) -> None:
        data = gzip.compress(b"one") + gzip.compress(bytes(3 << 20)) + bytes(100)
        for size in (1, 7, 1000, len(data)):
            pieces = (data[at : at + size] for at in range(0, len(data), size))
            self.assertEqual(b"".join(packed.unpacked(pieces)), b"one" + bytes(3 << 20))

    def test_what_is_damaged_from_its_beginning_is_refused(self) -> None:
        with tempfile.NamedTemporaryFile() as file:
            file.write(gzip.compress(b"XPF1")[:10] + b"\xff" * 100)
            file.flush()
            with self.assertRaisesRegex(sources.Failed, f"{file.name}: what gzip packed is damaged"):
                runs.written_unpacked(file.name, f"{file.name}.unpacked")
            os.remove(f"{file.name}.unpacked")

    def test_what_is_cut_or_damaged_comes_up_to_there(self) -> None:
        data, found = gzip.compress(b"one"), []
        for given in (data[:-1], data + data[:5], data[:12], data + b"no member"):
            with self.assertRaises(packed.Packed):
                for piece in packed.unpacked([given]):
                    found.append(piece)
        self.assertEqual(b"".join(found[:1]), b"one")


def elf(code: bytes, functions: list[str], called: str, kind: int, imm: int) -> bytes:
    """An object: the section xdp with that code, .text with functions of 16 bytes, and a call at slot 0 by a relocation."""
    names = b"\0.shstrtab\0xdp\0.text\0.symtab\0.strtab\0.relxdp\0"
    texts, symbols = b"\0", [struct.pack("<IBBHQQ", 0, 0, 0, 0, 0, 0)]

    def symbol(name: str, section: int, value: int, size: int, kind: int) -> None:
        nonlocal texts
        symbols.append(struct.pack("<IBBHQQ", len(texts), kind, 0, section, value, size))
        texts += name.encode() + b"\0"

    symbol("f", 2, 0, len(code), objects.FUNCTION_SYMBOL)
    text = b""
    for name in functions:
        symbol(name, 3, len(text), 16, objects.FUNCTION_SYMBOL)
        text += insn(0xB7, imm=len(text)) + insn(0x95)
    if kind == objects.FUNCTION_SYMBOL:
        used = 2 + functions.index(called)
    else:
        symbol("", 3 if kind == objects.SECTION_SYMBOL else 1, 0, 0, kind)
        used = len(symbols) - 1
    code = insn(0x85, 0, 1, 0, imm) + code[8:]
    bodies = [b"", names, code, text, b"".join(symbols), texts, struct.pack("<QQ", 0, used << 32 | 10)]
    kinds = [(0, 0, 0, 0), (3, 0, 0, 0), (1, 6, 0, 0), (1, 6, 0, 0), (2, 0, 5, 24), (3, 0, 0, 0), (9, 0, 4, 16)]
    head, at, rows = b"\x7fELF\2\1\1" + bytes(9), 64, []
    sections = (b"", b".shstrtab", b"xdp", b".text", b".symtab", b".strtab", b".relxdp")
    for section, (form, flags, link, size), body in zip(sections, kinds, bodies):
        place, of = names.index(section + b"\0"), 2 if form == 9 else 0
        rows.append(struct.pack("<IIQQQQIIQQ", place, form, flags, 0, at, len(body), link, of, 1, size))
        at += len(body)
    head += struct.pack("<HHIQQQIHHHHHH", 1, 247, 1, 0, 0, at, 0, 64, 0, 0, 64, len(rows), 1)
    return head + b"".join(bodies) + b"".join(rows)


CODE = bytes(8) + insn(0x95)


def call_in(data: bytes) -> tuple[int, int]:
    """The distance of the call at slot 0, and the slots of the image."""
    made = image.made(data)
    return struct.unpack_from("<i", made.slots, 4)[0], len(made.slots) // 8


class Images(unittest.TestCase):
    def test_calls_as_clang_and_gcc_write_them(self) -> None:
        for called, at in (("a", 0), ("b", 16)):
            by_section = elf(CODE, ["a", "b"], called, objects.SECTION_SYMBOL, at // 8 - 1)  # clang, static
            by_function = elf(CODE, ["a", "b"], called, objects.FUNCTION_SYMBOL, -1)  # clang, global
            by_gcc = elf(CODE, ["a", "b"], called, objects.FUNCTION_SYMBOL, at - 1)  # gcc
            for data in (by_section, by_function, by_gcc):
                self.assertEqual(call_in(data), (1, 4))
                self.assertEqual(struct.unpack_from("<i", image.made(data).slots, 20)[0], at)

    def test_functions_that_nobody_calls_stay_out(self) -> None:
        self.assertEqual(call_in(elf(CODE, ["a", "b", "c"], "c", objects.FUNCTION_SYMBOL, -1)), (1, 4))

    def test_a_call_in_another_form_is_refused(self) -> None:
        with self.assertRaisesRegex(objects.Refused, "leads to byte 8 of .text, where no function begins"):
            image.made(elf(CODE, ["a", "b"], "a", objects.SECTION_SYMBOL, 0))
        with self.assertRaisesRegex(objects.Refused, "in a form that is not known here"):
            image.made(elf(CODE, ["a"], "a", 0, -1))

    def test_damaged_objects_are_refused(self) -> None:
        data = elf(CODE, ["a", "b"], "b", objects.FUNCTION_SYMBOL, -1)
        for end in range(len(data)):
            with self.assertRaises(objects.Refused):
                image.made(data[:end])
        for at in range(len(data)):
            for byte in (0, 1, 127, 128, 255):
                try:
                    image.made(data[:at] + bytes([byte]) + data[at + 1 :])
                except objects.Refused:
                    pass


class Sources(unittest.TestCase):
    def test_slots_of_a_text(self) -> None:
        for path in sorted(glob.glob(f"{EXAMPLES}/*.text")):
            made = content(os.path.basename(path).replace(".text", ".image"))
            slots = struct.unpack_from("<H", made, 6)[0]
            with self.subTest(path):
                self.assertEqual(len(sources.Source.of_text(path).slots), slots)


class Surveys(unittest.TestCase):
    def test_an_earlier_survey_that_is_none(self) -> None:
        with tempfile.NamedTemporaryFile() as file:
            file.write(b"file,verdict\n" + b"a" * 200_000 + b",ok\n")
            file.flush()
            with self.assertRaisesRegex(sources.Failed, "it is no survey as csv"):
                survey.differences([], file.name)


class Messages(unittest.TestCase):
    """Messages name the files of the command line, and have no traceback."""

    def said(self, *words: str, status: int = 1) -> str:
        ran = subprocess.run([PYTHON, *words], cwd=EXAMPLES, capture_output=True, text=True, timeout=100, check=False)
        self.assertEqual(ran.returncode, status, ran.stderr)
        self.assertNotIn("Traceback", ran.stderr)
        return ran.stderr

    def test_help_has_examples_and_statuses(self) -> None:
        for name in ("frames", "image", "kernel", "table", "xdp"):
            ran = subprocess.run([PYTHON, os.path.join(HERE, f"{name}.py"), "--help"], capture_output=True, text=True, check=False)
            with self.subTest(name):
                self.assertEqual(ran.returncode, 0)
                self.assertRegex(ran.stdout, r"(?s)usage:.*\nexamples?:\n    .*exit status is ")

    def test_names_are_shown_without_control_characters(self) -> None:
        name = "x\n\033[31m\x9b.text"
        for tool, *words in (
            ("frames", name, "x.frames"),
            ("image", name, "x.image"),
            ("filter", "udp", f"none/{name}"),
            ("table", "show", name),
            ("object", name, "x.o"),
            ("xdp", "--xdpvm", sys.executable, name),
            ("xdp", "--xdpvm", name, "pass.image"),
            ("survey", "--survey", name, "pass.image"),
            ("frames", f"--{name}", "a", "b"),
        ):
            with self.subTest(tool):
                said = self.said(os.path.join(HERE, f"{tool}.py"), *words)
                self.assertIn(r"x\x0a\x1b[31m\x9b.text", said)
                self.assertNotRegex(said, "[\x00-\x09\x0b-\x1f\x7f-\x9f]")

    def test_the_reason_comes_before_the_usage(self) -> None:
        for tool in ("frames", "image", "filter", "kernel", "object", "survey", "xdp", "table"):
            with self.subTest(tool):
                first, second = self.said(os.path.join(HERE, f"{tool}.py"), "--none").splitlines()[:2]
                self.assertRegex(first, rf"^{tool}\.py: ")
                self.assertRegex(second, "^usage: ")

    def test_frames(self) -> None:
        tool, text = os.path.join(HERE, "frames.py"), "filters/mix.txt"
        self.assertEqual(self.said(tool, "none.text", "x.frames"), "none.text: no such file or folder\n")
        self.assertEqual(self.said(tool, "filters", "x.frames"), "filters: it is a folder\n")
        self.assertEqual(self.said(tool, text, "filters"), "filters: it is a folder\n")
        self.assertEqual(self.said(tool, text, text), f"{text}: it is one of the files that are read\n")
        for path, kind in (("firewall.pcapng", "a capture (pcapng)"), ("firewall.frames", "a frame stream")):
            wanted = f"{path}: it is {kind} and no text: xdpvm_filter convert reads it\n"
            self.assertEqual(self.said(tool, path, "x"), wanted)
        if os.path.exists("/dev/full"):
            self.assertEqual(self.said(tool, text, "/dev/full"), "/dev/full: no space is left\n")

    def test_xdp(self) -> None:
        tool = [os.path.join(HERE, "xdp.py"), "--xdpvm", sys.executable]
        self.assertIn("no.where: OUT has to end in", self.said(*tool, "pass.image", "firewall.pcapng", "no.where"))
        self.assertEqual(self.said(*tool, "filters"), "xdp.py: filters: it is a folder\n")
        self.assertEqual(self.said(*tool, "none.text"), "xdp.py: none.text: no such file or folder\n")
        self.assertIn("the filter comes first", self.said(*tool, "firewall.pcapng"))
        self.assertIn("there is no program nowhere", self.said(tool[0], "--xdpvm", "nowhere", "pass.image"))

    def test_image(self) -> None:
        tool = os.path.join(HERE, "image.py")
        self.assertEqual(self.said(tool, "pass.image", "x.image"), "pass.image: this is no object file\n")
        self.assertEqual(self.said(tool, "--source", "f.c", "pass.image", "x.image"), "f.c: this is no object file\n")
        self.assertIn("IMAGE is missing", self.said(tool, "pass.image"))

    @unittest.skipUnless(os.path.exists("/proc/self/status"), "there is no /proc")
    def test_a_long_text_is_a_stream(self) -> None:
        """100,000 frames through pipes, in less memory than they fill."""
        frame = b"frame 1\n" + b"00" * 600 + b"\n"
        code = (
            f"import re, runpy, sys; sys.path.insert(0, {HERE!r})\n"
            "sys.argv = ['frames.py', '-', '-']\n"
            f"runpy.run_path({os.path.join(HERE, 'frames.py')!r}, run_name='__main__')\n"
            "sys.stderr.write(re.search(r'VmHWM:\\s*(\\d+)', open('/proc/self/status').read())[1])"
        )
        with subprocess.Popen(
            [sys.executable, "-c", code], stdin=subprocess.PIPE, stdout=subprocess.DEVNULL, stderr=subprocess.PIPE
        ) as child:
            given, said = there(child.stdin), there(child.stderr)
            for _ in range(1000):
                given.write(frame * 100)
            given.close()
            self.assertLess(int(said.read()), 30_000)
            self.assertEqual(child.wait(), 0)


class Answers(kernel_calls.Kernel):
    """A kernel that answers each frame with an action and these bytes, and whose maps have these
    key-value pairs."""

    def __init__(self, action: int, body: bytes, entries: list[tuple[int, bytes, bytes]]) -> None:
        # pylint: disable=super-init-not-called
        self.action, self.body, self.found = action, body, entries

    def run(self, body: bytes) -> tuple[int, bytes] | None:
        return (self.action, self.body) if len(body) >= kernel_calls.LEAST else None

    def entries(self) -> list[tuple[int, bytes, bytes]]:
        return self.found


class Kernel(unittest.TestCase):
    def test_without_leave_there_is_no_kernel(self) -> None:
        for name in ("firewall", "allow"):  # without maps, and with one
            for error in (errno.EPERM, errno.ENOSYS):
                with self.subTest(name), unittest.mock.patch.object(
                    kernel_calls, "call", unittest.mock.Mock(return_value=(-error, b""))
                ):
                    with self.assertRaises(kernel_calls.NoKernel):
                        kernel_calls.Kernel(content(f"{name}.image"))

    def test_a_refusal_with_a_log_is_a_refusal(self) -> None:
        log = b"0: (b7) r0 = 1\n1: (0f) r1 += r0\nR1 pointer arithmetic prohibited\nprocessed 2 insns (limit 1000000) x\n"

        def call(_command: int, attributes: bytes) -> tuple[int, bytes]:
            room = struct.unpack_from("<Q", attributes, 32)[0]
            if room:
                ctypes.memmove(room, log, len(log))
            return -errno.EPERM, b""

        with unittest.mock.patch.object(kernel_calls, "call", call), kernel_calls.Kernel(content("firewall.image")) as there:
            self.assertEqual(there.refusal, "R1 pointer arithmetic prohibited")
            self.assertEqual(there.processed(), ", 2 instructions processed")
        self.assertEqual(
            kernel_calls.last_words(log.replace(b"R1 pointer", b"R9 32-bit pointer")), "R9 32-bit pointer arithmetic prohibited"
        )

    def test_what_differs_is_said(self) -> None:
        sent = kernel.stream_of([(1, bytes(14))])
        ran = kernel.Report(["0 PASS 14 2 0", "map 0 01 02", "end 1"], sent)
        frames_given = [(1, bytes(14))]
        alike = Answers(2, bytes(14), [(0, b"\1", b"\2")])
        self.assertEqual(kernel.differences(alike, ran, frames_given), ([], 1))
        for other, words in (
            (Answers(1, bytes(14), alike.found), "frame 0: xdpvm PASS, the kernel DROP (1)"),
            (Answers(2, bytes(13) + b"\7", alike.found), "frame 0: the bytes differ at 13: xdpvm 00, the kernel 07"),
            (Answers(2, bytes(14), []), "map 0: the key 01 with the value 02 is only of xdpvm"),
        ):
            self.assertEqual(kernel.differences(other, ran, frames_given)[0], [words])

    def test_an_image_that_names_no_map_of_its_own(self) -> None:
        unopened = kernel_calls.Kernel.__new__(kernel_calls.Kernel)
        unopened.maps = [3]
        slots = [insn(0x18, source=5, imm=1), bytes(8)]
        with self.assertRaisesRegex(ValueError, "slot 0 loads map 1, which the image does not have"):
            list(unopened.linked(slots))

    def test_a_command_that_cannot_be_done(self) -> None:
        program = sys.executable
        for words, status in ((["none.image", "two.frames"], 2), (["firewall.image", "run.sh"], 2)):
            given = ["kernel.py", *(os.path.join(EXAMPLES, word) for word in words), "--xdpvm", program]
            with self.subTest(words), unittest.mock.patch.object(sys, "argv", given), contextlib.redirect_stderr(io.StringIO()):
                self.assertEqual(kernel.main(), status)


if __name__ == "__main__":
    unittest.main()
