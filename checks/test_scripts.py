#!/usr/bin/env python3
"""Tests of laws.py, names.py, file_map.py, imports.py, edits.py, run.py, near.py and tour.py on small repositories, and of what the
attacks judge by and make. In the gate; `python3 checks/test_scripts.py` runs them."""
import argparse
import os
import random
import re
import signal
import struct
import subprocess
import sys
import tempfile
import unittest
import unittest.mock
from pathlib import Path

sys.dont_write_bytecode = True
from common import PYTHON, TOP, compiler, said_by
import damage
import edits
import file_map
import fuzz
import hostile_inputs
import imports
import in_process
import jobs
import kernel_sweep
import laws
import names
import proofs
import run
import served
import table
import tour
from attack_witnesses import witness_of
from attacks import FAMILIES, near
from near import edits_near, named

SPECS = """-- Some numbers.
use Rattle.std.specs.Prelude.{ℕ}

abbrev pub Small : ℕ → Type 0
Small n = Bounded n limit

abbrev pub Bounded : ℕ → ℕ → Type 0
Bounded n m = n ≤ m

abbrev pub limit : ℕ
limit = 9

-- cited by code
pub small_enough : (n : ℕ) → n ≤ 3 → Small n
small_enough n h = below n h

below : (n : ℕ) → n ≤ 3 → n ≤ 9
below n h = omega arith

pub idle : (n : ℕ) → Small n → n ≤ 10
idle n h = omega arith

module _ (n : ℕ) (h : n ≤ 3) where
  abbrev pub half : ℕ
  half = n

  pub half_small : Small half
  half_small = small_enough n h
"""
CODE = """//! Code.
ghost use Rattle.low.specs.Numbers.{Small, small_enough};

pub fn three() -> u32
    ensures { Small result }
{
    3
}
"""


class Tree(unittest.TestCase):
    """A repository of one crate, `low`, whose files a test changes."""

    def setUp(self) -> None:
        self.room = tempfile.TemporaryDirectory()
        self.addCleanup(self.room.cleanup)
        self.write("crates.txt", "# crates\nlow:\n")
        self.write("crates/low/specs/Lib.antt", "pub mod Numbers\n")
        self.write("crates/low/specs/Numbers.antt", SPECS)
        self.write("crates/low/src/lib.rt", CODE)

    def write(self, path: str, text: str) -> None:
        full = os.path.join(self.room.name, path)
        os.makedirs(os.path.dirname(full), exist_ok=True)
        with open(full, "w", encoding="utf-8") as file:
            file.write(text)


class Names(Tree):
    def wrong(self, *shared: str) -> list[str]:
        return [line.split(":")[0] for line in names.wrong_names(self.room.name, shared)]

    def test_a_name_of_one_crate_is_its_own(self) -> None:
        self.write("crates/low/src/more.rt", "pub struct Small;\nimpl Small {\n}\n")
        self.assertEqual(self.wrong(), [])

    def test_a_name_of_two_crates_is_found(self) -> None:
        self.write("crates/high/src/lib.rt", "#[derive(Drop)]\npub struct Small {}\nenum Half {}\n")
        self.write("crates/high/specs/Sizes.antt", "pub record Bounded (n : ℕ) : Type 0 where\n")
        self.assertEqual(self.wrong(), ["Bounded", "Small"])
        self.assertEqual(self.wrong("Small"), ["Bounded"])

    def test_tests_and_worked_examples_share_names(self) -> None:
        self.write("crates/low_tests/src/lib.rt", "pub struct Small;\n")
        self.write("crates/high/specs/Worked/Sizes.antt", "abbrev pub Bounded : ℕ → Type 0\n")
        self.assertEqual(self.wrong(), [])

    def test_a_list_has_no_name_without_need(self) -> None:
        self.assertEqual(self.wrong("Small"), ["Small"])


class Laws(Tree):
    def stray(self, each: bool = False) -> set[str]:
        return {name for _, name, needed in laws.Cited(self.room.name, each).laws() if not needed}

    def test_a_law_that_no_code_cites_is_found(self) -> None:
        self.assertEqual(self.stray(), {"idle", "half_small"})

    def test_what_a_cited_law_rests_on_stays(self) -> None:
        self.write("crates/low/src/lib.rt", CODE.replace(", small_enough", ""))
        self.assertEqual(self.stray(), {"small_enough", "below", "idle", "half_small"})

    def test_a_module_with_parameters_counts_as_a_whole(self) -> None:
        self.write("crates/low/src/lib.rt", CODE.replace("{ Small result }", "{ half }").replace("{Small", "{half, Small"))
        self.assertEqual(self.stray(), {"idle"})
        self.assertEqual(self.stray(each=True), {"idle", "half_small"})

    def test_names_are_followed_through_lib_and_other_names(self) -> None:
        self.write("crates/low/specs/Lib.antt", "pub mod Numbers\npub use Rattle.low.specs.Numbers.{idle}\n")
        self.write("crates/low/src/more.rt", "ghost use Rattle.low.specs.{idle as lazy};\n")
        self.assertEqual(self.stray(), {"half_small"})
        self.write("crates/low/src/more.rt", "ghost use Rattle.low.specs.Numbers as numbers;\nensures { numbers.idle }\n")
        self.assertEqual(self.stray(), {"half_small"})

    def test_comments_cite_nothing(self) -> None:
        self.write("crates/low/src/more.rt", "ghost use Rattle.low.specs.Numbers as numbers;\n// numbers.idle\n/// numbers.idle\n")
        self.assertEqual(self.stray(), {"idle", "half_small"})

    def test_operators_are_names(self) -> None:
        self.write("crates/low/specs/Signs.antt", "use Rattle.low.specs.Numbers.{idle}\nabbrev pub ◌=<◌ : ℕ\na =< b = idle\n")
        self.write("crates/low/src/more.rt", "ghost use Rattle.low.specs.Signs.{◌=<◌};\nensures { 1 =< 2 }\n")
        self.assertEqual(self.stray(), {"half_small"})

    def test_worked_examples_stay(self) -> None:
        self.write("crates/low/specs/Worked/Examples.antt", "two : 1 + 1 ≡ 2\ntwo = refl\n")
        self.assertEqual(self.stray(), {"idle", "half_small"})


PAGE = """# Map

| crate | has |
|---|---|
| `low` | numbers |

## Low

### low

Its code is in `src/lib`, and `specs/Num*` has the definitions.
"""


class Map(Tree):
    def wrong(self, page: str = PAGE) -> list[str]:
        self.write("docs/ARCHITECTURE.md", page)
        return [" ".join(line.split()[1:3]) for line in file_map.wrong(Path(self.room.name))]

    def test_a_page_that_fits(self) -> None:
        self.assertEqual(self.wrong(), [])
        self.assertEqual(self.wrong("| `low` | numbers |\n"), [])

    def test_what_is_missing_on_the_page(self) -> None:
        self.assertEqual(self.wrong(PAGE.replace("| `low` |", "| low |")), ["not in"])

    def test_what_is_missing_in_the_tree(self) -> None:
        self.assertEqual(self.wrong(PAGE.replace("`specs/Num*`", "`specs/Num*`, `specs/Sets`")), ["specs/Sets is"])
        self.assertEqual(self.wrong(PAGE.replace("### low", "### high").replace("`specs/Num*`", "`specs/Sets`")), [])

    def test_a_file_says_what_it_has(self) -> None:
        self.write("crates/low/src/sums.rt", "//! Sums.\n//!\n//! More.\n")
        self.write("crates/low/specs/Code.antt", "pub mod Sets\n")
        self.write("crates/low/specs/Code/Sets.antt", "use Sums\n")
        self.write("crates/low/proofs/sums/add/Answers.antt", "use Sums\n")
        self.assertEqual(self.wrong(), ["specs/Code/Sets does"])
        self.assertEqual(file_map.first_line(Path(self.room.name) / "crates/low/src/sums.rt"), "Sums.")


ONE = struct.pack("<QIII", 1000, 1, 0, 2) + b"\xca\xfe"
FIRST, SKIPPED = struct.pack("<QIIII", 1000, 1, 0, 2, 0) + b"\xca\xfe", struct.pack("<QIIII", 2000, 1, 0, 0, 7)


COUNTS = """//! Counts.
use crate::Count;

const MOST: u32 = 9;

impl Count {
    /// One more.
    pub fn next(self) -> u32
        requires { self.0 < 9 }
    {
        self.0 + 1
    }
}

impl From<Count> for u32 {
    fn from(count: Count) -> u32 {
        count.0
    }
}

fn most() -> u32 {
    MOST
}

fn down(n: u32) -> u32 {
    if n == 0 { 0 } else { down(n - 1) }
}

pub trait Counted {
    fn count(&self) -> u32 {
        0
    }
}
"""

TWICE = (("", "None"), ("<T: Drop>", "low::Failed<T>"))


class Imports(unittest.TestCase):
    """A crate with three proofs that import from the same files, and one that does not."""

    def test_what_three_files_import_is_passed_on(self) -> None:
        with tempfile.TemporaryDirectory() as top:
            folder = Path(top, "one/proofs")
            folder.mkdir(parents=True)
            with unittest.mock.patch.object(imports, "CRATES", Path(top)):
                for name in "ABC":
                    rest = "use Rattle.low.specs.Rare.{rare}\n" if name == "A" else ""
                    (folder / f"{name}.antt").write_text(
                        f"-- a law\nuse Rattle.low.specs.Many.{{x, {name}}}\n{rest}use Rattle.one.specs.Own.{{y}}\n\nlaw : y\n"
                    )
                (folder / "D.antt").write_text("use Rattle.one.specs.Own.{y}\n")
                (folder / "Lib.antt").write_text("mod A\nmod B\nmod D\n")
                texts = imports.changes("one", {})
                for path, text in texts.items():
                    path.write_text(text)
                self.assertEqual({it.name for it in texts}, {"A.antt", "B.antt", "C.antt", "Common.antt", "Lib.antt"})
                self.assertEqual(
                    texts[folder / "A.antt"].splitlines()[1:3],
                    ["use Rattle.one.proofs.Common.{x, A, y}", "use Rattle.low.specs.Rare.{rare}"],
                )
                self.assertEqual(
                    texts[folder / "Common.antt"].splitlines()[1:],
                    ["pub use Rattle.low.specs.Many.{x, A, B, C}", "pub use Rattle.one.specs.Own.{y}"],
                )
                self.assertEqual(texts[folder / "Lib.antt"], "mod A\nmod B\nmod Common\nmod D\n")
                self.assertEqual(imports.changes("one", {}), {})


class Edits(Tree):
    """A crate with a type whose methods are in another file."""

    def setUp(self) -> None:
        super().setUp()
        self.write("crates/low/src/lib.rt", CODE + "\npub struct Count(u32);\n")
        self.write("crates/low/src/counts.rt", COUNTS)
        self.folder = os.path.join(self.room.name, "crates/low")

    def edit(self, name: str, *lines: str) -> str:
        self.write(f"edits/{name}", "file: src/counts.rt\n" + "".join(f"{line}\n" for line in lines))
        return os.path.join(self.room.name, "edits", name)

    def test_the_functions_that_an_edit_changes(self) -> None:
        more = self.edit("more", "old:         self.0 + 1", "new:         self.0 + 2")
        other = self.edit("other", "old:         count.0", "new:         0")
        ten = self.edit("ten", "old: u32 = 9", "new: u32 = 10")
        named = self.edit("named", "# refused in: counts::most", "old: u32 = 9", "new: u32 = 10")
        changed = [edits.changed_functions(self.folder, path) for path in (more, other, ten, named)]
        self.assertEqual(changed, [({"Count::next"}, True), ({"u32From::from"}, True), (set(), False), ({"counts::most"}, False)])
        rounds = [[names for _, names in listed] for listed in edits.in_rounds(self.folder, [more, named, other, more])]
        self.assertEqual(rounds, [[{"Count::next"}, {"u32From::from"}], [{"counts::most"}], [{"Count::next"}]])

    def test_a_trait_that_a_type_has_twice_is_named_with_its_type(self) -> None:
        lines = (f"impl{its} From<{other}> for Own {{\n    fn from(it: {other}) -> Own {{\n    }}\n}}\n" for its, other in TWICE)
        found = [edits.shown("src/own.rt", it) for it in edits.functions("".join(lines))]
        self.assertEqual(found, ["OwnFromNone::from", "OwnFromFailed::from"])
        given = "impl<'a, W: Write + 'a> Report for W {\n    fn hand_on(&self) {\n    }\n}\n"
        self.assertEqual([edits.shown("src/own.rt", it) for it in edits.functions(given)], ["AnyReport::hand_on"])

    def test_functions_that_are_left_open(self) -> None:
        found = {folder: (file, first, last) for file, first, last, folder in edits.open_functions(self.folder)}
        self.assertEqual(sorted(found), ["Count/next", "counts/most", "three"])
        for folder, was in (("Count/next", "        self.0 + 1\n"), ("counts/most", "    MOST\n")):
            _, first, last = found[folder]
            self.assertEqual(edits.emptied(COUNTS, first, last), COUNTS.replace(was, "unreachable!()\n"))
        header = "fn one(\n    n: u32,\n) -> u32 {\n    if n == 0 {\n        return 1;\n    }\n    n\n}"
        self.assertEqual(edits.emptied(header, 0, 7), header[: header.index("    if")] + "unreachable!()\n\n\n\n}")
        self.assertEqual(edits.emptied("fn none() {}", 0, 0), "fn none() {}")

    def test_edits_that_cannot_be_made(self) -> None:
        lost = self.edit("lost", "old: self.1", "new: self.0")
        self.assertEqual(edits.edited(self.folder, edits.changes(lost))[1], "its file has 0 times: self.1")
        texts, why = edits.edited(self.folder, edits.changes(self.edit("more", "old:         self.0 + 1", "new: 1")))
        self.assertEqual((why, texts["src/counts.rt"].count("self.0 + 1")), (None, 0))

    def test_what_counts_as_a_refusal(self) -> None:
        texts = {"src/counts.rt": COUNTS}
        fails = "fn low::Count::next: not proved"
        goal = "./proofs/Count/next/Answers.antt:3:5: error: `returns`: `omega`: the goal does not follow"
        note = "note: src/counts.rt:11:9: it is not proved that what the function ensures holds"
        by_name = "./proofs/Count/next/Answers.antt:3:5: error: module `Goals` has no `returns-in-Ok`"
        beside = "./proofs/counts/most/Answers.antt:3:5: error: `returns`: no proof"
        told = "fn low::Count::next: no proof: expected answers; `search` did not prove `returns`"
        itself = goal.replace("Count/next", "Count/+next")
        for said, wanted in (
            ([goal, fails], goal),
            ([note, fails], note),
            ([itself, fails], itself),
            ([by_name, fails], None),
            ([goal.replace("the goal does not follow", "record `Next` (nearest: .in-Ok)"), "  has no field `in-Err`", fails], None),
            ([beside, fails], None),
            ([told], told),
            ([goal, "fn low::Count::next: depends on a hole in `x`"], None),
            ([goal, "fn low::counts::next: not proved"], None),
        ):
            self.assertEqual(edits.refusal("low", "Count::next", said, texts), wanted, said)
        above = {"src/counts.rt": COUNTS.replace("    pub fn next", "    #[inline]\n    #[tactic(auto)]\n    pub fn next")}
        there = [note.replace(":11:9:", f":{line}:5:") for line in (7, 8, 9)]
        self.assertEqual([edits.refusal("low", "Count::next", [it, fails], above) for it in there], [None, there[1], there[2]])

    def tried(self, open_ones: str, bad: str) -> list[str]:
        """The lists in which four edits are tried, where one does not compile, and others are not refused."""
        tried: list[str] = []

        def together(_: str, listed: list[tuple[str, set[str]]], *_rest: str) -> dict[str, str]:
            paths = "".join(path for path, _ in listed)
            tried.append(paths)
            return {it: "why" for it in paths if it in open_ones or (bad and bad in paths)}

        with unittest.mock.patch.object(run, "try_together", together):
            found = dict(run.try_listed("low", [(it, {it}) for it in "abcd"], "", ""))
        self.assertEqual({it for it, why in found.items() if why}, set(open_ones + bad))
        return tried

    def test_edits_that_are_not_seen_to_be_refused_are_tried_again(self) -> None:
        self.assertEqual(self.tried("", ""), ["abcd"])
        self.assertEqual(self.tried("b", ""), ["abcd", "b"])
        self.assertEqual(self.tried("", "c"), ["abcd", "ab", "cd", "c", "d"])


class Near(unittest.TestCase):
    """Functions of this repository, by the names that are asked for."""

    def test_a_function_is_named_as_the_folder_of_its_proof_is(self) -> None:
        self.assertEqual(named("known_bits::bits::Bits::below"), ("known_bits", {"Bits::below"}))
        self.assertEqual(named("known_bits::bits::ones"), ("known_bits", {"bits::ones"}))
        self.assertEqual(named("flatmem::get16"), ("flatmem", {"get16"}))
        self.assertEqual([named(it)[1] for it in ("known_bits::Bits::other", "known_bits::elow", "nowhere::get16")], [set()] * 3)

    def test_edits_of_the_gate_and_others(self) -> None:
        found = edits_near("known_bits", {"Bits::below", "Bits::meet"})
        wanted = ["crates/known_bits/must-fail/meet_loses_members.edit", "assurance/known_bits/below_at_equal_limits.edit"]
        self.assertEqual([os.path.relpath(it, TOP) for it in found], wanted)


class Tour(unittest.TestCase):
    """A block of the tour on a file, without a prover."""

    def block(self, *lines: str) -> tuple[tour.Block, list[str]]:
        room = tempfile.TemporaryDirectory()
        self.addCleanup(room.cleanup)
        Path(room.name, "a.rt").write_text("one two\n", encoding="utf-8")
        block = tour.Block("low", "".join(f"{line}\n" for line in lines))
        return block, block.functions(room.name)

    def test_a_check_has_to_print_its_lines_in_their_order(self) -> None:
        for said, is_fine in (
            (["note: a is b", "fn low::one: not proved"], True),
            (["fn low::one: not proved", "note: a is b"], False),
            (["note: a is b"], False),
        ):
            block, asked = self.block("$ sed -i s/one/1/ a.rt", "$ rt check --only one", "note: a .. b", "fn low::one: not proved")
            self.assertEqual(asked, ["one"])
            block.compare(asked, said)
            self.assertEqual(block.wrong == "", is_fine, block.wrong)

    def test_a_check_without_lines_proves_its_functions(self) -> None:
        for said, is_fine in ((["fn low::one: proved"], True), (["fn low::one: not proved"], False)):
            block, asked = self.block("$ rt check --only one")
            block.compare(asked, said)
            self.assertEqual(block.wrong == "", is_fine, block.wrong)

    def test_other_commands_and_changes_of_nothing_are_wrong(self) -> None:
        for lines in (["$ sed -i s/three/3/ a.rt", "$ rt check --only one"], ["$ rt verdict"], ["rt check --only one"]):
            block, asked = self.block(*lines)
            self.assertEqual(asked, [])
            self.assertNotEqual(block.wrong, "")


class Attacks(unittest.TestCase):
    def test_the_judge_of_streams(self) -> None:
        """The reports that docs/FORMATS.md wants."""
        for stream, lines, sent in (
            (b"", ["fault F1 at 0"], b"XPF1"),
            (b"XPF3", ["fault F1 at 0"], b"XPF1"),
            (b"XPF1", ["end 0"], b"XPF1"),
            (b"XPF1" + ONE, ["0 PASS 2 2", "end 1"], b"XPF1" + ONE),
            (b"XPF1" + ONE + b"\0", ["0 PASS 2 2", "fault F2 at 26"], b"XPF1" + ONE),
            (b"XPF1" + ONE[:-1], ["fault F4 at 4"], b"XPF1"),
            (b"XPF1" + struct.pack("<QIII", 0, 0, 0, 4097), ["fault F3 at 4"], b"XPF1"),
            (b"XPF2" + FIRST + SKIPPED, ["0 PASS 2 2 0", "1 SKIP 0 0 7", "end 2"], b"XPF2" + FIRST + SKIPPED),
            (b"XPF2" + struct.pack("<QIIII", 0, 0, 0, 9217, 1), ["fault F3 at 4"], b"XPF2"),
        ):
            with self.subTest(stream):
                self.assertEqual(damage.judged(stream), (lines, sent))

    def test_each_family_makes_texts(self) -> None:
        for name, family in FAMILIES.items():
            for seed in range(100):
                text = family(random.Random(f"{name} {seed}"))
                self.assertTrue(any("exit" in line for line in text), name)
                self.assertEqual(witness_of(text) is not None, name in ("witnesses", "loops"))

    def test_numbers_near_those_of_a_text(self) -> None:
        words = near(["r2 = 4294967301 ll", "if w7 s> -2 goto +1", "r0 = *(u64 *)(r10 - 8)"])
        self.assertEqual(words, [0, 1, 2, 4, 5, 6, 7, 8, 9, 2**32 - 3, 2**32 - 2, 2**32 - 1])

    def test_each_damage_of_a_table(self) -> None:
        """Each makes another table, or none; the entries that it was made of stay as they are."""
        with open(os.path.join(TOP, "examples/pass.table"), "rb") as file:
            data = file.read()
        proof = proofs.Proof(b"", data)
        self.assertEqual(proof.bytes_of(proof.entries), data)
        proofs.OTHERS[:] = [table.Entry(1, 0)]
        for damage_of in proofs.DAMAGES:
            made = set()
            for seed in range(40):
                entries = list(proof.entries)
                damage_of(random.Random(seed), entries)
                made.add(proof.bytes_of(entries))
            with self.subTest(damage_of.__name__):
                self.assertTrue(made - {data} or damage_of in (proofs.renamed, proofs.respilled))
        self.assertEqual(table.table_bytes(proof.entries), data)

    def test_another_program_is_one(self) -> None:
        with open(os.path.join(TOP, "examples/firewall.image"), "rb") as file:
            image = file.read()
        others = {proofs.other_program(random.Random(seed), image) for seed in range(50)}
        self.assertGreater(len(others - {image}), 30)
        self.assertTrue(all(len(other) == len(image) and other[:8] == image[:8] for other in others))


class Traced:
    """Stands for the library: each traced run ends with one of these, and turns the packet's first byte."""

    def __init__(self, *ends: tuple[int, int, int, int]) -> None:
        self.ends = list(ends)

    def trace(self, image: bytes, head: in_process.Head, packet: bytes) -> in_process.Ended:  # pylint: disable=unused-argument
        return *self.ends.pop(0), bytes([packet[0] ^ 255]) + packet[1:]


class InProcess(unittest.TestCase):
    def test_the_report_of_traced_runs(self) -> None:
        """What docs/FORMATS.md says of actions, reasons and frames out."""
        turned = b"\x35\xfe"

        def record(reason: int) -> bytes:
            return struct.pack("<QIIII", 1000, 1, 0, 2, reason)

        first = struct.pack("<QIII", 1000, 1, 0, 2)
        for image, stream, ends, lines, sent in (
            (
                b"XBP1",
                b"XPF1" + ONE * 3,
                [(2, 5, 0, 0), (1, 6, 0, 0), (9, 7, 0, 0)],
                ["0 PASS 2 5", "1 DROP 2 6", "2 INVALID 2 7", "end 3"],
                b"XPF1" + first + turned,
            ),
            (
                b"XBP1",
                b"XPF2" + FIRST + SKIPPED + FIRST,
                [(3 | 7 << 32, 5, 0, 0), (1 | 7 << 32, 5, 0, 0)],
                ["0 TX 2 5 0", "1 SKIP 0 0 7", "2 DROP 2 5 1", "end 3"],
                b"XPF2" + record(0) + turned + SKIPPED + record(1) + turned,
            ),
            (
                b"XBP2",
                b"XPF2" + FIRST + FIRST,
                [(1 | 7 << 32, 5, 0, 0), (4, 5, 0, 0)],
                ["0 DROP 2 5 7", "1 REDIRECT 2 5 1", "end 2"],
                b"XPF2" + record(7) + turned + record(1) + turned,
            ),
            (b"XBP1", b"XPF1" + ONE * 2, [(0, 5, 1, 4), (0, 9, 2, 0)], ["0 TRAP 4 5", "1 LIMIT 0 9", "end 2"], b"XPF1"),
        ):
            with self.subTest(lines=lines):
                self.assertEqual(in_process.traced(Traced(*ends), image, stream), ("\n".join([*lines, ""]).encode(), sent))

    def test_a_job_that_dies_is_found(self) -> None:
        def dies(_run: in_process.Run, seed: int, _folder: str) -> tuple[str | None, str]:
            if seed == 2:
                os._exit(1)  # pylint: disable=protected-access
            return None, "V1"

        asked = argparse.Namespace(jobs=2, seed=1, programs=4, program="", library=None, explored=1, keep="")
        self.assertEqual(fuzz.spread(asked, "seed", lambda run, seed, folder: (None, "V1")), ({"V1": 4}, 0))
        out, sys.stdout = sys.stdout, open(os.devnull, "w", encoding="utf-8")
        with sys.stdout, tempfile.TemporaryDirectory() as folder, unittest.mock.patch.object(jobs, "MEMORY", folder):
            told = fuzz.spread(asked, "seed", dies)
            self.assertEqual(len(os.listdir(folder)), 1)
        sys.stdout = out
        self.assertEqual(told, ({"V1": 2}, 1))

    def test_verdicts_that_a_row_is_about(self) -> None:
        it = kernel_sweep.Comparison.__new__(kernel_sweep.Comparison)
        for ours, refusal, has in (
            ("refused V13", None, True),
            ("refused V5", None, False),
            ("no verdict", None, False),
            ("ok", "invalid shift 64", True),
            ("ok", "unknown func 9", False),
        ):
            it.ours = ours
            self.assertEqual(it.has_row(refusal), has, (ours, refusal))


# It keeps its words at its beginning, as programs of the toolchain do, and ends by a signal or never where it is asked to.
SERVED = """
#include <string.h>
#include <signal.h>
#include <unistd.h>
static int count;
static char **kept;
__attribute__((constructor)) static void keep(int many, char **words) { count = many, kept = words; }
static void say(int to, const char *text) { if (write(to, text, strlen(text)) < 0) raise(SIGABRT); }
int main(void) {
    if (!strcmp(kept[1], "end")) raise(SIGTERM);
    while (!strcmp(kept[1], "wait")) pause();
    say(1, kept[0]), say(2, kept[count - 1]);
    return count;
}
"""


class Served(unittest.TestCase):
    def test_one_process_does_many_command_lines(self) -> None:
        with tempfile.TemporaryDirectory() as folder:
            program = os.path.join(folder, "program")
            subprocess.run([compiler(), "-x", "c", "-o", program, "-"], input=SERVED.encode(), check=True)
            asked = served.Served()
            for words in (["one"], ["one", "two"], ["x" * 9_000]):
                ran = asked.ran([program, *words], 60)
                self.assertEqual(
                    (ran.returncode, ran.stdout, ran.stderr), (1 + len(words), program.encode(), words[-1].encode()), words
                )
            child = asked.running[program]
            self.assertEqual(asked.ran([program, "end"], 60).returncode, -signal.SIGTERM)
            self.assertEqual(asked.ran([program, "again"], 60).stdout, program.encode())
            self.assertNotIn(child, asked.running.values())
            with self.assertRaises(subprocess.TimeoutExpired):
                asked.ran([program, "wait"], 0.1)
            self.assertEqual(asked.running, {})


class Hostile(unittest.TestCase):
    def test_keys_of_one_hash(self) -> None:
        with open(os.path.join(TOP, "crates/map_indexes/src/hashing.rt"), encoding="utf-8") as file:
            spread = re.findall("SPREAD: u64 = (0x[0-9a-f_]+)", file.read())
        self.assertEqual(int(spread[0].replace("_", ""), 16), hostile_inputs.SPREAD)
        keys = hostile_inputs.one_chain_keys(300, 16)
        self.assertEqual((len(set(keys)), len({hostile_inputs.hash_of(key) for key in keys})), (300, 1))
        self.assertTrue(all(len(key) == 16 for key in keys))


class WithoutProgram(unittest.TestCase):
    """A script says which program is not there."""

    def test_each_script(self) -> None:
        for script, *words in (
            ("attacks/break", "/nowhere"),
            ("attacks/break_filter", "/nowhere"),
            ("attacks/break_survey", "/nowhere"),
            ("attacks/devices", "/nowhere"),
            ("attacks/endless", "/nowhere"),
            ("attacks/expression_sweep", "--program", "/nowhere"),
            ("attacks/hostile", "/nowhere"),
            ("attacks/hostile_inputs", "/nowhere"),
            ("attacks/interfaces", "--program", "/nowhere"),
            ("attacks/object_sweep", "stored", "--program", "/nowhere"),
            ("attacks/pipes", "/nowhere"),
            ("attacks/proofs", "--program", "/nowhere"),
            ("attacks/terminal", "/nowhere"),
            ("bench/fill", "--xdpvm", "/nowhere"),
            ("bench/keys", "/nowhere"),
            ("bench/proving", "/nowhere"),
            ("bench/recheck", "/nowhere"),
            ("bench/speed", "/nowhere"),
            ("bench/steps", "/nowhere"),
            ("checks/filters", "/nowhere"),
            ("tests/captures", "/nowhere"),
            ("tests/cases", "--xdpvm", "/nowhere"),
            ("tests/object_files", "/nowhere"),
            ("tests/tcpdump", "/nowhere"),
        ):
            with self.subTest(script):
                status, said = said_by([PYTHON, os.path.join(TOP, f"{script}.py"), *words])
                self.assertIn(status, (1, 2))
                self.assertIn("there is no program /nowhere", said)
                self.assertNotIn("Traceback", said)


class Here(unittest.TestCase):
    def test_this_repository_has_laws_that_code_cites(self) -> None:
        needed = [name for _, name, needed in laws.Cited(TOP, each=False).laws() if needed]
        self.assertGreater(len(needed), 10)


if __name__ == "__main__":
    unittest.main()
