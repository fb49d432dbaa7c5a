"""The command: what it prints, what it writes, and its exit status.

SUMPROOF is the command to run, LEDGER the example client in C; each may be
several words, as an emulator and a program.
"""

import os
import pathlib
import shlex
import struct
import subprocess
import tempfile
import unittest
from random import Random

HERE = pathlib.Path(__file__).resolve().parent
SUMPROOF = shlex.split(os.environ["SUMPROOF"])
LEDGER = shlex.split(os.environ["LEDGER"])
P = 2147483647
MODULO = f" modulo {P}"
NOISE = [b"", b"0", b"9", b"\n", b",", b" ", b"=", b"-", b"#", b"\xff", b"99999999999", b"\0"]
PROOF = (
    "sumproof=1\nfield=2147483647\nvars=2\ndegree=2\nclaim=6\n"
    "round=4,0,2147483645\nround=2147483629,30,2147483639\nend=2\n"
)
SHOWN = """\
  vars    2
  degree  2
  claim   6 modulo 2147483647

  round  s(0) + s(1)           1   X         X^2
      1            6           4   0  2147483645
      2   2147483633  2147483629  30  2147483639
"""


class Command(unittest.TestCase):
    def setUp(self):
        self.folder = tempfile.TemporaryDirectory()
        self.addCleanup(self.folder.cleanup)
        self.write("a.txt", "0 1\n2 0\n")
        self.write("b.txt", "3,4,1,2 # the second table\n")
        self.write("c.txt", "3\n1\n")
        self.write("p", PROOF)

    def path(self, name):
        return pathlib.Path(self.folder.name) / name

    def write(self, name, text):
        data = text if isinstance(text, bytes) else text.encode()
        self.path(name).write_bytes(data)

    def run_words(self, words, status, **more):
        run = subprocess.run(words, cwd=self.folder.name, capture_output=True, **more)
        out, err = run.stdout.decode(), run.stderr.decode()
        self.assertEqual(run.returncode, status, (words, out, err))
        self.assertNotIn("panicked", err)
        return out, err

    def good(self, line, status=0):
        """Output only."""
        out, err = self.run_words(SUMPROOF + line.split(), status)
        self.assertEqual(err, "")
        return out

    def bad(self, line):
        """One sentence on standard error, nothing else, status 2."""
        out, err = self.run_words(SUMPROOF + line.split(), 2)
        self.assertEqual(out, "")
        self.assertTrue(err.startswith("sumproof: ") and err.count("\n") == 1, err)
        return err[len("sumproof: "):-1]


class Working(Command):
    def test_prove(self):
        said = self.good("prove --table a.txt b.txt --challenges c.txt --out q")
        self.assertEqual(said, f"claim 6{MODULO}, 2 rounds, 110 bytes in q\n")
        self.assertEqual(self.path("q").read_text(), PROOF)

    def test_check(self):
        said = self.good("check p --table a.txt --table b.txt --challenges c.txt")
        self.assertEqual(said, f"accepted: the claim 6{MODULO} passed 2 rounds and the final check\n")

    def test_check_rejects_a_sum(self):
        self.write("p", PROOF.replace("claim=6", "claim=7"))
        said = self.good("check p --table a.txt b.txt --challenges c.txt", 1)
        reason = "its sum is not the running claim"
        self.assertEqual(said, f"rejected in round 1: {reason} (claim 7{MODULO})\n")

    def test_check_rejects_the_last_value(self):
        self.write("a.txt", "0 1 2 1")
        said = self.good("check p --table a.txt b.txt --challenges c.txt", 1)
        reason = "the sums hold in 2 rounds, but the final check fails"
        self.assertEqual(said, f"rejected in round 2: {reason} (claim 6{MODULO})\n")

    def test_show(self):
        self.assertEqual(self.good("show p"), SHOWN)

    def test_sum(self):
        self.assertEqual(self.good("sum --table a.txt b.txt"), f"6{MODULO}\n")
        self.assertEqual(self.good("sum --table b.txt"), f"10{MODULO}\n")
        self.assertEqual(self.good("sum --table b.txt b.txt b.txt"), f"100{MODULO}\n")

    def test_sum_is_a_remainder(self):
        self.write("high.txt", f"{P - 1} 5")
        self.assertEqual(self.good("sum --table high.txt"), f"4{MODULO}\n")
        # 3 - 10 is -7.
        self.write("debt.txt", f"3 {P - 10}")
        self.assertEqual(self.good("sum --table debt.txt"), f"{P - 7}{MODULO}\n")

    def test_one_number(self):
        self.write("one.txt", "35")
        self.write("none.txt", "")
        self.good("prove --table one.txt --challenges none.txt --out q")
        self.good("check q --table one.txt --challenges none.txt")
        self.assertEqual(self.good("show q"), f"  vars    0\n  degree  1\n  claim   35{MODULO}\n")

    def test_binary(self):
        self.write("b.u32", struct.pack("<4I", 3, 4, 1, 2))
        self.write("plain", struct.pack("<4I", 3, 4, 1, 2))
        self.assertEqual(self.good("sum --table a.txt b.u32"), f"6{MODULO}\n")
        self.assertEqual(self.good("sum --binary --table plain"), f"10{MODULO}\n")

    def test_pad(self):
        self.write("five.txt", "1 2 3 4 5")
        self.assertEqual(self.good("sum --pad --table five.txt"), f"15{MODULO}\n")
        self.assertEqual(self.good("sum --pad --table five.txt b.txt"), f"22{MODULO}\n")

    def test_progress_for_long_work(self):
        self.write("long.txt", "\n".join(str(x) for x in range(1 << 14)))
        total = f"{sum(range(1 << 14))}{MODULO}"
        out, err = self.run_words(SUMPROOF + "sum --table long.txt".split(), 0)
        self.assertEqual(out, f"{total}\n")
        self.assertIn("16384 numbers", err)
        self.assertEqual(self.good("sum --quiet --table long.txt"), f"{total}\n")

    def test_help(self):
        said = self.good("--help")
        for word in ["check", "prove", "show", "sum", "demo", "Examples", "Exit status"]:
            self.assertIn(word, said)
        for rule in ["modulo p = 2147483647", "only\nthe remainder is proved", "written as p - b"]:
            self.assertIn(rule, said)
        for words in ["help", "-h", "check --help", "sum --table x --help"]:
            self.assertEqual(self.good(words), said)

    def test_demo(self):
        self.assertEqual(self.good("demo"), (HERE / "demo.txt").read_text())


class BadUsage(Command):
    def test_words(self):
        self.assertIn("no command is given", self.bad(""))
        self.assertIn('no command "chek"', self.bad("chek p"))
        self.assertIn('no option "--tabel"', self.bad("sum --tabel a.txt"))
        self.assertIn("--table must be followed by a file", self.bad("sum --table"))
        self.assertIn("--table must be followed by a file", self.bad("sum --table --pad"))
        self.assertIn("sum needs --table", self.bad("sum"))
        self.assertIn("check needs a proof file", self.bad("check --challenges c.txt --table a.txt"))
        self.assertIn("check needs --challenges", self.bad("check p --table a.txt"))
        self.assertIn("prove needs --out", self.bad("prove --table a.txt --challenges c.txt"))
        self.assertIn("show needs a proof file", self.bad("show"))
        self.assertIn("show takes a proof file once", self.bad("show p p"))
        self.assertIn("show takes no --table", self.bad("show p --table a.txt"))
        self.assertIn("show takes no --binary", self.bad("show p --binary"))
        self.assertIn('sum takes no "c.txt"', self.bad("sum --table a.txt --challenges c.txt"))
        self.assertIn('demo takes no "p"', self.bad("demo p"))

    def test_a_name_that_is_no_text(self):
        words = [os.fsencode(word) for word in SUMPROOF] + [b"show", b"\xff\xfe"]
        _, err = self.run_words(words, 2)
        self.assertIn("cannot read", err)

    def test_closed_output(self):
        read, write = os.pipe()
        os.close(read)
        words = SUMPROOF + ["demo"]
        run = subprocess.run(words, stdout=write, stderr=subprocess.PIPE, cwd=self.folder.name)
        os.close(write)
        self.assertEqual(run.returncode, 2)
        self.assertIn(b"cannot write to standard output", run.stderr)


class BadFiles(Command):
    def test_missing(self):
        self.assertIn("cannot read none.txt", self.bad("sum --table none.txt"))
        self.assertIn("cannot read none", self.bad("show none"))
        self.assertIn("cannot read .", self.bad("sum --table ."))
        said = self.bad("prove --table a.txt --challenges c.txt --out no/such/folder")
        self.assertIn("cannot write no/such/folder", said)

    def test_text_numbers(self):
        for text, place in [
            ("1\nabc\n", "a.txt, line 2: abc is not a number"),
            ("1 2 3 -4", "a.txt, line 1: -4 is not a number"),
            ("1\n\n\n2.5", "a.txt, line 4: 2.5 is not a number"),
            ("\xff", "a.txt, line 1: ?? is not a number"),
            ("5\n2147483647", "a.txt, line 2: 2147483647 is not below 2147483647"),
            ("9" * 40, "a.txt, line 1: " + "9" * 24 + ".. is not below"),
        ]:
            self.write("a.txt", text)
            self.assertIn(place, self.bad("sum --table a.txt"))

    def test_binary_numbers(self):
        self.write("x.u32", b"12345")
        self.assertIn("x.u32: the file has 5 bytes", self.bad("sum --table x.u32"))
        self.write("x.u32", struct.pack("<2I", 1, P))
        self.assertIn("x.u32, number 2 at byte 4: 2147483647", self.bad("sum --table x.u32"))

    def test_lengths(self):
        self.write("three.txt", "1 2 3")
        self.write("none.txt", " # nothing\n")
        self.write("eight.txt", "1 1 1 1 1 1 1 1")
        self.write("long.txt", "0 " * 65537)
        self.assertIn("three.txt has 3 numbers", self.bad("sum --table three.txt"))
        self.assertIn("none.txt has no numbers", self.bad("sum --table none.txt"))
        self.assertIn("none.txt has no numbers", self.bad("sum --pad --table none.txt"))
        self.assertIn("at most 65536 (refusal 1)", self.bad("sum --quiet --table long.txt"))
        said = self.bad("sum --table a.txt eight.txt")
        self.assertIn("eight.txt has 8 numbers, but a.txt has 4", said)
        said = self.bad("sum --table a.txt a.txt a.txt a.txt")
        self.assertIn("4 tables are given: degree is 0 or over 3 (refusal 2)", said)
        said = self.bad("check p --table a.txt b.txt --challenges three.txt")
        self.assertIn("three.txt has 3 numbers, but 2 tables of 4 numbers needs 2", said)
        said = self.bad("check p --table a.txt --challenges c.txt")
        self.assertIn("p is about 2 tables of 4 numbers (vars 2, degree 2)", said)

    def test_proof_files(self):
        for text, sentence in [
            ("", "p: line 1 is missing"),
            (PROOF[:-1], "p: line 8 is not of its form"),
            (PROOF.replace("claim=6", "claim=06"), "p: line 5 is not of its form, `claim=` and one"),
            (PROOF.replace("vars=2", "vars=17"), "p: line 3 has a number that is not allowed"),
            (PROOF.replace("vars=2", "vars=16"), "p: line 8 is not of its form"),
            (PROOF + "x", "p: there is something after the last line, where line 9"),
            (PROOF.replace("\n", "\r\n"), "p: line 1 is not of its form"),
            ("x" * 4097, "p: the file has more than 4096 bytes"),
            (b"\x00\xff\n", "p: line 1 is not of its form"),
        ]:
            self.write("p", text)
            self.assertIn(sentence, self.bad("show p"))
            self.assertIn(sentence, self.bad("check p --table a.txt b.txt --challenges c.txt"))

    def test_prove_leaves_no_file_behind(self):
        self.write("c.txt", "3 2147483647")
        self.bad("prove --table a.txt --challenges c.txt --out q")
        self.assertFalse(self.path("q").exists())


class Noise(Command):
    """Whatever the files hold, there is an answer in words and no panic."""

    def test_noise(self):
        random = Random(1)
        commands = [
            "check p --table a.txt b.txt --challenges c.txt",
            "check p --binary --pad --table a.txt b.txt --challenges c.txt",
            "prove --pad --table a.txt --challenges c.txt --out q",
            "sum --table a.txt b.txt",
            "show p",
        ]
        good = {"a.txt": b"0 1 2 0", "b.txt": b"3 4 1 2", "c.txt": b"3 1", "p": PROOF.encode()}
        for _ in range(150):
            for name, data in good.items():
                data = bytearray(data)
                for _ in range(random.randrange(3)):
                    at = random.randrange(len(data))
                    data[at : at + random.randrange(3)] = random.choice(NOISE)
                    data = data or bytearray(b"\n")
                self.write(name, bytes(data))
            words = SUMPROOF + random.choice(commands).split()
            run = subprocess.run(words, cwd=self.folder.name, capture_output=True)
            self.assertIn(run.returncode, [0, 1, 2], (words, run))
            self.assertEqual(run.returncode == 2, run.stderr.startswith(b"sumproof: "), run)


class ExampleInC(Command):
    def ledger(self, line, status):
        return self.run_words(LEDGER + line.split(), status)[0]

    def test_ledger(self):
        self.good("prove --table b.txt --challenges c.txt --out q")
        self.write("b.txt", "3 4 1 2\n")
        self.assertEqual(self.ledger("q b.txt c.txt", 0), f"accepted: total 10{MODULO}\n")
        self.write("other.txt", "3 4 1 3\n")
        self.assertEqual(self.ledger("q other.txt c.txt", 1), "rejected in round 2\n")
        self.write("short.txt", "3 4 1")
        self.assertEqual(self.ledger("q short.txt c.txt", 2), "check: refused, number 3, line 0\n")
        self.write("big.txt", "3 4 1 4294967298")
        self.assertEqual(self.ledger("q big.txt c.txt", 2), "big.txt: no ledger\n")
        self.write("cut", PROOF[:-1])
        self.assertEqual(self.ledger("cut b.txt c.txt", 2), "cut: refused, number 10, line 8\n")
        self.ledger("", 2)
        self.ledger("none b.txt c.txt", 2)


if __name__ == "__main__":
    unittest.main()
