"""Tests of images, of the step table told anew, and of native programs.

    python3 -m unittest processor.tests

Native programs are tried where gcc can make programs for i386 and the kernel runs them.
"""

import os
import random
import signal
import subprocess
import sys
import tempfile
import unittest

from processor import forms, tables
from processor.build import Builder, assembly_of
from processor.compare import numbers
from processor.image import Image, Refused, image_of, names_in, symbols
from processor.instructions import SOURCES, Instructions
from processor.machine import CODE_BASE, DATA_BASE, STACK_TOP, Machine
from tables import bare

HERE = os.path.dirname(os.path.realpath(__file__))
NATIVE = f"{os.path.dirname(HERE)}/native.py"
END, WRITE, LINE, READ, TRAP = (b"\xcd" + bytes([it]) for it in range(0x20, 0x25))
FRONT = bytes(28)  # stands for the call of the body, the end and the stubs


def mov_eax(value):
    return b"\xb8" + forms.number(value)


def push(value):
    return b"\x68" + forms.number(value)


def load(address):
    """MOV EAX, [address]."""
    return b"\x8b\x05" + forms.number(address)


def why_not_native():
    """Why no native program can be tried here, or None."""
    try:
        with Builder() as builder:
            program = f"{builder.room.name}/tried"
            builder.build(Image(END, 0), program)
            done = subprocess.run([program], input=b"", capture_output=True, check=False)
    except Refused as refused:
        return str(refused)
    except OSError as error:
        return f"programs for i386 do not run here: {error}"
    return None if done.returncode == 0 else "a native program does not end"


WHY_NOT = why_not_native()


class Images(unittest.TestCase):
    def test_a_file_comes_back(self):
        image = image_of(Image(b"\x99\xc3", 7).to_bytes())
        self.assertEqual((image.code, image.data_words), (b"\x99\xc3", 7))

    def test_the_first_broken_field_is_told(self):
        good = Image(b"\x99", 1).to_bytes()
        rows = (
            (b"PRAI", "fault image Length at 0"),
            (b"X" + good[1:], "fault image Magic at 0"),
            (good[:4] + b"\2" + good[5:], "fault image Version at 4"),
            (good + b"\x99", "fault image CodeLength at 8"),
            (good[:12] + b"\1\0\x40\0" + good[16:], "fault image DataWords at 12"),
        )
        for data, line in rows:
            with self.subTest(line), self.assertRaises(Refused) as refused:
                image_of(data)
            self.assertEqual((str(refused.exception), refused.exception.status), (line, 3))

    def test_procedures_begin_where_they_test_the_stack(self):
        def procedure(at):
            branch = forms.number(21 - (at + 15))
            return b"\x55\x89\xe5\x81\xfd\0\0\0\0\x0f\x82" + branch + b"\x53\x56\x57\xc3"

        code = FRONT + procedure(28) + procedure(47)
        image = Image(code + procedure(0), 0)  # the last one branches elsewhere
        self.assertEqual(image.begins(), [28, 47])
        self.assertEqual(symbols(image, ["M", "M"]), [("M", 28, 19), ("M.2", 47, 38)])
        self.assertEqual(symbols(image, ["M"])[1][0], "procedure_1")
        source = assembly_of(image, ["M", "P"], "code")
        self.assertIn('"P":\n    .incbin "code", 47, 38', source)

    def test_names_are_those_of_the_report(self):
        report = "procedure 0 M frame 20\nround 0 cost 1 bound 1\nprocedure 1 P frame 28\n"
        self.assertEqual(names_in(report), ["M", "P"])

    def test_seeds_are_ranges_and_lists(self):
        self.assertEqual(numbers("1-3,7"), [1, 2, 3, 7])


def bare_programs():
    """Each row of bare programs, with an image and what it comes to after so many steps."""
    for program in bare.programs():
        for this, image in program.images():
            for most, outcome in program.outcomes:
                yield f"{program.name}, {this}", program.numbers, image, most, outcome


class StepTable(unittest.TestCase):
    def test_it_does_what_the_rows_of_the_machine_say(self):
        count = 0
        for name, words, image, most, outcome in bare_programs():
            count += 1
            with self.subTest(name):
                machine = Machine(image, words)
                found = (machine.run(most), "".join(machine.out), machine.steps, machine.taken)
                wanted = (outcome.ending, outcome.out, outcome.steps, outcome.reads)
                self.assertEqual(found, wanted)
        self.assertGreater(count, 90)

    def test_each_row_of_the_manual_is_an_instruction(self):
        with open(f"{SOURCES}/instructions.rt", encoding="utf-8") as file:
            rows = tables.instructions(file.read())
        self.assertGreater(len(rows), 70)
        for code, printed in rows:
            with self.subTest(printed):
                machine = Machine(Image(code, 0))
                machine.flags = dict.fromkeys(machine.flags, False)
                self.assertNotIn(machine.run(1), ("machine decode", "machine flag"))


@unittest.skipIf(WHY_NOT, WHY_NOT)
class Programs(unittest.TestCase):
    """Native programs of bare code."""

    @classmethod
    def setUpClass(cls):
        cls.builder = Builder().__enter__()
        cls.addClassCleanup(cls.builder.__exit__)

    def program(self, code, data_words=0):
        program = f"{self.builder.room.name}/{self.id()}"
        self.builder.fill(Image(code, data_words), program)
        return program

    def run_code(self, code, *words, data_words=0, given=b""):
        """The status, the output and the notes."""
        command = [self.program(code, data_words), *words]
        done = subprocess.run(command, input=given, capture_output=True, timeout=60, check=False)
        return done.returncode, done.stdout.decode(), done.stderr.decode()

    def test_services(self):
        code = READ + WRITE + READ + WRITE + LINE + mov_eax(-(1 << 31)) + WRITE + END
        wanted = (0, " 7 -3\n -2147483648", "ended reads 2\n")
        self.assertEqual(self.run_code(code, given=b"7\t-3\r\n0009"), wanted)
        counted = self.run_code(code, "--steps", "8", given=b"7\t-3\r\n0009")
        self.assertEqual(counted, (0, wanted[1], "ended steps 8 reads 2\n"))
        going = self.run_code(code, "--steps", "7", given=b"7 -3")
        self.assertEqual(going, (2, wanted[1], "going steps 7 reads 2\n"))

    def test_traps_have_their_names(self):
        for number, name in enumerate(("Index", "Divide", "Input", "Stack"), 1):
            found = self.run_code(LINE + mov_eax(number) + TRAP)
            self.assertEqual(found, (1, "\n", f"trap {name} reads 0\n"))
        self.assertEqual(self.run_code(READ + READ, given=b"1")[2], "trap Input reads 1\n")

    def test_what_is_no_input_is_refused(self):
        rows = (
            (b"1 2x 3", 7, "fault input at 2\n"),
            (b"-", 7, "fault input at 0\n"),
            (b" 2147483648", 7, "fault input at 1\n"),
            (b"-2147483648", 0, "ended reads 0\n"),
            (b"1" * 1048577, 4, "limit input count 1048577 maximum 1048576\n"),
            (b" " * 1048576, 0, "ended reads 0\n"),
        )
        for given, status, line in rows:
            with self.subTest(line):
                self.assertEqual(self.run_code(END, given=given), (status, "", line))

    def test_words(self):
        for words in (("x",), ("--steps",), ("--steps", "200000001"), ("--steps", "")):
            status, _, notes = self.run_code(END, *words)
            self.assertEqual((status, notes.splitlines()[0][:6]), (6, "fault "))

    def test_output_that_can_not_be_written(self):
        with open("/dev/full", "wb") as full:
            command, how = [self.program(LINE + END)], {"stdin": subprocess.DEVNULL}
            done = subprocess.run(command, stdout=full, stderr=subprocess.PIPE, check=False, **how)
        self.assertEqual((done.returncode, done.stderr), (5, b"fault write out\n"))

    def test_who_is_stopped_has_written(self):
        # Each turn writes the number, and the next one comes into EAX.
        code = WRITE + b"\x83\xc0\x01" + b"\xe9" + forms.number(-10)
        for number in (signal.SIGINT, signal.SIGTERM):
            command, pipe = [self.program(code)], subprocess.PIPE
            with subprocess.Popen(command, stdin=subprocess.DEVNULL, stdout=pipe) as running:
                self.assertEqual(running.stdout.read(4), b" 0 1")
                running.send_signal(number)
                rest = running.stdout.read()
            self.assertEqual(running.returncode, -number)
            numbers_written = (b" 0 1" + rest).split()
            self.assertEqual(int(numbers_written[-1]), len(numbers_written) - 1)

    def test_limits_that_are_pages_are_exact(self):
        stack_pushes = b"\xbc" + forms.number(0x08000004) + push(5) + END
        for code, line in (
            (stack_pushes, "ended"),
            (b"\xbc" + forms.number(0x08000003) + push(5), "machine access"),
            (load(DATA_BASE), "machine fetch"),  # and then the code is left
            (load(DATA_BASE - 1), "machine access"),
            (load(0x08000000) + END, "ended"),
            (load(0x07FFFFFF), "machine access"),
        ):
            with self.subTest(code.hex()):
                self.assertEqual(self.run_code(code, data_words=1)[2], f"{line} reads 0\n")

    def test_hostile_code_ends_with_a_fault(self):
        runtime, kernel = 0x03900000, 0xFFFFD000
        rows = (
            ("code is read", load(CODE_BASE), "access"),
            ("code is written", b"\xc7\x05" + forms.number(CODE_BASE) + bytes(4), "access"),
            ("the runtime is read", load(runtime), "access"),
            ("a page of the kernel is read", load(kernel), "access"),
            ("nothing is read", load(0), "access"),
            ("the stack is in the runtime", b"\xbc" + forms.number(0x03A00000) + push(1), "access"),
            ("the runtime runs", push(runtime) + b"\xc3", "fetch"),
            ("data runs", push(DATA_BASE) + b"\xc3", "fetch"),
            ("a place before the code runs", b"\xe9" + forms.number(-10), "fetch"),
            ("the code is left", b"\x99", "fetch"),
            ("0 divides", b"\xf7\xf9", "divide"),
            ("the least integer by -1", mov_eax(1 << 31) + b"\x99\x83\xc9\xff\xf7\xf9", "divide"),
            ("the kernel is called", mov_eax(1) + b"\xcd\x80", "decode"),
            ("another interrupt", b"\xcd\x25", "decode"),
            ("a breakpoint", b"\xcc", "decode"),
            ("no instruction at all", b"\x0f\x0b", "decode"),
            ("a privileged one", b"\xf4", "decode"),
            ("the trap flag is set", push(0x302) + b"\x9d\x99" + END, "decode"),
            ("no such trap", mov_eax(5) + TRAP, "service"),
        )
        for name, code, kind in rows:
            with self.subTest(name):
                status, out, notes = self.run_code(LINE + code, data_words=1)
                self.assertEqual((status, out, notes), (1, "\n", f"machine {kind} reads 0\n"))

    def test_flags_and_stack_of_the_image_do_not_reach_the_runtime(self):
        set_flags = push(0x40602) + b"\x9d"  # alignment check and direction
        code = set_flags + b"\xbc" + forms.number(0x03A00000) + mov_eax(7) + WRITE + LINE + END
        self.assertEqual(self.run_code(code), (0, " 7\n", "ended reads 0\n"))

    def test_with_steps_each_fault_is_the_machine_s(self):
        for name, words, image, most, outcome in bare_programs():
            if most > 1000:
                continue
            with self.subTest(name):
                given = " ".join(map(str, words)).encode()
                how = {"data_words": image.data_words, "given": given}
                _, out, notes = self.run_code(image.code, "--steps", str(most), **how)
                self.assertEqual((out, notes), (outcome.out, f"{outcome.line()}\n"))


@unittest.skipIf(WHY_NOT, WHY_NOT)
class Processor(unittest.TestCase):
    def test_rows_of_the_manual_and_forms_of_imul(self):
        chance = random.Random(7)
        with Builder("-DTRACE") as builder, tempfile.TemporaryDirectory() as room:
            compared = Instructions(builder, room)
            compared.rows(chance)
            cases = forms.Cases(chance)
            made = [cases.goes_on(it) for it in forms.with_operand(cases, b"\x6b", None, 1)]
            image = Image(b"".join(made[::16]) + END, forms.DATA_WORDS)
            self.assertEqual(compared.compare("imul", image, []), "ended")
        self.assertEqual(compared.differences, [])
        self.assertGreater(compared.sums["rows"], 70)

    def test_a_difference_is_told(self):
        with Builder("-DTRACE") as builder, tempfile.TemporaryDirectory() as room:
            compared = Instructions(builder, room)
            image = Image(mov_eax(STACK_TOP) + END, 1)
            records, memory, _, line = compared.run(image, [], 9)
            self.assertEqual((len(records), line), (1, "ended steps 2 reads 0\n"))
            self.assertFalse(any(memory))
            compared.run = lambda *_: ([(*records[0][:7], 8, *records[0][8:])], memory, "", line)
            self.assertIsNone(compared.compare("eax", image, []))
        self.assertIn("eax: step 1 at 00000000: registers", compared.differences[0])


class Command(unittest.TestCase):
    def setUp(self):
        room = tempfile.TemporaryDirectory()
        self.addCleanup(room.cleanup)
        self.room = room.name
        with open(f"{self.room}/it.pri", "wb") as file:
            file.write(Image(LINE + END, 0).to_bytes())

    def native(self, *words):
        command = [sys.executable, NATIVE, *words]
        done = subprocess.run(command, cwd=self.room, capture_output=True, text=True, check=False)
        return done.returncode, done.stderr

    def test_refusals(self):
        with open(f"{self.room}/text", "w", encoding="ascii") as file:
            file.write("MODULE M; BEGIN END M.")
        rows = (
            ((), 6, "fault words\n"),
            (("it.pri", "other.pri"), 6, "fault words\n"),
            (("it.pri", "-o"), 6, "fault words\n"),
            (("none.pri",), 5, "fault read file\n"),
            (("it.pri", "--steps", "200000001"), 6, "fault value --steps\n"),
            (("text",), 3, "fault image Magic at 0\n"),
            (("it.pri", "-o", "it.pri"), 5, "fault write file\n"),
        )
        for words, status, line in rows:
            with self.subTest(words):
                found = self.native(*words)
                self.assertEqual((found[0], found[1].splitlines(True)[0]), (status, line))

    @unittest.skipIf(WHY_NOT, WHY_NOT)
    def test_a_program_is_named_after_its_image(self):
        self.assertEqual(self.native("it.pri"), (0, ""))
        done = subprocess.run([f"{self.room}/it"], input=b"", capture_output=True, check=False)
        self.assertEqual((done.returncode, done.stdout), (0, b"\n"))

    @unittest.skipIf(WHY_NOT, WHY_NOT)
    def test_a_program_may_be_made_with_steps(self):
        self.assertEqual(self.native("it.pri", "-o", "it", "--steps=1"), (0, ""))
        for words, line in (((), "going steps 1 reads 0\n"), (("--steps", "2"), "ended steps 2")):
            command = [f"{self.room}/it", *words]
            done = subprocess.run(command, input="", capture_output=True, text=True, check=False)
            self.assertTrue(done.stderr.startswith(line), done.stderr)

    def test_without_gcc_one_line_says_what_is_missing(self):
        environment = {**os.environ, "PATH": self.room}
        command = [sys.executable, NATIVE, "it.pri"]
        how = {"cwd": self.room, "env": environment, "text": True, "check": False}
        done = subprocess.run(command, stderr=subprocess.PIPE, **how)
        wanted = (70, "pra: native needs gcc (Debian: gcc-multilib)\n")
        self.assertEqual((done.returncode, done.stderr), wanted)


if __name__ == "__main__":
    unittest.main()
