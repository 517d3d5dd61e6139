"""Tests of objects for C: assembler text, header, and programs that gcc makes of both.

    python3 -m unittest processor.objects_tests
"""

import os
import subprocess
import sys
import tempfile
import unittest

import native
import needs
from picture import report
from processor import assembly
from processor.image import Image, Refused

HERE = os.path.dirname(os.path.realpath(__file__))
NATIVE = f"{os.path.dirname(HERE)}/native.py"
MODULE = b"""MODULE Tools;
VAR calls: INTEGER; list: ARRAY 3 OF INTEGER;
PROCEDURE Swap(VAR a, b: INTEGER; int: INTEGER);
  VAR t: INTEGER;
BEGIN t := a; a := b + int; b := t; calls := calls + 1
END Swap;
PROCEDURE Put(at, value: INTEGER);
BEGIN list[at] := value DIV list[at]; Write(list[at])
END Put;
BEGIN Read(list[0]); Swap(list[0], list[1], 5); Put(1, 100); WriteLn
END Tools.
"""
# A program of the module's body: what it writes and how it ends is what `run` does.
MAIN = """#include <stdio.h>
#include <stdlib.h>
#include "{name}.h"
void pra_write(int number) {{ printf(" %d", number); }}
void pra_line(void) {{ printf("\\n"); }}
int pra_read(void)
{{
    int number;
    if (scanf("%d", &number) != 1)
        pra_trap(3);
    return number;
}}
void pra_trap(int kind) {{ fflush(stdout); fprintf(stderr, "trap %d", kind); exit(1); }}
int main(void)
{{
    {calls}
    return 0;
}}
"""
KINDS = {"Index": 1, "Divide": 2, "Input": 3, "Stack": 4}


def of_c(room, name, calls, given=""):
    """What a program of an object does: its status, output and notes."""
    with open(f"{room}/main.c", "w", encoding="ascii") as file:
        file.write(MAIN.format(name=name, calls=calls))
    command = ["gcc", "-m32", "-no-pie", "-Wall", "-Werror", "main.c", f"{name}.o", "-o", "main"]
    subprocess.run(command, cwd=room, check=True)
    how = {"input": given.encode(), "capture_output": True, "check": False}
    ran = subprocess.run([f"{room}/main"], **how)
    return ran.returncode, ran.stdout, ran.stderr.decode()


def objects(room, name, module, kind="--object"):
    """Compiles a module and makes the object of its image."""
    with open(f"{room}/{name}.ob", "wb") as file:
        file.write(module)
    words = ["compile", f"{name}.ob", "--image", f"{name}.pri"]
    told = subprocess.run([needs.program(), *words], cwd=room, capture_output=True, check=True)
    with open(f"{room}/{name}.txt", "wb") as file:
        file.write(told.stdout)
    command = [sys.executable, NATIVE, f"{name}.pri", kind, "--report", f"{name}.txt"]
    subprocess.run([*command, "--module", f"{name}.ob"], cwd=room, check=True)


class Texts(unittest.TestCase):
    def test_words_that_do_not_fit_together_are_refused(self):
        for words in (
            ["a.pri", "--object", "--assembly"],
            ["a.pri", "--object", "--steps", "5"],
            ["a.pri", "--module", "a.ob"],
        ):
            with self.assertRaises(Refused) as refused:
                native.read_words(words)
            self.assertEqual(refused.exception.status, 6)

    def test_an_image_that_was_not_compiled_is_refused(self):
        with self.assertRaises(Refused) as refused:
            assembly.object_of(Image(b"\x99\xc3", 0), [])
        self.assertEqual(refused.exception.status, 70)

    def test_names_of_c_are_changed(self):
        heading = report.Heading("P", 1, [("int", False), ("x", True)])
        self.assertEqual(assembly.parameters_of(heading, 2), ["int int_", "int *x"])
        self.assertEqual(assembly.parameters_of(None, 1), ["int argument_0"])


@needs.compiler
@needs.gcc_libc_32
class Programs(unittest.TestCase):
    def test_c_calls_procedures_and_sees_variables(self):
        calls = "int a = 1, b = 2; Tools_Swap(&a, &b, 40); Tools__data[2] = 3; Tools_Put(1, 7);"
        with tempfile.TemporaryDirectory(prefix="pra-objects-") as room:
            objects(room, "Tools", MODULE)
            with open(f"{room}/Tools.h", encoding="ascii") as file:
                declared = file.read()
            self.assertIn("void Tools_Swap(int *a, int *b, int int_);", declared)
            self.assertIn("extern int Tools__data[4];", declared)
            told = 'printf("%d %d %d", a, b, Tools__data[0]);'
            self.assertEqual(of_c(room, "Tools", calls + told), (0, b" 242 1 1", ""))
            self.assertEqual(of_c(room, "Tools", "Tools_Put(3, 7);")[::2], (1, "trap 1"))
            self.assertEqual(of_c(room, "Tools", "Tools_Put(2, 7);")[::2], (1, "trap 2"))
            self.assertEqual(of_c(room, "Tools", "Tools__body();", "4"), (0, b" 25\n", ""))

    def test_the_text_assembles_to_the_object(self):
        with tempfile.TemporaryDirectory(prefix="pra-objects-") as room:
            objects(room, "Tools", MODULE)
            objects(room, "Tools", MODULE, "--assembly")
            subprocess.run(["gcc", "-m32", "-c", "Tools.s", "-o", "again.o"], cwd=room, check=True)
            with open(f"{room}/Tools.o", "rb") as one, open(f"{room}/again.o", "rb") as other:
                self.assertEqual(one.read(), other.read())

    def test_bodies_do_what_run_does(self):
        """Modules of examples/ and generated ones, with traps of every kind."""
        modules = {}
        for name in ("ackermann", "eight", "magic", "overflow", "queue", "samples", "sort"):
            with open(f"{needs.TOP}/examples/{name}.ob", "rb") as file:
                modules[name] = file.read()
        with tempfile.TemporaryDirectory(prefix="pra-objects-") as room:
            for seed in ("1", "2", "3"):
                words = ["gen", f"{room}/g.ob", "--seed", seed, "--image", f"{room}/g.pri"]
                subprocess.run([needs.program(), *words], capture_output=True, check=False)
                with open(f"{room}/g.ob", "rb") as file:
                    modules[f"generated {seed}"] = file.read()
            for name, module in modules.items():
                with self.subTest(name):
                    self.compare(room, module, "9 8 7 6 5 4 3 2 1 0 0 0 0 -1")

    def compare(self, room, module, given):
        objects(room, "module", module)
        words = ["run", "module.ob", "--image", "module.pri", "--steps", "200000000"]
        how = {"input": given.encode(), "capture_output": True, "check": False, "cwd": room}
        ran = subprocess.run([needs.program(), *words], **how)
        ending = ran.stderr.decode().splitlines()[-1].split()
        notes = f"trap {KINDS[ending[1]]}" if ending[0] == "trap" else ""
        body = f"{report.headings(module)[0].name}__body();"
        wanted = ran.returncode, ran.stdout, notes
        self.assertEqual(of_c(room, "module", body, given), wanted)


if __name__ == "__main__":
    unittest.main()
