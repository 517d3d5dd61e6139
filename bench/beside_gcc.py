#!/usr/bin/env python3
"""Prints the code of compilers of ours beside that of gcc -m32, in tables by module.

    beside_gcc.py [--compiler NAME=PROGRAM].. [--rounds N] [--time] [FILE..]

One table has bytes of code, another executed instructions, and with --time a third one seconds: of
each compiler by both words of cost, and of gcc at -O0, -O1, -Os and -O2 of the same module as C
(in_c.py has what is tested there). Modules are FILEs, which are run without input, or else
generated ones of 20 procedures of the seeds 1, 7 and 9, those of examples/ and those of
bench/programs/. Without a compiler that is named, the built one is taken. gcc's program has to
write and end as ours do before its figures are told. Sums stand below.

Bytes are, of ours, those of the whole code, as `code N` of the report: with the call of the body,
INT 20h and the stubs of three traps, 28 bytes in all, and with 12 bytes a procedure in which the
stack is tested. Of gcc they are the code sections of the object file and the tables of its jumps,
with what aligns functions and loops at -O2, and without the functions that read, write and trap,
which are INT in ours.

Executed are, of ours, the steps that `run` tells. Of gcc's program they are counted by single steps
where the code of the module alone stands: not in what it calls to read, write and trap. Both count
the instructions that hand over a number to be written, and an INT is one as a call is.

Seconds are those of a processor that native programs take, the least of five runs of all of them in
turn. The body of the module is run again and again, for some LONG instructions of ours; what it
writes has to be the same. A service of ours is a signal of the system in a native program, so that
modules which write often (a number or line in fewer than APART instructions) are left out, as are
those that read or trap.
"""

import argparse
import glob
import os
import re
import subprocess
import sys
import tempfile

from in_c import TOP, in_c, repeated

HERE = os.path.dirname(os.path.realpath(__file__))
COSTS = ("size", "speed")
LEVELS = ("-O0", "-O1", "-Os", "-O2")
SEEDS, SIZE = (1, 7, 9), 20
INPUTS = {
    "magic": "9",
    "queue": "5 6 7 8 -1 -1 9 10 -1 -1 -1 0",
    "samples": "25 7 8 1 3 5 7 9 11 13 15 11",
    "sort": "10 9 8 7 6 5 4 3 2 1",
}
LEFT_OUT = {
    "endless": "it does not end",
    "overflow": "it ends where the stack is full, which C does not test",
}
MOST_STEPS = "200000000"
LONG, APART = 1000000000, 300
TURNS = 5
RAN = 2  # the greatest status with which a run's module was compiled
PLAIN = "-fno-pie -fno-stack-protector -fcf-protection=none -fno-asynchronous-unwind-tables"
FLAGS = ["-m32", "-ffreestanding", "-fwrapv", *PLAIN.split()]
SUPPLIED = {"read_number", "write_number", "write_line", "trap"}  # what a module calls
TRAPS = {"Index": 11, "Divide": 12, "Input": 13}  # the statuses of gcc's program
SCRIPT = """\
ENTRY(_start)
SECTIONS {
    . = 0x08048000;
    .module : { module_begin = .; *module.o(.text .text.*) module_end = .; }
    .text : { *(.text .text.*) *(.rodata .rodata.*) }
    . = ALIGN(4096);
    .data : { *(.data .data.*) *(.bss .bss.*) *(COMMON) }
    /DISCARD/ : { *(.note*) *(.comment) *(.eh_frame*) }
}
"""


class Refused(Exception):
    """Why there is no figure."""


def called(command, text=""):
    """What a command writes, its notes and its status."""
    done = subprocess.run(command, input=text.encode(), capture_output=True, check=False)
    return done.stdout, done.stderr.decode(errors="replace"), done.returncode


def made(command, most=0):
    """Calls a tool that has to end with this status or a lower one, and gives what it writes."""
    out, notes, status = called(command)
    if not 0 <= status <= most:
        raise Refused(f"{command[0]}: {notes.strip().splitlines()[-1:]}")
    return out.decode()


def ending(line):
    """How a run ended and after how many steps, by its last line."""
    found = re.fullmatch(r"(ended|trap (Index|Divide|Input)) steps (\d+) reads \d+", line)
    if not found:
        raise Refused(f"our run: {line}")
    return TRAPS[found[2]] if found[2] else 0, int(found[3])


def ours(program, file, text, words, folder):
    """Bytes, steps, and what was written and how it ended, of our code."""
    image = f"{folder}/out.pri"
    command = [program, "run", file, "--image", image, "--steps", MOST_STEPS, *words]
    out, notes, _ = called(command, text)
    code = re.search(r"^total cost \d+ bound \d+ code (\d+)$", notes, re.M)
    if not code:
        raise Refused(f"our compiler: {notes.strip()}")
    status, steps = ending(notes.splitlines()[-1])
    return int(code[1]), steps, (out, status)


def code_bytes(sizes):
    """The bytes of the code sections and of the tables beside them, of what `size -A` tells. A
    module has no other constants."""
    return sum(int(it) for it in re.findall(r"^\.(?:text|rodata)\S*\s+(\d+)\s", sizes, re.M))


def limits(symbols):
    """Where the module's code begins and ends, of what `nm` tells."""
    at = {name: place for place, _, name in (it.split() for it in symbols.splitlines())}
    return f"0x{at['module_begin']}", f"0x{at['module_end']}"


class Gcc:
    """Programs of modules in C, and the program that counts their steps; in a folder."""

    def __init__(self, folder):
        self.folder = folder
        with open(f"{folder}/link.ld", "w", encoding="ascii") as file:
            file.write(SCRIPT)
        runtime = f"{HERE}/gcc_runtime.c"
        made(["gcc", *FLAGS, "-O2", "-c", runtime, "-o", f"{folder}/runtime.o"])
        made(["gcc", "-O2", f"{HERE}/gcc_steps.c", "-o", f"{folder}/steps"])

    def program(self, text, level):
        """Makes the program of a module in C; the bytes of its code are given back."""
        source, module, program = (f"{self.folder}/{it}" for it in ("m.c", "module.o", "program"))
        with open(source, "w", encoding="ascii") as file:
            file.write(text)
        made(["gcc", *FLAGS, level, "-c", source, "-o", module])
        called_ones = {it.split()[-1] for it in made(["nm", "-u", module]).splitlines()}
        if not called_ones <= SUPPLIED:
            raise Refused(f"gcc calls {' '.join(called_ones - SUPPLIED)}")
        link = ["-nostdlib", "-static", "-no-pie", "-Wl,--build-id=none"]
        objects = [module, f"{self.folder}/runtime.o"]
        made(["gcc", "-m32", *link, f"-Wl,-T,{self.folder}/link.ld", *objects, "-o", program])
        return code_bytes(made(["size", "-A", module]))

    def figures(self, text, level, given):
        """Bytes, steps, and what was written and how it ended, of gcc's code."""
        size = self.program(text, level)
        program = f"{self.folder}/program"
        low, high = limits(made(["nm", program]))
        out, notes, status = called([f"{self.folder}/steps", low, high, program], given)
        return size, int(notes.split()[-1]), (out, status)


def row(compilers, gcc, file, given, rounds):
    """Bytes and steps of a module, for each column; all have to write and end the same. Beside them
    what was written and how it ended."""
    found = [
        ours(program, file, given, ["--rounds", rounds, "--cost", cost], gcc.folder)
        for _, program in compilers
        for cost in COSTS
    ]
    with open(file, "rb") as source:
        text = in_c(source.read())
    found += [gcc.figures(text, level, given) for level in LEVELS]
    for it in found:
        if it[2] != found[0][2]:
            raise Refused("one of the programs writes or ends otherwise")
    return [it[:2] for it in found], found[0][2]


# ---- seconds


def seconds_of(program, out):
    """Seconds of a processor that a program takes, which has to end well."""
    with open(out, "wb") as file:
        child = subprocess.Popen([program], stdin=subprocess.DEVNULL, stdout=file, stderr=file)
        _, status, usage = os.wait4(child.pid, 0)
        child.returncode = status
    if status:
        raise Refused(f"a program that is timed ended with {status}")
    return usage.ru_utime


def native(compiler, file, words, name):
    """Makes the native program of a module by one of our compilers."""
    image = f"{name}.pri"
    made([compiler, "compile", file, "--image", image, *words])
    made([sys.executable, f"{TOP}/scripts/native.py", image, "-o", name])
    return name


def programs(compilers, gcc, source, rounds):
    """The programs of a module, for each column."""
    file = f"{gcc.folder}/long.ob"
    with open(file, "wb") as out:
        out.write(source)
    for number, (_, compiler) in enumerate(compilers):
        for cost in COSTS:
            words = ["--rounds", rounds, "--cost", cost]
            yield native(compiler, file, words, f"{gcc.folder}/native_{number}_{cost}")
    for level in LEVELS:
        gcc.program(in_c(source), level)
        os.rename(f"{gcc.folder}/program", f"{gcc.folder}/program{level}")
        yield f"{gcc.folder}/program{level}"


def written(name):
    """What a program wrote, without the line on how ours ended."""
    with open(name, "rb") as file:
        return re.sub(rb"ended reads \d+\n\Z", b"", file.read())


def seconds(compilers, gcc, source, rounds, steps, told):
    """The least seconds of each column's program of a module that is run again and again; steps are
    those of one run, and told is what that writes and how it ends."""
    out, status = told
    long = repeated(source, max(1, LONG // max(steps, 1)))
    if status or long is None or b"Read" in source:
        raise Refused("it reads, traps or has no body, and is not timed")
    if steps < APART * len(out.split()):
        raise Refused("it writes too often to be timed")
    them, least = list(programs(compilers, gcc, long, rounds)), {}
    for _ in range(TURNS):
        for it in them:
            least[it] = min(least.get(it, 1e9), seconds_of(it, f"{it}.out"))
    if len({written(f"{it}.out") for it in them}) > 1:
        raise Refused("one of the programs that are timed writes otherwise")
    return [(it,) for it in least.values()]


def modules(program, folder):
    """Names and files of the modules that are compared."""
    for seed in SEEDS:
        file = f"{folder}/{seed}.ob"
        words = ["--seed", str(seed), "--size", str(SIZE), "--rounds", "0"]
        made([program, "gen", file, *words, "--image", f"{folder}/out.pri"], RAN)
        yield f"generated {seed}", file
    found = [sorted(glob.glob(f"{it}/*.ob")) for it in (f"{TOP}/examples", f"{HERE}/programs")]
    for file in sum(found, []):
        yield os.path.basename(file).removesuffix(".ob"), file


def group_of(name):
    """What a module is counted among."""
    if name.startswith("generated"):
        return "all generated"
    if os.path.exists(f"{HERE}/programs/{name}.ob"):
        return "all programs"
    return "all others"


def table(title, columns, rows, which):
    """The lines of a table with one of the figures, and its sums."""
    yield f"| {title} | {' | '.join(columns)} |"
    yield "|---|" + "--:|" * len(columns)
    groups = {}
    for name, found in rows:
        groups.setdefault(group_of(name), []).append(found)
    sums = [(name, sum_of(them)) for name, them in groups.items() if len(them) > 1]
    for name, found in [*rows, *sums]:
        cells = (f"{it[which]:.2f}" if isinstance(it[which], float) else it[which] for it in found)
        yield f"| {name} | {' | '.join(map(str, cells))} |"


def sum_of(rows):
    return [tuple(map(sum, zip(*column))) for column in zip(*rows)]


def words_of(given):
    parser = argparse.ArgumentParser(usage=__doc__, add_help=False)
    parser.add_argument("--compiler", action="append", default=[])
    parser.add_argument("--rounds", default="10")
    parser.add_argument("--time", action="store_true")
    parser.add_argument("files", nargs="*")
    words = parser.parse_args(given)
    named = words.compiler or [f"pra={TOP}/crates/pra/out/pra"]
    words.compiler = [(it.partition("=")[0], os.path.abspath(it.partition("=")[2])) for it in named]
    for name, program in words.compiler:
        if not os.access(program, os.X_OK) or os.path.isdir(program):
            parser.error(f"{name}: there is no program {program}")
    return words


def compared(words, gcc):
    """The rows of bytes and steps, and those of seconds."""
    rows, timed = [], []
    all_of_them = [(os.path.basename(it).removesuffix(".ob"), it) for it in words.files]
    for name, file in all_of_them or modules(words.compiler[-1][1], gcc.folder):
        if name in LEFT_OUT:
            print(f"{name} is left out: {LEFT_OUT[name]}", file=sys.stderr)
            continue
        given = "" if words.files else INPUTS.get(name, "")
        try:
            found, told = row(words.compiler, gcc, file, given, words.rounds)
            rows.append((name, found))
            if words.time:
                with open(file, "rb") as text:
                    source = text.read()
                how = words.compiler, gcc, source, words.rounds, found[0][1], told
                timed.append((name, seconds(*how)))
        except Refused as why:
            print(f"{name} is left out: {why}", file=sys.stderr)
    return rows, timed


def main(given):
    words = words_of(given)
    with tempfile.TemporaryDirectory() as folder:
        rows, timed = compared(words, Gcc(folder))
    columns = [f"{name}, {cost}" for name, _ in words.compiler for cost in COSTS]
    columns += [f"gcc {level}" for level in LEVELS]
    print("\n".join(table("Bytes of code", columns, rows, 0)), end="\n\n")
    print("\n".join(table("Executed instructions", columns, rows, 1)))
    if timed:
        print("", *table("Seconds", columns, timed, 0), sep="\n")
    return 0


if __name__ == "__main__":
    try:
        sys.exit(main(sys.argv[1:]))
    except (Refused, OSError) as why:
        sys.exit(f"beside_gcc.py: {why}")
