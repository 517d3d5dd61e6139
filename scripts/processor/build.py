"""Native programs of images: the image linked to the runtime by gcc."""

import os
import shutil
import struct
import subprocess
import tempfile
import threading

from processor.image import Image, Refused, symbols

HERE = os.path.dirname(os.path.realpath(__file__))
SOURCES = ("runtime", "rows")
NO_TOOLS = 70  # the status where there is no gcc -m32
FLAGS = (
    "-m32 -O2 -ffreestanding -mgeneral-regs-only -fno-pic -fno-stack-protector"
    " -fno-tree-loop-distribute-patterns -fno-asynchronous-unwind-tables -fcf-protection=none"
).split()
LINK = f"-m32 -nostdlib -static -no-pie -Wl,--build-id=none -Wl,-T,{HERE}/runtime.ld".split()
PAGE = 4096
NO_LIMIT = 0xFFFFFFFF  # where a program makes any number of steps
INT3 = 0xCC  # stands behind the code to the end of its page, so that nothing runs there
HEAD = """\
    .globl image_code_bytes, image_data_bytes, image_steps
    .section .sizes, "a", @progbits
image_code_bytes: .long {code_bytes}
image_data_bytes: .long {data_bytes}
image_steps: .long {steps}
    .section .image, "ax", @progbits
    .type start, @function
start:
"""
PART = '    .incbin "{file}", {begin}, {size}\n'
PROCEDURE = "    .type {name}, @function\n{name}:\n" + PART + "    .size {name}, . - {name}\n"
FOOT = """\
    .balign {page}, {filler}
    .section .note.GNU-stack, "", @progbits
"""


def called(command):
    """Calls gcc; Refused says in one line what is missing or what it said."""
    if shutil.which(command[0]) is None:
        raise Refused(NO_TOOLS, f"pra: native needs {command[0]} (Debian: gcc-multilib)")
    done = subprocess.run(command, stdin=subprocess.DEVNULL, capture_output=True, check=False)
    if done.returncode:
        said = done.stderr.decode(errors="replace").strip().splitlines()
        why = next((it for it in said if "error" in it), said[-1] if said else "it failed")
        raise Refused(NO_TOOLS, f"pra: native needs gcc -m32 (Debian: gcc-multilib): {why}")


def assembly_of(image, names, code_file, steps=NO_LIMIT):
    """The image as a source for the assembler: its code with a symbol a procedure, its sizes."""
    known = symbols(image, names)
    front = known[0][1] if known else len(image.code)
    sizes = {"code_bytes": len(image.code), "data_bytes": 4 * image.data_words}
    parts = [HEAD.format(steps=steps, **sizes)]
    parts.append(PART.format(file=code_file, begin=0, size=front))
    for name, begin, size in known:
        parts.append(PROCEDURE.format(name=f'"{name}"', file=code_file, begin=begin, size=size))
    return "".join(parts) + FOOT.format(page=PAGE, filler=INT3)


# Of an ELF file of 32 bits: where its program headers begin, and what one of them tells first.
HEADERS_AT = 0x1C
HEADER = struct.Struct("<6I")  # kind, place in the file, two addresses, bytes in file and memory
HEADER_BYTES = 32


def with_image(program, image):
    """The bytes of a program with another image, without symbols: in no time, for comparisons."""
    data = bytearray(program)
    (first,) = struct.unpack_from("<I", data, HEADERS_AT)
    runtime = HEADER.unpack_from(data, first + HEADER_BYTES)
    struct.pack_into("<2I", data, runtime[1], len(image.code), 4 * image.data_words)
    data += bytes(-len(data) % PAGE)
    code = image.code + bytes([INT3]) * (-len(image.code) % PAGE)
    kind, _, *addresses = HEADER.unpack_from(data, first)[:4]
    HEADER.pack_into(data, first, kind, len(data), *addresses, len(code), len(code))
    return data + code


def assembled(text):
    """The bytes of the object that gcc makes of a text for the assembler."""
    with tempfile.TemporaryDirectory(prefix="pra-object-") as room:
        with open(f"{room}/object.s", "w", encoding="utf-8") as file:
            file.write(text)
        called(["gcc", "-m32", "-c", f"{room}/object.s", "-o", f"{room}/object.o"])
        with open(f"{room}/object.o", "rb") as file:
            return file.read()


class Builder:
    """The runtime, compiled once, and programs of it; a folder that is gone at the end."""

    def __init__(self, *flags):
        self.flags = [*FLAGS, *flags]
        self.empty, self.turn = None, threading.Lock()

    def __enter__(self):
        self.room = tempfile.TemporaryDirectory(prefix="pra-native-")
        self.objects = [f"{self.room.name}/{it}.o" for it in SOURCES]
        try:
            for name, made in zip(SOURCES, self.objects):
                called(["gcc", *self.flags, "-c", f"{HERE}/{name}.c", "-o", made])
        except BaseException:
            self.room.cleanup()
            raise
        return self

    def __exit__(self, *_):
        self.room.cleanup()

    def fill(self, image, program):
        """Writes the program of an image without symbols; gcc is called for the first one alone."""
        with self.turn:
            if self.empty is None:
                self.build(Image(b"\x99", 0), f"{self.room.name}/empty")
                with open(f"{self.room.name}/empty", "rb") as file:
                    self.empty = file.read()
        with open(program, "wb") as file:
            file.write(with_image(self.empty, image))
        os.chmod(program, 0o755)

    def build(self, image, program, names=(), steps=NO_LIMIT):
        """Writes the program of an image; names are those of its procedures.

        It makes at most so many steps, where its words do not say.
        """
        with tempfile.TemporaryDirectory(dir=self.room.name) as room:
            with open(f"{room}/code", "wb") as file:
                file.write(image.code)
            with open(f"{room}/image.s", "w", encoding="ascii") as file:
                file.write(assembly_of(image, names, f"{room}/code", steps))
            called(["gcc", *LINK, *self.objects, f"{room}/image.s", "-o", f"{room}/program"])
            shutil.copy(f"{room}/program", program)
