"""Images as text for the GNU assembler, and objects of it that C programs can call.

The text has the instructions of a compiled image, one a line. Code and data stand wherever the
linker puts them: places in the code are labels, places in the data count from a symbol, and a frame
is tested against the stack on which C called. What the host does for INT is done by four functions
that the C program has. Each procedure has a symbol for C, which takes its arguments as C hands them
over and calls the code.
"""

from dataclasses import dataclass

from checker.instructions import MEMORY, NoInstruction, decode
from processor.image import Refused, symbols
from processor.machine import DATA_BASE, STACK_BASE, STACK_TOP

NO_OBJECT = 70  # the status where an image is none that was compiled
SERVICES = {33: "writes", 34: "ends_line", 35: "reads", 36: "traps"}  # by the number behind INT
BODY = "_body"  # stands behind the module's name, twice underlined, as no procedure's name has it
KEYWORDS = set(
    "asm auto break case char const continue default do double else enum extern float for goto if"
    " inline int long register restrict return short signed sizeof static struct switch typedef"
    " typeof union unsigned void volatile while".split()
)  # of C, which may be names of parameters here


@dataclass
class Routine:
    """A procedure: its symbol for C, its parameters, and where its code is."""

    symbol: str
    name: str  # for debuggers
    parameters: list  # how each is declared in C
    lines: list  # the place and text of each instruction

    @property
    def begin(self):
        return self.lines[0][0]


@dataclass
class Object:
    """What an object is made of."""

    prefix: str  # the module's name
    routines: list
    data_words: int


# ---- what the image has


def instructions(code, begin, end):
    """The place and text of each instruction of a procedure."""
    at = begin
    while at < end:
        try:
            text, size = decode(code, at)
        except NoInstruction as error:
            raise Refused(3, f"fault code at {at}") from error
        yield at, text
        at += size


def arguments(lines):
    """How many arguments a procedure takes off the stack, by the instructions that return."""
    taken = (int(text.split()[1]) for _, text in lines if text.startswith("ret.i "))
    return max((it // 4 for it in taken), default=0)


def parameters_of(heading, count):
    """How parameters are declared in C; those of a heading that are VAR are addresses."""
    known = heading.parameters if heading and len(heading.parameters) == count else None
    if known is None:
        return [f"int argument_{it}" for it in range(count)]
    return [
        f"int {'*' if by_var else ''}{name}{'_' * (name in KEYWORDS)}" for name, by_var in known
    ]


def object_of(image, names, headings=()):
    """The object of a compiled image. Names are those of the report; headings those of the module's
    text, which name the parameters too."""
    if not names and headings:
        names = [it.name for it in headings]
    known = symbols(image, names)
    if not known:
        raise Refused(NO_OBJECT, "pra: only an image that was compiled becomes an object")
    prefix = known[0][0] if len(names) == len(known) else "pra"
    routines = []
    for number, (name, begin, size) in enumerate(known):
        lines = list(instructions(image.code, begin, begin + size))
        heading = headings[number] if number < len(headings) else None
        symbol = f"{prefix}_{name.replace('.', '_') if number else BODY}"
        parameters = parameters_of(heading, arguments(lines))
        routines.append(Routine(symbol, f'"{prefix}.{name}"', parameters, lines))
    return Object(prefix, routines, image.data_words)


# ---- assembler text

HEAD = """\
# {module}: {count} procedures, for gcc -m32. The functions pra_write, pra_line, pra_read and
# pra_trap are those of the program that this is linked to.
    .intel_syntax noprefix
    .bss
    .balign 4
    .globl {data}
    .type {data}, @object
    .size {data}, {bytes}
{data}: .zero {bytes}
.Lstack: .zero 4                 # the least address that frames may have
    .text
"""
# How C calls a procedure: as long as it runs its frames are tested against this stack.
ENTRY = """
    .globl {symbol}
    .type {symbol}, @function
{symbol}:
    push ebp
    mov ebp, esp
    push dword ptr [.Lstack]
    lea eax, [esp-{stack}]
    mov [.Lstack], eax
{pushes}    call .L{begin:x}
    pop dword ptr [.Lstack]
    pop ebp
    ret
    .size {symbol}, . - {symbol}
"""
# A service of the host changes no register but the one that it gives back. C's functions want the
# stack at a multiple of 16.
SERVICE = """
.L{name}:
    pushfd
    pushad
    mov ebp, esp
    and esp, -16
    sub esp, 12
    push eax
    call {function}
{after}    mov esp, ebp
    popad
    popfd
    ret
"""
FUNCTIONS = {
    "writes": ("pra_write", ""),
    "ends_line": ("pra_line", ""),
    "reads": ("pra_read", "    mov [ebp+28], eax\n"),
    "traps": ("pra_trap", "    ud2\n"),
}
STUBS = {0x07: 1, 0x0E: 2, 0x15: 4}  # of the traps Index, Divide and Stack: what EAX is there
STUB = "\n.L{at:x}:\n    mov eax, {kind}\n    call .Ltraps\n"
FOOT = '    .section .note.GNU-stack, "", @progbits\n'


def is_jump(name):
    """Whether an instruction has a place of the code as its operand."""
    return name == "call" or name[0] == "j"


class Text:
    """Writes the instructions of an object."""

    def __init__(self, made):
        self.made, self.data = made, f"{made.prefix}__data"
        self.targets = {it.begin for it in made.routines}
        for it in made.routines:
            for _, text in it.lines:
                name, _, rest = text.partition(" ")
                if is_jump(name):
                    self.targets.add(int(rest, 16))
        self.services = {"traps"}

    def place(self, base, index, scale, number):
        """An operand in memory. Without a base it is in the data."""
        number -= 0 if base else DATA_BASE
        parts = [base or self.data] + ([f"{index}*{scale}"] if index else [])
        return "+".join(parts) + (f"{number:+d}" if number else "")

    def operands(self, name, rest):
        """The operands of an instruction."""
        size = "" if name == "lea" else "dword ptr "

        def place(found):
            base, index, scale, _, number = found.groups()
            return f"{size}[{self.place(base, index, scale, int(number))}]"

        return MEMORY.sub(place, rest)

    def line(self, at, text, before):
        """The lines of an instruction; before is the text of the one before it."""
        name, _, rest = text.partition(" ")
        if name == "int":
            if int(rest) not in SERVICES:
                raise Refused(NO_OBJECT, f"pra: INT {rest} at {at:08x} is no service for C")
            self.services.add(SERVICES[int(rest)])
            return [f"call .L{SERVICES[int(rest)]}"]
        if is_jump(name):
            return [f"{name} .L{int(rest, 16):x}"]
        if name == "cmp.mi" and before == "mov.mr ebp, esp":
            need = int(rest.rpartition(" ")[2]) - STACK_BASE
            return ["mov eax, [.Lstack]", f"add eax, {need}", "cmp ebp, eax"]
        return [f"{name.partition('.')[0]} {self.operands(name, rest)}".rstrip()]

    def routine(self, it):
        """A procedure, with a symbol of its own for debuggers."""
        yield f"\n    .type {it.name}, @function\n{it.name}:\n"
        before = ""
        for at, text in it.lines:
            if at in self.targets:
                yield f".L{at:x}:\n"
            yield from (f"    {line}\n" for line in self.line(at, text, before))
            before = text
        yield f"    .size {it.name}, . - {it.name}\n"

    def entry(self, it):
        """What C calls; the first argument is pushed first."""
        places = (f"    push dword ptr [ebp+{8 + 4 * at}]\n" for at in range(len(it.parameters)))
        stack = STACK_TOP - STACK_BASE
        return ENTRY.format(symbol=it.symbol, pushes="".join(places), begin=it.begin, stack=stack)

    def text(self):
        size = max(4, 4 * self.made.data_words)
        head = HEAD.format(
            module=self.made.prefix, count=len(self.made.routines), data=self.data, bytes=size
        )
        code = [part for it in self.made.routines for part in self.routine(it)]
        entries = [self.entry(it) for it in self.made.routines]
        stubs = [STUB.format(at=at, kind=kind) for at, kind in STUBS.items()]
        services = []
        for name in sorted(self.services):
            function, after = FUNCTIONS[name]
            services.append(SERVICE.format(name=name, function=function, after=after))
        return "".join([head, *code, *entries, *stubs, *services, FOOT])


def assembly(made):
    return Text(made).text()


# ---- the header

HEADER = """\
/* The procedures of the module {prefix}, compiled by pra. A procedure that C calls may use {stack}
   bytes of the stack below its caller's. */
#ifndef {guard}
#define {guard}

/* The module's variables, in the order of their declarations. */
extern int {prefix}__data[{words}];

/* The module's body, and its procedures. A VAR parameter is an address. */
{declared}

/* What the program has to have: Write(number), WriteLn, the number for Read, and what is done where
   the module traps: 1 where an index is out of range, 2 where a divisor is 0 or less, 4 where the
   frames need more stack. pra_trap must not return; 3 is for a pra_read that finds no number. */
void pra_write(int number);
void pra_line(void);
int pra_read(void);
void pra_trap(int kind);

#endif
"""


def header(made):
    """The header of an object, for C."""
    declared = "\n".join(
        f"void {it.symbol}({', '.join(it.parameters) or 'void'});" for it in made.routines
    )
    return HEADER.format(
        prefix=made.prefix,
        guard=f"PRA_{made.prefix.upper()}_H",
        words=max(1, made.data_words),
        stack=STACK_TOP - STACK_BASE,
        declared=declared,
    )
