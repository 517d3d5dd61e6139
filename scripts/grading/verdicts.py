"""Verdicts on what is handed in. The compiler's `check` decides, and the code is to be the
module's; the reasons are in the words of the second checker."""

from dataclasses import dataclass

from checker import beside, given
from pranet import cbc, certificate
from pranet.compiler import ANY_BYTES
from pranet.network import Network
from pranet.solver import solve

ADMITTED, REFUSED = "admitted", "refused"
TRIED = (*range(21), 50, 100, 200, 500, 1000)  # rounds whose certificate may be a copied one
SOLVED = 200  # rounds from which `solve` begins
SECONDS = 60  # that `solve` has, where it is not told


@dataclass
class Verdict:
    word: str  # ADMITTED, REFUSED, or another one
    reason: str = ""
    cost: int | None = None  # and the bound where it is admitted
    bound: int | None = None

    @property
    def is_admitted(self):
        return self.word == ADMITTED


def reason_of(text, said):
    """The first thing that speaks against a text, in words, or what `check` says."""
    lines = given.lines_of("", text.encode(errors=ANY_BYTES))
    lines += said.strip().splitlines()[-1:] or ["check says nothing"]
    return lines[0].removeprefix(", ").removeprefix(":")


def judge(compiler, entry, wanted):
    """The verdict on what was handed in for the code of a certificate."""
    if entry.fault:
        return Verdict(entry.fault, entry.reason)
    status, said = compiler.check(entry.text)
    if status:
        return Verdict(REFUSED, reason_of(entry.text, said))
    known = certificate.read(entry.text)
    if known.cost != wanted.cost:
        return Verdict("other cost", f"its costs are by {known.cost}, and not by {wanted.cost}")
    if len(known.procedures) != len(wanted.procedures):
        counts = f"{len(known.procedures)} procedures, and the module {len(wanted.procedures)}"
        return Verdict("other code", f"it has {counts} with its body")
    for number, words in beside.differences(known, wanted):
        return Verdict("other code", f"procedure {number}: {words}")
    total = sum(it.total for it in known.procedures)
    return Verdict(ADMITTED, "", total, sum(it.bound for it in known.procedures))


# ---- copies


def is_as_written(text):
    """Whether a text is as the compiler and `solve` write certificates, byte for byte."""
    try:
        return certificate.write(certificate.read(text)) == text
    except certificate.NoCertificate:
        return False


def copied_from(compiler, text, file, cost):
    """Whose certificate an admitted text is, byte for byte: of some rounds of the compiler, or of
    `solve`; or nothing. Few students write as these do, so that few are compared."""
    if not is_as_written(text) or not compiler.problem(file, cost)[1]:
        return ""
    for rounds in TRIED:
        if certificate.write(compiler.certificate(file, cost, rounds)) == text:
            return f"byte for byte what `cert --rounds {rounds}` prints"
    if cbc.is_there():
        solved = compiler.certificate(file, cost, SOLVED)
        for it in solved.procedures:
            solve(Network(it), cost, SECONDS)
        if certificate.write(solved) == text:
            return "byte for byte what `solve` prints"
    return ""
