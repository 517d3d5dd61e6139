"""What others come to on a module, beside which a student's cost and bound stand."""

import hashlib
from dataclasses import dataclass, field, replace

from grading.entries import Entry
from grading.verdicts import judge
from picture.others import ALLOCATORS, best_routes
from pranet import cbc, certificate
from pranet.compiler import TOP
from pranet.home import home_routes
from pranet.network import Network
from pranet.solver import OPEN, cost_of, solve

OPTIMA = f"{TOP}/bench/optima.txt"
ROUNDS = 10
OTHERS = (f"{ROUNDS} rounds", "home", *ALLOCATORS)


@dataclass
class Reference:
    """A module as it is handed out, and what others come to on it."""

    file: str
    wanted: certificate.Certificate  # its code and cost word, with routes of home
    costs: dict = field(default_factory=dict)  # by OTHERS, None where there is none
    optimum: int | None = None


def entries_of_others(known):
    """The certificates of other allocators, by name, handed in as those of strangers are."""
    best = [dict(best_routes(Network(it), known.cost)) for it in known.procedures]
    for allocator in ALLOCATORS:
        found = [it[allocator] for it in best]
        if None in found:
            yield allocator, Entry(fault="no routes")
            continue
        procedures = [
            replace(it, total=total, bound=0, prices=certificate.Prices(), routes=routes)
            for it, (total, routes) in zip(known.procedures, found, strict=True)
        ]
        yield allocator, Entry(certificate.write(certificate.Certificate(known.cost, procedures)))


def known_optimum(file, cost, count):
    """The optimum of a module that bench/optima.txt has, or None."""
    with open(file, "rb") as source:
        module = hashlib.sha256(source.read()).hexdigest()[:16]
    found = {}
    with open(OPTIMA, encoding="utf-8") as lines:
        for line in lines:
            words = line.split()
            if words[:2] == [module, cost]:
                found[int(words[2])] = int(words[3])
    return sum(found.values()) if len(found) == count else None


def optimum_of(file, known, seconds):
    """The optimum of a module as it is known, proved or found in so many seconds, or None."""
    found = known_optimum(file, known.cost, len(known.procedures))
    if found is None and all(it.total == it.bound for it in known.procedures):
        found = sum(it.total for it in known.procedures)
    if found is None and seconds and cbc.is_there():
        solved = [solve(Network(it), known.cost, seconds) for it in known.procedures]
        if not any(it.ending == OPEN for it in solved):
            found = sum(it.procedure.total for it in solved)
    return found


def at_home(known):
    """What a certificate's procedures cost with all variables at home."""
    networks = [Network(it) for it in known.procedures]
    return sum(cost_of(it, home_routes(it), known.cost) for it in networks)


def reference_of(compiler, file, cost, seconds):
    """What others come to on a module, or on the code of a certificate; the optimum is sought for
    so many seconds where it is not known."""
    home, is_module = compiler.problem(file, cost, 0)
    rounds = compiler.problem(file, cost, ROUNDS)[0]
    if not is_module:
        for it in rounds.procedures:
            it.routes = home_routes(Network(it))
    found = Reference(file, home)
    found.costs["home"] = sum(it.total for it in home.procedures) if is_module else at_home(home)
    told = sum(it.total for it in rounds.procedures)
    found.costs[f"{ROUNDS} rounds"] = told if is_module else None
    for allocator, entry in entries_of_others(home):
        found.costs[allocator] = judge(compiler, entry, home).cost
    if is_module:
        found.optimum = optimum_of(file, rounds, seconds)
    return found
