"""The best routes of a network, and prices that prove how near they are.

The prices are the duals of the relaxation, rounded to whole units. Any prices give a bound that is
right, and their value is computed anew, exactly, of what they were rounded to; where it comes out
lower than that of the relaxation, steps along its gradient bring it back. Where that bound is what
known routes cost, these are the best, and it is proved; else CBC is asked for cheaper ones, through
places alone that such routes may have: by the prices, all others cost too much.
"""

from dataclasses import dataclass

from checker.given import MOST_TOLD, Broken
from checker.routes import reasons
from pranet import cbc
from pranet.dual import UNIT, Dual, in_range, whole
from pranet.home import home_routes
from pranet.program import prices_of, program_of, relaxation_of, routes_of

STEPS = 100  # along the gradient, at most
NEARLY = 1e-4  # of a weight: how far CBC's values are from whole ones, at most

PROVED = "proved"  # the bound is the cost
BY_CBC = "by CBC"  # CBC says that there are no cheaper routes, and the bound is lower
OPEN = "open"  # time ran out


@dataclass
class Solved:
    procedure: object  # with the routes, the cost, the prices and the bound that were found
    ending: str  # PROVED, BY_CBC or OPEN


def cost_of(network, routes, cost):
    return sum(total for _, total in network.paid(routes, cost).values())


def begin(network, cost):
    """Has the procedure's cost and bound be what its routes cost and its prices prove. Where there
    are no routes all variables are at home."""
    procedure = network.code
    if not procedure.routes:
        procedure.routes = home_routes(network)
    if wrong := reasons(network):
        raise Broken([f"procedure {procedure.number}, routes: {it}" for it in wrong[:MOST_TOLD]])
    procedure.total = cost_of(network, procedure.routes, cost)
    procedure.prices = in_range(procedure.prices)
    procedure.bound = whole(Dual(network, cost).value(procedure.prices))


def take_routes(network, cost, routes):
    """Keeps routes in the procedure where they are admitted and cost less than what is there."""
    procedure = network.code
    if network.admits(routes) and (total := cost_of(network, routes, cost)) < procedure.total:
        procedure.routes, procedure.total = routes, total


def take_prices(network, dual, prices):
    """Keeps prices in the procedure where they prove more than those that are there."""
    bound = whole(dual.value(prices))
    if bound > network.code.bound:
        network.code.prices, network.code.bound = prices, bound


def relax(network, cost, seconds):
    """Has the procedure's prices prove what the relaxation proves."""
    program = relaxation_of(network, cost)
    answer = cbc.solve(program, seconds, is_relaxed=True)
    dual = Dual(network, cost)
    prices = prices_of(network, answer.duals)
    take_prices(network, dual, prices)
    if answer.is_optimal:
        value = sum(by * answer.values.get(name, 0) for name, by in program.costs.items())
        target = whole(round((value - NEARLY) * UNIT)) * UNIT - UNIT + 1
        if whole(target) > network.code.bound:
            take_prices(network, dual, dual.raised(prices, target, STEPS)[0])


def solve(network, cost, seconds):
    """Betters routes, cost, prices and bound of the network's procedure, where that can be done in
    so many seconds for the relaxation and as many for whole routes."""
    procedure = network.code
    begin(network, cost)
    if procedure.bound == procedure.total:
        return Solved(procedure, PROVED)
    relax(network, cost, seconds)
    if procedure.bound == procedure.total:
        return Solved(procedure, PROVED)
    places = Dual(network, cost).within(procedure.prices, (procedure.total - 1) * UNIT)
    answer = cbc.solve(program_of(network, cost, places), seconds, below=procedure.total)
    if answer.values:
        take_routes(network, cost, routes_of(network, answer.values))
    if procedure.bound == procedure.total:
        return Solved(procedure, PROVED)
    return Solved(procedure, BY_CBC if answer.is_settled else OPEN)
