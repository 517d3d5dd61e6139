#!/usr/bin/env python3
"""Exercise 7: webs overlap for a price that grows, until they don't. The cheapest are kept."""

import random

from joints import Router
from paths import FAR, answer
from split import improve
from split import routes_of as split_routes

TRIES, PASSES = 2, 8
BEGIN, GROWTH = 0.5, 1.4  # what a register costs more that somebody has, and by what that grows


def settled(router, chance):
    """Whether all webs, each routed again and again, come to share no register."""
    turns = map(router.problem.turns, range(len(router.stays)))
    webs, penalty = list(router.webs), BEGIN * max(turns, default=1)
    for _ in range(PASSES):
        chance.shuffle(webs)
        router.penalty = penalty
        for web in webs:
            router.route(web)
        shared = router.shared()
        if not shared:
            return True
        for cell in shared:  # what was wanted twice stays dear
            router.tolls[cell] = router.tolls.get(cell, 0) + penalty / 2
        penalty *= GROWTH
    return False


def routes_of(problem):
    best, chance = split_routes(problem), random.Random(1)

    def cost(routes):
        return sum(map(problem.cost, range(len(routes)), routes))

    for _ in range(TRIES):
        router = Router(problem, best)
        if settled(router, chance):
            router.tolls, router.penalty = {}, FAR
            improve(router)
            best = min(best, router.routes(), key=cost)
    return best


if __name__ == "__main__":
    answer(routes_of)
