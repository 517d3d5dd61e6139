#!/usr/bin/env python3
"""Exercise 6: each web in turn takes its cheapest way through what is free, and may be split."""

from colouring import routes_of as coloured
from joints import Router
from paths import answer


def improve(router):
    """Routes webs anew until none gets cheaper."""
    is_cheaper = True
    while is_cheaper:
        is_cheaper = any([router.route(web) for web in router.webs])


def routes_of(problem):
    router = Router(problem, coloured(problem))
    improve(router)
    return router.routes()


if __name__ == "__main__":
    answer(routes_of)
