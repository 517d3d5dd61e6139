"""What speaks against a certificate, in the order in which it is asked: by procedure and reason."""

from dataclasses import dataclass

from checker import code, form, json_text, prices, routes

REASONS = ("code", "routes", "prices", "total", "bound")


@dataclass
class Against:
    """All that one reason says against a procedure."""

    procedure: int
    reason: str  # one of REASONS
    words: list


def against_claim(claim, counts, cost):
    """The reasons against one procedure with their words. Code that is not valid has no network,
    and routes that are not admitted have no total."""
    found, network = code.reasons(claim.procedure, counts)
    if network is None:
        return {"code": found}
    if isinstance(network, code.Outline):
        return {"routes": [routes.counted(network.count, claim.procedure.routes)]}
    told = {"routes": routes.reasons(network)}
    if not told["routes"]:
        told["total"] = routes.total_reasons(network, cost)
    rooms = prices.Rooms(network)
    told["prices"] = prices.reasons(rooms, claim)
    if not told["prices"]:
        told["bound"] = prices.bound_reasons(rooms, claim, cost)
    return told


def verdict(certificate, claims):
    """All that speaks against a certificate; where nothing does it holds."""
    counts = [it.procedure.args for it in claims]
    found = []
    for number, claim in enumerate(claims):
        told = against_claim(claim, counts, certificate.cost)
        found += [Against(number, it, told[it]) for it in REASONS if told.get(it)]
    return found


def answer(data):
    """The last line that `check` prints of a text that is not too long."""
    try:
        _, value = json_text.read(data)
    except json_text.NoJson:
        return "fault json"
    if form.complaints(value):
        return "fault certificate form"
    for it in verdict(*form.claims(value)):
        return f"fault certificate procedure {it.procedure} {it.reason}"
    return "certificate holds"
