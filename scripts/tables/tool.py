"""What calls of the compiler make of the code of a row."""

import re

import needs
from calls.reader import FILE
from calls.running import left_by
from pranet import certificate, code_file
from pranet.network import Network

MOST_STEPS = 2000000  # more than the image of any row takes
FROM = "--from=code"
FRAME = re.compile(rb"^procedure \d+ \S+ frame (\d+)$", re.M)
ENDING = re.compile(r"(.*?) (?:steps|units) (\d+) reads (\d+)")


class Refused(Exception):
    """What a call says that does not end well."""


def call(words, files, given=b"", good=(0,)):
    """What a call leaves in a folder with these files."""
    left = left_by(needs.program(), words, files, given)
    if left.status not in good:
        raise Refused(f"{' '.join(words)}: status {left.status} {left.notes.decode().strip()}")
    return left


def code_text(procedures, data):
    """The code file of procedures."""
    names = [f"P{it.number}" for it in procedures]
    return code_file.write(code_file.CodeFile(data, names, procedures)).encode()


def home_routes(text):
    """The routes of each procedure of a code file before the first round, which are at home."""
    made = call(["cert", FILE, FROM, "--rounds=0"], {FILE: text})
    return [it.routes for it in certificate.read(made.out.decode()).procedures]


def total_of(procedure, routes, cost):
    """What routes cost, or 0 where they are none of its network."""
    network = Network(procedure)
    if [len(it.masks) for it in network.strands] != [len(it) for it in routes]:
        return 0
    return sum(paid for _, paid in network.paid(routes, cost).values())


def certificate_text(procedures, routes, cost="size"):
    """The certificate of these routes, with bounds of 0."""
    for it, own in zip(procedures, routes, strict=True):
        it.routes, it.total, it.bound = own, total_of(it, own, cost), 0
    return certificate.write(certificate.Certificate(cost, procedures)).encode()


def applied(text, certified):
    """The image of code by a certificate's routes, and the frames of its procedures."""
    left = call(["apply", FILE, FROM], {FILE: text}, certified)
    return left.files["out.pri"], [int(it) for it in FRAME.findall(left.out)]


def outcome(left):
    """What a run came to as rows say it, and its steps."""
    found = ENDING.fullmatch(left.notes.decode().splitlines()[-1])
    text = left.out.decode().replace("\n", "/")
    return f"{text} {found[1]} {found[3]}", int(found[2])


def executed(image, given, steps=MOST_STEPS):
    """What an image comes to, and its steps."""
    words = ["exec", FILE, f"--steps={steps}"]
    return outcome(call(words, {FILE: image}, given.encode(), (0, 1, 2)))


def meant(text, given, steps):
    """What code means, and its steps."""
    words = ["interp", FILE, FROM, f"--steps={steps}"]
    return outcome(call(words, {FILE: text}, given.encode(), (0, 1, 2)))
