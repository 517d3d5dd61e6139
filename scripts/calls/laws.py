"""What holds of every call, whatever its row says.

The lines of a report are those of rounds that stop by their rule: costs never rise, bounds never
fall, no cost is below its bound, and the last line has the sums. Another call makes the same; what
a module or code means is what its image does, as far as code that gets stuck comes; the image does
it by itself too, and is what its text is assembled to; and the certificate of what was compiled
holds, with the last costs and bounds of its report.
"""

import re

from calls.reader import FILE
from calls.running import image_name, left_by, source_of, value_of

HEADER = 16  # bytes of an image in front of its code
OPTIONS = "--rounds", "--gap", "--cost", "--from"  # which say what is compiled, and how
PROCEDURE = re.compile(r"procedure (\d+) \S+ frame \d+")
ROUND = re.compile(r"round (\d+) cost (\d+) bound (\d+)")
TOTAL = re.compile(r"total cost (\d+) bound (\d+) code (\d+)")


class Broken(Exception):
    """Which law does not hold."""


def number(words, option, default):
    """The number that words give an option."""
    return int(value_of(words, option, default))


def procedures_of(lines):
    """Of each procedure in the lines of a report its rounds, and the numbers of the last line."""
    found = []
    for line in lines:
        if head := PROCEDURE.fullmatch(line):
            if int(head[1]) != len(found):
                raise Broken(f"report: {line} stands at {len(found)}")
            found.append([])
        elif (numbers := ROUND.fullmatch(line)) and found:
            if int(numbers[1]) != len(found[-1]):
                raise Broken(f"report: {line} is not the next one")
            found[-1].append((int(numbers[2]), int(numbers[3])))
        elif numbers := TOTAL.fullmatch(line):
            return found, tuple(map(int, numbers.groups()))
        else:
            raise Broken(f"report: {line}")
    raise Broken("report: there is no last line")


def check_rounds(rounds, most, gap):
    """The rounds of a procedure go on as long as the rule says, and get no worse."""
    for (cost, bound), (later_cost, later_bound) in zip(rounds, rounds[1:]):
        if later_cost > cost or later_bound < bound:
            raise Broken(f"rounds: {rounds}")
        if cost <= bound + gap:
            raise Broken(f"rounds that go on behind their end: {rounds}")
    if not rounds or any(cost < bound for cost, bound in rounds):
        raise Broken(f"rounds: {rounds}")
    cost, bound = rounds[-1]
    if len(rounds) > most + 1 or (len(rounds) <= most and cost > bound + gap):
        raise Broken(f"{len(rounds) - 1} rounds of {most}: {rounds}")


def check_report(words, text, image):
    """A report is that of rounds, of which the last costs and bounds are answered."""
    procedures, total = procedures_of(text.decode().splitlines())
    for rounds in procedures:
        check_rounds(rounds, number(words, "--rounds", 10), number(words, "--gap", 0))
    lasts = [rounds[-1] for rounds in procedures]
    wanted = sum(cost for cost, _ in lasts), sum(bound for _, bound in lasts)
    if total != (*wanted, len(image) - HEADER):
        raise Broken(f"total {total} of {wanted} and {len(image)} bytes")
    return lasts


def like(words, mode, *options):
    """The words of a call in another mode; the image has the name of all images."""
    kept = [f"{it}={value_of(words, it, None)}" for it in options if value_of(words, it, None)]
    return [mode, FILE, *kept]


def heads_of(notes):
    """The lines of procedures, with their frames."""
    return [it for it in notes.decode().splitlines() if PROCEDURE.fullmatch(it)]


def ending_of(notes):
    """How a run ended, and how many words it took."""
    line = notes.decode().splitlines()[-1]
    return re.sub(r" (steps|units) \d+ ", " ", line)


def check_meaning(program, call, left):
    """What FILE means is what its image did, if that came to an end."""
    words = like(call.words, "interp", *OPTIONS, "--steps")
    meant = left_by(program, words, source_of(call), call.given)
    if ending_of(meant.notes).startswith("stuck "):
        if not left.out.startswith(meant.out):
            raise Broken(f"meaning until it is stuck: {meant.out}")
        return
    found = meant.status, meant.out, meant.rest, ending_of(meant.notes), meant.files
    if found != (left.status, left.out, left.rest, ending_of(left.notes), {}):
        raise Broken(f"meaning: {found}")
    if heads_of(meant.notes) != heads_of(left.notes):
        raise Broken(f"procedures by meaning: {heads_of(meant.notes)}")


def check_image(program, image):
    """An image is what its text is assembled to."""
    listed = left_by(program, ["list", FILE], {FILE: image})
    again = left_by(program, ["asm", FILE], {FILE: listed.out})
    if again.files.get("out.pri") != image:
        raise Broken(f"listing: status {listed.status} {again.status}")


def check_text(program, text):
    """A text that was assembled is that of its image."""
    made = left_by(program, ["asm", FILE], {FILE: text})
    listed = left_by(program, ["list", FILE], {FILE: made.files["out.pri"]})
    if listed.out != text:
        raise Broken(f"listing: status {listed.status}")


def check_ran(program, call, left, image):
    """An image does by itself what the run did that made it."""
    words = like(call.words, "exec", "--steps")
    ran = left_by(program, words, {FILE: image}, call.given)
    last = left.notes.splitlines(keepends=True)[-1]
    if (ran.status, ran.out, ran.notes) != (left.status, left.out, last):
        raise Broken(f"exec: status {ran.status} {ran.notes}")


def check_certificate(program, call, lasts):
    """The certificate of FILE holds, with the last costs and bounds of its report."""
    words = like(call.words, "cert", *OPTIONS)
    certificate = left_by(program, words, source_of(call))
    held = left_by(program, ["check", FILE], {FILE: certificate.out})
    lines = [f"procedure {at} cost {it[0]} bound {it[1]}\n" for at, it in enumerate(lasts)]
    wanted = "".join([*lines, "certificate holds\n"]).encode()
    if (held.status, held.out, held.notes) != (0, wanted, b""):
        raise Broken(f"certificate: status {held.status} {held.notes}")


def check_generated(program, call, left):
    """A module that is made runs as it ran when it was made, from the same image."""
    file, image = call.words[1], left.files[image_name(call.words)]
    words = like(call.words, "run", *OPTIONS, "--steps")
    ran = left_by(program, words, {FILE: left.files[file]})
    last = b"total " + ran.notes.rpartition(b"\ntotal ")[2]
    seed, size = number(call.words, "--seed", 1), number(call.words, "--size", 10)
    head = f"generated seed {seed} size {size} bytes {len(left.files[file])}\n"
    wanted = head.encode() + last + f"output bytes {len(ran.out)}\n".encode()
    if (ran.files["out.pri"], wanted, ran.status) != (image, left.out, left.status):
        raise Broken(f"generated: status {ran.status} {ran.notes}")
    check_report(call.words, ran.notes, image)
    options = like(call.words, "gen", "--seed", "--size")[2:]
    again = left_by(program, ["gen", file, *options, "--rounds=0", "--steps=0"], {})
    if again.files.get(file) != left.files[file]:
        raise Broken("generated: another call makes another module")


def check_twice(program, call, left):
    """A call makes the same once more."""
    again = left_by(program, call.words, source_of(call), call.given)
    if again != left:
        raise Broken("another call leaves something else")


def check_compiled(program, call, left):
    """All that holds of what was compiled, and of its run if there was one."""
    image = left.files[image_name(call.words)]
    is_run = call.words[0] == "run"
    lasts = check_report(call.words, left.notes if is_run else left.out, image)
    check_certificate(program, call, lasts)
    check_image(program, image)
    if is_run:
        check_ran(program, call, left, image)
        if left.status < 2:
            check_meaning(program, call, left)


def check(program, call, left):
    """Complains of a law that does not hold of a call that was well made."""
    mode = call.words[0] if call.words else ""
    if call.fails or left.status > 2:
        return
    if mode in ("run", "compile"):
        check_twice(program, call, left)
        check_compiled(program, call, left)
    elif mode == "gen":
        check_generated(program, call, left)
    elif mode == "list":
        check_image(program, call.source)
    elif mode == "asm":
        check_text(program, call.source)
