"""The text of a certificate or of a code file as it was given: what speaks against it, and its code
where that keeps all rules, as all has to that works on it.
"""

from checker import code, form, json_text, verdict
from pranet import code_file
from pranet.certificate import NoCertificate

MOST_TOLD = 10  # of the words of one reason, and of procedures


class Broken(NoCertificate):
    """A text whose form or code breaks a rule: a line for each thing that is wrong."""

    status = 3

    def __init__(self, lines):
        super().__init__("\n".join(lines))
        self.lines = lines


class TooMuch(Broken):
    """A text that has too much of something."""

    status = 4


def told(words, what):
    """The words of one reason, of which no more than MOST_TOLD are told."""
    more = len(words) - MOST_TOLD
    return words[:MOST_TOLD] + ([f"and {more} more {what}"] if more > 0 else [])


def in_text(name, text, at, words):
    line, column = json_text.line_and_column(text, at)
    return f"{name}:{line}:{column}: {words}"


def form_line(name, text, complaint):
    at = json_text.position(text, complaint.path)
    words = complaint.words(json_text.spelled(text, at))
    return in_text(name, text, at, f"{form.place_words(complaint.path)}: {words}")


def value_of(name, data, complaints_of=form.complaints):
    """The JSON value of a text against whose form nothing speaks, as that of a certificate."""
    try:
        text, value = json_text.read(data)
    except json_text.NoJson as error:
        text = data.decode(errors="replace")
        raise Broken([in_text(name, text, error.at, f"this is no JSON: {error}")]) from error
    complaints = complaints_of(value)
    if complaints:
        lines = [form_line(name, text, it) for it in complaints[:MOST_TOLD]]
        raise Broken(lines + told(complaints, "of this kind")[MOST_TOLD:])
    return value


def lines_of(name, data, name_variables=lambda procedures: None):
    """What speaks against a certificate, a line each. Procedures may be given the names that their
    variables have in a source."""
    try:
        known, claims = form.claims(value_of(name, data))
    except Broken as broken:
        return broken.lines
    name_variables(known.procedures)
    return [
        f"{name}, procedure {it.procedure}, {it.reason}: {words}"
        for it in verdict.verdict(known, claims)
        for words in told(it.words, f"against its {it.reason}")
    ]


# ---- code alone


def against_code(procedures):
    """What speaks against the code of procedures: their numbers, and words for each."""
    counts = [it.args for it in procedures]
    for it in procedures:
        found, _ = code.reasons_and_outline(it, counts)
        if found:
            yield it.number, found


def code_lines(name, against):
    """The same as lines on a file of that name."""
    lines, against = [], list(against)
    for number, words in against[:MOST_TOLD]:
        few = told(words, "against its code")
        lines += [f"{name}, procedure {number}, code: {it}" for it in few]
    more = len(against) - MOST_TOLD
    return lines + ([f"{name}: and {more} more procedures break a rule"] if more > 0 else [])


def known_of(name, data):
    """The certificate in a text whose code keeps all rules, whatever its routes and prices are."""
    known, _ = form.claims(value_of(name, data))
    if lines := code_lines(name, against_code(known.procedures)):
        raise Broken(lines)
    return known


# ---- code files


def over_a_limit(name, count, most, what):
    return TooMuch([f"{name}: it has {count} {what}, and at most {most} may be"])


def complaints_of_code(name):
    """What is wrong with the form of a value as a code file of that name, of which there may be too
    much."""

    def complaints(value):
        procedures = value.get("procs") if isinstance(value, dict) else None
        if isinstance(procedures, list) and len(procedures) > code_file.MOST_PROCEDURES:
            most = code_file.MOST_PROCEDURES
            raise over_a_limit(name, len(procedures), most, "procedures")
        return form.complaints_of_code(value)

    return complaints


def against_code_file(procedures):
    """What speaks against the code of a code file's procedures."""
    if procedures[0].args:
        taken = f"it takes {procedures[0].args}"
        yield 0, [f"a run begins here, which gives it no argument, and {taken}"]
    yield from against_code(procedures)


def code_of(name, data):
    """The code file in a text whose code keeps all rules."""
    if len(data) > code_file.MOST_BYTES:
        raise over_a_limit(name, len(data), code_file.MOST_BYTES, "bytes")
    known = code_file.of_value(value_of(name, data, complaints_of_code(name)))
    test_code_file(name, known.procedures)
    return known


def test_code_file(name, procedures):
    """Broken where these can't be the procedures of a code file."""
    if len(procedures) > code_file.MOST_PROCEDURES:
        raise over_a_limit(name, len(procedures), code_file.MOST_PROCEDURES, "procedures")
    if lines := code_lines(name, against_code_file(procedures)):
        raise Broken(lines)
