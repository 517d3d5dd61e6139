"""What the compiler says of a module: its report by both weights, certificate and listing."""

import os
import tempfile
from dataclasses import replace

from checker import given as checked
from picture import lines, listing, local_names, report, wrong
from picture.data import Drawn, State
from pranet import certificate, code_file, code_text
from pranet.certificate import code_value
from pranet.compiler import Refused
from pranet.network import Network

WEIGHTS = ("size", "speed")


def reported(compiler, file, options, image):
    out, _ = compiler.call("compile", file, *options, "--image", image)
    return report.read(out.decode())


def reported_of_run(compiler, file, options, image, name):
    """The report of a run on the input that a file holds; traps and long runs are runs."""
    with open(name, "rb") as given:
        words = ("run", file, *options, "--image", image)
        _, notes = compiler.call(*words, given=given, good=(0, 1, 2))
    return report.read(notes.decode())


KEPT = (0, 1, 2, 3, 5, 10, 20, 50, 100, 200, 500)  # numbers of rounds whose routes are shown


def kept_rounds(most):
    """The numbers of rounds whose routes a page of so many rounds shows."""
    return [it for it in KEPT if it < most] + [most]


class Shown:
    """All that a page shows."""

    def __init__(self, file, options=""):
        self.file, self.command = file, f"pra show {file}{options}"
        self.reports, self.source, self.headings = {}, b"", []
        self.certificate, self.drawn = None, []

    refused = None  # the refusal of what is shown
    kind = "certificate"  # what it is of

    @property
    def is_compared(self):
        """Whether it is of several certificates."""
        return False


class NotOneModule(Exception):
    """Certificates are of other code, or by other weights."""


REFUSED = 3  # the status of a certificate that does not hold


class Read:
    """A certificate that was read and tested: its name on the page, and what speaks against it."""

    def __init__(self, compiler, file, name):
        self.name, self.line, self.reasons = name, "", {}
        with open(file, "rb") as held:
            data = held.read()
        status, out, notes = compiler.ran("check", file)
        if status:
            self.line = (notes or out).decode(errors="replace").strip().rpartition("\n")[2]
            self.refused = Refused("pra check", status, notes)
            if status != REFUSED:
                raise self.refused
            try:
                self.reasons = wrong.reasons(data)
            except wrong.NoPicture as error:
                raise self.refused from error
        self.known = certificate.read(data.decode(errors="replace"))

    def state(self, drawn, number):
        """What a page shows of one of its procedures."""
        it = self.known.procedures[number]
        paid = sum(total for _, total in drawn.network.paid(it.routes, drawn.cost).values())
        against = self.reasons.get(number, ())
        told = [f"{reason}: {each}" for reason, words in against for each in words]
        marks = wrong.Marks(drawn.network, it.routes, drawn.name).all() if told else []
        return State(None, it.routes, paid, it.bound, self.name, told, marks)


def names_of(files):
    """What certificates are called on a page: by their files, without folders if that will do."""
    names = [os.path.basename(it) for it in files]
    return names if len(set(names)) == len(names) else list(files)


class OfCertificates(Shown):
    """Certificates of one module by themselves: there is no source, no report and no image. One
    that is refused is shown as far as it can be."""

    def __init__(self, compiler, files):
        super().__init__(" ".join(files))
        self.read = [Read(compiler, *it) for it in zip(files, names_of(files), strict=True)]
        self.certificate = self.read[0].known
        self.test_code()
        cost, count = self.certificate.cost, len(self.certificate.procedures)
        self.headings = [report.Heading(None, None, []) for _ in range(count)]
        try:
            self.test_codes_are_valid()
            self.drawn = [self.draw(number) for number in range(count)]
        except wrong.NoPicture as error:
            raise self.refused from error
        told = [
            report.Reported(f"procedure {n}", None, [(it.states[0].cost, it.code.bound)])
            for n, it in enumerate(self.drawn)
        ]
        sums = sum(it.states[0].cost for it in self.drawn), sum(it.code.bound for it in self.drawn)
        self.reports = {cost: report.Report(told, *sums, None, "")}

    @property
    def is_compared(self):
        return len(self.read) > 1

    @property
    def refused(self):
        """The refusal of the first certificate that is refused, or None."""
        return next((it.refused for it in self.read if it.line), None)

    def test_code(self):
        known = [it.known for it in self.read]
        codes = [[code_value(it) for it in one.procedures] for one in known]
        if any(it != codes[0] for it in codes) or len({it.cost for it in known}) > 1:
            raise NotOneModule("these certificates are of other code, or by other weights")

    def test_codes_are_valid(self):
        for it in self.read:
            for number, told in it.reasons.items():
                for reason, words in told:
                    if reason == "code":
                        raise wrong.NoPicture(f"procedure {number}, code: {words[0]}")

    def draw(self, number):
        """A procedure with its states, and the prices of the highest bound that holds."""
        entries = [it.known.procedures[number] for it in self.read]
        network = Network(entries[0])
        if not all(wrong.can_be_drawn(network, it.routes) for it in entries):
            raise wrong.NoPicture(f"procedure {number} has not one place for each strand and layer")
        good = [
            it.known.procedures[number]
            for it in self.read
            if not {"prices", "bound"} & {reason for reason, _ in it.reasons.get(number, ())}
        ]
        code = max(good, key=lambda it: it.bound, default=entries[0])
        if not good:
            wrong.without_prices(code)
        drawn = Drawn(self.certificate.cost, code, self.headings[number])
        drawn.states = [it.state(drawn, number) for it in self.read]
        drawn.total = drawn.states[0].cost
        drawn.paid = drawn.network.paid(drawn.states[0].routes, drawn.cost)
        return drawn


def state_of(rounds, procedure):
    return State(rounds, procedure.routes, procedure.total, procedure.bound)


class SourceOfModule:
    """The text of a module, and what is found of it in the code."""

    kind = "module"

    def __init__(self, source):
        self.text, self.headings = source, report.headings(source)
        self.named, self.places = local_names.Named(source), lines.Source(source)

    def names_of(self, procedure):
        return local_names.names_of(self.named, procedure.number, procedure)

    def lines_of(self, procedure):
        """Of each block the lines that it came from."""
        return lines.lines_of_blocks(self.places, procedure.number, procedure.blocks)


class SourceOfCode:
    """Code as it is written for people, in the place of a module's text."""

    kind = "code"

    def __init__(self, code):
        text = list(code_text.lines_of(code))
        self.text = "".join(f"{it.text}\n" for it in text).encode()
        self.headings = [report.Heading(it, None, []) for it in code.names]
        self.heads = [[] for _ in code.names]  # the lines at which blocks begin
        for number, it in enumerate(text, 1):
            if it.block is not None:
                self.heads[it.procedure].append([number])
            elif it.procedure is not None:
                self.headings[it.procedure].line = number

    def names_of(self, _):
        return {}

    def lines_of(self, procedure):
        heads = self.heads[procedure.number]
        return heads if len(heads) == len(procedure.blocks) else []


def source_of(file):
    """The source that a file holds, which is Broken where it is code that breaks a rule."""
    with open(file, "rb") as held:
        data = held.read()
    if code_file.is_code(data):
        return SourceOfCode(checked.code_of(file, data))
    return SourceOfModule(data)


class Module(Shown):
    """A module or a code file, of which the compiler is asked for everything."""

    def __init__(self, compiler, file, rounds, cost, given=None):
        told = f" --input {given}" if given else ""
        super().__init__(file, f" --rounds {rounds} --cost {cost}{told}")
        self.rounds, source = int(rounds), source_of(file)
        self.source, self.headings, self.kind = source.text, source.headings, source.kind
        with tempfile.TemporaryDirectory(prefix="pra-show-") as room:
            image = f"{room}/out.pri"
            for word in sorted(WEIGHTS, key=lambda it: it == cost):
                options = ("--rounds", str(rounds), "--cost", word)
                if given and word == cost:
                    self.reports[word] = reported_of_run(compiler, file, options, image, given)
                else:
                    self.reports[word] = reported(compiler, file, options, image)
            kept = kept_rounds(int(rounds))
            known = [(it, self.certified(compiler, file, it, cost, room)) for it in kept]
            listed, _ = compiler.call("list", image)
        self.certificate = known[-1][1]
        self.drawn = self.draw(listed.decode(), source)
        for number, it in enumerate(self.drawn):
            it.states = [state_of(rounds, each.procedures[number]) for rounds, each in known]
        for it in self.drawn:
            self.test_states(it)
            it.states = self.made_states(it)
            it.lines = source.lines_of(it.code)

    @staticmethod
    def certified(compiler, file, rounds, cost, room):
        """The certificate after some rounds, to which the compiler's checker has said yes."""
        text, _ = compiler.call("cert", file, "--rounds", str(rounds), "--cost", cost)
        with open(f"{room}/cert.json", "wb") as out:
            out.write(text)
        compiler.call("check", f"{room}/cert.json")
        return certificate.read(text.decode())

    def test_states(self, drawn):
        """Asks whether certificates of fewer rounds are those of the reported rounds."""
        reported = self.reports[self.certificate.cost].procedures[drawn.code.number].rounds
        for it in drawn.states:
            told = reported[min(it.rounds, len(reported) - 1)]
            paid = sum(each for _, each in drawn.network.paid(it.routes, drawn.cost).values())
            if not told == (it.cost, it.bound) == (paid, it.bound):
                raise certificate.NoCertificate(
                    f"procedure {drawn.code.number} costs {it.cost} after {it.rounds} rounds by its"
                    f" certificate, {paid} by its routes, and {told[0]} is reported"
                )

    def made_states(self, drawn):
        """The states of a procedure up to the one behind its last round."""
        made = len(self.reports[self.certificate.cost].procedures[drawn.code.number].rounds) - 1
        before = [it for it in drawn.states if it.rounds < made]
        return [*before, replace(drawn.states[len(before)], rounds=made)]

    def draw(self, listed, source):
        """Each procedure, with the machine instructions that it became."""
        reader, cost, drawn = listing.Reader(listing.read(listed)), self.certificate.cost, []
        for procedure, heading in zip(self.certificate.procedures, self.headings, strict=True):
            it = Drawn(cost, procedure, heading, source.names_of(procedure))
            it.machine = reader.procedure(it.network, procedure.routes)
            drawn.append(it)
        if reader.at != len(reader.instructions):
            raise listing.NotOfThisCode("the listing goes on behind the last procedure")
        return drawn
