"""Code files: their form, the rules that their code keeps, and the one text of each.

The form is that of a certificate's code (checker.form), and so are the rules (checker.code).
"""

import json
import re
from dataclasses import dataclass

from checker import code, form, json_text
from checker.parts import Network
from checker.words import Names
from pranet.certificate import code_of

KIND, VERSION = "pra-code", 1
MOST_DATA_WORDS = 4194304
KEYS = ("data_words", "kind", "procs", "version")
PROCEDURE_KEYS = (*form.CODE_KEYS, "name")
NAME = re.compile(r"[A-Za-z][A-Za-z0-9]{0,254}", re.ASCII)


class NoCode(Exception):
    """Why a text is no code file: a line for each thing that is wrong."""

    def __init__(self, lines):
        super().__init__("\n".join(lines))
        self.lines = lines


@dataclass
class CodeFile:
    data_words: int
    names: list
    procedures: list  # of pranet.certificate

    def least_frames(self):
        """The bytes of each procedure's frame where no variable of it is ever in memory: arguments,
        the address to return to, four registers, aggregates."""
        return [4 * (it.args + 5 + it.aggregates) for it in self.procedures]


class Reader(form.Reader):
    """Goes through the value of a code file, and keeps what is not as it has to be."""

    def procedure(self, path, value):
        if not self.keys(path, value, PROCEDURE_KEYS):
            return
        for key, reader in (
            ("args", lambda *it: self.number(*it, form.NATURAL)),
            ("aggregates", lambda *it: self.number(*it, form.NATURAL)),
            ("vars", lambda *it: self.list_of(*it, "variables", self.variable)),
            ("blocks", lambda *it: self.list_of(*it, "blocks", self.block)),
            ("name", self.name),
        ):
            if key in value:
                reader((*path, key), value[key])

    def name(self, path, value):
        if not isinstance(value, str) or not NAME.fullmatch(value):
            self.complain(path, "a letter and up to 254 letters and digits are wanted", value)

    def file(self, value):
        if not self.keys((), value, KEYS):
            return
        if "kind" in value and value["kind"] != KIND:
            self.complain(("kind",), f'"{KIND}" is wanted', value["kind"])
        if "version" in value and (type(value["version"]) is not int or value["version"] != 1):
            self.complain(("version",), "the version 1 is wanted", value["version"])
        if "data_words" in value:
            self.number(("data_words",), value["data_words"], (0, MOST_DATA_WORDS))
        if "procs" in value:
            if value["procs"] == []:
                self.complain(("procs",), "one procedure at least is wanted", [])
            self.list_of(("procs",), value["procs"], "procedures", self.procedure)


def complaints(value):
    """What is wrong with the form of a value, in words."""
    reader = Reader()
    reader.file(value)
    for it in reader.complaints:
        yield f"{form.place_words(it.path)}: {it.words(str(it.found))}"


class Liveness(Network):
    """What is live where, without strands."""

    def add_strands(self, number):
        pass


def reasons(procedure, counts):
    """What speaks against the code of a procedure, as checker.code tells it, in less time."""
    names = Names(procedure)
    found = [*code.sizes(procedure), *code.absent(procedure, names)]
    if found:
        return found
    live = Liveness(procedure)
    return [
        *code.ends(procedure, names),
        *code.operands(procedure, names),
        *code.parameters(procedure),
        *code.clears(procedure, names),
        *code.calls(procedure, counts, names),
        *code.divisions(procedure, live, names),
        *code.entry(procedure, live, names),
    ]


def code_reasons(file):
    """What speaks against the code of the procedures, in words."""
    counts = [it.args for it in file.procedures]
    if counts[0] != 0:
        yield f"procedure 0: a run begins with it, so it takes no arguments, and not {counts[0]}"
    for number, procedure in enumerate(file.procedures):
        for words in reasons(procedure, counts):
            yield f"procedure {number} ({file.names[number]}): {words}"


def file_of(value):
    """The code file of a JSON value; else NoCode."""
    found = list(complaints(value))
    if found:
        raise NoCode(found)
    procedures = [code_of(it, number) for number, it in enumerate(value["procs"])]
    file = CodeFile(value["data_words"], [it["name"] for it in value["procs"]], procedures)
    found = list(code_reasons(file))
    if found:
        raise NoCode(found)
    return file


def read(data):
    """The code file that bytes hold; else NoCode."""
    try:
        _, value = json_text.read(data)
    except json_text.NoJson as error:
        raise NoCode([f"this is no JSON: {error}"]) from error
    return file_of(value)


def text_of(value):
    """The one text of a code file's value: keys in order, no blanks, one line."""
    return json.dumps(value, sort_keys=True, separators=(",", ":")) + "\n"


def value_of(data_words, procedures):
    """The value of a code file, of those of its procedures."""
    return {"data_words": data_words, "kind": KIND, "procs": procedures, "version": VERSION}
