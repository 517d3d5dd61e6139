"""How variables, instructions, layers and strands are called."""

from checker.parts import CONST, PLACES, end_text, instruction_text, place_name


def place_words(place):
    """A place by its number and in words."""
    return f"{place} ({'its number' if place == CONST else place_name(place)})"


def places_words(mask):
    """The places of a mask."""
    return ", ".join(place_words(it) for it in range(PLACES) if mask >> it & 1) or "nowhere"


class Names:
    """What the parts of a procedure are called."""

    def __init__(self, procedure):
        self.code = procedure

    def short(self, v):
        """A variable within an instruction."""
        if v >= len(self.code.variables):
            return f"v{v}"
        it = self.code.variables[v]
        return str(it.value) if it.kind == "constant" else f"v{v}"

    def variable(self, v):
        """A variable by its number, with what it is called in a source and what it holds."""
        it = self.code.variables[v]
        kinds = {"constant": f"the number {it.value}", "param": f"argument {it.value}"}
        words = [f"`{self.code.called[v]}`"] if v in self.code.called else []
        words += [kinds[it.kind]] if it.kind in kinds else []
        return f"variable {v} ({', '.join(words)})" if words else f"variable {v}"

    def instruction(self, block, i):
        text = instruction_text(self.code.blocks[block].code[i], self.short)
        return f"instruction {i} of block {block}, `{text}`"

    def end(self, block):
        return f"the end of block {block}, `{end_text(self.code.blocks[block].end)}`"

    def layer(self, block, layer):
        """Where in a block a layer is."""
        if layer == 0:
            return f"layer 0, the entry of block {block}"
        if layer == self.code.blocks[block].exit:
            return f"layer {layer}, the exit of block {block}"
        side = "before" if layer % 2 else "after"
        return f"layer {layer}, right {side} {self.instruction(block, (layer - 1) // 2)}"

    def strand(self, number, strand):
        first, last = strand.first, strand.last
        layers = f"layer {first}" if first == last else f"layers {first} to {last}"
        of = f"{self.variable(strand.var)} in block {strand.block}, {layers}"
        return f"strand {number} of {of}"
