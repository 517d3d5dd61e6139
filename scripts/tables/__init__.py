"""Tables of tests/: rows of selected code and of modules, and what becomes of them.

- `sketches`: selected code as text, an instruction a line.
- `rows`: the rows of a table.
- `tool`: what calls of the compiler make of a row.
- `meant`: what code means, by the compiler and by the machine in Python.
- `placing`: code that is placed by routes of its row, and run.
- `sweeps`: one instruction, with each choice of places that the network admits.
- `rounds`: what rounds come to, of the codes of tests_price.
- `bare`: programs for the bare machine.
- `modules`, `expressions`: modules, by their image and by their meaning.
"""
