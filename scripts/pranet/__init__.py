"""What register allocation asks of a procedure, computed from a certificate's code alone.

    from pranet import certificate, problem
    from pranet.network import Network

- `certificate`: reads and writes certificates: code, routes, prices, costs and bounds.
- `code_file`: reads and writes code files, which have code alone.
- `code_text`, `code_reader`: code files as text for people, and back.
- `operands`: what instructions ask of the places of their operands; what each event costs.
- `network`: `Network(procedure)` has strands with their masks, extras, memory pairs and ties;
  whether it admits routes, and what these cost, event by event.
- `problem`: the network as a JSON value, for allocators in any language.
- `dual`: the value that prices give, which no allocation costs less than, and steps that raise it.
- `program`: the network as an integer program, as a text in the LP format.
- `cbc`: the solver CBC, called as a program, and what it answers.
- `home`: routes with which all variables are at home.
- `solver`: the best routes that CBC finds, and prices made of the duals of the relaxation.
- `compiler`: the compiler, called as a program.

None of this is proved. What it writes is a certificate, and the mode `check` says whether it holds.
"""
