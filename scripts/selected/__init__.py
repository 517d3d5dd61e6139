"""Code files: selected code that any front end may write, and what it means, told anew in Python.

- `file`: reads, checks and writes code files.
- `machine`: the machine of selected code, after the definitions of vc_code.
- `interp`: a program that runs a code file by it: python3 -m selected.interp FILE
- `drawing`: random code files that keep all rules (scripts/random_codes.py).

None of this is proved. It is plain and slow, and there to be compared with what is.
"""
