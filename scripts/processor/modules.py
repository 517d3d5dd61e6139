"""Modules that end in each way, and that use the stack to its last byte."""

import re

STACK_BYTES = 1048576  # that the frames of all calls may take together
FRAME_LINE = re.compile(r"^procedure \d+ \w+ frame (\d+)$", re.M)
LEVELS = 20000  # how deep the calls nest

# A name, the text, and inputs on which it is run.
ENDINGS = (
    (
        "traps",
        """MODULE Traps;
VAR kind, x: INTEGER; list: ARRAY 3 OF INTEGER;
PROCEDURE Deeper(n: INTEGER); BEGIN Deeper(n + 1) END Deeper;
BEGIN
  Read(kind); Write(kind);
  IF kind = 1 THEN Read(x); list[x] := 5; Write(list[x])
  ELSIF kind = 2 THEN Read(x); Write(7 DIV x)
  ELSIF kind = 3 THEN Read(x); Read(x)
  ELSIF kind = 4 THEN Deeper(0)
  ELSIF kind = 5 THEN Read(x); Write(7 MOD x)
  END;
  WriteLn
END Traps.
""",
        ("", "1 2", "1 3", "1 -1", "2 1", "2 0", "2 -1", "3 1", "3 1 2 3", "4", "5 0", "5 3", "6"),
    ),
    (
        "least",
        """MODULE Least;
VAR a, b: INTEGER;
BEGIN
  Read(a); Read(b);
  Write(a + b); Write(a - b); Write(a * b); Write(-a);
  IF a < b THEN Write(1) END; IF a <= b THEN Write(2) END; IF a = b THEN Write(3) END;
  IF a > b THEN Write(4) END; IF a >= b THEN Write(5) END; IF a # b THEN Write(6) END;
  WriteLn; Write(a DIV b); Write(a MOD b); WriteLn
END Least.
""",
        ("-2147483648 -1", "-2147483648 1", "-2147483648 2147483647", "2147483647 -2147483648")
        + ("-2147483648 -2147483648", "-1 2147483647", "-7 2", "7 2", "0 1", "-2147483648 3"),
    ),
)

DEEP = """MODULE Deep;
PROCEDURE Down(n: INTEGER);
VAR x: INTEGER;
BEGIN x := n; IF n > 0 THEN Down(n - 1) END; IF x # n THEN Write(n) END
END Down;
PROCEDURE Fill(n: INTEGER);
VAR list: ARRAY {words} OF INTEGER; i: INTEGER;
BEGIN
  i := 0; WHILE i < {words} DO list[i] := i * 3; i := i + 1 END;
  Down(n);
  i := 0; WHILE i < {words} DO IF list[i] # i * 3 THEN Write(i) END; i := i + 1 END
END Fill;
BEGIN Fill({levels}); Write({levels}); WriteLn END Deep.
"""


def deep(words, levels):
    """A module whose calls nest so deep, past a procedure with an array of so many words."""
    return DEEP.format(words=words, levels=levels)


def deepest(report_of):
    """Words and levels with which the frames of `deep` fill the stack to its last byte.

    report_of gives the compiler's report on a text.
    """
    body, down, fill = map(int, FRAME_LINE.findall(report_of(deep(1, 1))))
    most_words = 65000
    levels = (STACK_BYTES - body - fill) // down - 1
    left = STACK_BYTES - body - fill - (levels + 1) * down
    while left % 4 or left // 4 + 1 > most_words:
        raise ValueError("no array fills what is left")
    return left // 4 + 1, levels
