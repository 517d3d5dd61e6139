"""Tables of grades: a row for each module, and a table of the best of many students."""

import csv
import io
import textwrap

from grading.references import OTHERS
from grading.verdicts import ADMITTED

NUMBERS = ("cost", "bound", "optimum", *OTHERS)
COLUMNS = ("module", "verdict", *NUMBERS)
WIDE = 100  # columns of a screen


def sum_of(rows, is_graded):
    """The row of all, in which a column has a sum where each module has a number."""
    admitted = sum(it["verdict"] == ADMITTED for it in rows)
    total = {"module": "all", "verdict": f"{admitted} of {len(rows)}", "reason": ""}
    for column in (*NUMBERS, "best"):
        numbers = [it[column] for it in rows]
        total[column] = None if None in numbers else sum(numbers)
    if is_graded:
        total["points"] = sum(it["points"] for it in rows)
    return total


def cells_of(row, columns):
    """The cells of a row as words."""
    cells = [row[it] if row[it] is not None else "-" for it in columns]
    if "optimum" in columns and row["optimum"] is None:
        cells[columns.index("optimum")] = f"<= {row['best']}"
    return [str(it) for it in cells]


def columns_of(rows):
    """The columns of a table, points behind the verdict where they are given."""
    return ("module", "verdict", "points", *NUMBERS) if "points" in rows[0] else COLUMNS


def print_cells(lines, left):
    """Prints lines of cells below each other; the first columns begin at the left."""
    wide = [max(len(line[at]) for line in lines) for at in range(len(lines[0]))]
    for line in lines:
        cells = [
            it.ljust(wide[at]) if at < left else it.rjust(wide[at]) for at, it in enumerate(line)
        ]
        print("  ".join(cells).rstrip())


def print_reasons(rows, name=""):
    """A paragraph for each row that has a reason."""
    for row in rows:
        if row["reason"]:
            where = " ".join(it for it in (name, row["module"], row["verdict"]) if it)
            print(textwrap.fill(f"{where}: {row['reason']}", WIDE, subsequent_indent="    "))


def print_table(rows):
    columns = columns_of(rows)
    print_cells([list(columns), *(cells_of(it, columns) for it in rows)], 2)
    print_reasons(rows[:-1])


# ---- many students


def order_of(total):
    """The order of students: by points, by modules that are admitted, by cost and by bound."""
    cost = total["cost"] if total["cost"] is not None else float("inf")
    admitted = int(total["verdict"].split()[0])
    return -total.get("points", 0), -admitted, cost, -(total["bound"] or 0)


def print_best(students):
    """The best first: students are their names and rows, the last of which is that of all."""
    ordered = sorted(students, key=lambda it: order_of(it[1][-1]))
    told = ("verdict", "points", "cost", "bound")
    columns = [it for it in columns_of(ordered[0][1]) if it in told]
    lines = [["", "student", *columns]]
    for place, (name, rows) in enumerate(ordered, 1):
        lines.append([str(place), name, *cells_of(rows[-1], columns)])
    print_cells(lines, 3)
    others = [it for it in NUMBERS if it not in columns]
    total = ordered[0][1][-1]
    told = [f"{name} {it}" for name, it in zip(others, cells_of(total, others), strict=True)]
    print(textwrap.fill(f"beside: {', '.join(told)}", WIDE, subsequent_indent="    "))
    for name, rows in ordered:
        print_reasons(rows[:-1], name)


def text_of(students):
    """All rows as comma-separated values, with the student first where there are many."""
    text, is_many = io.StringIO(), len(students) > 1
    writer = csv.writer(text, lineterminator="\n")
    columns = (*columns_of(students[0][1]), "reason")
    writer.writerow([*(["student"] if is_many else []), *columns])
    for name, rows in students:
        for row in rows:
            writer.writerow([*([name] if is_many else []), *cells_of(row, columns)])
    return text.getvalue()
