"""The table of bench/RESULTS.md that has what a new entry costs, by the number of entries, from the rows of
bench/TABLES.md."""
import re
from typing import NamedTuple

from tables import here, write_between

# The groups of growth, what is new in each, and with which type.
SIZES = (
    ("Growth of the names, time per new name", "name", "`elsa intern`"),
    ("Growth of `FrozenMap`, time per new key", "key", "`FrozenMap`"),
    ("Growth of `FrozenAppendMap`, time per new key", "key", "`FrozenAppendMap`"),
)


class Row(NamedTuple):
    """A row of a table: the milliseconds of each side (of growth: the nanoseconds), and the ratios to upstream and to the
    peer as the page has them."""

    times: dict
    peer: str
    ratios: dict


def rows_of(page):
    """The rows of the tables of a page, by group and name."""
    rows, group = {}, ""
    for line in page.split("\n"):
        if line.startswith("### "):
            group = line[4:]
        cells = [cell.strip() for cell in line.strip("|").split("|")]
        if len(cells) != 10 or not cells[5].endswith((" ms", " ns")):
            continue
        peer = re.match(r"([\d.]+) (?:ms|ns) \((.+?)\)", cells[7])
        times = {"elsa": cells[5], "upstream": cells[6], "peer": f"{peer[1]} ms" if peer else ""}
        rows[group, cells[0].split(";")[0]] = Row(
            {side: float(text.split()[0]) for side, text in times.items() if text},
            peer[2] if peer else "",
            {side: float(cells[at].strip("*")) for side, at in (("upstream", 1), ("peer", 3)) if cells[at]},
        )
    return rows


def sizes(page):
    """The table of sizes, from the rows of growth of a page; a growth without rows is left out."""
    rows, sides = rows_of(page), ("elsa", "upstream", "peer")
    counts = [name for group, name in rows if group == SIZES[0][0]]
    lines = [["A new", "With", *counts, "The other choice"], ["---"] * (len(counts) + 3)]
    for group, does, type in SIZES:
        found = [rows.get((group, count)) for count in counts]
        if any(found):
            cells = [" / ".join(f"{row.times[side]:.0f}" for side in sides) if row else "" for row in found]
            lines.append([does, type, *cells, next(row.peer for row in reversed(found) if row)])
    return "".join(f"| {' | '.join(cells)} |\n" for cells in lines)


def write_sizes():
    """Writes the table of sizes between its marks, from the rows of the tables."""
    write_between("sizes", sizes((here / "TABLES.md").read_text()), here / "RESULTS.md")
