"""Causes and cures of refusals: what docs/REFUSALS.md says of each number."""
import re

LINK = re.compile(r"\[([^]]*)\]\([^)]*\)")
QUOTED = re.compile(r"`([^`]*)`")
# The head of the part that is about compiled catalogs alone.
OF_COMPILED = "## Of a compiled catalog"
LINE = re.compile(rb"^refused (\d+) at (\d+)( in other)?: (.*?)\n?\Z", re.S)


class Row:
    """One row: a number, where its place is and what its name, the cause and the cure."""

    def __init__(self, cells, of_compiled=False):
        cells = {head: LINK.sub(r"\1", cell) for head, cell in cells.items()}
        self.number = int(cells["N"])
        self.place, self.name = cells["A"], cells["NAME"]
        self.cause, self.cure = cells["Comes exactly where"], cells["What to do"]
        # it is about compiled catalogs alone
        self.of_compiled = of_compiled
        # the values of --ask that the row is for alone
        self.asks = re.findall(r"with `--ask (\w+)`", self.cause)

    def has_place(self):
        """Tells whether the place is always one in the manifest."""
        return not re.search(r"\b0\b", self.place)


def rows_of(page):
    """Returns the rows of all tables of the page that begin with a number."""
    found, heads, of_compiled = [], None, False
    for line in page.split("\n"):
        if line.startswith("## "):
            of_compiled = line == OF_COMPILED
        if not line.startswith("|"):
            heads = None
            continue
        cells = [it.strip() for it in re.split(r"(?<!\\)\|", line)[1:-1]]
        if heads is None:
            heads = cells
        elif cells[0].isdigit():
            found.append(Row(dict(zip(heads, cells)), of_compiled))
    return found


def row_for(rows, number, name, ask, behind, of_compiled=False):
    """Returns the row that a refusal comes from, or nothing; `behind` is what stands in the manifest from the place on."""
    fitting = [it for it in rows if it.number == number and (not it.asks or ask in it.asks)]
    # those of compiled catalogs stand in place of the others, where there are some
    fitting = [it for it in fitting if it.of_compiled and of_compiled] or [it for it in fitting if not it.of_compiled]
    # a row for this question alone goes ahead, then one whose names have this one, then one whose place begins so
    for told in (
        lambda it: ask in it.asks,
        lambda it: name in QUOTED.findall(it.name),
        lambda it: any(behind.startswith(word) for word in QUOTED.findall(it.place)),
        lambda it: not QUOTED.findall(it.name) and not QUOTED.findall(it.place),
    ):
        found = [it for it in fitting if told(it)]
        if found:
            return found[0]
    return fitting[0] if fitting else None
