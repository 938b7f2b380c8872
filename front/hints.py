"""Words that help, after those of the program."""
import os
import re
import shlex

import manifest
import refusals
from command import STANDARD_INPUT

READ_FAULT = re.compile(rb"^read fault: (.*?)\n?\Z", re.S)
# More than a manifest may have.
MOST = 1 << 20
# The questions that are asked of a manifest, and take --node.
OF_MANIFEST = ("verify", "explain", "proof", "catalog", "graph", "programs", "replay", "ensures", "equal", "repair")
# Refusals that come before a node's block is looked for: of files, of the text, and that no node's block fits.
BEFORE_NODES = (17, 60, 61, 64, 10, 11, 12, 13, 14, 31)


def shown(name):
    """Returns a name as one line of a terminal shows it."""
    return manifest.plain(name).replace("\t", " ")


def content(name):
    """Returns what a plain file holds; of anything else, which might never end, nothing."""
    if not os.path.isfile(name):
        return b""
    try:
        with open(name, "rb") as it:
            return it.read(MOST)
    except OSError:
        return b""


class Run:
    """A run of the program: its words, with the names of files as they were handed to it, and how it ended."""

    def __init__(self, words, copy, page, status, printed, said):
        self.words, self.copy, self.page = words, copy, page
        self.status, self.printed, self.said = status, printed, said
        self.is_compiled = "--compiled" in words.given
        name = words.given.get("--compiled", words.input())
        self.is_copied = name == "-" and copy is not None
        # (a compiled catalog has no places)
        has_places = words.ask() in OF_MANIFEST and not self.is_compiled
        self.manifest = content(copy if self.is_copied else name) if name and has_places else b""
        self.name = STANDARD_INPUT if self.is_copied else name
        other = words.given.get("--other")
        self.other_is_copied = other == "-" and copy is not None
        self.other = content(copy if self.other_is_copied else other) if other and has_places and words.ask() == "equal" else b""
        self.other_name = STANDARD_INPUT if self.other_is_copied else other

    def words_that_help(self):
        """Returns lines for standard error."""
        by_status = {0: self.after_yes, 1: self.after_no, 2: self.after_no, 3: self.after_spent, 4: self.after_refusal}
        by_status.update({5: self.after_words, 6: self.after_read_fault})
        return by_status.get(self.status, lambda: [])() + self.of_default_node()

    def after_yes(self):
        if self.words.ask() in ("verify", "explain") and b"\nfails from every tree\n" in self.printed:
            what = "catalog" if self.is_compiled else "manifest"
            return [f"No run of this {what} can succeed: from every file tree each order ends in an error."]
        return []

    def after_no(self):
        if self.words.ask() not in ("verify", "explain") or "--workload" in self.words.given:
            return []
        return self.how_to_look() + (self.how_to_mend() if self.status == 1 else [])

    def asking(self, *more):
        """Returns the line that asks this of the same manifest or compiled catalog."""
        kept = self.words.without("--ask", "--conflicts", "--compiled")
        name = ("CATALOG" if self.is_compiled else "MANIFEST") if self.is_copied else self.name
        words = [*kept, "--ask", *more, *(["--compiled"] if self.is_compiled else []), name]
        return f"  rehearsal {shown(' '.join(map(shlex.quote, words)))}"

    def how_to_look(self):
        if self.words.ask() == "explain":
            return []
        lines = ["To see where to look, and why:", self.asking("explain")]
        lines.append("To see a run end so, put what stands behind `tree ` into a file T and what stands behind `order ` into a file O:")
        lines.append(self.asking("replay", "--tree", "T", "--order", "O"))
        if self.status == 2:
            lines.append("and for the second run what stands behind the first `outcome ` into T.")
        return lines

    def how_to_mend(self):
        return ["To see which arrows are missing:", self.asking("repair")]

    def after_spent(self):
        return ["The search was ended by --conflicts; a greater number, or none, lets it go on."]

    def after_words(self):
        return ["rehearsal --help tells the options and the values of --ask, with an example each."]

    def after_read_fault(self):
        found = READ_FAULT.match(self.said)
        name = os.fsdecode(found[1]) if found else ""
        if self.copy and name == self.copy:
            return ["Standard input can't be read."]
        if not os.path.lexists(name):
            where = "" if os.path.isabs(name) else f" (looked for from {shown(os.getcwd())})"
            return [f"There is no file {shown(name)}{where}."]
        if not os.path.exists(name):
            return [f"{shown(name)} is a link that leads nowhere."]
        if os.path.isdir(name):
            return [f"{shown(name)} is a folder; a file is wanted."]
        if not os.path.isfile(name):
            return [f"{shown(name)} isn't a plain file."]
        if not os.access(name, os.R_OK):
            return [f"{shown(name)} may not be read by you."]
        return [f"{shown(name)} is there, but reading it failed."]

    def after_refusal(self):
        found = refusals.LINE.match(self.said)
        if not found:
            return []
        number, at, name = int(found[1]), int(found[2]), found[4].decode(errors="replace")
        refused, named = (self.other, self.other_name) if found[3] else (self.manifest, self.name)
        behind = refused[at : at + 100].decode(errors="replace")
        row = refusals.row_for(refusals.rows_of(self.page), number, name, self.words.ask(), behind, self.is_compiled)
        lines = []
        if refused and at <= len(refused) and (at > 0 or row and row.has_place()):
            line, column = manifest.place_of(refused, at)
            text, mark = manifest.marked(refused, at)
            lines += [f"{shown(named)}, line {line}, column {column}:", f"  {text}", f"  {mark}"]
        if row:
            lines += [f"It comes where {row.cause}.", f"What to do: {row.cure} (docs/REFUSALS.md)."]
        return lines

    def of_default_node(self):
        """Returns what to know where nodes stand in the manifest and none was named."""
        if self.status > 4 or "--node" in self.words.given or self.words.ask() not in OF_MANIFEST:
            return []
        refused = refusals.LINE.match(self.said)
        if refused and int(refused[1]) in BEFORE_NODES or not manifest.has_nodes(self.manifest):
            return []
        return ["The manifest has node blocks and no --node is given, so that of `default` was taken."]
