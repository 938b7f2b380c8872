"""Places in a manifest, and its node blocks."""
import re
import unicodedata

# How many characters of a long line are shown on each side of the place.
ASIDE = 60
QUOTED_OR_COMMENT = re.compile(r"'(?:\\.|[^'\\])*'|\"(?:\\.|[^\"\\])*\"|#[^\n]*|/\*.*?\*/", re.S)
NODE = re.compile(r"(?<![\w$:-])node\s*(?:''|[a-z_][\w.:-]*)\s*[,{]")


def place_of(text, at):
    """Returns the line and the column, both from 1, of the byte at this place of a text."""
    ahead = text[:at]
    start = ahead.rfind(b"\n") + 1
    return ahead.count(b"\n") + 1, len(ahead[start:].decode(errors="replace")) + 1


def plain(characters):
    """Returns the characters with a mark for each that a terminal wouldn't show as one."""
    return "".join(it if it == "\t" or it.isprintable() else "\N{REPLACEMENT CHARACTER}" for it in characters)


def width(character):
    wide = unicodedata.east_asian_width(character) in "WF"
    return 0 if unicodedata.combining(character) else 2 if wide else 1


def marked(text, at):
    """Returns the line that has this place, as a terminal may show it, and the line that marks the place below it."""
    start = text.rfind(b"\n", 0, at) + 1
    end = text.find(b"\n", at)
    ahead = plain(text[start:at].decode(errors="replace"))
    behind = plain(text[at : end if end >= 0 else len(text)].decode(errors="replace").rstrip("\r"))
    if len(ahead) > ASIDE:
        ahead = ".. " + ahead[-ASIDE:]
    if len(behind) > ASIDE:
        behind = behind[:ASIDE] + " .."
    blanks = "".join(it if it == "\t" else " " * width(it) for it in ahead)
    return ahead + behind, blanks + "^"


def has_nodes(text):
    """Tells whether a manifest has node blocks."""
    without = QUOTED_OR_COMMENT.sub(lambda it: "''" if it[0][0] in "'\"" else " ", text.decode(errors="replace"))
    return NODE.search(without) is not None
