"""The words of the command line, as far as the scripts look at them. What options there are is told by help.txt."""
import os
import re

HERE = os.path.dirname(os.path.realpath(__file__))
OPTION = re.compile(r"^  (--[a-z-]+) ([A-Z]+) ", re.M)
QUESTION = re.compile(r"^  ([a-z]+) +\S", re.M)
STANDARD_INPUT = "standard input"


def help_text():
    with open(f"{HERE}/help.txt", encoding="utf-8") as it:
        return it.read()


def options():
    """Returns each option that takes a value, and what kind of value: `FILE`, `NAME`, `N`, .."""
    return dict(OPTION.findall(help_text()))


def questions():
    """Returns the values of --ask."""
    return QUESTION.findall(help_text().partition("\nQuestions")[2])


class Words:
    """What the words say: the options with their values, and the input."""

    def __init__(self, words):
        self.words = list(words)
        self.given, self.inputs = {}, []
        # the places of the words that name files, each with what stands ahead of the name in it
        self.files = []
        kinds = options()
        at, is_open = 0, True
        while at < len(self.words):
            word = self.words[at]
            name, equals, value = word.partition("=")
            if is_open and word == "--":
                is_open = False
            elif is_open and name in kinds and (equals or at + 1 < len(self.words)):
                if not equals:
                    at += 1
                    value = self.words[at]
                self.given[name] = value
                if kinds[name] == "FILE":
                    self.files.append((at, f"{name}=" if equals else ""))
            else:
                self.inputs.append(word)
                self.files.append((at, ""))
            at += 1

    def input(self):
        """Returns the name of the manifest or text, or nothing."""
        return self.inputs[0] if len(self.inputs) == 1 else None

    def ask(self):
        return self.given.get("--ask", "verify")

    def takes_standard_input(self):
        return any(self.words[at] == f"{front}-" for at, front in self.files)

    def with_standard_input(self, name):
        """Returns the words with this file's name where standard input is meant."""
        changed = list(self.words)
        for at, front in self.files:
            if changed[at] == f"{front}-":
                changed[at] = front + name
        return changed

    def without(self, *names):
        """Returns the words without these options, and without the input."""
        kept, at = [], 0
        kinds = options()
        while at < len(self.words):
            name, equals, _ = self.words[at].partition("=")
            if name in kinds:
                width = 1 if equals else 2
                kept += self.words[at : at + width] if name not in names else []
                at += width
            else:
                at += 1
        return kept
