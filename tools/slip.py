"""Reads slips, for tools/slips and tools/sentences. A slip is a named wrong definition, a file slips/NAME.slip:

    # one line: what is wrong
    sentence: document 02, ticket 6: "taken jump 2"
    theorem: sentences/costs
    file: crates/cpu/specs/Cycles.antt
    old: cost_of (Instr.Jr b) y c = 2
    new: cost_of (Instr.Jr b) y c = 3
    also: crates/machine/proofs/Laws.antt
    old: ..
    new: ..

`file` is the definition that slips, each `also` a proof line that only named the old text and is put right. Either may have several pairs of `old`
and `new`. A text of several lines has an `old:` or `new:` before each; what stands after the first space is the line, with its indentation. `old`
occurs exactly once in its file; `new` may be empty. A line that starts with # is a comment.
"""
import os
import re

PLACES = {"file": (r"crates/\w+/specs/[^/]+\.antt", "a file of definitions, crates/CRATE/specs/NAME.antt"),
          "also": (r"crates/\w+/proofs/[^/]+\.antt", "a file of laws, crates/CRATE/proofs/NAME.antt")}


class BadSlip(Exception):
    """The slip says nothing that could be tried."""


class Edit:
    """One text of a file and what takes its place; `is_also` where a proof is put right."""

    def __init__(self, key, path):
        self.is_also, self.path, self.old, self.new = key == "also", path, [], []


class Slip:
    """A slip as its file has it."""

    def __init__(self, name, text):
        self.name, self.sentence, self.theorem, self.edits = name, "", "", []
        place = None
        for number, line in enumerate(text.split("\n"), 1):
            if line.startswith("#") or not line.strip():
                continue
            key, colon, value = line.partition(":")
            value = value[1:] if value.startswith(" ") else value
            if key in PLACES and colon:
                if not re.fullmatch(PLACES[key][0], value):
                    raise BadSlip(f"line {number}: {value} is not {PLACES[key][1]}")
                place = (key, value)
            elif key in ("sentence", "theorem") and colon and not getattr(self, key):
                setattr(self, key, value.strip())
            elif key in ("old", "new") and colon and place:
                self.add(key, value, place, number)
            else:
                raise BadSlip(f"line {number} is none of a slip's: {line}")
        self.check()

    def add(self, key, value, place, number):
        edit = self.edits[-1] if self.edits else None
        if key == "old" and (edit is None or edit.new or (edit.is_also, edit.path) != (place[0] == "also", place[1])):
            edit = Edit(*place)
            self.edits.append(edit)
        elif key == "new" and (edit is None or not edit.old or edit.path != place[1]):
            raise BadSlip(f"line {number}: a 'new:' with no 'old:' before it")
        getattr(edit, key).append(value)

    def check(self):
        for key in ("sentence", "theorem"):
            if not getattr(self, key):
                raise BadSlip(f"it has no line '{key}:'")
        if not re.fullmatch(r"\w+/\S+", self.theorem):
            raise BadSlip(f"theorem {self.theorem} is not CRATE/NAME")
        if not any(not edit.is_also for edit in self.edits):
            raise BadSlip("it has no 'file:' with an 'old:' and a 'new:'")
        if any(not edit.new or not "".join(edit.old).strip() for edit in self.edits):
            raise BadSlip("an 'old:' has no text, or no 'new:' after it")


def names(root):
    """The names of the slips of a repository."""
    folder = f"{root}/slips"
    return sorted(file[:-5] for file in os.listdir(folder) if file.endswith(".slip")) if os.path.isdir(folder) else []


def load(root, name):
    with open(f"{root}/slips/{name}.slip", encoding="utf-8") as file:
        return Slip(name, file.read())
