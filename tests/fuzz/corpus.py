"""Stores the corpus of tests/fuzz: for each shape of outcome the shortest input that has it.

A file of the corpus is named `PROPERTY.KIND.SHAPE`, and has the bytes of one input. The shape begins
with the number of its first fault, or with `none`.
"""
import os
import re
from collections import Counter

NAME = re.compile(r"[A-Za-z-]+\.([a-z_]+)\.(?:[A-Z]\d+|none)-[0-9a-f]{20}")
# The shapes of inputs whose records are JSON. Most choices are among them, since a change of another input has
# mostly the same fault.
WHOLE = re.compile(r".*\.(?:F12|[HS]\d+|none)-[^.]*")


def default_folder():
    """Returns the folder of the corpus in the user's cache."""
    cache = os.environ.get("XDG_CACHE_HOME", "")
    # A path that is not absolute is ignored, as the XDG Base Directory Specification says.
    return os.path.join(cache if os.path.isabs(cache) else os.path.expanduser("~/.cache"), "mesosev-fuzz")


class Corpus:
    """The inputs of a folder. `added` and `replaced` count the changes since it was read."""

    def __init__(self, folder):
        os.makedirs(folder, exist_ok=True)
        self.folder, self.inputs, self.names, self.whole, self.uses = folder, {}, {}, {}, Counter()
        self.bytes = self.added = self.replaced = 0
        # In the order of the names, so that the same folder gives the same choices.
        for name in sorted(os.listdir(folder)):
            found = NAME.fullmatch(name)
            if found:
                with open(os.path.join(folder, name), "rb") as file:
                    self.insert(name, found[1], file.read())

    def insert(self, name, kind, data):
        """Stores an input in memory. One input can have several shapes, and its bytes count once."""
        old = self.inputs.get(name)
        if old is None:
            self.names.setdefault(kind, []).append(name)
            if WHOLE.fullmatch(name):
                self.whole.setdefault(kind, []).append(name)
        else:
            self.uses[old] -= 1
            if not self.uses[old]:
                del self.uses[old]
                self.bytes -= len(old)
        self.bytes += 0 if data in self.uses else len(data)
        self.uses[data] += 1
        self.inputs[name] = data

    def offer(self, name, kind, shape, data):
        """Keeps the input of a property if its shape is new, or if it is shorter than the input of that shape."""
        name = f"{name.replace(' ', '-')}.{kind}.{shape}"
        old = self.inputs.get(name)
        if old is not None and len(old) <= len(data):
            return
        self.added, self.replaced = self.added + (old is None), self.replaced + (old is not None)
        self.insert(name, kind, data)
        # A run that is killed leaves no half of an input.
        path = os.path.join(self.folder, name)
        written = f"{path}.{os.getpid()}"
        with open(written, "wb") as file:
            file.write(data)
        os.replace(written, path)

    def choose(self, pick, kind):
        """Returns an input of this kind at random, or None if there is none."""
        names = self.whole.get(kind) if pick.random() < 0.7 else None
        names = names or self.names.get(kind)
        return self.inputs[pick.choice(names)] if names else None

    def __str__(self):
        return f"corpus {len(self.uses)} inputs of {self.bytes} bytes, {len(self.inputs)} shapes ({self.added} new, {self.replaced} shorter)"
