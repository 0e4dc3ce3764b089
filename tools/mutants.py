"""Tries mutants by the check of the functions that they change.

A mutant is refused if the prover does not prove the function that it changes, although it proves that function without the
mutant. That takes 15 seconds to some minutes of a processor, by the number of functions that it calls; the toolchain checks the whole
crate, and proves it before.
"""

import os
import re

import sources

COUNTS = re.compile(r"only=(\d+) proved=(\d+)")
FLAGS = ["--jobs", "1", "--only"]


def changed_by(source, mutant):
    """Returns the ends of the names of the functions in which an old text of a mutant is; none if one is in another item."""
    names = set()
    for path, old in sources.pairs_of(mutant):
        text = source.texts.get(path, "")
        line = text[: text.find(old)].count("\n")
        around = [it for it in source.functions if it.path == path and it.first <= line <= it.last]
        if old not in text or not around:
            return set()
        names |= {end_of_name(source, it) for it in around}
    return names


def end_of_name(source, function):
    """Returns the end of the prover's name of a function: the type or the module, and the function. The prover names a method
    by the module of its type, in whichever file it is."""
    return "::".join(sources.full_name(source, function).split("::")[-2:])


class Trials:
    """The trials of the mutants of one crate, which share the work of the prover in a folder."""

    def __init__(self, rt, crate, kept):
        self.rt, self.crate, self.kept = rt, crate, kept
        self.source = sources.Crate(crate.name)
        # Whether each function is proved without a mutant, by name; and whether the crate is, once it was checked.
        self.proved, self.is_crate_proved = {}, None

    def check(self, texts, name):
        """Returns whether the prover proves this function with these texts in place of the crate's own, and its lines. None, if
        it cannot tell."""
        ran = self.rt.checked(self.crate, texts, [*FLAGS, name], self.kept)
        lines = ran.stdout.rstrip("\n").split("\n")
        counts = COUNTS.match(lines[-1])
        is_unread = any(self.rt.unread(it, texts) for it in lines) or self.rt.rtlib.STALE.search(ran.stdout)
        if not counts or is_unread or ran.returncode not in (0, 1):
            return None, lines
        return ran.returncode == 0, lines

    def is_proved(self, name):
        """Returns whether the function is proved without a mutant."""
        if name not in self.proved:
            self.proved[name] = self.check({}, name)[0] is True
        return self.proved[name]

    def refuse_alone(self, mutant):
        """Returns what to print of a mutant that is refused by the check of the function that it changes; None if it is not."""
        texts, why = self.rt.read_edit(mutant, self.crate.folder)
        names = changed_by(self.source, mutant)
        if why or len(names) != 1:
            return None
        name = names.pop()
        if not self.is_proved(name):
            return None
        proved, lines = self.check(texts, name)
        if proved is not False:
            return None
        first = next((it for it in lines if re.match(r"\S+:\d+:\d+:", it)), lines[-1])
        return f"must-fail {self.crate.name}/{os.path.basename(mutant)}: refused, as it must be, by the check of {name}: {first[:160]}"

    def refuse(self, mutant):
        """Returns whether a mutant is refused, in the toolchain's own form, and what to print: by the check of its function, or else
        of the whole crate."""
        alone = self.refuse_alone(mutant)
        # An older toolchain has True for it.
        return (getattr(self.rt, "REFUSED", True), alone) if alone else self.refuse_in_crate(mutant)

    def refuse_in_crate(self, mutant):
        """Returns the same for the check of the whole crate: over the work of the prover so far, and from nothing if that does not
        refuse the mutant."""
        jobs = FLAGS[:2]
        if self.is_crate_proved is None:
            self.is_crate_proved = not self.rt.checked(self.crate, {}, jobs, self.kept).returncode
        tried = self.rt.must_fail(self.crate, mutant, jobs, self.kept) if self.is_crate_proved else (False, "")
        return tried if tried[0] in (True, getattr(self.rt, "REFUSED", True)) else self.rt.must_fail(self.crate, mutant, jobs)
