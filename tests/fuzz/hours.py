"""Fuzzes for hours: tries generated inputs and changed inputs of a corpus, and shrinks the first one that fails."""
import functools
import itertools
import random
import signal
import sys
import time

import inputs
import mutate
from runs import Hang, Program
from shapes import manner_of, shapes_of
from shrink import shrunk_input

# The seconds between two lines of progress, and the seconds after which a failure is not shrunk further.
PROGRESS, SHRINKING = 60, 600
# The time limit of a run while a hang is shrunk, in seconds. A run takes milliseconds.
SHORT_LIMIT = 5
# The properties that need sockets, and the number of rounds with one round of them. They take 20 percent of the time
# of an ordinary round, and so about 4 percent of it here.
SLOW, RARE = ("requests", "responses"), 8
# One of this number of cases has a generated input, which --case makes too.
GENERATED = 3


class Over(Exception):
    """The time for shrinking is over, or a signal came."""


class Hours:
    """Runs the cases of `fuzz`. Only the seed, the number of a case and the corpus determine its input."""

    def __init__(self, fuzz, properties, corpus):
        self.fuzz, self.properties, self.corpus = fuzz, properties, corpus
        one_round = [name for name, (_, _, share) in properties.items() for _ in range(share)]
        self.period = RARE * len(one_round)
        # The numbers of the cases, up to the period, whose inputs are generated.
        self.cases = [at for at, name in enumerate(RARE * one_round) if fuzz.is_chosen(name) and (name not in SLOW or at < len(one_round))]
        self.names = [(RARE * one_round)[at] for at in self.cases]
        self.begun, self.is_stopped = time.monotonic(), False

    # ---- the cases

    def case_of(self, number):
        """Returns the property, the label, the input and the name of a case."""
        if number % GENERATED == 0:
            rounds, at = divmod(number // GENERATED, len(self.cases))
            case = rounds * self.period + self.cases[at]
            return *self.fuzz.made(case), f"seed {self.fuzz.args.seed} case {case}"
        label = f"{self.fuzz.args.seed}-mutant-{number}"
        pick = random.Random(f"input {label}")
        name = pick.choice(self.names)
        given = self.mutant(pick, pick.choice(self.properties[name][1]))
        return name, label, given, f"seed {self.fuzz.args.seed} mutant {number}"

    def mutant(self, pick, kind):
        """Returns a changed input of the corpus, or a generated one if the corpus has none of this kind."""

        def changed():
            return mutate.mutated(pick, kind, self.corpus.choose(pick, kind), self.corpus.choose(pick, kind))

        if self.corpus.choose(pick, kind) is None:
            return inputs.MAKERS[kind](pick)
        return inputs.Input(kind, [(changed(), None) for _ in range(40)] if kind == "request" else changed(), None)

    def failure_of(self, name, draw, given):
        """Tries an input. Returns the exception if the property fails, else None."""
        self.fuzz.program.runs.clear()
        try:
            self.properties[name][0](self.fuzz.program, random.Random(draw), given)
        except Exception as failure:  # An unexpected exception is a difference too.
            return failure
        return None

    def step(self, number):
        """Tries the case of this number, and keeps its input if its shape is new."""
        name, label, given, where = self.case_of(number)
        failure = self.failure_of(name, label, given)
        size = len(given.data) if given.kind == "request" else 1
        self.fuzz.good[name] += size - bool(failure)
        if failure:
            given, failure = self.shrink(name, label, given, failure)
            self.fuzz.report(name, label, given, where, failure)
            return
        for shape, data in shapes_of(name, given, self.fuzz.program.runs):
            self.corpus.offer(name, given.kind, shape, data)

    # ---- a failure

    def shrink(self, name, label, given, failure):
        """Returns the shrunk input and its failure. They are those of the case if it does not fail again."""
        manner, until, smallest = manner_of(failure), time.monotonic() + SHRINKING, (label, given)
        print(f"shrinking the input of {name}: {failure}"[:400], file=sys.stderr, flush=True)

        def fails_at(draw, some):
            nonlocal smallest
            if self.is_stopped or time.monotonic() >= until:
                raise Over
            found = self.failure_of(name, draw, some)
            is_same = found is not None and manner_of(found) == manner
            smallest = (draw, some) if is_same else smallest
            return is_same

        Program.limit, usual = SHORT_LIMIT if isinstance(failure, Hang) else Program.limit, Program.limit
        try:
            # Some choices of the property need less of the input than others. These too are tried for a file of the
            # folder seen.
            for draw in (label, f"{label} 0", f"{label} 1"):
                shrunk_input(smallest[1], functools.partial(fails_at, draw))
        except Over:
            pass
        finally:
            Program.limit = usual
        again = self.failure_of(name, *smallest)
        return (smallest[1], again) if again is not None and manner_of(again) == manner else (given, failure)

    # ---- the run

    def stop(self, *_):
        """Ends the run after the current case, or at once at a second signal."""
        if self.is_stopped:
            raise KeyboardInterrupt
        self.is_stopped = True

    def show_progress(self):
        seconds = int(time.monotonic() - self.begun)
        counts = ", ".join(f"{name} {self.fuzz.good[name]}" for name in self.properties if self.fuzz.is_chosen(name))
        print(
            f"fuzz: {seconds // 3600}:{seconds // 60 % 60:02}:{seconds % 60:02}, {self.fuzz.good.total()} inputs, {self.corpus}; {counts}",
            file=sys.stderr, flush=True,
        )

    def run(self, seconds):
        """Runs cases until the time is over, one fails, or a signal comes."""
        # A stored object is written as it was read, also with a number of many digits.
        if hasattr(sys, "set_int_max_str_digits"):
            sys.set_int_max_str_digits(0)
        for one in (signal.SIGINT, signal.SIGTERM, signal.SIGHUP):
            # nohup ignores SIGHUP, and a shell SIGINT of a command in the background. SIGINT ends this run anyway.
            if one == signal.SIGINT or signal.getsignal(one) != signal.SIG_IGN:
                signal.signal(one, self.stop)
        self.fuzz.try_seen()
        shown = self.begun
        for number in itertools.count() if self.names else ():
            now = time.monotonic()
            if now - self.begun >= seconds or self.is_stopped or self.fuzz.bad:
                break
            if now - shown >= PROGRESS:
                self.show_progress()
                shown = now
            self.step(number)
        self.show_progress()
