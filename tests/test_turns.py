"""A cut after every store of a turn and recovery from each, cut too; then the turn resumed, cut again and resumed again.

Pages with 0, 1, 2, 3 and 64 written lines at each depth, their path cached or not; in family 1 at depth 3 some of these. Each
call is held to the model, and what stands after each recovery to the book. Of a page with 64 lines, and at depths 2 and 3, second
cuts are drawn, not all. An argument is another seed.
"""

import random
import sys
from itertools import product

import model
import states
from book import Book, faults_after_recovery
from library import CUT, DONE, Library, Session, Tally, in_parallel
from model import UNLIMITED, Module
from states import KEYS, text_of

COUNTS = (0, 1, 2, 3, 64)
PLACES = {0: (), 1: (5,), 2: (0, 63), 3: (1, 30, 62), 64: tuple(range(64))}


class Turns:
    """Turns of one page of a module in the library, and the book of what was done to it."""

    def __init__(self, depth, family, count, cached, seed):
        self.depth, self.family = depth, family
        self.page = 4 if depth == 1 else 2 * 8**(depth - 1)
        self.count = count
        self.what = "depth %d, family %d, %d lines, path %s" % (depth, family, count, "cached" if cached else "missing")
        self.rng = random.Random(seed)
        self.session = Session(Library(), depth, KEYS)
        self.tally = Tally("turns")
        self.cuts = self.recoveries = self.finished = self.most = 0
        self.prepare(cached)

    def prepare(self, cached):
        """A worn line, others at different minors; a dirty page that takes the slots of the path, or one that leaves it."""
        self.session.format(self.family)
        self.book = Book()
        if cached:
            self.write(5)
        for i, place in enumerate(PLACES[self.count]):
            for _ in range(127 if i == 0 else 1 + i % 6):
                self.write(64 * self.page + place)
        self.session.read(64 * self.page)
        if not cached:
            self.write(5)

    def write(self, line):
        text = text_of(self.book.committed * 3 + line)
        code = self.session.write(line, text)[0]
        self.tally.check(code == DONE, "%s: a write of line %d gave %d" % (self.what, line, code))
        self.book.commit(line, text)

    # ---- Calls, held to the model ----

    def hold(self, name, allowance, module, wanted, answer):
        """One call on this module: its code and numbers, and every byte that it leaves."""
        self.session.load(module)
        counts = {"page": self.page} if name == "turn" else {}
        got = self.session.make(name, allowance=allowance, **counts)
        self.tally.check(got == wanted, "%s: %s under %d gave %s, wanted %s" % (self.what, name, allowance, got, wanted))
        self.tally.check(self.session.module() == answer, "%s: %s under %d left another module" % (self.what, name, allowance))

    def cut_turns(self, module, book, chosen=None):
        """The turn from here under each allowance, or each of those chosen: the module after it, and the book."""
        refusal, stores, cache = model.turn_stores(KEYS, self.page, module)
        self.tally.check(refusal is None, "%s: the turn is refused: %s" % (self.what, refusal))
        whole = len(stores)
        self.most = max(self.most, whole)
        memory = {"array": bytearray(module.array), "control": bytearray(module.control)}
        for made in range(whole + 1):
            for offset, data in stores[made - 1].pieces if made else ():
                memory[stores[made - 1].target][offset:offset + len(data)] = data
            if chosen is None or made in chosen or made == whole:
                left = Module(bytes(memory["array"]), bytes(memory["control"]), cache if made == whole else module.cache)
                self.hold("turn", made, module, (DONE if made == whole else CUT, made, 0, 0), left)
                yield made, left, book.after_turn(self.page, made, whole)

    def finish(self, module, book):
        """The turn from here without a limit."""
        answer, left = model.turn_call(KEYS, self.page, UNLIMITED, module)
        self.hold("turn", UNLIMITED, module, (DONE, answer.stores, 0, 0), left)
        self.most = max(self.most, answer.stores)
        self.finished += 1
        return left, book.after_turn(self.page, answer.stores, answer.stores)

    def recover(self, module, book, cuts_left=0):
        """Recovery from here with another cache, whole and cut after every store, so many times; the recovered module."""
        length = model.cache_length(self.depth)
        junk = self.rng.choice([module.cache, bytes(length), b"\xff" * length, self.rng.randbytes(length)])
        module = module._replace(cache=junk)
        answer, after = model.recover_call(KEYS, UNLIMITED, module)
        self.tally.check(answer.kind == "done", "%s: recovery gave %s" % (self.what, answer))
        for allowance in range(answer.stores if cuts_left else 0):
            cut, left = model.recover_call(KEYS, allowance, module)
            self.hold("recover", allowance, module, (CUT, allowance, 0, 0), left)
            self.recover(left, book, cuts_left - 1)
        self.hold("recover", UNLIMITED, module, (DONE, answer.stores, answer.first, 0), after)
        faults = faults_after_recovery(book, self.session, KEYS, answer.first)
        self.tally.check(not faults, lambda: "%s: after recovery: %s" % (self.what, faults[:3]))
        self.recoveries += 1
        return after

    # ---- Every cut ----

    def drawn(self, stores, most):
        """So many cuts among so many stores, or all of them."""
        return set(range(stores) if stores <= most else self.rng.sample(range(stores), most))

    def run(self):
        module, book = self.session.module(), self.book
        whole = len(model.turn_stores(KEYS, self.page, module)[1])
        small = self.count < 64
        nested = self.drawn(whole, whole if small else 40)
        resumed = self.drawn(whole, whole if small else 60 if self.depth == 1 else 20)
        for made, left, after in self.cut_turns(module, book):
            self.cuts += 1
            recovered = self.recover(left, after, (2 if self.depth == 1 else 1) if made in nested else 0)
            if made in resumed:
                self.resume(recovered, after)
        self.turn_again(left, after)

    def resume(self, module, book):
        """From a recovered module: the turn to its end, and cut once more on the way. Now and then another page takes the
        slots of the path before."""
        if book.turns.get(self.page):
            return
        if self.rng.randrange(3) == 0:
            self.session.load(module)
            self.book = book.copy()
            self.write(5)
            module, book = self.session.module(), self.book
        stores = len(model.turn_stores(KEYS, self.page, module)[1])
        chosen = self.drawn(stores, stores if self.depth == 1 and self.count < 64 else 4)
        for made, left, after in self.cut_turns(module, book, chosen):
            self.cuts += 1
            recovered = self.recover(left, after)
            if not after.turns.get(self.page):
                self.recover(*self.finish(recovered, after))

    def turn_again(self, module, book):
        """Writes go on after a turn, and a page can be turned again."""
        for _ in range(2):
            self.session.load(module)
            self.book = book
            for place in PLACES[self.count][:2] + (40,):
                self.write(64 * self.page + place)
            module, book = self.finish(self.recover(self.session.module(), self.book), self.book)
        self.recover(module, book)
        self.tally.check(book.turns == {self.page: 3}, "%s: %s turns finished" % (self.what, book.turns))


def work(job):
    turns = Turns(*job)
    turns.run()
    turns.tally.check(turns.session.guards_hold(), "guard bytes")
    return turns.depth, turns.family, turns.cuts, turns.recoveries, turns.finished, turns.most, turns.tally.passed, turns.tally.failed


def drawn_jobs(seed):
    for count in reversed(COUNTS):
        for depth in reversed(states.DEPTHS):
            for family, cached in product(model.FAMILIES, (True, False)):
                if depth < 3 or family == 0 or (count, cached) in ((1, False), (2, True), (3, False)):
                    yield depth, family, count, cached, seed + 10 * depth + cached


def main():
    seed = int(sys.argv[1], 0) if len(sys.argv) > 1 else 20261115
    tally = Tally("turns")
    sums = {job: [0, 0, 0, 0] for job in product(states.DEPTHS, model.FAMILIES)}
    for depth, family, *counts, most, passed, failed in in_parallel(work, drawn_jobs(seed)):
        tally.add(passed, failed)
        sums[depth, family] = [a + b for a, b in zip(sums[depth, family], counts)] + [max(most, sums[depth, family][3])]
    for (depth, family), (cuts, recoveries, finished, most) in sums.items():
        tally.check(most == states.MOST_STORES[depth]["turn"] or (depth, family) == (3, 1),
                    "depth %d, family %d: longest turn %d stores" % (depth, family, most))
        print("turns: depth %d%s: %d cuts, %d recoveries from them, %d turns finished, stores at most: nv_turn %d" % (
            depth, ", family 1" if family else "", cuts, recoveries, finished, most))
    tally.finish()


if __name__ == "__main__":
    main()
