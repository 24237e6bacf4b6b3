"""A cut after every store of a write and of a read with evictions, and recovery from each, cut after every store too, in both
families.

Each call is held to the model, and what stands after recovery to the book. Then the paper's bench listing.
"""

import model
import states
from book import Book, commits, faults_after_recovery
from library import CUT, DONE, Library, NUMBERS, Session, Tally, in_parallel, numbers_of
from model import UNLIMITED
from states import KEYS, text_of


def book_of(lines):
    book = Book()
    for i, line in enumerate(lines):
        book.commit(line, text_of(line + i + 1))
    return book


def far(depth):
    """A line whose path meets another node in every slot below the top's that it may."""
    return 64 * (4 if depth == 1 else 2 * 8**(depth - 1))


def scenarios(depth):
    """(what, lines written before, call, line) of calls with small and full batches."""
    other = far(depth)
    yield "first write", (), "write", 5
    yield "first read", (), "read", 5
    yield "write to a cached line", (5, 5), "write", 5
    yield "stop-loss write", (5, 5, 5), "write", 5
    yield "write that evicts", (5, 70, 7), "write", other
    yield "blank read that evicts", (5, 70, 7), "read", other + 9
    yield "read that evicts", (5, other, 5), "read", other
    yield "stop-loss write that evicts", (other, other, other, 5), "write", other
    yield "write in the last page", (5, 70), "write", model.lines(depth) - 1


class Cuts:
    def __init__(self, depth, family):
        self.depth, self.family = depth, family
        self.library = Library()
        self.session = Session(self.library, depth, KEYS)
        self.tally = Tally("cuts")
        self.cuts = self.recoveries = 0
        self.nested = 0 if (depth, family) == (3, 1) else 2  # cuts of recoveries in a row
        self.most = {"read": 0, "write": 0, "recover": 0}

    def call(self, name, line, text, allowance, module):
        """One call on both sides; gives its code, its numbers and the module after it."""
        between = (line, text) if name in ("read", "write") else ()
        arguments = (KEYS, module.control, module.array, module.cache) + between + (allowance, NUMBERS)
        code, slices = self.tally.compare(self.library, name, arguments)
        self.most[name] = max(self.most[name], numbers_of(slices)[0])
        return code, numbers_of(slices), model.Module(slices[2], slices[1], slices[3])

    def scenario(self, what, before, name, line):
        module = states.written(states.formatted(self.depth, self.family), *before)
        text = text_of(200)
        code, (whole, _, _), _ = self.call(name, line, text, UNLIMITED, module)
        self.tally.check(code != CUT, "%s: cut without a limit" % what)
        for allowance in range(whole + 3):
            code, (stores, _, _), after = self.call(name, line, text, allowance, module)
            expected = (CUT, allowance) if allowance < whole else (code, whole)
            self.tally.check((code, stores) == expected and (code == CUT) == (allowance < whole),
                             "%s: %d after %d of %d stores" % (what, code, stores, whole))
            committed = name == "write" and (code != CUT or commits(stores, whole))
            book = book_of(before).after_write(line, text, committed)
            self.cuts += 1
            for cache in self.caches(after.cache, allowance):
                self.recover(what, after._replace(cache=cache), book, self.nested)

    def caches(self, cache, seed):
        """What the cache may hold after a cut: here what it held, zeros, and junk."""
        junk = bytes((seed * 31 + i * i * 7) % 256 for i in range(len(cache)))
        return (cache, bytes(len(cache)), junk) if self.depth == 1 else (junk,)

    def recover(self, what, module, book, cuts_left):
        """Recovery from here, whole and cut after every store, so many times."""
        code, (stores, told, _), after = self.call("recover", None, None, UNLIMITED, module)
        self.tally.check(code == DONE, "%s: recovery gave %d" % (what, code))
        self.recoveries += 1
        self.session.load(after)
        faults = faults_after_recovery(book, self.session, KEYS, told)
        self.tally.check(not faults, "%s: %s" % (what, faults[:3]))
        for allowance in range(stores if cuts_left else 0):
            code, (made, _, _), cut = self.call("recover", None, None, allowance, module)
            self.tally.check((code, made) == (CUT, allowance), "%s: recovery under %d" % (what, allowance))
            if cuts_left == 2 or allowance in (0, stores - 1):
                self.recover(what, cut, book, cuts_left - 1 if self.depth == 1 else 0)


def of_modules(job):
    """Of a depth and a family."""
    depth, family = job
    cuts = Cuts(depth, family)
    for what, before, name, line in scenarios(depth):
        cuts.scenario(what, before, name, line)
    for name, most in cuts.most.items():
        cuts.tally.check(most == states.MOST_STORES[depth][name], "depth %d: nv_%s made %d stores" % (depth, name, most))
    return job, cuts.cuts, cuts.recoveries, cuts.most, cuts.tally.passed, cuts.tally.failed


# ---- The bench listing ----

KINDS = ("done", "blank", "cut")


def run_by(library):
    """Makes the calls of the bench program by the library."""
    def run(keys, command, numbers, allowance, module):
        name = {"w": "write", "r": "read", "p": "recover"}[command]
        between = ()
        if command != "p":
            between = numbers[0], text_of(numbers[1] if command == "w" else 0)
        code, slices = library.call(name, keys, module.control, module.array, module.cache, *between, allowance, NUMBERS)
        kind, number = ("refused", code - 100) if code >= 100 else (KINDS[code], 0)
        value = {"w": None, "r": slices[-2][0], "p": numbers_of(slices)[1]}[command]
        answer = model.Answer(kind, number, *numbers_of(slices))
        return answer, model.Module(slices[2], slices[1], slices[3]), value
    return run


def main():
    tally = Tally("cuts")
    printed = model.bench(states.LISTING, run_by(Library()))
    tally.check(printed == states.PRINTED, "bench listing: %s" % printed)
    jobs = [(depth, family) for depth in reversed(states.DEPTHS) for family in model.FAMILIES]
    for (depth, family), cuts, recoveries, most, passed, failed in in_parallel(of_modules, jobs):
        print("cuts: depth %d%s: %d cuts, %d recoveries from them, stores at most: %s" % (
            depth, ", family 1" if family else "", cuts, recoveries, ", ".join("nv_%s %d" % call for call in most.items())))
        tally.add(passed, failed)
    tally.finish()


if __name__ == "__main__":
    main()
