"""Random calls through the library, each held to the model: code, numbers, every byte of every slice, guard bytes.

States are real (reached by calls from a format, with cuts), damaged, and arbitrary, of both families. An argument is another
seed.
"""

import random
import sys
from collections import Counter

import model
import states
from library import Library, SEQUENCES, SLICES, Tally, in_parallel, numbers_of
from model import Module

CALLS = {(1, 0): 90000, (2, 0): 12000, (3, 0): 8000, (1, 1): 60000, (2, 1): 9000, (3, 1): 7000}  # of a depth and a family
PARTS = {1: 24, 2: 8, 3: 4}
ANY_QUEUE = 8 + 2  # stores of a recovery from any queue, which may be longer than those that calls leave

# The refusals of each call, as the paper lists them; of a recovery those of a family. 34 needs two tags that agree: it is for
# test_few_bits.py.
REFUSALS = {
    "format": (1, 2, 3, 4, 5),
    "read": (2, 3, 21, 4, 5, 7, 6, 22, 23, 30, 24, 25),
    "write": (2, 3, 21, 4, 5, 7, 6, 22, 23, 30, 24, 26),
    "turn": (2, 3, 21, 4, 5, 6, 22, 23, 30, 24, 31, 25),
    "recover": {0: (2, 3, 21, 4, 5, 27, 28, 32, 29), 1: (2, 3, 21, 4, 5, 27, 33, 29)},
    "dirty_pages": (3, 21, 5, 7, 23),
}
ANSWERS = {"format": (0,), "read": (0, 1, 2), "write": (0, 2), "turn": (0, 2), "recover": (0, 2), "dirty_pages": (0,)}


def module_after(name, slices, module):
    after = dict(zip(SLICES[name], slices))
    return Module(after.get("array", module.array), after.get("control", module.control),
                  after.get("cache", module.cache))


class Walk:
    """A row of calls from one seed."""

    def __init__(self, depth, family, seed, library=None):
        self.depth, self.family = depth, family
        self.rng = random.Random(seed)
        self.library = library or Library()
        self.tally = Tally("library")
        self.reached = Counter()
        self.allowances = set()
        self.stores = set()
        self.start_anew()
        self.strange = states.arbitrary(self.rng, depth, family)

    def start_anew(self):
        """A module of this history; now and then a line is nearly worn, or the module is an arbitrary one."""
        self.module = states.formatted(self.depth, self.family)
        self.hot = [self.rng.randrange(model.lines(self.depth)) for _ in range(6)]
        self.hot += [line ^ 1 for line in self.hot[:3]] + [line ^ 9 for line in self.hot[:2]]
        if self.rng.randrange(4) == 0:
            self.module = states.arbitrary(self.rng, self.depth, self.family)
            self.hot += [64 * page for page in range(min(8, model.pages(self.depth)))]

    def one(self):
        rng = self.rng
        style = rng.randrange(100)
        module = self.module
        if style < 30:
            module = states.damaged(rng, self.depth, module)
        elif style < 40:
            module = states.damaged(rng, self.depth, self.strange) if style < 35 else self.strange
        if rng.randrange(40) == 0:
            name, arguments = states.drawn_format(rng, self.depth, module)
        else:
            name, arguments = states.drawn_call(rng, self.depth, module, self.hot)
        shaped = rng.randrange(2 if name == "format" else 10) > 0
        if not shaped:
            arguments = states.misshapen(rng, arguments)
        code, slices = self.tally.compare(self.library, name, arguments)
        self.note(name, arguments, code, slices)
        if shaped and style >= 40:
            self.module = self.next_module(name, code, module_after(name, slices, module))

    def note(self, name, arguments, code, slices):
        family, control = self.family, arguments[SEQUENCES[name].index("control")]
        if name != "format" and control[:4] in model.MARKS:
            family = model.family_of(control)  # damage may have changed it
        self.reached[family, name, 7 if code == 107 and len(arguments[-1]) != 24 else code, len(arguments[-1]) == 24] += 1
        if name in ("read", "write", "turn", "recover"):
            self.allowances.add((name, arguments[-2]))
            if code < 2:
                self.stores.add((name, numbers_of(slices)[0]))

    def next_module(self, name, code, module):
        """The state for the next call: after a cut, or when the module asks for it, mostly a recovered one."""
        rng = self.rng
        if name == "format" and code == 0:
            return states.formatted(self.depth, self.family)
        if code == 2 and rng.randrange(2):
            module = states.with_any_cache(rng, self.depth, module)
        if code in (122, 123, 124) and rng.randrange(3):
            answer, module = model.recover_call(states.KEYS, model.UNLIMITED, module)
            if answer.kind != "done":
                self.start_anew()
                return self.module
        if rng.randrange(300) == 0:
            self.start_anew()
            return self.module
        if rng.randrange(40) == 0:
            return self.opened_or_closed(module)
        return module

    def opened_or_closed(self, module):
        """A page becomes open, its block stored; or none is open any more."""
        if module.control[model.TURN_AT]:
            return module._replace(control=states.patched(module.control, model.TURN_AT, bytes(17)))
        page = self.rng.choice(self.hot) // 64
        return states.opened(states.block_stored(self.depth, module, page), page, states.drawn_mask(self.rng))


def part(job):
    depth, family, seed, calls = job
    walk = Walk(depth, family, seed)
    for _ in range(calls):
        walk.one()
    return depth, walk.tally.passed, walk.tally.failed, walk.reached, walk.allowances, walk.stores


def check_refusals(tally, depth, family, reached):
    """Says which refusals each call reached, and holds that to the paper's lists."""
    for name in SLICES:
        listed = REFUSALS[name] if name != "recover" else REFUSALS[name][family]
        got = {code - 100 for of, call, code, shaped in reached if (of, call, shaped) == (family, name, True) and code > 100}
        answers = sorted(code for of, call, code, shaped in reached if (of, call, shaped) == (family, name, True) and code < 100)
        missing = [number for number in listed if number not in got]
        where = "depth %d, family %d: nv_%s" % (depth, family, name)
        tally.check(got == set(listed), "%s gave refusals %s" % (where, sorted(got)))
        tally.check(answers == list(ANSWERS[name]), "%s gave codes %s" % (where, answers))
        tally.check(reached[family, name, 7, False] > 0, "%s with other numbers" % where)
        print("library: %s: codes %s; refusals %s: %s" % (
            where, " ".join(map(str, answers)), " ".join(str(n) for n in listed if n in got),
            "missing %s" % missing if missing else "all that the paper lists"))


def check_reached(tally, depth, allowances, stores):
    for name in ("read", "write", "turn", "recover"):
        missing = [a for a in states.ALLOWANCES if (name, a) not in allowances]
        tally.check(not missing, "depth %d: nv_%s not tried with allowances %s" % (depth, name, missing))
    for name, most in {**states.MOST_STORES[depth], "recover": ANY_QUEUE}.items():
        made = [count for call, count in stores if call == name]
        tally.check(max(made) == most or name == "turn" and max(made) < most,
                    "depth %d: nv_%s made %d stores, at most %d wanted" % (depth, name, max(made), most))
        print("library: depth %d: nv_%s: %d different numbers of stores, up to %d" % (depth, name, len(made), max(made)))


def main():
    seed = int(sys.argv[1], 0) if len(sys.argv) > 1 else 20261115
    tally = Tally("library")
    jobs = [(depth, family, seed * 1000 + 100 * depth + 500 * family + i, -(-calls // PARTS[depth]))
            for (depth, family), calls in CALLS.items() for i in range(PARTS[depth])]
    reached = {depth: Counter() for depth in states.DEPTHS}
    allowances = {depth: set() for depth in states.DEPTHS}
    stores = {depth: set() for depth in states.DEPTHS}
    for depth, passed, failed, codes, tried, made in in_parallel(part, jobs):
        tally.add(passed, failed)
        reached[depth] += codes
        allowances[depth] |= tried
        stores[depth] |= made
    for depth in states.DEPTHS:
        print("library: depth %d: %d calls held to the model" % (depth, sum(reached[depth].values())))
        for family in model.FAMILIES:
            check_refusals(tally, depth, family, reached[depth])
        check_reached(tally, depth, allowances[depth], stores[depth])
    tally.finish()


if __name__ == "__main__":
    main()
