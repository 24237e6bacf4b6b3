"""Histories through the library against the paper's history rule, in both families. The book is kept here, from the list alone.

Random histories have any lines, pages, texts, allowances and power cuts, and calls that are refused without a store, some of
them with other keys of 48 bytes; small lists are gone through whole, with a cut after every store of every call, in recoveries
too, and other caches after a cut. After each done recovery every clause of the rule is checked, the texts of all lines too. A
recovery may be refused as 34 only where a line's cell fits another counter than its count in the book; test_few_bits.py comes to
such lines. An argument is another seed.
"""

import random
import sys
from collections import Counter

import model
import states
from book import Book, commits, faults_after_recovery, wanted_of_read
from library import CUT, DONE, Library, REFUSED, Session, Tally, in_parallel
from model import UNLIMITED
from states import KEYS, text_of

RANDOM = {(1, 0): 300, (2, 0): 100, (3, 0): 40, (1, 1): 150, (2, 1): 50, (3, 1): 20}  # histories of a depth and a family,
LENGTHS = {1: 120, 2: 90, 3: 80}  # and their lengths
# What lists of each kind must reach at each depth and in each family, whatever the seed: calls, those cut, recoveries after
# which the rule was checked, turns finished, writes of worn lines refused.
REACHED = ("calls", "cut", "recoveries", "turns", "worn")
FLOORS = {
    ("small", 1, 0): (200000, 98000, 100000, 3900, 0),
    ("random", 1, 0): (40000, 1200, 4000, 2000, 0),
    ("random", 2, 0): (10000, 400, 1000, 450, 0),
    ("random", 3, 0): (3500, 150, 350, 150, 0),
    ("small", 1, 1): (60000, 30000, 30000, 3900, 0),
    ("random", 1, 1): (20000, 600, 2000, 1000, 0),
    ("random", 2, 1): (5000, 200, 500, 220, 0),
    ("random", 3, 1): (1700, 70, 170, 70, 0),
}
FLOORS.update({("worn", depth, family): (600, 100, 140, 3, 50) for depth in states.DEPTHS for family in model.FAMILIES})
# Calls of random lists that are refused without a store: each kind, its codes; and how many of each there must be at each depth.
REFUSALS = {
    "another depth": (101, 104),
    "another family": (101,),
    "past the map": (106,),
    "keys of another length": (102,),
    "a buffer of another length": (105, 107),
    "read with other keys": (124, 125, 130),
    "write with other keys": (124, 130),
    "turn with other keys": (124, 125, 130),
    "recover with other keys": (129, 133, 134),
}
REFUSED_AT_LEAST = {(1, 0): 1000, (2, 0): 400, (3, 0): 120, (1, 1): 500, (2, 1): 200, (3, 1): 50}
UNTOUCHED = b"\x5a" * 64
SQUARES = bytes(i * i % 251 for i in range(730))
# Small lists: their families, lines written before, their length, the events, and how many cuts recovery may meet in a row.
SMALL = (
    ((0,), (), 2, (("write", 0), ("write", 1), ("write", 256), ("write", 320), ("read", 0), ("read", 257)), 2),
    ((1,), (), 2, (("write", 0), ("write", 1), ("write", 256), ("read", 257)), 2),
    ((0,), (), 3, (("write", 0), ("write", 256), ("read", 64)), 1),
    ((0, 1), (0, 1, 256), 2, (("turn", 0), ("turn", 4), ("turn", 1), ("write", 0), ("write", 257), ("read", 1)), 1),
    ((0, 1), (0, 1), 3, (("turn", 0), ("write", 256)), 0),
)


class Rule:
    """A module in the library, the book of its history, and the rule."""

    def __init__(self, depth, family, keys=KEYS, library=None):
        self.library = library or Library()
        self.session = Session(self.library, depth, keys)
        self.scratch = Session(self.library, depth, keys)
        self.depth, self.family, self.keys = depth, family, keys
        self.tally = Tally("histories")
        self.reached = Counter()
        self.start()

    def start(self):
        code = self.session.format(self.family)[0]
        self.tally.check(code == DONE, "format gave %d" % code)
        self.book = Book()
        self.down = False  # whether power failed, and only recoveries may stand until one is done

    def note(self, code):
        self.reached["calls"] += 1
        self.reached["cut"] += code == CUT
        self.down = code == CUT or self.down and code != DONE

    def lose_power(self, rng):
        self.session.put("cache", any_cache(rng, self))
        self.down = True

    def stores_of_whole(self, line, text):
        """The stores that a write makes from here with stores enough."""
        self.scratch.load(self.session.module())
        return self.scratch.write(line, text)[1]

    def write(self, line, text, allowance):
        whole = self.stores_of_whole(line, text) if allowance < states.MOST_STORES[self.depth]["write"] else 0
        refused = REFUSED + 30 if self.book.open_page == line // 64 else 126 if self.book.counts.get(line) == 127 else None
        code, stores, _, _ = self.session.write(line, text, allowance)
        self.note(code)
        self.reached["worn"] += code == 126
        self.tally.check(code == refused if refused else code in (DONE, CUT), "a write of line %d gave %d" % (line, code))
        if code == DONE or code == CUT and commits(stores, whole):
            self.book.commit(line, text)
        if code == CUT:
            self.tally.check(stores == allowance < whole, "a write of %d stores cut after %d of %d" % (whole, stores, allowance))
        elif code == DONE and whole:
            self.tally.check(stores == whole <= allowance, "a write of %d stores done under %d" % (whole, allowance))
        return code

    def turn(self, page, allowance):
        self.scratch.load(self.session.module())
        whole = self.scratch.turn(page)[1]
        refused = self.book.open_page not in (None, page)
        code, stores, first, second = self.session.turn(page, allowance)
        self.note(code)
        self.tally.check(code == REFUSED + 30 if refused else code == (DONE if whole <= allowance else CUT),
                         "a turn of page %d gave %d" % (page, code))
        self.tally.check((stores, first, second) == (0 if refused else min(whole, allowance), 0, 0),
                         "a turn of %d stores made %d under %d" % (whole, stores, allowance))
        if not refused:
            before = self.book.turns.get(page, 0)
            self.book.turn(page, stores, whole)
            self.reached["turns"] += self.book.turns.get(page, 0) - before
        return code

    def read(self, line, allowance):
        """A read gives the book's text at any time, not only after a recovery; on an open page it is refused."""
        self.session.put("out", UNTOUCHED)
        code, stores, _, _ = self.session.read(line, allowance)
        self.note(code)
        out = self.session.get("out")
        if code == CUT:
            self.tally.check(stores == allowance and out == UNTOUCHED, "a read of line %d cut" % line)
        elif line < model.lines(self.depth):
            wanted = wanted_of_read(self.book, line, UNTOUCHED)
            self.tally.check((code, out) == wanted, "a read of line %d gave %d" % (line, code))
        return code

    def recover(self, allowance):
        code, stores, told, _ = self.session.recover(allowance)
        self.note(code)
        if code == CUT:
            self.tally.check(stores == allowance, "recovery cut after %d of %d" % (stores, allowance))
        elif code == DONE:
            self.reached["recoveries"] += 1
            faults = faults_after_recovery(self.book, self.session, self.keys, told)
            self.tally.check(not faults, "after recovery: %s" % faults[:3])
        else:
            self.refused_recovery(code)
        return code

    def refused_recovery(self, code):
        """The one refusal that the rule leaves open, and its premise."""
        doubt = model.lines_in_doubt(self.keys, self.session.module(), self.book.counts)
        self.tally.check(code == REFUSED + 34 and doubt, "recovery refused: %d, lines in doubt: %s" % (code, doubt))

    def drawn_text(self, rng, line):
        """The text of a write."""
        return rng.randbytes(64)

    def state(self):
        return self.session.module(), self.book.copy()

    def go_back(self, state):
        self.session.load(state[0])
        self.book = state[1].copy()


# ---- Random histories ----

def any_cache(rng, rule):
    length = model.cache_length(rule.depth)
    old = rule.session.get("cache")
    slot = model.SLOT_LENGTH * rng.randrange(model.slots(rule.depth))
    return rng.choice([old, bytes(length), b"\xff" * length, rng.randbytes(length),
                       states.patched(old, slot, rng.randbytes(model.SLOT_LENGTH)), old[::-1]])


def calls_to_refuse(rng, depth, keys):
    """A call of each kind but recovery's: kind, keys, name, lengths that are wrong, numbers."""
    others = [0, 4, 2**64 - 1] + [other for other in states.DEPTHS if other != depth]
    families = [2, 255, 2**32, 2**64 - 1]
    line, past = rng.randrange(model.lines(depth)), rng.choice([model.lines(depth), 2**32, 2**64 - 1])
    other_tag = keys[:47] + bytes([keys[47] ^ 1])
    some = rng.choice([keys, bytes([keys[0] ^ 1]) + keys[1:], other_tag, rng.randbytes(48)])
    tags = rng.choice([keys[:32], rng.randbytes(32)]) + rng.choice([other_tag[32:], rng.randbytes(16)])
    name = rng.choice(["read", "write", "turn"])
    part = rng.choice(["numbers", {"read": "out", "write": "text", "turn": "cache"}[name]])
    numbers = {"line": line, "page": line // 64, "allowance": rng.choice([0, UNLIMITED])}
    yield "another depth", some, "format", {}, {"depth": rng.choice(others), "family": rng.choice([0, 1, 0, 1, *families])}
    yield "another family", some, "format", {}, {"depth": rng.choice([depth, *others]), "family": rng.choice(families)}
    yield "past the map", some, name, {}, {**numbers, "line": past, "page": past}
    yield "keys of another length", some, name, {"keys": rng.choice([0, 47, 49])}, numbers
    yield "a buffer of another length", some, name, {part: rng.choice([0, 23, 65])}, numbers
    for name in ("read", "write", "turn"):
        yield name + " with other keys", tags, name, {}, numbers


def recovery_to_refuse(rng, keys):
    tags = keys[:32] + rng.randbytes(16)
    yield "recover with other keys", tags, "recover", {}, {"allowance": rng.choice([0, UNLIMITED])}


def with_keys(session, keys, name, lengths, numbers):
    """What a call with these keys answers; the session's own stay."""
    own = session.get("keys")
    session.put("keys", keys)
    session.put("out", UNTOUCHED)
    session.put("numbers", bytes(24))
    answer = session.make(name, lengths, **numbers)
    session.put("keys", own)
    return answer


def refused_calls(rule, calls):
    """Makes calls that are refused without a store; they change neither module nor book. One with other keys is made only if
    it is refused so on a copy of the module."""
    for kind, *call in calls:
        before = rule.session.module()
        rule.scratch.load(before)
        code, stores, *place = with_keys(rule.scratch, *call)
        if kind.endswith("with other keys") and (code < REFUSED or stores):
            continue
        rule.tally.check(code in REFUSALS[kind] and stores == 0, "%s gave %d" % (kind, code))
        rule.note(code)
        rule.reached[kind] += 1
        rule.reached[kind, code] += 1
        rule.tally.check(with_keys(rule.session, *call) == (code, 0, *place), "%s: not as on a copy" % kind)
        rule.tally.check(rule.session.module() == before and rule.session.get("out") == UNTOUCHED,
                         "%s: a refused call changed the module or its output" % kind)


def dirty_pages(rule):
    """The list: the dirty pages in rising number, then FF hex."""
    code = rule.session.make("dirty_pages")[0]
    slots = model.slots_of_cache(rule.session.get("cache"))[:4]
    pages = sorted(slot.owner - 1 for slot in slots if slot.dirty)
    listed = b"".join(model.number8(page) for page in pages).ljust(32, b"\xff")
    rule.tally.check(code == DONE and rule.session.get("list") == listed,
                     "list of dirty pages: %d %s" % (code, rule.session.get("list").hex()))


def random_history(rule, rng, length):
    rule.start()
    hot = [rng.randrange(model.lines(rule.depth)) for _ in range(4)]
    hot += [line ^ 256 for line in hot] + [line ^ 1 for line in hot]
    hot = [line % model.lines(rule.depth) for line in hot]
    failing = rng.choice([2, 4, 12])
    for step in range(length):
        allowance = rng.randrange(20) if rng.randrange(failing) == 0 else UNLIMITED
        if rule.down or rng.randrange(12) == 0:
            if rng.randrange(2):
                rule.lose_power(rng)
            refused_calls(rule, recovery_to_refuse(rng, rule.keys))
            code = rule.recover(allowance if rng.randrange(2) else UNLIMITED)
            if rule.down and code > REFUSED:  # only recoveries may follow, and they are refused too
                break
            continue
        line = rng.choice(hot) if rng.randrange(8) else rng.randrange(model.lines(rule.depth))
        style = rng.randrange(10)
        if style < 5:
            rule.write(line, rule.drawn_text(rng, line), allowance)
        elif style < 6:
            random_turn(rng, rule, line // 64, allowance)
        elif style < 8:
            rule.read(line, allowance)
        elif style < 9:
            dirty_pages(rule)
        else:
            refused_calls(rule, calls_to_refuse(rng, rule.depth, rule.keys))
    rule.lose_power(rng)
    rule.tally.check(rule.recover(UNLIMITED) in (DONE, REFUSED + 34), "the last recovery")
    rule.tally.check(rule.session.guards_hold(), "guard bytes")


def random_turn(rng, rule, page, allowance):
    """A turn of the page, or mostly of the open one, if there is one."""
    if rule.book.open_page is not None and rng.randrange(4):
        page = rule.book.open_page
    rule.turn(page, allowance if allowance == UNLIMITED else rng.randrange(60))


def random_part(depth, family, seed):
    rule = Rule(depth, family)
    random_history(rule, random.Random(seed), LENGTHS[depth])
    return rule


def worn_part(depth, family):
    """One line until it is worn, with cuts and recoveries on the way; its writes are then refused, its text stays. Then its
    page is turned, cut as often as it takes, and the line is written on until it is worn again."""
    rule = Rule(depth, family)
    line = model.lines(depth) - 5
    rng = random.Random(depth)
    for other in (line - 1, line + 3):
        rule.write(other, rng.randbytes(64), UNLIMITED)
    for turns in range(3):
        for step in range(160):
            if rule.write(line, rng.randbytes(64), step % 7 if step % 3 == 0 else UNLIMITED) == CUT or step % 10 == 0:
                rule.lose_power(rng)
                rule.recover(UNLIMITED)
        rule.tally.check(rule.book.counts[line] == 127, "the line's count is %d" % rule.book.counts[line])
        rule.tally.check(rule.book.turns == ({line // 64: turns} if turns else {}), "turns: %s" % rule.book.turns)
        rule.read(line, UNLIMITED)
        while rule.turn(line // 64, rng.randrange(12)) == CUT:
            rule.lose_power(rng)
            rule.recover(UNLIMITED)
            if rule.book.turns.get(line // 64, 0) > turns:
                break
    return rule


# ---- Small lists, whole ----

def small_lists(rule, events, alphabet, cuts_left, firsts=None):
    """Every list of so many events from here, where each event may be cut after every store and recovered from."""
    if events == 0:
        return
    before = rule.state()
    for name, line in firsts or alphabet:
        text = text_of(rule.book.committed + 1)

        def call(allowance):
            rule.go_back(before)
            if name == "turn":
                return rule.turn(line, allowance)
            return rule.write(line, text, allowance) if name == "write" else rule.read(line, allowance)

        rule.tally.check(call(UNLIMITED) != CUT, "a call cut without a limit")
        whole = model.number_at(rule.session.get("numbers"), 0)
        small_lists(rule, events - 1, alphabet, cuts_left)
        for allowance in range(whole):
            rule.tally.check(call(allowance) == CUT, "a call of %d stores not cut under %d" % (whole, allowance))
            every_recovery(rule, allowance, cuts_left)
            small_lists(rule, events - 1, alphabet, cuts_left)
    rule.go_back(before)
    every_recovery(rule, events, cuts_left)


def every_recovery(rule, seed, cuts_left):
    """Power cuts here: recovery with some other cache, whole and cut after every store; leaves a recovered module."""
    length = model.cache_length(rule.depth)
    rule.session.put("cache", (rule.session.get("cache"), bytes(length), b"\xff" * length, SQUARES[:length])[seed % 4])
    before = rule.state()
    pending = before[0].control[15]
    for allowance in range(pending + 2 if pending and cuts_left else 0):
        rule.go_back(before)
        rule.tally.check(rule.recover(allowance) == CUT, "recovery not cut under %d" % allowance)
        every_recovery(rule, seed + allowance + 1, cuts_left - 1)
    rule.go_back(before)
    rule.tally.check(rule.recover(UNLIMITED) == DONE, "recovery not done")


def small_part(family, lines, events, alphabet, cuts_left, first):
    """The small lists that start with one event, after these lines were written."""
    rule = Rule(1, family)
    for line in lines:
        rule.write(line, text_of(line + 100), UNLIMITED)
    small_lists(rule, events, alphabet, cuts_left, (first,))
    rule.tally.check(rule.session.guards_hold(), "guard bytes")
    return rule


def work(job):
    kind, *rest = job
    rule = {"random": random_part, "worn": worn_part, "small": small_part}[kind](*rest)
    return (kind, rule.depth, rule.family), rule.reached, rule.tally.passed, rule.tally.failed


def check_reached(tally, lists, reached):
    """Says what the lists of one kind reached at a depth in a family, and holds it to the floors."""
    kind, depth, family = lists
    where = "depth %d, family %d: lists (%s)" % (depth, family, kind)
    for what, floor in zip(REACHED, FLOORS[lists]):
        tally.check(reached[what] >= floor, "%s: %d %s" % (where, reached[what], what))
    print("histories: %s: %d calls, %d of them cut, the rule checked after %d recoveries, %d lines read after each, %d turns "
          "finished, %d writes of worn lines refused" % (
              where, *(reached[what] for what in REACHED[:3]), model.lines(depth), *(reached[what] for what in REACHED[3:])))
    if kind == "random":
        for what in REFUSALS:
            tally.check(reached[what] >= REFUSED_AT_LEAST[depth, family], "%s: refused calls, %s: %d" % (where, what, reached[what]))
        recoveries = {code: reached["recover with other keys", code] for code in REFUSALS["recover with other keys"]}
        tally.check(recoveries[134] == 0 and (recoveries[133] > 20 * recoveries[129] if family else recoveries[133] == 0),
                    "%s: recoveries with other keys: %s" % (where, recoveries))
        print("histories: %s: refused without a store: %s" % (
            where, ", ".join("%d %s" % (reached[what], what) for what in REFUSALS)))


def main():
    seed = int(sys.argv[1], 0) if len(sys.argv) > 1 else 20261115
    tally = Tally("histories")
    jobs = [("small", family, *small, first) for families, *small in SMALL for family in families for first in small[2]]
    jobs += [("random", depth, family, 1000 * seed + 100 * depth + 500 * family + i)
             for (depth, family), histories in RANDOM.items() for i in range(histories)]
    jobs += [("worn", depth, family) for depth in states.DEPTHS for family in model.FAMILIES]
    sums = {}
    for lists, reached, passed, failed in in_parallel(work, jobs):
        sums[lists] = sums.get(lists, Counter()) + reached
        tally.add(passed, failed)
    for lists in FLOORS:
        check_reached(tally, lists, sums[lists])
    tally.finish()


if __name__ == "__main__":
    main()
