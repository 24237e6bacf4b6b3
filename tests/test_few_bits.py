"""Modules without a phase byte whose data tags have few bits: nobody finds two whole tags that agree, and refusal 34 needs them.

The plain C of bench/memory.c, compiled with TAG_BITS, is held to the model with the same setting: random calls on real, damaged
and arbitrary states; 33 and 34 on each counter slot, with and without pending stores and an open page, and which of two faults
wins; and histories, in which some texts are chosen so that their tags agree with those of another counter. There a recovery must
be refused, as 34, exactly where a line's cell fits another candidate than its count in the book, and the list goes on from it.
An argument is another seed.
"""

import ctypes
import os
import random
import subprocess
import sys
import tempfile
from collections import Counter
from functools import lru_cache
from itertools import combinations, count

import model
import states
from book import Book, fresh_blocks
from library import CUT, DONE, Library, NUMBERS, REFUSED, Tally, in_parallel
from model import CONTENT, UNLIMITED, number8
from states import KEYS, text_of
from test_histories import Rule, random_history
from test_library import Walk
from test_refusals import MIDDLE, Refusals, line_fault, place_of, recovery_bases, recovery_faults, slots_bases, thinned, with_cell

TOP = os.path.join(os.path.dirname(os.path.abspath(__file__)), "..")
SEVERAL = REFUSED + 34
CALLS = {1: 6000, 2: 2500, 3: 800}  # random calls at each depth, for each of
CALL_BITS = (6, 12)
REFUSAL_BITS = 13  # blank lines of the modules there are not in doubt with these
HISTORIES = {1: 90, 2: 40, 3: 12}  # at each depth, for each of
HISTORY_BITS = (9, 12)
SOME_KEYS = [random.Random(i).randbytes(48) for i in range(6)]
LENGTHS = {1: 100, 2: 80, 3: 60}
# What the histories must reach at each depth: recoveries done; those refused as 34 in all, after pending stores, where a recovery
# was awaited, where none was, because of a blank line, because of a written one.
REACHED = ("done", "refused", "after stores", "awaited", "not awaited", "blank", "written")
FLOORS = {1: (200, 200, 20, 150, 30, 80, 80), 2: (90, 80, 10, 60, 10, 40, 30), 3: (30, 20, 2, 15, 1, 8, 5)}


def build(work, bits):
    """The plain C as a library with data tags of so many bits."""
    path = os.path.join(work, "few_bits_%d.so" % bits)
    sources = [os.path.join(TOP, "bench", name) for name in ("memory.c", "plain.c")]
    subprocess.run(["cc", "-shared", "-fPIC", "-O2", "-Wall", "-Wextra", "-Werror", "-DTAG_BITS=%d" % bits, *sources, "-o", path],
                   check=True)
    return path


class Plain:
    """The library with tags of few bits, its setting in the model, and cells whose tags agree."""

    def __init__(self, path, bits):
        model.set_tag_bits(bits)
        states.settled.cache_clear()  # its data cells have tags
        self.library = Library(path)
        self.bits = bits
        self.hash = ctypes.CDLL(path).plain_siphash24
        self.hash.argtypes = [ctypes.c_char_p, ctypes.c_char_p, ctypes.c_size_t, ctypes.c_char_p]

    def tags(self, keys, content, line, major, minors):
        """The tag of a content at each of these minors."""
        alike, out, found = content + number8(line) + number8(major), ctypes.create_string_buffer(8), {}
        for minor in minors:
            self.hash(keys[32:], alike + number8(minor), 88, out)
            found[minor] = model.number_at(out.raw, 0) % 2**self.bits
        return found

    def content_in_doubt(self, keys, line, major, stored, minor):
        """A content whose tag at a minor is that at another candidate too; every candidate but 0 is tried as the other."""
        others = [other for other in model.candidates(stored) if other not in (0, minor)]
        for number in count():
            content = number8(number + 1) * 8
            tags = self.tags(keys, content, line, major, [minor] + others)
            if any(tags[other] == tags[minor] for other in others):
                return content, number8(tags[minor])

    @lru_cache(maxsize=None)
    def cell_that_fits(self, line, block, several):
        """A cell that fits several candidates of a line whose block this is, or none."""
        major, stored = model.major_of(block), model.minors_of(block)[line % 64]
        if several:
            return b"".join(self.content_in_doubt(KEYS, line, major, stored, stored + 1))
        content = number8(line + 1) * 8
        tags = self.tags(KEYS, content, line, major, model.candidates(stored)).values()
        return content + number8(next(tag for tag in range(2**self.bits) if tag not in tags))


# ---- Random calls ----

def call_part(path, bits, depth, seed):
    plain = Plain(path, bits)
    walk = Walk(depth, 1, seed, plain.library)
    for _ in range(CALLS[depth]):
        walk.one()
    return walk.tally, Counter({code: walk.reached[1, "recover", code, True] for code in (DONE, CUT, 127, 129, 133, SEVERAL)})


# ---- Each slot and line, and pairs ----

def line_that_fits(plain, depth, line, several):
    """33 or 34 at a line."""
    def change(arguments):
        part, at = place_of(arguments, model.node_cell(depth, 0, line // 64))
        cell = plain.cell_that_fits(line, arguments[part][at:at + CONTENT], several)
        return with_cell(arguments, line, lambda _: cell)
    return line_fault(34 if several else 33, change, line)


def refusal_part(path, bits, depth, _):
    plain = Plain(path, bits)
    refusals = Refusals(plain.library)
    parts = {"keys": KEYS, "depth": depth, "family": 1, "allowance": UNLIMITED, "numbers": NUMBERS,
             "cache": bytes([3]) * model.cache_length(depth)}
    for module, lines in recovery_bases(depth, 1):
        base = {**parts, "control": module.control, "array": module.array}
        refusals.without("recover", base)
        others = [fault for fault in recovery_faults(depth, 1, module, lines) if fault.number != 33]
        for line in lines:
            for several in (True, False):
                ends = line_that_fits(plain, depth, line, several)
                refusals.one("recover", ends, base)
                for other in thinned(others, 1):
                    refusals.both("recover", ends, other, base)
    for module, pages in slots_bases(depth, 1):
        base = {**parts, "control": module.control, "array": module.array}
        refusals.without("recover", base)
        chosen = []
        for i, line in enumerate(64 * page + place for page in pages for place in (0, MIDDLE, 63)):
            ends = [line_that_fits(plain, depth, line, several) for several in (True, False)]
            for fault in ends:
                refusals.hold("recover", fault, fault.change(base))
                refusals.singles += 1
            chosen.append(ends[i % 2])
        for one, other in combinations(chosen, 2):
            refusals.both("recover", one, other, base)
    return refusals.tally, Counter({"alone": refusals.singles, "pairs": refusals.pairs})


# ---- Histories ----

class InDoubt(Rule):
    """A history in which tags may agree: some texts are chosen so, and each recovery is held to the premise and to the model."""

    def __init__(self, depth, keys, plain):
        self.plain = plain
        super().__init__(depth, 1, keys, plain.library)

    def drawn_text(self, rng, line):
        """Now and then one whose tag agrees with that of another counter that a recovery would try."""
        page, minor = line // 64, self.book.counts.get(line, 0) + 1
        if rng.randrange(8) or minor > 124:
            return rng.randbytes(64)
        major = self.book.turns.get(page, 0)
        stored = model.minors_of(model.array_node(self.depth, self.session.get("array"), 0, page))[line % 64]
        stored = minor if minor % 4 == 0 else stored
        content, _ = self.plain.content_in_doubt(self.keys, line, major, stored, minor)
        return model.xor(content, model.pad(self.keys, line, major, minor))

    def recover(self, allowance):
        before = self.session.module()
        awaited = self.down
        doubt = model.lines_in_doubt(self.keys, before, self.book.counts)
        code = super().recover(allowance)
        numbers = tuple(model.number_at(self.session.get("numbers"), at) for at in (0, 8, 16))
        wanted, left = model.recover_call(self.keys, allowance, before)
        self.tally.check((code, *numbers) == (model.for_c(NUMBERS, wanted)[0], *wanted[2:]), "recovery gave %d %s" % (code, numbers))
        self.tally.check(self.session.module() == left, "recovery left another module")
        self.tally.check(code == CUT or (code == SEVERAL) == bool(doubt), "recovery gave %d, in doubt: %s" % (code, doubt))
        self.reached["done"] += code == DONE
        if code == SEVERAL and doubt:
            self.refused(before, doubt[0], numbers, awaited)
        return code

    def refused(self, before, line, numbers, awaited):
        """What a refusal as 34 tells and leaves; that the next recovery is refused so too; and which counter gives the root."""
        stores = model.stores_of_pending(before.control)
        left = model.Module(*model.apply_stores(stores, before.array, before.control), before.cache)
        self.tally.check(numbers == (len(stores), line, 0), "34 tells %s" % (numbers,))
        self.tally.check(self.session.module() == left, "34 leaves another module")
        self.tally.check(self.scratch_recovers(left) == (SEVERAL, 0, line, 0), "the next recovery is not refused as 34")
        root, other = self.root(self.book.counts), self.book.counts.get(line, 0) + 1
        self.tally.check(model.root_of(left.control) == root, "34: the book's counters do not give the root")
        self.tally.check(model.root_of(left.control) != self.root({**self.book.counts, line: other}), "34: another counter gives the root")
        kinds = ("refused", "awaited" if awaited else "not awaited", "written" if line in self.book.counts else "blank")
        self.reached.update(kinds + (("after stores",) if stores else ()))

    def root(self, counts):
        blocks = fresh_blocks(Book(counts, turns=self.book.turns), self.depth)
        return model.node_tag(self.keys, model.tree_over(self.keys, self.depth, blocks)[self.depth][0], self.depth, 0)

    def scratch_recovers(self, module):
        self.scratch.load(module)
        return self.scratch.recover()


def history_part(path, bits, depth, seed):
    rng = random.Random(seed)
    rule = InDoubt(depth, rng.choice(SOME_KEYS), Plain(path, bits))
    random_history(rule, rng, LENGTHS[depth])
    return rule.tally, rule.reached


# ---- A written line whose cell is all zero ----

def zero_part(path, bits, depth, _):
    """The text that is its own pad, at a counter where the tag of zeros is zero: its cell is that of a line never written, and a
    recovery that finds the stored counter at 0 cannot tell; at the fourth write the block is stored, and it can."""
    plain = Plain(path, bits)
    tally, reached = Tally("few bits"), Counter()
    for page in range(8):
        lines = range(64 * page, 64 * page + 64)
        zeros = {line: plain.tags(KEYS, bytes(CONTENT), line, 0, range(1, 5)) for line in lines}
        alone = [line for line in lines if sum(zeros[other][minor] == 0 for other in lines for minor in (1, 2, 3)) == 1
                 and 0 in [zeros[line][minor] for minor in (1, 2, 3)]]
        for line in alone:
            minor = next(minor for minor in (1, 2, 3) if zeros[line][minor] == 0)
            hold_zero(tally, plain, depth, line, minor)
            reached["zero cells"] += 1
    return tally, reached


def hold_zero(tally, plain, depth, line, minor):
    rule = InDoubt(depth, KEYS, plain)
    for i in range(1, minor):
        rule.write(line, text_of(i), UNLIMITED)
    rule.write(line, model.pad(KEYS, line, 0, minor), UNLIMITED)
    tally.check(model.cell_at(rule.session.get("array"), line) == bytes(72), "line %d: its cell is not zero" % line)
    tally.check(rule.recover(UNLIMITED) == SEVERAL, "line %d: a zero cell is not in doubt" % line)
    for i in range(minor + 1, 5):
        rule.write(line, text_of(i), UNLIMITED)
    doubt = model.lines_in_doubt(KEYS, rule.session.module(), rule.book.counts)
    tally.check(rule.recover(UNLIMITED) == (SEVERAL if doubt else DONE), "line %d: after the fourth write" % line)
    tally.add(rule.tally.passed, rule.tally.failed)


# ---- All of them ----

PARTS = {"calls": call_part, "refusals": refusal_part, "histories": history_part, "zero cells": zero_part}


def work(job):
    kind, path, bits, depth, seed = job
    tally, reached = PARTS[kind](path, bits, depth, seed)
    return kind, bits, depth, reached, tally.passed, tally.failed


def drawn_jobs(paths, seed):
    for depth in reversed(states.DEPTHS):
        yield "refusals", paths[REFUSAL_BITS], REFUSAL_BITS, depth, 0
        for bits in CALL_BITS:
            yield "calls", paths[bits], bits, depth, 1000 * seed + 100 * depth + bits
        for bits in HISTORY_BITS:
            for i in range(HISTORIES[depth]):
                yield "histories", paths[bits], bits, depth, 1000 * seed + 100 * depth + 10000 * bits + i
    yield "zero cells", paths[9], 9, 1, 0


def check_reached(tally, kind, bits, depth, reached):
    where = "few bits: depth %d" % depth
    if kind == "calls":
        print("%s: %d random calls, tags of %d bits; recoveries: %s" % (
            where, CALLS[depth], bits, ", ".join("%d gave %d" % (times, code) for code, times in sorted(reached.items()))))
        tally.check(min(reached[code] for code in (DONE, 133, SEVERAL)) > 0, "%s: recoveries: %s" % (where, reached))
    elif kind == "refusals":
        print("%s: 33 and 34 at lines of each slot: %d alone, %d in pairs" % (where, reached["alone"], reached["pairs"]))
    elif kind == "zero cells":
        print("%s: %d written lines with a zero cell" % (where, reached["zero cells"]))
        tally.check(reached["zero cells"] > 0, "no written line with a zero cell")
    else:
        print("%s: histories: %d calls, the rule checked after %d recoveries; %d recoveries refused as 34, %d of them after pending "
              "stores, %d where one was awaited, %d where none was, %d at a blank line, %d at a written one" % (
                  where, reached["calls"], *(reached[what] for what in REACHED)))
        for what, floor in zip(REACHED, FLOORS[depth]):
            tally.check(reached[what] >= floor, "%s: histories: %d %s" % (where, reached[what], what))


def main():
    seed = int(sys.argv[1], 0) if len(sys.argv) > 1 else 20261118
    tally = Tally("few bits")
    sums = {}
    with tempfile.TemporaryDirectory() as place:
        paths = {bits: build(place, bits) for bits in {*CALL_BITS, REFUSAL_BITS, *HISTORY_BITS}}
        for kind, bits, depth, reached, passed, failed in in_parallel(work, drawn_jobs(paths, seed)):
            tally.add(passed, failed)
            key = kind, 0 if kind == "histories" else bits, depth
            sums[key] = sums.get(key, Counter()) + reached
    for key, reached in sums.items():
        check_reached(tally, *key, reached)
    tally.finish()


if __name__ == "__main__":
    main()
