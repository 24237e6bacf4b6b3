"""Lists of dirty pages through the library, byte by byte: the pages of dirty counter slots in rising number, then FF hex, in both
families.

At depth 1 every state of the four counter slots: each empty, or with one of its two pages, clean or dirty. At depths 2 and 3
each has its lowest page, its last or one of two between, clean or dirty, in every combination.
"""

from itertools import product

import model
import states
from library import DONE, Library, NUMBERS, Tally

LIST = b"\x5a" * 32
STATES = {1: 5**4, 2: 8**4, 3: 8**4}


def cache_of(depth, counters):
    """A cache with these (owner, dirty) in the counter slots, and the top."""
    slots = list(counters) + [(0, 0)] * (model.slots(depth) - 4)
    slots[model.slot_of(depth, 0)] = (1, 0)
    return b"".join(owner.to_bytes(8, "little") + bytes([dirty]) + bytes([slot]) * 64
                    for slot, (owner, dirty) in enumerate(slots))


def every_state():
    """At depth 1: the states of the four counter slots."""
    return product(*([(0, 0)] + [(page + 1, dirty) for page in (slot, slot + 4) for dirty in (0, 1)] for slot in range(4)))


def every_combination(depth):
    """At the other depths: a page of the four in each counter slot, clean or dirty."""
    last = model.pages(depth) // 4 - 1
    return product(*([(4 * rank + slot + 1, dirty) for rank in (0, last // 3, last // 2, last) for dirty in (0, 1)]
                     for slot in range(4)))


def hold(tally, library, depth, family, counters):
    control, cache = states.formatted(depth, family).control, cache_of(depth, counters)
    pages = sorted(owner - 1 for owner, dirty in counters if dirty)
    listed = b"".join(page.to_bytes(8, "little") for page in pages).ljust(32, b"\xff")
    arguments = (control, cache, LIST, NUMBERS)
    tally.compare(library, "dirty_pages", arguments, (DONE, (control, cache, listed, bytes(24))))
    tally.compare(library, "dirty_pages", arguments)


def main():
    tally, library = Tally("dirty pages"), Library()
    for depth in states.DEPTHS:
        held = 0
        for counters in every_state() if depth == 1 else every_combination(depth):
            for family in model.FAMILIES:
                hold(tally, library, depth, family, counters)
            held += 1
        tally.check(held == STATES[depth], "depth %d: %d states" % (depth, held))
        print("dirty pages: depth %d: %d states of the counter slots" % (depth, held))
    tally.finish()


if __name__ == "__main__":
    main()
