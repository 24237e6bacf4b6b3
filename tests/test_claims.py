"""Sentences of the documents about the library that no other test holds, each tried through it, at every depth and in both
families.

What other keys do; which lines still read after each refusal; that a refused recovery leaves no line to be read; how often
lines can be written after a turn; what a write without a recovery leads to. That the lines of an open page, and no others, are
refused, and that a turn can be finished from every cut that is tried, is held by test_turns.py and test_histories.py.
"""

from collections import Counter

import model
import states
from book import Book, misread, refuse, rows_of
from library import BLANK, DONE, Library, Session, Tally, in_parallel
from model import CELL, CONTENT, SLOT_LENGTH
from states import KEYS, text_of

LINES = (0, 1, 70, 130)  # written ones, on pages whose slots differ


class Memory:
    """A module in the library and the book of what was written to it."""

    def __init__(self, depth, family, lines=LINES):
        self.session = Session(Library(), depth, KEYS)
        self.depth, self.family = depth, family
        self.tally = Tally("claims")
        self.seen = Counter()
        self.book = Book()
        self.done(self.session.format(family))
        for line in lines:
            self.write(line)

    def done(self, answer):
        self.check(answer[0] == DONE, "a call that is part of a state gave %d" % answer[0])

    def write(self, line):
        text = text_of(self.book.committed * 7 + line + 3)
        self.done(self.session.write(line, text))
        self.book.commit(line, text)

    def lose_power(self, cache):
        """Another cache, of one repeated byte."""
        self.session.put("cache", bytes([cache]) * self.session.lengths["cache"])

    def damage(self, cell, offset, piece=None):
        """Another byte in a cell, or this one."""
        module = self.session.module()
        at = CELL * cell + offset
        piece = bytes([module.array[at] ^ 1]) if piece is None else piece
        self.session.load(module._replace(array=states.patched(module.array, at, piece)))

    def check(self, holds, what):
        self.tally.check(holds, "depth %d, family %d: %s" % (self.depth, self.family, what))

    def check_answer(self, what, answer, wanted):
        self.check(answer == wanted, "%s gave %s, not %s" % (what, answer, wanted))

    def reads(self, what, refused=(), code=None):
        """Every line reads as the book has it, but these, each a range of lines, which are refused with this code."""
        rows = rows_of(self.book, self.depth)
        for lines in refused:
            refuse(rows, lines, code)
        line = misread(self.session, rows)
        self.check(line is None, "%s: line %s does not read as it must" % (what, line))
        self.seen["read"] += 1


# ---- Other keys ----

def with_byte(place):
    return states.patched(KEYS, place, bytes([KEYS[place] ^ 1]))


def other_pads(depth, family):
    """No call refuses keys with another of the bytes 0 to 31. Reads give other bytes; what is written, and every line of a page
    that is turned, is lost for the right keys; all else stays."""
    memory = Memory(depth, family)
    session, book = memory.session, memory.book
    before = session.module()
    for place in range(32):
        session.load(before)
        session.put("keys", with_byte(place))
        memory.lose_power(0xFF)
        memory.check_answer("recovery with another byte %d" % place, session.recover(), (DONE, 0, len(LINES), 0))
        for line in LINES:
            memory.check(session.read(line)[0] == DONE and session.get("out") != book.texts[line],
                         "a read with another byte %d" % place)
        session.put("keys", KEYS)
        memory.reads("right keys after other pads")
        session.put("keys", with_byte(place))
        memory.check(session.turn(0)[0] == DONE, "a turn with another byte %d" % place)
        memory.check(session.write(130, text_of(1))[0] == DONE, "a write with another byte %d" % place)
        session.put("keys", KEYS)
        for line in LINES:
            memory.check(session.read(line)[0] == DONE and (session.get("out") == book.texts[line]) == (line == 70),
                         "line %d with right keys after a turn with another byte %d" % (line, place))
    return memory


def other_tags(depth, family):
    """Keys with another of the bytes 32 to 47 are refused wherever a tag is checked, and only there: a write to a page in the
    cache is done, and no recovery after it, with these keys or the right ones. Without a phase byte recovery checks tags of
    lines, and the first of a written one is refused."""
    memory = Memory(depth, family)
    session = memory.session
    before = session.module()
    refused, refused_after = ((129, 0, 0, 0), (129, 0, 0, 0)) if family == 0 else ((133, 0, 0, 0), (133, 0, 1, 0))
    calls = (("recover", refused, {}), ("read", (124, 0, 0, 3), {"line": 200}), ("write", (124, 0, 0, 3), {"line": 200}),
             ("turn", (124, 0, 0, 3), {"page": 3}), ("read", (125, 0, 70, 0), {"line": 70}),
             ("turn", (125, 0, 70, 0), {"page": 1}), ("read", (BLANK, 0, 0, 0), {"line": 71}))
    for place in range(32, 48):
        session.put("keys", with_byte(place))
        for name, wanted, numbers in calls:
            answer = session.make(name, allowance=model.UNLIMITED, **numbers)
            memory.check_answer("%s %s with another byte %d" % (name, numbers, place), answer, wanted)
        memory.check(session.module() == before, "a call with another byte %d changed the module" % place)
        memory.check(session.write(1, text_of(1))[0] == DONE, "a write to a cached page with another byte %d" % place)
        memory.lose_power(0)
        memory.check_answer("the next recovery", session.recover(), refused)
        session.put("keys", KEYS)
        memory.check_answer("the next recovery with right keys", session.recover(), refused_after)
        session.load(before)
    return memory


# ---- Damage that a read or a turn shows ----

def nodes_of(depth):
    """Every block and node, at depth 3 some of the blocks."""
    blocks = range(model.pages(depth)) if depth < 3 else [*range(24), *range(60, 68), *range(504, 512)]
    return [(0, page) for page in blocks] + [(l, i) for l in range(1, depth + 1) for i in range(model.nodes(depth, l))]


def below(level, index):
    """The lines whose path has a node."""
    return range(64 * 8**level * index, 64 * 8**level * (index + 1))


def listed_in(session, level, index):
    """Whether the cache holds a node."""
    return model.number_at(session.get("cache"), SLOT_LENGTH * model.slot_of(level, index)) == index + 1


def damaged_nodes(depth, family):
    """124: of a block or node that is not in the cache exactly the lines below it; one that is in the cache is not looked at.
    After a power failure recovery is refused as 129 if it is a block that the shadow lists (with another major; without a phase
    byte as 133 at its first written line), or if the shadow lists the node above it and not itself; else it is done, and the
    same lines are refused."""
    memory = Memory(depth, family)
    session = memory.session
    before = session.module()
    for level, index in nodes_of(depth):
        session.load(before)
        cached, parent = listed_in(session, level, index), level < depth and listed_in(session, level + 1, index // 8)
        refused = () if cached else (below(level, index),)
        memory.damage(model.node_cell(depth, level, index), 0)
        memory.reads("124", refused, 124)
        if refused:
            answer = session.read(refused[0].start)
            memory.check_answer("a read below node %d, %d" % (level, index), answer, (124, 0, level, index))
        memory.lose_power(0xFF)
        lost = level == 0 if cached else parent
        first = next((line for line in LINES if cached and family == 1 and line in below(level, index)), None)
        memory.check_answer("recovery after damage to node %d, %d" % (level, index), session.recover(),
                            (DONE, 0, len(LINES), 0) if not lost else (129, 0, 0, 0) if first is None else (133, 0, first, 0))
        memory.seen["refused" if lost else "done"] += 1
        if not lost:
            memory.reads("124, after recovery", refused, 124)
    return memory


def empty_cache(depth, family):
    """124 with nothing in the cache: exactly the lines below, of the top all. 131: every line reads, a turn is refused."""
    memory = Memory(depth, family, ())
    texts = {line: text_of(line + 9) for line in LINES}
    memory.book.texts = texts
    lines = tuple((line, 1 + line % 127, text) for line, text in texts.items())
    for level, index in nodes_of(depth):
        memory.session.load(states.settled(depth, lines, 0, family))
        memory.damage(model.node_cell(depth, level, index), 63)
        memory.reads("124, empty cache", (below(level, index),), 124)
    memory.session.load(states.settled(depth, lines, 2**64 - 1, family))
    memory.check_answer("a turn of a page whose major is the last", memory.session.turn(1), (131, 0, 0, 0))
    memory.reads("131")
    return memory


def damaged_lines(depth, family):
    """125: that line alone, whichever byte of its cell is another; a write makes it good. Without a phase byte each recovery
    before that write is refused as 133. 126: every line reads."""
    memory = Memory(depth, family)
    session = memory.session
    before = session.module()
    for line in LINES:
        for offset in (0, 63, 64, 65, 71):
            session.load(before)
            memory.damage(line, offset)
            memory.reads("125", (range(line, line + 1),), 125)
            memory.check_answer("a read of line %d" % line, session.read(line), (125, 0, line, 0))
            memory.check_answer("a turn of its page", session.turn(line // 64), (125, 0, line, 0))
            if family == 1:
                memory.check_answer("a recovery", session.recover(), (133, 0, line, 0))
            kept, memory.book = memory.book, memory.book.copy()
            memory.write(line)
            memory.reads("125, written again")
            memory.lose_power(0)
            memory.check(session.recover()[0] == DONE, "recovery after line %d is written again" % line)
            memory.book = kept
    session.load(before)
    while memory.book.counts[70] < 127:
        memory.write(70)
    memory.check_answer("the 128th write", session.write(70, text_of(1)), (126, 0, 0, 0))
    memory.reads("126")
    return memory


# ---- Refused recoveries ----

def damages(depth, family):
    """Damage that recovery refuses: code, place, cell, offset, byte; lines that do not read where the cache is as it was, and their
    code. Line 0 is at counter 127, in the array too."""
    block = model.node_cell(depth, 0, 3)  # of a page that the shadow does not list
    line = range(1), 125
    yield 127, 1, model.shadow_cell(depth, 1), 0, 1, range(0), 0
    yield 129, 0, block, 0, 1, below(0, 3), 124
    if family == 0:
        yield 128, 0, 0, CONTENT, 4, *line
        yield 129, 0, 70, CONTENT, 2, range(70, 71), 125
        yield 132, 0, 0, CONTENT, 0, *line
    else:
        yield 133, 0, 0, 0, 0, *line
        yield 133, 70, 70, CONTENT + 7, 0, range(70, 71), 125


def refused_recoveries(depth, family):
    """127, 128, 129, 132, 133: the cache stays as it was. With junk in it every read is refused as 123, and with zeros as 124 of
    the top, once anything was written. Where it is as it was before, lines read but for damaged ones."""
    memory = Memory(depth, family, (0,) * 127 + (64 * 4,) + LINES[2:])
    session = memory.session
    memory.check(session.read(0)[0] == DONE, "line 0 is in the cache again")
    before, every = session.module(), range(model.lines(depth))
    for code, place, cell, offset, byte, own, own_code in damages(depth, family):
        for cache, refused, wanted in ((0xFF, every, 123), (0x6B, every, 123), (0, every, 124), (None, own, own_code)):
            session.load(before)
            memory.damage(cell, offset, bytes([byte]))
            if cache is not None:
                memory.lose_power(cache)
            kept = session.get("cache")
            memory.check_answer("recovery", session.recover(), (code, 0, place, 0))
            memory.check(session.get("cache") == kept, "a refused recovery changed the cache")
            memory.reads("%d, cache %s" % (code, cache), (refused,), wanted)
            if cache == 0:
                memory.check_answer("a read with a zero cache", session.read(5), (124, 0, depth, 0))
    return memory


def nothing_written(depth, family):
    """After a refused recovery of a module that was only read from, a zero cache reads every line as blank."""
    memory = Memory(depth, family, ())
    session = memory.session
    for line in (0, 70):
        memory.check(session.read(line)[0] == BLANK, "a blank line")
    before = session.module()
    hurt = ((128, 70, 70, CONTENT, 4), (129, 0, 70, CONTENT, 1)) if family == 0 else ((133, 70, 70, CONTENT, 4),)
    for code, place, cell, offset, byte in ((127, 1, model.shadow_cell(depth, 1), 0, 1), *hurt):
        session.load(before)
        memory.damage(cell, offset, bytes([byte]))
        memory.lose_power(0)
        memory.check_answer("recovery", session.recover(), (code, 0, place, 0))
        memory.reads("%d, nothing ever written" % code)
    return memory


def bad_control(depth, family):
    """121: no call but format does anything."""
    memory = Memory(depth, family)
    session = memory.session
    good = session.module()
    for at in (0, 3, 4, 5, 6, model.COUNT_AT, model.TURN_AT):
        session.load(good._replace(control=states.patched(good.control, at, b"\xee")))
        before = session.module()
        for name in ("read", "write", "turn", "recover", "dirty_pages"):
            numbers = {"line": 0, "page": 0, "allowance": model.UNLIMITED}
            memory.check_answer("%s with a bad control record" % name, session.make(name, **numbers), (121, 0, 0, 0))
        memory.check(session.module() == before, "a call on a bad control record changed the module")
        memory.check_answer("format", session.format(family), (DONE, 0, 0, 0))
        memory.check(session.module() == states.formatted(depth, family), "format leaves a fresh module")
    return memory


# ---- Counters ----

def writes_after_turn(depth, family):
    """However often a line was written before its page was turned, it can be written 126 times after it; one that was never
    written 127 times. The next write is refused, and every line reads."""
    memory = Memory(depth, family, (64,) + (65,) * 50 + (66,) * 127)
    for _ in range(2):
        memory.done(memory.session.turn(1))
        memory.book.finish(1)
        before, book = memory.session.module(), memory.book
        for line in (64, 65, 66, 67, 68):
            memory.session.load(before)
            memory.book = book.copy()
            for _ in range(126 if line in book.counts else 127):
                memory.write(line)
            memory.check_answer("one more write of line %d" % line, memory.session.write(line, text_of(1)), (126, 0, 0, 0))
            memory.reads("126, after a turn")
    return memory


# ---- No recovery ----

def write_behind(depth, family):
    """A cache that is a call behind is accepted, and a write with it. The next recovery is then refused, as 129 after a write
    that the cache does not have, as 132 after a turn, without a phase byte as 133; or, if both writes were of one line, it is
    done, and both texts have had the same pad."""
    memory = Memory(depth, family, (0,) * 127 + (1,) * 4 + (2,) * 3)
    session = memory.session
    before = session.module()
    session.put("text", text_of(8))
    turned = 132 if family == 0 else 133
    for code, name, numbers in ((129, "write", {"line": 1}), (turned, "turn", {"page": 0}), (DONE, "write", {"line": 2})):
        session.load(before)
        memory.done(session.make(name, allowance=model.UNLIMITED, **numbers))
        first = model.cell_at(session.get("array"), 2)
        session.put("cache", before.cache)
        memory.done(session.make("write", line=2, allowance=model.UNLIMITED))
        second = model.cell_at(session.get("array"), 2)
        memory.check((first == second) == (code == DONE), "the same text twice under one pad")
        memory.lose_power(0)
        memory.check(session.recover()[0] == code, "recovery after a write with a cache that has not the %s before" % name)
    return memory


CLAIMS = (other_pads, other_tags, damaged_nodes, empty_cache, damaged_lines, refused_recoveries, nothing_written, bad_control,
          writes_after_turn, write_behind)


def work(job):
    depth, family, number = job
    memory = CLAIMS[number](depth, family)
    memory.check(memory.session.guards_hold(), "guard bytes")
    return depth, memory.seen, memory.tally.passed, memory.tally.failed


def main():
    tally = Tally("claims")
    seen = {depth: Counter() for depth in states.DEPTHS}
    jobs = [(depth, family, number) for depth in reversed(states.DEPTHS) for family in model.FAMILIES
            for number in range(len(CLAIMS))]
    for depth, what, passed, failed in in_parallel(work, jobs):
        seen[depth] += what
        tally.add(passed, failed)
    for depth, what in seen.items():
        tally.check(what["done"] > 0 and what["refused"] > 0, "depth %d: recoveries after damage to a node" % depth)
        print("claims: depth %d: all lines read %d times; recoveries after damage to a block or node: %d done, %d refused" % (
            depth, what["read"], what["done"], what["refused"]))
    tally.finish()


if __name__ == "__main__":
    main()
