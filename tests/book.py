"""The book of the paper's history rule, and its clauses after a done recovery, checked on the library's module.

Reads of all lines are made by tests/readback.c, as the shared object that NV_READBACK names.
"""

import ctypes
import os
import sys
from functools import lru_cache

import model
from library import BLANK, DONE, REFUSED

UNWRITTEN = bytes([255] * 64)
BEFORE = b"\xa5" * 64  # in the output, as readback.c has it
ROW = 1 + 64  # code and text of a line, for readback.c


class Book:
    """For each line a count and a text, for each page the number of its finished turns, from the list of calls alone; and
    the page whose turn is not finished, with the places that are left."""

    def __init__(self, counts=(), texts=(), committed=0, turns=(), open_page=None, left=()):
        self.counts = dict(counts)
        self.texts = dict(texts)
        self.committed = committed
        self.turns = dict(turns)
        self.open_page = open_page
        self.left = left

    def copy(self):
        return Book(self.counts, self.texts, self.committed, self.turns, self.open_page, self.left)

    def commit(self, line, text):
        self.counts[line] = self.counts.get(line, 0) + 1
        self.texts[line] = text
        self.committed += 1

    def after_write(self, line, text, commits):
        after = self.copy()
        if commits:
            after.commit(line, text)
        return after

    def places_to_turn(self, page):
        if self.open_page == page:
            return self.left
        return tuple(place for place in range(64) if 64 * page + place in self.counts)

    def turn(self, page, stores, whole):
        """A turn of the page that made so many stores, where with stores enough it makes `whole`."""
        places = self.places_to_turn(page)
        batches = model.turn_batches(len(places), whole)
        committed = model.batches_committed(batches, stores)
        if committed == len(batches):
            self.finish(page)
        elif committed:
            self.open_page, self.left = page, places[committed:]

    def finish(self, page):
        self.open_page, self.left = None, ()
        self.turns[page] = self.turns.get(page, 0) + 1
        for line in range(64 * page, 64 * page + 64):
            if line in self.counts:
                self.counts[line] = 1

    def after_turn(self, page, stores, whole):
        after = self.copy()
        after.turn(page, stores, whole)
        return after


def commits(stores, whole):
    """Whether a write cut after so many stores is committed, where with stores enough it makes `whole`."""
    batch = (whole - 3) // 2
    return stores > batch


def fresh_blocks(book, depth):
    pages = {page: [0] * 64 for page in book.turns}
    for line, count in book.counts.items():
        pages.setdefault(line // 64, [0] * 64)[line % 64] = count
    blocks = [bytes(64)] * model.pages(depth)
    for page, minors in pages.items():
        blocks[page] = model.fresh_block(book.turns.get(page, 0), tuple(minors))
    return blocks


def tree_faults(book, keys, depth, module, told):
    """The clauses on counters, tree, root and sum that fail."""
    found = model.slots_of_cache(module.cache)
    blocks = fresh_blocks(book, depth)
    behind = 0
    total = 0
    for page, block in enumerate(blocks):
        now = model.node_of(depth, module.array, found, 0, page)
        if now != block:
            yield "the counters of page %d differ from the book" % page
        stored = model.array_node(depth, module.array, 0, page)
        total += sum(model.minors_of(now))
        if stored != now:
            if model.major_of(stored) != model.major_of(now):
                yield "page %d: the array has another major" % page
            ahead = [n - s for n, s in zip(model.minors_of(now), model.minors_of(stored))]
            behind += sum(ahead)
            if min(ahead) < 0 or max(ahead) > 3:
                yield "page %d: a counter is more than 3 above its minor in the array" % page
    if total != sum(book.counts.values()):
        yield "the counters' sum is %d, that of the counts %d" % (total, sum(book.counts.values()))
    if told != behind:
        yield "recovery told the sum %d, counters are %d ahead" % (told, behind)
    tree = model.tree_over(keys, depth, blocks)
    for level in range(1, depth + 1):
        for index, content in enumerate(tree[level]):
            if model.node_of(depth, module.array, found, level, index) != content:
                yield "node %d of level %d is not the fresh tree's" % (index, level)
    if model.root_of(module.control) != model.node_tag(keys, tree[depth][0], depth, 0):
        yield "the root is not the fresh tree's"
    if not module.control[model.TURN_AT:].startswith(open_section(book)):
        yield "the open page and its lines are not the book's"


def open_section(book):
    """What the control record says of the open page; without one only the count is read."""
    if book.open_page is None:
        return bytes(1)
    return b"\x01" + model.number8(book.open_page) + model.number8(sum(1 << place for place in book.left))


def wanted_of_read(book, line, before):
    """Code and output of a read as the next call."""
    if line // 64 == book.open_page:
        return REFUSED + 30, before
    return (DONE, book.texts[line]) if line in book.texts else (BLANK, UNWRITTEN)


@lru_cache(maxsize=None)
def first_misread():
    """The function of this name in tests/readback.c."""
    path = os.environ.get("NV_READBACK")
    if not path:
        sys.exit("NV_READBACK does not name tests/readback.c as a shared object (tools/test builds it)")
    function = ctypes.CDLL(os.path.abspath(path)).first_misread
    function.restype = ctypes.c_uint64
    pointer, length = ctypes.c_void_p, ctypes.c_size_t
    function.argtypes = [pointer, pointer, pointer, pointer, length, pointer, length, ctypes.c_uint64, pointer]
    return function


@lru_cache(maxsize=None)
def blank_rows(depth):
    return (bytes([BLANK]) + UNWRITTEN) * model.lines(depth)


def rows_of(book, depth):
    """What the read of each line as the next call gives: code and output."""
    rows = bytearray(blank_rows(depth))
    for line, text in book.texts.items():
        rows[ROW * line:ROW * (line + 1)] = bytes([DONE]) + text
    if book.open_page is not None:
        refuse(rows, range(64 * book.open_page, 64 * book.open_page + 64), REFUSED + 30)
    return rows


def refuse(rows, lines, code):
    """Has these lines, a range of them, refused."""
    rows[ROW * lines.start:ROW * lines.stop] = (bytes([code]) + BEFORE) * len(lines)


def misread(session, rows):
    """The first line whose read as the next call does not give code and output of its row, or None; all lines are read."""
    lines, at = model.lines(session.depth), session.at
    line = first_misread()(ctypes.cast(session.functions["read"], ctypes.c_void_p), at["keys"], at["control"], at["array"],
                           session.lengths["array"], at["cache"], session.lengths["cache"], lines,
                           (ctypes.c_char * len(rows)).from_buffer(rows))
    return line if line < lines else None


def faults_after_recovery(book, session, keys, told):
    """All clauses of the history rule that fail after a done recovery."""
    module = session.module()
    faults = list(tree_faults(book, keys, session.depth, module, told))
    line = misread(session, rows_of(book, session.depth))
    if line is not None:
        faults.append("a read of line %d does not give the book's text" % line)
    elif session.module() != module:
        faults.append("reads left more than they may")
    return faults
