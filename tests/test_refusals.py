"""Every refusal of every call with its place, and which of two faults wins, at each depth and in both families. (34 needs two tags
that agree: it is in test_few_bits.py.)

What is wanted stands here as the paper has it; library and model are both held to it.
"""

from collections import namedtuple
from itertools import combinations

import model
import states
from library import CUT, Library, NUMBERS, SEQUENCES, Tally, by_model, in_parallel, tell
from model import CELL, CONTENT, UNLIMITED, number8, shadow_cell, slot_of
from states import KEYS, cell_patched, patched, slot_patched, text_of

# The paper's sequences; in recovery a cut comes with the pending stores, and 28 and 32 are judged together, line by line, or in
# their place 33 and 34.
ORDER = {
    "format": (1, 2, 3, 4, 5),
    "read": (2, 3, 21, 4, 5, 7, 6, 22, 23, 30, 24, 25),
    "write": (2, 3, 21, 4, 5, 7, 6, 22, 23, 30, 24, 26),
    "turn": (2, 3, 21, 4, 5, 6, 22, 23, 30, 24, 31, 25),
    "recover": (2, 3, 21, 4, 5, "cut", 27, (28, 32, 33, 34), 29),
    "dirty_pages": (3, 21, 5, 7, 23),
}
STEPS = {name: {number: step for step, entry in enumerate(order)
                for number in (entry if isinstance(entry, tuple) else (entry,))}
         for name, order in ORDER.items()}
NOT_HERE = {0: (33, 34), 1: (28, 32, 34)}  # refusals that a recovery of the family does not give, or not here
MOST = {(1, 0): 99, (2, 0): 6, (3, 0): 2, (1, 1): 12, (2, 1): 4, (3, 1): 1}  # variants of a refusal that go into pairs

# change takes and gives a dictionary of arguments. Among two of the same step the lower rank wins.
Fault = namedtuple("Fault", "number change place rank", defaults=((0, 0), 0))


def changed(part, change):
    return lambda arguments: {**arguments, part: change(arguments[part])}


def shorter(data):
    return data[:-1]


def longer(data):
    return data + b"\x00"


def none(data):
    return b""


def wrong_lengths(number, part):
    return [Fault(number, changed(part, change)) for change in (shorter, longer, none)]


def bad_controls(depth):
    pieces = [(at, b"\x00") for at in (0, 1, 2, 3, 4, 6)] + [(4, b"\x02"), (6, b"\xff"), (5, b"\x00"), (5, b"\x04"),
                                                           (5, b"\xff"), (15, b"\x09"), (15, b"\xff")]
    pieces += [(0, mark) for mark in (b"PIGJ", b"PIGL", b"PIGM", b"PIGO", b"PIGk", b"PIGn", b"NGIP", b"PIG\xce")]
    pieces += [(15, bytes([place + 1]) + bytes(8) + bytes(80 * place) + number8(cell))
               for place in (0, 7) for cell in (model.cells(depth), 2**64 - 1)]
    pieces += [(664, section(*parts)) for parts in ((2, 0, 1), (255, 0, 1), (1, model.pages(depth), 1), (1, 2**64 - 1, 1),
                                                    (1, 0, 0))]
    return [Fault(21, changed("control", lambda c, at=at, piece=piece: patched(c, at, piece))) for at, piece in pieces]


def section(count, page, mask):
    return bytes([count]) + number8(page) + number8(mask)


def open_pages(page):
    """A turn of the line's page that is not finished, whichever lines are left."""
    return [Fault(30, changed("control", lambda c, m=mask: patched(c, 664, section(1, page, m))))
            for mask in (1, 2**63, 2**64 - 1)]


def other_depths(depth):
    """Another valid depth, for which the array is too long or too short."""
    return [Fault(4, changed("control", lambda c, other=other: patched(c, 5, bytes([other]))))
            for other in states.DEPTHS if other != depth]


def pending(depth):
    queue = [number8(0) + bytes(CELL), number8(model.cells(depth) - 1) + bytes(CELL)] * 4
    return [Fault(22, changed("control", lambda c, n=n: patched(c, 15, bytes([n]) + bytes(8) + b"".join(queue[:n]))))
            for n in (1, 2, 8)]


def bad_caches(depth):
    """Each clause of a formed cache, broken."""
    top = slot_of(depth, 0)
    faults = []
    for slot in range(model.slots(depth)):
        level = model.level_of_slot(slot)
        rows = [(0, 1), (1 + slot % 2, 2), (2**64 - 1, 0), (model.nodes(depth, level) + 1, 0)]
        rows += [(i + 1, 0) for i in range(8) if slot_of(level, i) != slot]
        if slot != top:
            rows += [(i + 1, 0) for i in range(model.nodes(depth, level)) if slot_of(level, i) == slot][:1]
        for owner, dirty in rows:
            faults.append(Fault(23, changed("cache", lambda c, s=slot, o=owner, d=dirty:
                                            slot_patched(c, s, o, d, bytes(CONTENT)))))
    return faults


def bad_nodes(depth, line):
    """A node of the path at each level, missing in the cache, with another content; the higher level is seen first."""
    faults = []
    for level in range(depth + 1):
        index = line // 64 // 8**level
        at = CELL * model.node_cell(depth, level, index)
        for offset in (0, 63):
            faults.append(Fault(24, changed("array", lambda a, at=at + offset: patched(a, at, bytes([a[at] ^ 1]))),
                                (level, index), -level))
    return faults


def bit_at(line, offset):
    """Another bit in a line's cell."""
    at = CELL * line + offset
    return changed("array", lambda a: patched(a, at, bytes([a[at] ^ 1])))


def other_side(line, family, major, minor):
    """The side bytes that a line's cell has in a family for a counter."""
    def change(array):
        content = array[CELL * line:CELL * line + CONTENT]
        return cell_patched(array, line, CONTENT, model.data_side(KEYS, family, content, line, major, minor))
    return changed("array", change)


def bad_cells(rows, family, major=0):
    """Of each (line, minor): a bit of its content or its side bytes, the side bytes of other counters and of the other family."""
    faults = []
    for line, minor in rows:
        sides = [(1 - family, major, minor), (family, major, minor ^ 1), (family, major, minor + 4), (family, major ^ 1, minor)]
        changes = [bit_at(line, offset) for offset in (0, 63, 64, 65, 71)] + [other_side(line, *side) for side in sides]
        faults += [Fault(25, change, (line, 0), line) for change in changes]
    return faults


def bad_lines(depth):
    return [Fault(6, changed("line", lambda _, line=line: line)) for line in (model.lines(depth), 2**32, 2**64 - 1)]


def line_faults(name, depth, family, line, worn):
    buffer = "out" if name == "read" else "text"
    faults = wrong_lengths(2, "keys") + wrong_lengths(3, "control") + bad_controls(depth) + wrong_lengths(4, "array")
    faults += wrong_lengths(5, "cache") + wrong_lengths(7, buffer) + bad_lines(depth)
    faults += pending(depth) + bad_caches(depth) + open_pages(line // 64) + bad_nodes(depth, line)
    if name == "read":
        return faults + bad_cells(((line, 126),), family)
    return faults + [Fault(26, lambda a: {**a, "array": worn.array, "control": worn.control})]


def other_page_open(depth, page):
    return [Fault(30, changed("control", lambda c, p=other, m=mask: patched(c, 664, section(1, p, m))))
            for other in {0, page - 1, page ^ 1} for mask in (1, 2**64 - 1)]


def with_difference(data, one, other):
    """The data changed where the other two differ, so that what else was changed in it stays."""
    bits = (int.from_bytes(part, "little") for part in (data, one, other))
    return (next(bits) ^ next(bits) ^ next(bits)).to_bytes(len(data), "little")


def last_major(module, worn):
    """The page at major 2^64 - 1, its tree, root and data cells with it."""
    return [Fault(31, lambda a: {**a, "array": with_difference(a["array"], module.array, worn.array),
                                 "control": patched(a["control"], 7, worn.control[7:15])})]


def mask_of(lines):
    return sum(1 << line % 64 for line in lines)


def lines_without_text(left, unwritten):
    """A mask that has a line of minor 0 beside those that are left."""
    return [Fault(25, changed("control", lambda c, l=line: patched(c, 673, number8(mask_of(left + (l,))))), (line, 0), line)
            for line in unwritten]


def turn_faults(depth, page, module, worn):
    faults = wrong_lengths(2, "keys") + wrong_lengths(3, "control") + bad_controls(depth) + wrong_lengths(4, "array")
    faults += wrong_lengths(5, "cache") + [Fault(6, changed("page", lambda _, p=p: p))
                                           for p in (model.pages(depth), 2**32, 2**64 - 1)]
    return (faults + pending(depth) + bad_caches(depth) + other_page_open(depth, page) + bad_nodes(depth, 64 * page)
            + last_major(module, worn))


def turn_bases(depth, family):
    """Arguments of turns without a fault, and faults: of a page with three written lines; of the same page open with two
    lines left, the third one's cell not what its minor says, to the last major."""
    page = model.pages(depth) - 2
    lines = tuple(64 * page + place for place in (3, 20, 62))
    counts = tuple(zip(lines, (1, 127, 6)))
    rows = tuple((line, minor, text_of(line)) for line, minor in counts)
    module, worn = (states.settled(depth, rows, major, family) for major in (0, 2**64 - 1))
    unread = patched(module.control, 665, b"\xff" * 16)
    parts = {"array": module.array, "control": unread, "page": page}
    yield parts, turn_faults(depth, page, module, worn) + bad_cells(counts, family)
    left = lines[1:]
    module = states.settled(depth, rows, 2**64 - 2, family)
    parts = {"array": cell_patched(module.array, lines[0], 64, b"\x04"), "page": page,
             "control": patched(module.control, 664, section(1, page, mask_of(left)))}
    faults = bad_cells(counts[1:], family, 2**64 - 2) + lines_without_text(left, (64 * page, 64 * page + 63))
    yield parts, turn_faults(depth, page, module, worn) + faults


def format_faults(depth):
    faults = [Fault(1, changed("depth", lambda _, d=d: d)) for d in (0, 4, 2**32 + depth, 2**64 - 1)]
    faults += [Fault(1, changed("family", lambda _, f=f: f)) for f in (2, 3, 255, 256, 2**32, 2**32 + 1, 2**63, 2**64 - 1)]
    faults += [Fault(4, changed("depth", lambda _, d=d: d)) for d in states.DEPTHS if d != depth]
    return faults + [f for number, part in ((2, "keys"), (3, "control"), (4, "array"), (5, "cache"))
                     for f in wrong_lengths(number, part)]


def list_faults(depth):
    return (wrong_lengths(3, "control") + bad_controls(depth) + wrong_lengths(5, "cache") + wrong_lengths(7, "list")
            + bad_caches(depth))


def bad_shadows(depth, free):
    """Each free slot's shadow cell with an owner that is not its own, and the top's left out."""
    faults = []
    for slot in free:
        level = model.level_of_slot(slot)
        cell = shadow_cell(depth, slot)
        others = [i + 1 for i in range(8) if slot_of(level, i) != slot][:1]
        for owner in others + [model.nodes(depth, level) + 1, 2**64 - 1]:
            faults.append(Fault(27, changed("array", lambda a, c=cell, o=owner: cell_patched(a, c, 0, number8(o))),
                                (slot, 0), slot))
    top = slot_of(depth, 0)
    if top in free:
        faults.append(Fault(27, changed("array", lambda a: cell_patched(a, shadow_cell(depth, top), 0, bytes(8))),
                            (top, 0), 99))
    return faults


# The stored minors and phases that give 32, and some next to them that do not.
PAST = ((125, 0), (126, 0), (126, 1), (127, 0), (127, 1), (127, 2))
NOT_PAST = ((124, 0), (124, 3), (125, 1), (126, 2), (127, 3))
# Stored minors and those of which a cell without a phase byte has the tag: no candidates, and candidates.
NO_CANDIDATE = ((0, 4), (5, 0), (5, 4), (5, 9), (124, 123), (124, 128), (125, 128), (126, 129), (127, 126), (127, 128))
CANDIDATE = ((0, 0), (0, 3), (5, 5), (5, 8), (124, 127), (125, 127), (126, 127), (127, 127))
MIDDLE = 37  # a place of a page between the first and the last


def place_of(arguments, cell):
    """Where a cell is as it will be after the pending stores: the last pending one of this number, else the array's."""
    part, at = "array", CELL * cell
    for j in range(arguments["control"][15]):
        if arguments["control"][24 + 80 * j:32 + 80 * j] == number8(cell):
            part, at = "control", 32 + 80 * j
    return part, at


def with_cell(arguments, cell, change):
    """Another content of a cell as it is after the pending stores."""
    part, at = place_of(arguments, cell)
    return {**arguments, part: patched(arguments[part], at, change(arguments[part][at:at + CELL]))}


def with_phase(arguments, line, phase):
    return with_cell(arguments, line, lambda cell: patched(cell, CONTENT, bytes([phase])))


def with_minor(arguments, depth, line, minor):
    """Another stored minor of a line."""
    def change(cell):
        minors = list(model.minors_of(cell[:CONTENT]))
        minors[line % 64] = minor
        return patched(cell, 0, model.counter_block(model.major_of(cell), minors))
    return with_cell(arguments, model.node_cell(depth, 0, line // 64), change)


def with_tag(arguments, depth, line, minor, by=0):
    """A line's cell, without a phase byte, as that of a minor, its content as it is; under the major of its block plus some."""
    part, at = place_of(arguments, model.node_cell(depth, 0, line // 64))
    major = (model.number_at(arguments[part], at) + by) % 2**64

    def change(cell):
        side = model.data_side(KEYS, 1, cell[:CONTENT], line, major, minor)
        return cell[:CONTENT] + side if minor else bytes(CELL)
    return with_cell(arguments, line, change)


def line_fault(number, change, line):
    """A fault of a line: they are found by slot, then by line, on one line phase before minor."""
    return Fault(number, change, (line, 0), (slot_of(0, line // 64), line, number))


def bad_phase(line, phase):
    return line_fault(28, lambda a: with_phase(a, line, phase), line)


def bad_minor(depth, line, minor, phase):
    """It sets the phase too, so a bad phase on the same line is to be put in after it, as `both` does."""
    return line_fault(32, lambda a: with_minor(with_phase(a, line, phase), depth, line, minor), line)


def no_candidate(depth, line, stored, minor, by=0):
    return line_fault(33, lambda a: with_tag(with_minor(a, depth, line, stored), depth, line, minor, by), line)


def bad_bit(line, offset):
    return line_fault(33, lambda a: with_cell(a, line, lambda cell: patched(cell, offset, bytes([cell[offset] ^ 64]))), line)


def faults_of_line(depth, family, line):
    """All the ways in which a line ends a recovery."""
    if family == 0:
        return [bad_phase(line, phase) for phase in (4, 5, 254, 255)] + [bad_minor(depth, line, *pair) for pair in PAST]
    faults = [bad_bit(line, offset) for offset in (0, 63, 64, 71)] + [no_candidate(depth, line, *pair) for pair in NO_CANDIDATE]
    return faults + [no_candidate(depth, line, 6, 6, by) for by in (1, -1)]


def recovery_faults(depth, family, module, lines):
    queue = {cell for cell, _ in model.queue_of(module.control)}
    free = [slot for slot in range(model.slots(depth)) if shadow_cell(depth, slot) not in queue]
    root_at = 16 if queue else 7
    faults = wrong_lengths(2, "keys") + wrong_lengths(3, "control") + bad_controls(depth) + wrong_lengths(4, "array")
    faults += wrong_lengths(5, "cache") + bad_shadows(depth, free)
    if queue:
        faults += [Fault("cut", changed("allowance", lambda _, k=k: k)) for k in range(len(queue) + 2)]
    for line in lines:
        faults += faults_of_line(depth, family, line)[::2 if family == 0 else 3]
    return faults + [Fault(29, changed("control", lambda c, at=at: patched(c, at, bytes([c[at] ^ 128]))))
                     for at in (root_at, root_at + 7)]


# ---- What is wanted ----

def after_stores(arguments, allowance):
    """Array and control record after so many stores of the pending batch, and how many were made."""
    array, control = bytearray(arguments["array"]), bytearray(arguments["control"])
    count = control[15]
    made = 0
    for j in range(count):
        if made < allowance:
            at = 24 + 80 * j
            cell = int.from_bytes(control[at:at + 8], "little")
            array[72 * cell:72 * cell + 72] = control[at + 8:at + 80]
            made += 1
    if count and made < allowance:
        control[7:15] = control[16:24]
        made += 1
    if count and made < allowance:
        control[15] = 0
        made += 1
    return {**arguments, "array": bytes(array), "control": bytes(control)}, made


def wanted_of(name, fault, arguments):
    stores = 0
    if fault.number in ("cut", 27, 28, 29, 32, 33, 34):
        arguments, stores = after_stores(arguments, arguments["allowance"])
    code = CUT if fault.number == "cut" else 100 + fault.number
    numbers = number8(stores) + number8(fault.place[0]) + number8(fault.place[1])
    slices = [arguments[part] for part in SEQUENCES[name] if not isinstance(arguments[part], int)]
    return code, tuple(slices[:-1]) + (numbers,)


def in_sequence(name, arguments):
    return tuple(arguments[part] for part in SEQUENCES[name])


class Refusals:
    def __init__(self, library=None):
        self.library = library or Library()
        self.tally = Tally("refusals")
        self.pairs = 0
        self.singles = 0

    def hold(self, name, fault, arguments):
        wanted = wanted_of(name, fault, arguments)
        given = in_sequence(name, arguments)
        self.tally.compare(self.library, name, given, wanted)
        by_the_model = by_model(name, given)
        self.tally.check(by_the_model == wanted, lambda: "the model: " + tell(name, given, by_the_model, wanted))

    def numbers_first(self, name, arguments):
        """Another length of the numbers is refused before all else."""
        for length in (0, 23, 25):
            given = in_sequence(name, {**arguments, "numbers": bytes(length)})
            self.tally.compare(self.library, name, given, (107, [a for a in given if not isinstance(a, int)]))

    def one(self, name, fault, base):
        arguments = fault.change(base)
        self.hold(name, fault, arguments)
        self.numbers_first(name, arguments)
        if name in ("read", "write", "turn"):
            self.hold(name, fault, {**arguments, "allowance": 0})
        self.singles += 1

    def both(self, name, one, other, base):
        first, second = sorted((one, other), key=lambda fault: (STEPS[name][fault.number], fault.rank))
        self.hold(name, first, first.change(second.change(base)))
        self.pairs += 1

    def without(self, name, base, codes=(0, 1)):
        code, _ = self.tally.compare(self.library, name, in_sequence(name, base))
        self.tally.check(code in codes, "nv_%s without a fault gave %d" % (name, code))

    def call(self, name, base, faults):
        """No fault, each fault alone, then pairs: variants of two different refusals, and places of the same one."""
        self.without(name, base)
        for fault in faults:
            self.one(name, fault, base)
        if name in ("read", "write", "turn", "recover") and base["control"][15] == base["control"][664] == 0:
            for fault in other_depths(base["depth"]):
                self.one(name, fault, base)
        missing = [n for n in STEPS[name] if n not in {f.number for f in faults} and n not in NOT_HERE[base["family"]]
                   and not (n == "cut" and base["control"][15] == 0)]
        self.tally.check(not missing, "nv_%s: no fault for %s" % (name, missing))
        for one, other in combinations(thinned(faults, MOST[base["depth"], base["family"]]), 2):
            if one.number != other.number or one.number in (24, 25, 27, 28, 32, 33):
                if one.place != other.place or one.number != other.number:
                    self.both(name, one, other, base)

    def lines(self, base, lines):
        """Of recovery: no fault, each fault of each line, then every two lines with a fault and every line with two."""
        depth, family = base["depth"], base["family"]
        self.without("recover", base)
        chosen = []
        for i, line in enumerate(lines):
            faults = faults_of_line(depth, family, line)
            for fault in faults:
                self.hold("recover", fault, fault.change(base))
                self.singles += 1
            for arguments in self.line_fits(base, line):  # 29 if the root is made from this block
                self.without("recover", arguments, (0, 129))
            if family == 0:
                chosen += (faults[i % 3], faults[7 + i % 3])  # the bad phase too would bring the minor past 127
            else:
                chosen.append(faults[i % len(faults)])
        for one, other in combinations(chosen, 2):
            self.both("recover", one, other, base)

    def line_fits(self, base, line):
        """Cells of a line that do not end a recovery; with a phase byte its content and its tag are not looked at."""
        depth = base["depth"]
        if base["family"] == 0:
            for minor, phase in NOT_PAST:
                yield with_minor(with_phase(base, line, phase), depth, line, minor)
            for offset in (0, 63, 65, 71):
                yield with_cell(base, line, lambda cell: patched(cell, offset, bytes([cell[offset] ^ 64])))
        else:
            for stored, minor in CANDIDATE:
                yield with_tag(with_minor(base, depth, line, stored), depth, line, minor)


def thinned(faults, most):
    """Of each refusal so many variants, or somewhat more."""
    chosen = []
    for number in dict.fromkeys(fault.number for fault in faults):
        same = [fault for fault in faults if fault.number == number]
        step = max(1, len(same) // most)
        chosen += same if number in (24, 27) and most > 1 else same[::step]
    return chosen


def recovery_bases(depth, family):
    """Nothing pending; a batch of one cell pending; a batch with evictions pending; the same with a listed page open whose
    phases are no phases. Each with lines on listed pages that are not open."""
    far = 64 * 4
    last = 65 if depth == 1 else 65 + far
    module = states.written(states.formatted(depth, family), 0, 1, 64, last)
    yield module, (1, 63)
    yield model.write_call(KEYS, 1, text_of(7), 2, module)[1], (2, 63)
    evicting = model.write_call(KEYS, far + 3, text_of(9), UNLIMITED, module)[0]
    pending = model.write_call(KEYS, far + 3, text_of(9), (evicting.stores - 3) // 2 + 1, module)[1]
    yield pending, (last + 1,)
    yield with_open(depth, module, 0), (last + 1,)
    yield with_open(depth, pending, last // 64), (far + 4,)


def passed_over(module, page):
    """Side bytes that are not to be looked at, on a page that is open or not listed; as a phase the first brings a minor of 127
    past it."""
    for place, phase in ((0, 2), (1, 4), (63, 255)):
        module = module._replace(array=cell_patched(module.array, 64 * page + place, CONTENT, bytes([phase])))
    return module


def with_open(depth, module, page):
    return passed_over(states.opened(states.block_stored(depth, module, page), page, 2**63), page)


def slots_bases(depth, family):
    """Each counter slot lists a page, not in the sequence of the pages; page 1 is not listed. Nothing pending; a batch pending
    that has a listed page's block and data cell; a turn of worn lines cut between its batches; one cut after its second
    commit. Each with the listed pages that are not open."""
    end = model.pages(depth)
    high, low = (end - 4, end - 3, 2, end - 1), (0, 5 if depth == 1 else 9, 2, 3)

    def started(pages, rows=()):
        module = states.settled(depth, ((64, 127, text_of(1)), *rows), 0, family)
        return passed_over(states.written(module, *(64 * page + MIDDLE for page in pages)), 1)

    yield started(high), high
    module = model.write_call(KEYS, MIDDLE, text_of(9), 5, started((0, 0, 0, 4, *low[1:])))[1]
    block = model.node_cell(depth, 0, 0)
    assert [cell for cell, _ in model.queue_of(module.control)][2:] == [block, MIDDLE]
    array = cell_patched(cell_patched(module.array, MIDDLE, CONTENT, b"\xff"), block, 8, b"\xff" * 56)  # not to be looked at
    yield module._replace(array=array), low
    for pages, page, more in ((high, high[0], 0), (low, low[2], 2)):
        others = [other for other in pages if other != page]
        rows = [(64 * page + place, minor, text_of(place)) for place, minor in ((0, 127), (20, 126), (62, 6))]
        module = started(others, rows)
        cells = model.turn_batches(3, model.turn_call(KEYS, page, UNLIMITED, module)[0].stores)[0]
        module = passed_over(model.turn_call(KEYS, page, 2 * cells + 3 + more, module)[1], page)
        assert model.open_page(module.control) == page and module.control[15] == more // 2
        yield module, others


def of_modules(job):
    """Of a depth and a family."""
    depth, family = job
    refusals = Refusals()
    line = model.lines(depth) - 3
    module, worn = (states.settled(depth, ((line, minor, text_of(5)),), 0, family) for minor in (126, 127))
    unread = patched(module.control, 665, b"\xff" * 16)  # page and mask with count 0
    parts = {"keys": KEYS, "control": unread, "array": module.array, "cache": module.cache, "depth": depth, "family": family,
             "line": line, "out": text_of(1), "text": text_of(2), "list": bytes(32), "allowance": UNLIMITED,
             "numbers": NUMBERS}
    refusals.call("format", parts, format_faults(depth))
    for name in ("read", "write"):
        refusals.call(name, parts, line_faults(name, depth, family, line, worn))
    for more, faults in turn_bases(depth, family):
        refusals.call("turn", {**parts, **more}, faults)
    refusals.call("dirty_pages", parts, list_faults(depth))
    any_cache = bytes([3]) * model.cache_length(depth)
    for module, lines in recovery_bases(depth, family):
        parts.update(control=module.control, array=module.array, cache=any_cache)
        refusals.call("recover", parts, recovery_faults(depth, family, module, lines))
    for module, pages in slots_bases(depth, family):
        parts.update(control=module.control, array=module.array, cache=any_cache)
        refusals.lines(parts, [64 * page + place for page in pages for place in (0, MIDDLE, 63)])
    return depth, family, refusals.singles, refusals.pairs, refusals.tally.passed, refusals.tally.failed


def main():
    tally = Tally("refusals")
    for depth, family, singles, pairs, passed, failed in in_parallel(of_modules, MOST):
        print("refusals: depth %d, family %d: %d faults alone, %d pairs of faults" % (depth, family, singles, pairs))
        tally.add(passed, failed)
    tally.finish()


if __name__ == "__main__":
    main()
