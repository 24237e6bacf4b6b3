"""Modules for the tests: real ones, damaged ones and arbitrary ones, and calls drawn for them."""

from functools import lru_cache

import model
from model import CELL, CONTENT, SLOT_LENGTH, Module, UNLIMITED, number8

KEYS = bytes(range(48))
OTHER_PAD = bytes([255]) + KEYS[1:]
OTHER_TAG = KEYS[:47] + bytes([255])
ALLOWANCES = tuple(range(20)) + (20, 2**32 - 1, 2**32, 2**63, UNLIMITED)
DEPTHS = (1, 2, 3)
# The most stores that each call makes at a depth: 2m + 3 of a batch of m cells, of a pending one m + 2. A turn has 62 batches of
# one cell and one of two after its first.
MOST_STORES = {h: {"read": 4 * h + 3, "write": 4 * h + 7, "turn": 4 * h + 324, "recover": 2 * h + 4} for h in DEPTHS}

# The paper's bench listing.
LISTING = "w 0 17,w 0 18,r 0,k 2,w 0 19,p,r 0,k 4,w 0 20,p,r 0,k 1,w 0 99,p,r 0,r 64".split(",")
PRINTED = """w 0 done 9
w 0 done 5
r 0 done 0 18
w 0 cut 2
p done 3 3
r 0 done 0 19
w 0 cut 4
p done 4 0
r 0 done 0 20
w 0 cut 1
p done 0 0
r 0 done 0 20
r 64 blank 5 255""".split("\n")


@lru_cache(maxsize=None)
def formatted(depth, family=0, keys=KEYS):
    return model.format_call(keys, depth, family, model.zero_module(depth))[1]


def text_of(byte):
    return bytes([byte % 256]) * CONTENT


def patched(data, offset, piece):
    return data[:offset] + piece + data[offset + len(piece):]


def cell_patched(array, cell, offset, piece):
    return patched(array, CELL * cell + offset, piece)


def slot_patched(cache, slot, owner, dirty, content):
    return patched(cache, SLOT_LENGTH * slot, number8(owner) + bytes([dirty]) + content)


def written(module, *lines):
    """The module after writes to these lines, each with a text of its own."""
    for i, line in enumerate(lines):
        answer, module = model.write_call(KEYS, line, text_of(line + i + 1), UNLIMITED, module)
        assert answer.kind == "done", answer
    return module


def opened(module, page, mask):
    """The module with a page open and these of its lines still to turn; the rest is as it was."""
    return module._replace(control=patched(module.control, model.TURN_AT, b"\x01" + number8(page) + number8(mask)))


def block_stored(depth, module, page):
    """The module with a page's counter block in the array as the cache has it."""
    block = model.node_of(depth, module.array, model.slots_of_cache(module.cache), 0, page)
    return module._replace(array=cell_patched(module.array, model.node_cell(depth, 0, page), 0, block))


def with_stored_minor(depth, array, line, minor):
    """The array with another minor of a line in its page's counter block."""
    cell = model.node_cell(depth, 0, line // 64)
    block = model.cell_at(array, cell)[:CONTENT]
    minors = list(model.minors_of(block))
    minors[line % 64] = minor
    return cell_patched(array, cell, 0, model.counter_block(model.major_of(block), minors))


def resealed(depth, array, line, minor, by=0):
    """The array, of a module without a phase byte, with a line's cell made that of a minor, its content as it is; under the
    major of the line's block plus some."""
    if minor == 0:
        return cell_patched(array, line, 0, bytes(CELL))
    major = (model.major_of(model.array_node(depth, array, 0, line // 64)) + by) % 2**64
    side = model.data_side(KEYS, 1, model.cell_at(array, line)[:CONTENT], line, major, minor)
    return cell_patched(array, line, CONTENT, side)


def drawn_mask(rng):
    return rng.choice([1, 2**63, 2**64 - 1, 1 << rng.randrange(64), rng.randrange(1, 2**64)])


def near(rng, length):
    """A length that is not the right one, mostly close to it."""
    other = rng.choice([0, 1, length - 1, length + 1, length - 8, length + 8, 2 * length, rng.randrange(2 * length + 1)])
    return other if other >= 0 and other != length else length + 1


def resized(rng, data):
    length = near(rng, len(data))
    return data[:length] + bytes(max(0, length - len(data)))


# ---- Damage: each takes a module with right lengths and gives another ----

def any_cell(rng, depth):
    """A cell, half the time one behind the data cells."""
    start = rng.choice([0, model.lines(depth)])
    return rng.randrange(start, model.cells(depth))


def with_bit_in_array(rng, depth, module):
    at = CELL * any_cell(rng, depth) + rng.randrange(CELL)
    return module._replace(array=patched(module.array, at, bytes([module.array[at] ^ 1 << rng.randrange(8)])))


def with_bad_control(rng, depth, module):
    at = rng.choice([0, 1, 2, 3, 4, 5, 6, 15, 24 + 80 * rng.randrange(8), model.TURN_AT])
    control = patched(module.control, at, bytes([rng.randrange(256)]))
    if at == 5 and control[5] in DEPTHS:
        control = patched(control, 5, bytes([rng.choice([0, 4, 255])]))
    return module._replace(control=control)


def with_other_mark(rng, depth, module):
    """The mark of the other family, or one that is none."""
    return module._replace(control=patched(module.control, 0, rng.choice([*model.MARKS, *model.MARKS, b"PIGM", b"PIGO", b"pigk"])))


def with_other_root(rng, depth, module):
    at = rng.randrange(7, 24)
    return module._replace(control=patched(module.control, at, bytes([module.control[at] ^ 1 << rng.randrange(8)])))


def with_pending(rng, depth, module):
    """A pending batch of any cells, some of them bad numbers; now and then one that changes nothing."""
    same = rng.randrange(3) == 0
    count = 8 if same and rng.randrange(2) else rng.randrange(1, 9)
    queue = b""
    for _ in range(count):
        cell = any_cell(rng, depth)
        if rng.randrange(40) == 0:
            cell = rng.choice([model.cells(depth), 2**63, 2**64 - 1])
        now = model.cell_at(module.array, min(cell, model.cells(depth) - 1))
        queue += number8(cell) + (now if same else rng.choice([now, rng.randbytes(CELL), bytes(CELL)]))
    root = module.control[7:15] if same else rng.choice([module.control[7:15], rng.randbytes(8)])
    return module._replace(control=patched(module.control, 15, bytes([count]) + root + queue))


def with_open_page(rng, depth, module):
    """A page open, mostly one that a slot has and whose block is in the array; its side bytes may be anything."""
    slots = model.slots_of_cache(module.cache)[:4]
    page = rng.choice([slot.owner - 1 for slot in slots if 0 < slot.owner <= model.pages(depth)] or [0])
    if rng.randrange(4) == 0:
        page = rng.randrange(model.pages(depth))
    if rng.randrange(4):
        module = block_stored(depth, module, page)
    if rng.randrange(2):
        line = 64 * page + rng.randrange(64)
        module = module._replace(array=cell_patched(module.array, line, CONTENT, bytes([rng.choice([0, 1, 2, 3, 4, 255])])))
    return opened(module, page, drawn_mask(rng))


def with_bad_section(rng, depth, module):
    """A count, a page or a mask that no turn leaves; with count 0 nothing else is read."""
    count, page, mask = rng.choice([(2, 0, 1), (255, 0, 1), (1, model.pages(depth), 1), (1, 2**64 - 1, 1), (1, 0, 0),
                                    (0, 2**64 - 1, 0), (0, 0, rng.randrange(2**64))])
    section = bytes([count]) + number8(page) + number8(mask)
    return module._replace(control=patched(module.control, model.TURN_AT, section))


def with_bad_owner(rng, depth, module):
    slot = rng.randrange(model.slots(depth))
    owner = rng.choice([1, 2, 3, 4, 5, 8, 9, 64, 65, 513, 2**32 + 1, 2**63, 2**64 - 1, rng.randrange(600)])
    return module._replace(cache=patched(module.cache, SLOT_LENGTH * slot, number8(owner)))


def with_other_dirty(rng, depth, module):
    slot = rng.randrange(model.slots(depth))
    return module._replace(cache=patched(module.cache, SLOT_LENGTH * slot + 8, bytes([rng.choice([0, 1, 1, 2, 255])])))


def owner_for(rng, depth, slot):
    """An owner that belongs to a slot."""
    level = model.level_of_slot(slot)
    return rng.choice([i for i in range(model.nodes(depth, level)) if model.slot_of(level, i) == slot] or [-1]) + 1


def with_other_slots(rng, depth, module):
    """A formed cache in which some slots hold other nodes, dirty or clean, with any content."""
    cache = module.cache
    for slot in range(model.slots(depth)):
        if rng.randrange(3) == 0 and slot != model.slot_of(depth, 0):
            owner = owner_for(rng, depth, slot)
            cache = slot_patched(cache, slot, owner, rng.randrange(2) if owner else 0, rng.randbytes(CONTENT))
    top = model.slot_of(depth, 0)
    if model.number_at(cache, SLOT_LENGTH * top) == 0:
        cache = slot_patched(cache, top, 1, rng.randrange(2), model.array_node(depth, module.array, depth, 0))
    return module._replace(cache=cache)


def with_any_cache(rng, depth, module):
    length = len(module.cache)
    return module._replace(cache=rng.choice([bytes(length), rng.randbytes(length), b"\xff" * length]))


def with_bad_shadow(rng, depth, module):
    cell = model.shadow_cell(depth, rng.randrange(model.slots(depth)))
    owner = rng.choice([0, 1, 2, 3, 4, 5, 8, 9, 64, 65, 513, 2**64 - 1, rng.randrange(600)])
    return module._replace(array=cell_patched(module.array, cell, 0, number8(owner)))


def drawn_listed(rng, depth, module):
    """A page, mostly one that the shadow lists."""
    page = model.number_at(module.array, CELL * model.shadow_cell(depth, rng.randrange(4))) - 1
    return page if 0 <= page < model.pages(depth) else rng.randrange(model.pages(depth))


def has_phases(module):
    return module.control[:4] != model.MARKS[1]


def with_other_side(rng, depth, module):
    """Another phase on some line, mostly of a page that the shadow lists; without phases the tag of a minor from one below the
    stored one to five above it, or of another major, or a zero cell."""
    line = 64 * drawn_listed(rng, depth, module) + rng.randrange(64)
    if has_phases(module):
        phase = rng.choice([0, 1, 2, 3, 4, 255])
        return module._replace(array=cell_patched(module.array, line, CONTENT, bytes([phase])))
    stored = model.minors_of(model.array_node(depth, module.array, 0, line // 64))[line % 64]
    minor = rng.choice([0, max(stored - 1, 0), *range(stored, stored + 6)])
    return module._replace(array=resealed(depth, module.array, line, minor, rng.choice([0, 0, 0, 1, -1])))


def with_high_minors(rng, depth, module):
    """High stored minors and any phases on some lines of a page, mostly one that the shadow lists; without phases the tags of
    minors up to two past the last."""
    page, array = drawn_listed(rng, depth, module), module.array
    for place in rng.sample([0, 63, rng.randrange(1, 63)], rng.randrange(1, 4)):
        line, minor = 64 * page + place, rng.choice([124, 125, 126, 127])
        array = with_stored_minor(depth, array, line, minor)
        if has_phases(module):
            array = cell_patched(array, line, CONTENT, bytes([rng.choice([0, 1, 2, 3, 3, 4, 5, 254])]))
        else:
            array = resealed(depth, array, line, rng.choice([minor, *range(minor, 130)]))
    return module._replace(array=array)


def with_worn_line(rng, depth, module):
    """The counter block of a slot or of all gets high minors, without a tag for it."""
    cache = module.cache
    for slot in rng.choice([range(4), [rng.randrange(4)]]):
        minors = [rng.choice([0, 3, 123, 126, 127]) for _ in range(64)]
        block = model.counter_block(rng.choice([0, 2**64 - 1]), minors)
        cache = patched(cache, SLOT_LENGTH * slot + 9, block)
    return module._replace(cache=cache)


DAMAGES = (with_bit_in_array, with_bad_control, with_other_mark, with_other_root, with_pending, with_open_page,
           with_bad_section, with_bad_owner, with_other_dirty, with_other_slots, with_any_cache, with_bad_shadow,
           with_other_side, with_high_minors, with_worn_line, with_worn_line)


def damaged(rng, depth, module):
    for _ in range(rng.choice([1, 1, 1, 2, 3])):
        module = rng.choice(DAMAGES)(rng, depth, module)
    return module


# ---- Arbitrary states: no history leaves them ----

def drawn_block(rng):
    """A counter block with any major and minors."""
    major = rng.choice([0, 0, 1, 2**32, 2**64 - 2, 2**64 - 1, rng.randrange(2**64)])
    style = rng.randrange(3)
    minors = [0 if style == 0 and rng.randrange(4) else rng.choice([1, 2, 3, 4, 7, 125, 126, 127, rng.randrange(128)])
              for _ in range(64)]
    return model.counter_block(major, minors)


def arbitrary(rng, depth, family=0, sealed=40):
    """A module whose tree is sound over any counter blocks, with so many readable lines, and two of the first pages
    readable whole; phases are those of the minors, or without phases the pages that the shadow lists are readable whole; the
    rest is any bytes."""
    array = bytearray(rng.randbytes(model.array_length(depth)))
    whole = rng.sample(range(8), 2)
    blocks = [drawn_block(rng) if page in whole or rng.randrange(3) == 0 else bytes(CONTENT)
              for page in range(model.pages(depth))]
    tree = model.tree_over(KEYS, depth, blocks)
    for level, contents in enumerate(tree):
        for index, content in enumerate(contents):
            at = CELL * model.node_cell(depth, level, index)
            array[at:at + CONTENT] = content
    listed = []
    for slot in range(model.slots(depth)):
        owner = owner_for(rng, depth, slot) if rng.randrange(3) or slot == model.slot_of(depth, 0) else 0
        at = CELL * model.shadow_cell(depth, slot)
        array[at:at + 8] = number8(owner)
        if owner and slot < model.COUNTER_SLOTS:
            listed.append(owner - 1)
    for line in range(model.lines(depth) if family == 0 else 0):
        minor = model.minors_of(blocks[line // 64])[line % 64]
        array[CELL * line + CONTENT] = minor % 4
    readable = [64 * page + place for page in whole + (listed if family else []) for place in range(64)]
    readable += [rng.randrange(model.lines(depth)) for _ in range(sealed)]
    for line in readable:
        block = blocks[line // 64]
        minor = model.minors_of(block)[line % 64]
        content = bytes(array[CELL * line:CELL * line + CONTENT])
        side = model.data_side(KEYS, family, content, line, model.major_of(block), minor)
        array[CELL * line:CELL * line + CELL] = content + side if minor or family == 0 else bytes(CELL)
    root = model.node_tag(KEYS, tree[depth][0], depth, 0)
    control = model.MARKS[family] + bytes([1, depth, 1]) + root + bytes([0]) + rng.randbytes(648) + bytes([0]) + rng.randbytes(16)
    module = Module(bytes(array), control, bytes(model.cache_length(depth)))
    return module if rng.randrange(3) else opened(module, rng.choice([0] + whole), drawn_mask(rng))


# ---- Calls ----

def drawn_line(rng, depth, hot):
    last = model.lines(depth)
    return rng.choice([rng.choice(hot), rng.choice(hot), rng.choice(hot), rng.randrange(last), rng.randrange(last),
                       rng.choice([0, 63, 64, last - 1])])


def drawn_turn(rng, depth, module, hot):
    """The page of a turn, mostly the open one if there is one, or one that a slot has, and its allowance."""
    page = drawn_line(rng, depth, hot) // 64
    if rng.randrange(2):
        owner = model.number_at(module.cache, SLOT_LENGTH * rng.randrange(4))
        page = owner - 1 if 0 < owner <= model.pages(depth) else page
    if len(module.control) == model.CONTROL_LENGTH and module.control[model.TURN_AT] and rng.randrange(4):
        page = model.number_at(module.control, model.TURN_PAGE_AT)
    if rng.randrange(40) == 0:
        page = rng.choice([model.pages(depth), 2**32, 2**63, 2**64 - 1])
    allowance = rng.choice([UNLIMITED, rng.choice(ALLOWANCES), rng.choice(ALLOWANCES), rng.randrange(MOST_STORES[3]["turn"])])
    return page, allowance


def drawn_call(rng, depth, module, hot):
    """A call with right lengths: (name, arguments)."""
    name = rng.choice(("read",) * 6 + ("write",) * 8 + ("turn",) * 2 + ("recover",) * 4 + ("dirty_pages",))
    keys = KEYS if rng.randrange(60) else rng.choice([OTHER_PAD, OTHER_TAG])
    allowance = UNLIMITED if rng.randrange(2) else rng.choice(ALLOWANCES)
    line = drawn_line(rng, depth, hot)
    if rng.randrange(80) == 0:
        line = rng.choice([model.lines(depth), 2**32, 2**63, 2**64 - 1])
    numbers = rng.randbytes(24)
    control, array, cache = module.control, module.array, module.cache
    if name == "read":
        return name, (keys, control, array, cache, line, rng.randbytes(64), allowance, numbers)
    if name == "write":
        return name, (keys, control, array, cache, line, rng.randbytes(64), allowance, numbers)
    if name == "turn":
        return name, (keys, control, array, cache, *drawn_turn(rng, depth, module, hot), numbers)
    if name == "recover":
        return name, (keys, control, array, cache, allowance, numbers)
    return name, (control, cache, rng.randbytes(32), numbers)


def drawn_format(rng, depth, module):
    wanted = depth if rng.randrange(4) else rng.choice([0, 1, 2, 3, 4, 2**32 + 1, 2**64 - 1])
    family = rng.choice(model.FAMILIES) if rng.randrange(6) else rng.choice([2, 3, 255, 256, 2**32, 2**32 + 1, 2**64 - 1])
    keys = KEYS if rng.randrange(3) else rng.randbytes(48)
    return "format", (wanted, family, keys, module.control, module.array, module.cache, rng.randbytes(24))


def misshapen(rng, arguments):
    """The same arguments with one to three slices of a wrong length."""
    arguments = list(arguments)
    places = [i for i, argument in enumerate(arguments) if not isinstance(argument, int)]
    for _ in range(rng.choice([1, 1, 2, 3])):
        place = rng.choice(places)
        arguments[place] = resized(rng, arguments[place])
    return tuple(arguments)


# ---- Settled states: a sound tree in the array, nothing cached ----

@lru_cache(maxsize=64)
def settled(depth, lines=(), major=0, family=0):
    """The module with a zero cache in whose array each (line, minor, text) stands written, all pages at this major."""
    counts = [[0] * 64 for _ in range(model.pages(depth))]
    for line, minor, _ in lines:
        counts[line // 64][line % 64] = minor
    blocks = [model.counter_block(major, minors) for minors in counts]
    tree = model.tree_over(KEYS, depth, blocks)
    array = bytearray(model.array_length(depth))
    for level, contents in enumerate(tree):
        for index, content in enumerate(contents):
            at = CELL * model.node_cell(depth, level, index)
            array[at:at + CONTENT] = content
    for line, minor, text in lines:
        array[CELL * line:CELL * line + CELL] = model.data_cell(KEYS, family, text, line, major, minor)
    fresh, root = formatted(depth, family), model.node_tag(KEYS, tree[depth][0], depth, 0)
    return fresh._replace(array=bytes(array), control=patched(fresh.control, 7, root))
