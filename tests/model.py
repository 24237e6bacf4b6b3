"""Reference model of the encrypted memory module and its recovery.

Each call is a pure function: it takes immutable bytes and gives new ones.
Lines, pages, depths, families and allowances are unsigned 64-bit numbers.
"""

import re
from collections import namedtuple
from functools import lru_cache

# kind: 'done', 'blank', 'cut' or 'refused'; number: the refusal, else 0.
# first: the sum of a done recovery, or the first place number of a refusal.
Answer = namedtuple("Answer", "kind number stores first second")
Module = namedtuple("Module", "array control cache")

# One atomic store: target is 'array' or 'control', pieces are (offset, data).
Store = namedtuple("Store", "target pieces")
Slot = namedtuple("Slot", "owner dirty content")

UNLIMITED = 2**64 - 1
MASK32 = 2**32 - 1
MASK64 = 2**64 - 1

CONTENT = 64
SIDE = 8
CELL = CONTENT + SIDE
KEYS_LENGTH = 48
SLOT_LENGTH = 73
COUNTER_SLOTS = 4
LIST_LENGTH = 32
BLANK_TEXT = b"\xff" * CONTENT

# The control record. Its mark tells the family: with a phase byte in the side
# bytes of a data cell, or without.
CONTROL_LENGTH = 681
PHASE_FAMILY, TAG_FAMILY = FAMILIES = (0, 1)
MARKS = (b"PIGK", b"PIGN")
DEPTH_AT = 5
ROOT_AT = 7
COUNT_AT = 15
NEW_ROOT_AT = 16
QUEUE_AT = 24
QUEUE_PLACES = 8
PLACE = 8 + CELL
# Its section of a turn that is not finished: count, page, mask.
TURN_AT = 664
TURN_PAGE_AT = 665
TURN_MASK_AT = 673

PHASE_MAX = 3
MINOR_MAX = 127
MAJOR_MAX = MASK64
STOP_LOSS = 4

# How many of the lowest bits a data tag of the family without a phase byte
# keeps, the others being zero. It is 64 in the paper. With few of them two
# tags agree often enough for a test.
TAG_BITS = 64


def set_tag_bits(bits):
    global TAG_BITS
    TAG_BITS = bits
    fitting_minors.cache_clear()
    forwarded_block.cache_clear()


def number8(value):
    return value.to_bytes(8, "little")


def number_at(data, offset, length=8):
    return int.from_bytes(data[offset:offset + length], "little")


# ---- ChaCha20 block function (RFC 8439, 2.1 to 2.3) ----

def rotate32(word, by):
    return ((word << by) | (word >> (32 - by))) & MASK32


def quarter_round(a, b, c, d):
    a = (a + b) & MASK32
    d = rotate32(d ^ a, 16)
    c = (c + d) & MASK32
    b = rotate32(b ^ c, 12)
    a = (a + b) & MASK32
    d = rotate32(d ^ a, 8)
    c = (c + d) & MASK32
    b = rotate32(b ^ c, 7)
    return a, b, c, d


COLUMNS = ((0, 4, 8, 12), (1, 5, 9, 13), (2, 6, 10, 14), (3, 7, 11, 15))
DIAGONALS = ((0, 5, 10, 15), (1, 6, 11, 12), (2, 7, 8, 13), (3, 4, 9, 14))


@lru_cache(maxsize=1 << 14)
def chacha20_block(key, counter, nonce):
    start = b"expand 32-byte k" + key + counter.to_bytes(4, "little") + nonce
    initial = [number_at(start, 4 * i, 4) for i in range(16)]
    state = list(initial)
    for _ in range(10):
        for a, b, c, d in COLUMNS + DIAGONALS:
            state[a], state[b], state[c], state[d] = quarter_round(
                state[a], state[b], state[c], state[d])
    return b"".join(((x + y) & MASK32).to_bytes(4, "little")
                    for x, y in zip(state, initial))


# ---- SipHash-2-4 ----

def rotate64(word, by):
    return ((word << by) | (word >> (64 - by))) & MASK64


def sip_round(v0, v1, v2, v3):
    v0 = (v0 + v1) & MASK64
    v2 = (v2 + v3) & MASK64
    v1 = rotate64(v1, 13) ^ v0
    v3 = rotate64(v3, 16) ^ v2
    v0 = rotate64(v0, 32)
    v2 = (v2 + v1) & MASK64
    v0 = (v0 + v3) & MASK64
    v1 = rotate64(v1, 17) ^ v2
    v3 = rotate64(v3, 21) ^ v0
    v2 = rotate64(v2, 32)
    return v0, v1, v2, v3


@lru_cache(maxsize=1 << 16)
def siphash_2_4(key, message):
    k0 = number_at(key, 0)
    k1 = number_at(key, 8)
    v0 = k0 ^ 0x736F6D6570736575
    v1 = k1 ^ 0x646F72616E646F6D
    v2 = k0 ^ 0x6C7967656E657261
    v3 = k1 ^ 0x7465646279746573
    padded = (message + bytes(7 - len(message) % 8)
              + bytes([len(message) % 256]))
    for offset in range(0, len(padded), 8):
        word = number_at(padded, offset)
        v3 ^= word
        v0, v1, v2, v3 = sip_round(v0, v1, v2, v3)
        v0, v1, v2, v3 = sip_round(v0, v1, v2, v3)
        v0 ^= word
    v2 ^= 0xFF
    for _ in range(4):
        v0, v1, v2, v3 = sip_round(v0, v1, v2, v3)
    return v0 ^ v1 ^ v2 ^ v3


# ---- Layout ----

def pages(h):
    return 8**h


def lines(h):
    return 64 * pages(h)


def nodes(h, level):
    """How many nodes a level has; level 0 is the counter blocks."""
    return 8**(h - level)


def node_cell(h, level, index):
    return lines(h) + sum(nodes(h, below) for below in range(level)) + index


def slots(h):
    return COUNTER_SLOTS + 2 * h


def shadow_cell(h, slot):
    return node_cell(h, h, 0) + 1 + slot


def cells(h):
    return shadow_cell(h, slots(h))


def array_length(h):
    return CELL * cells(h)


def cache_length(h):
    return SLOT_LENGTH * slots(h)


def slot_of(level, index):
    if level == 0:
        return index % COUNTER_SLOTS
    return COUNTER_SLOTS + 2 * (level - 1) + index % 2


def level_of_slot(slot):
    if slot < COUNTER_SLOTS:
        return 0
    return (slot - COUNTER_SLOTS) // 2 + 1


def cell_at(array, cell):
    return array[CELL * cell:CELL * (cell + 1)]


def array_node(h, array, level, index):
    return cell_at(array, node_cell(h, level, index))[:CONTENT]


# ---- Counter blocks, pads and tags ----

def major_of(block):
    return number_at(block, 0)


@lru_cache(maxsize=1 << 14)
def minors_of(block):
    packed = number_at(block, 8, 56)
    return tuple((packed >> (7 * j)) & 127 for j in range(64))


def counter_block(major, minors):
    packed = 0
    for j, minor in enumerate(minors):
        packed |= minor << (7 * j)
    return number8(major) + packed.to_bytes(56, "little")


def pad(keys, line, major, minor):
    nonce = minor.to_bytes(4, "little") + number8(major)
    return chacha20_block(keys[:32], line, nonce)


def xor(left, right):
    return bytes(a ^ b for a, b in zip(left, right))


def node_tag(keys, content, level, index):
    message = content + number8(level) + number8(index)
    return number8(siphash_2_4(keys[32:48], message))


def data_side(keys, family, content, line, major, minor):
    """The side bytes of a written data cell: the phase, then seven bytes of
    the hash; or without a phase the whole hash."""
    message = content + number8(line) + number8(major) + number8(minor)
    tag = siphash_2_4(keys[32:48], message)
    if family == TAG_FAMILY:
        return number8(tag % 2**TAG_BITS)
    return bytes([minor % 4]) + number8(tag)[:7]


def node_over(keys, child_level, first_index, children):
    """A tree node's content from the contents of its eight children."""
    return b"".join(node_tag(keys, child, child_level, first_index + i)
                    for i, child in enumerate(children))


def brought_forward(minor, phase):
    """The minor that a stored minor and a phase stand for."""
    return minor + (phase - minor) % 4


def forward_fault(minor, phase):
    """The refusal that a stored minor and a phase give, or None."""
    if phase > PHASE_MAX:
        return 28
    if brought_forward(minor, phase) > MINOR_MAX:
        return 32
    return None


def candidates(stored):
    """The minors that a stored one may stand for where there is no phase."""
    return range(stored, min(stored + STOP_LOSS - 1, MINOR_MAX) + 1)


def fits(keys, cell, line, major, minor):
    """Whether a data cell without a phase is that of a minor."""
    if minor == 0:
        return cell == bytes(CELL)
    return cell[CONTENT:] == data_side(keys, TAG_FAMILY, cell[:CONTENT], line,
                                       major, minor)


def fitting(keys, cell, line, major, stored):
    """The candidates that fit a data cell without a phase."""
    return [minor for minor in candidates(stored)
            if fits(keys, cell, line, major, minor)]


@lru_cache(maxsize=1 << 12)
def fitting_minors(keys, page, block, cells):
    """The candidates that fit each data cell of a page, without phases."""
    return [fitting(keys, cell_at(cells, place), 64 * page + place,
                    major_of(block), stored)
            for place, stored in enumerate(minors_of(block))]


def choice(found):
    """Of the candidates that fit: (refusal or None, the minor)."""
    if len(found) == 1:
        return None, found[0]
    return (34 if found else 33), None


def by_phase(stored, phase):
    """What a phase makes of a stored minor: (refusal or None, the minor)."""
    return forward_fault(stored, phase), brought_forward(stored, phase)


@lru_cache(maxsize=1 << 12)
def forwarded_block(keys, family, page, block, cells):
    """A page's counter block with its minors brought forward by the page's
    data cells: (None, the block), or ((refusal, line), None) of the first
    line that fails."""
    if family == TAG_FAMILY:
        outcomes = map(choice, fitting_minors(keys, page, block, cells))
    else:
        outcomes = map(by_phase, minors_of(block), cells[CONTENT::CELL])
    minors = []
    for line, (number, minor) in enumerate(outcomes, 64 * page):
        if number is not None:
            return (number, line), None
        minors.append(minor)
    return None, counter_block(major_of(block), minors)


# ---- Cache ----

def slots_of_cache(cache):
    found = []
    for offset in range(0, len(cache), SLOT_LENGTH):
        found.append(Slot(number_at(cache, offset), cache[offset + 8],
                          cache[offset + 9:offset + SLOT_LENGTH]))
    return found


def cache_of_slots(found):
    return b"".join(number8(s.owner) + bytes([s.dirty]) + s.content
                    for s in found)


EMPTY_SLOT = Slot(0, 0, bytes(CONTENT))


def owners_fault(h, owners):
    """The slot at which a row of owners is not formed, or None."""
    for slot, owner in enumerate(owners):
        if owner:
            level = level_of_slot(slot)
            index = owner - 1
            if index >= nodes(h, level) or slot_of(level, index) != slot:
                return slot
    top = slot_of(h, 0)
    if any(owners) and not owners[top]:
        return top
    return None


def cache_formed(h, found):
    for slot in found:
        if slot.dirty > 1 or (slot.owner == 0 and slot.dirty):
            return False
    return owners_fault(h, [slot.owner for slot in found]) is None


# ---- Stores ----

def store_at(target, offset, data):
    return Store(target, ((offset, data),))


def store_cell(cell, data):
    return store_at("array", CELL * cell, data)


def store_root(root):
    return store_at("control", ROOT_AT, root)


def store_count_zero():
    return store_at("control", COUNT_AT, b"\x00")


def stores_of_batch(batch, new_root, section=None):
    """The stores of a batch, a list of (cell number, cell), in order. The
    commit of a turn's batch also sets the section of the turn."""
    if not batch:
        return []
    made = [store_at("control", QUEUE_AT + PLACE * j, number8(cell) + data)
            for j, (cell, data) in enumerate(batch)]
    commit = [(COUNT_AT, bytes([len(batch)]) + new_root)]
    if section is not None:
        commit.append((TURN_AT, section))
    made.append(Store("control", tuple(commit)))
    made += [store_cell(cell, data) for cell, data in batch]
    made += [store_root(new_root), store_count_zero()]
    return made


def queue_of(control):
    queue = []
    for j in range(control[COUNT_AT]):
        place = control[QUEUE_AT + PLACE * j:QUEUE_AT + PLACE * (j + 1)]
        queue.append((number_at(place, 0), place[8:]))
    return queue


def stores_of_pending(control):
    """The stores with which recovery completes a pending batch."""
    queue = queue_of(control)
    if not queue:
        return []
    made = [store_cell(cell, data) for cell, data in queue]
    made += [store_root(control[NEW_ROOT_AT:NEW_ROOT_AT + 8]),
             store_count_zero()]
    return made


def apply_stores(stores, array, control):
    if not stores:
        return array, control
    memory = {"array": bytearray(array), "control": bytearray(control)}
    for target, pieces in stores:
        for offset, data in pieces:
            memory[target][offset:offset + len(data)] = data
    return bytes(memory["array"]), bytes(memory["control"])


# ---- Answers and the checks that several calls share ----

def done(stores=0, first=0):
    return Answer("done", 0, stores, first, 0)


def blank(stores):
    return Answer("blank", 0, stores, 0, 0)


def cut(stores):
    return Answer("cut", 0, stores, 0, 0)


def refused(number, first=0, second=0, stores=0):
    return Answer("refused", number, stores, first, second)


def depth_of(control):
    return control[DEPTH_AT]


def root_of(control):
    return control[ROOT_AT:ROOT_AT + 8]


def family_of(control):
    return MARKS.index(control[:4])


def control_valid(control):
    if control[:4] not in MARKS or control[4] != 1 or control[6] != 1:
        return False
    if depth_of(control) not in (1, 2, 3) or control[COUNT_AT] > QUEUE_PLACES:
        return False
    return turn_valid(control) and all(
        cell < cells(depth_of(control)) for cell, _ in queue_of(control))


def turn_valid(control):
    """The section of a turn; with count 0 the rest of it is not read."""
    if control[TURN_AT] == 0:
        return True
    return (control[TURN_AT] == 1 and turn_mask(control) != 0
            and number_at(control, TURN_PAGE_AT) < pages(depth_of(control)))


def turn_mask(control):
    return number_at(control, TURN_MASK_AT)


def open_page(control):
    """The page whose turn is not finished, or None."""
    if control[TURN_AT] == 0:
        return None
    return number_at(control, TURN_PAGE_AT)


def opening_refusal(keys, module):
    """The checks with which read, write and recovery start, or None."""
    if len(keys) != KEYS_LENGTH:
        return refused(2)
    if len(module.control) != CONTROL_LENGTH:
        return refused(3)
    if not control_valid(module.control):
        return refused(21)
    if len(module.array) != array_length(depth_of(module.control)):
        return refused(4)
    if len(module.cache) != cache_length(depth_of(module.control)):
        return refused(5)
    return None


def line_refusal(keys, line, buffer, module):
    """All checks of read and write that come before the path is loaded."""
    refusal = opening_refusal(keys, module)
    if refusal is not None:
        return refusal
    h = depth_of(module.control)
    if len(buffer) != CONTENT:
        return refused(7)
    if not 0 <= line < lines(h):
        return refused(6)
    refusal = state_refusal(module)
    if refusal is not None:
        return refusal
    if line // 64 == open_page(module.control):
        return refused(30)
    return None


def turn_refusal(keys, page, module):
    """All checks of a turn that come before the path is loaded."""
    refusal = opening_refusal(keys, module)
    if refusal is not None:
        return refusal
    if not 0 <= page < pages(depth_of(module.control)):
        return refused(6)
    refusal = state_refusal(module)
    if refusal is not None:
        return refusal
    if open_page(module.control) not in (None, page):
        return refused(30)
    return None


def state_refusal(module):
    if module.control[COUNT_AT] != 0:
        return refused(22)
    if not cache_formed(depth_of(module.control),
                        slots_of_cache(module.cache)):
        return refused(23)
    return None


def load_path(keys, page, module):
    """Bring the path of a page into the slots, top first.

    Gives (refusal or None, slots, batch).
    """
    h = depth_of(module.control)
    found = slots_of_cache(module.cache)
    batch = []
    expected = root_of(module.control)
    for level in range(h, -1, -1):
        index = page // 8**level
        slot = slot_of(level, index)
        former = found[slot]
        if former.owner != index + 1:
            content = array_node(h, module.array, level, index)
            if node_tag(keys, content, level, index) != expected:
                return refused(24, level, index), None, None
            if former.dirty:
                batch.append((node_cell(h, level, former.owner - 1),
                              former.content + bytes(SIDE)))
            batch.append((shadow_cell(h, slot),
                          number8(index + 1) + bytes(CELL - 8)))
            found[slot] = Slot(index + 1, 0, content)
        if level > 0:
            child = page // 8**(level - 1) % 8
            expected = found[slot].content[8 * child:8 * child + 8]
    return None, found, batch


def make_stores(stores, allowance, module, cache):
    """Make as many of the stores as the allowance lets.

    Gives (the cut answer or None, the module); the given cache is taken on
    only if all stores were made.
    """
    array, control = apply_stores(stores[:allowance], module.array,
                                  module.control)
    if allowance < len(stores):
        return cut(allowance), Module(array, control, module.cache)
    return None, Module(array, control, cache)


# ---- The calls ----

def format_call(keys, depth, family, module):
    if depth not in (1, 2, 3) or family not in FAMILIES:
        return refused(1), module
    if len(keys) != KEYS_LENGTH:
        return refused(2), module
    if len(module.control) != CONTROL_LENGTH:
        return refused(3), module
    if len(module.array) != array_length(depth):
        return refused(4), module
    if len(module.cache) != cache_length(depth):
        return refused(5), module
    array = bytearray(array_length(depth))
    tree = tree_over(keys, depth, [bytes(CONTENT)] * pages(depth))
    for level, contents in enumerate(tree):
        for index, content in enumerate(contents):
            offset = CELL * node_cell(depth, level, index)
            array[offset:offset + CONTENT] = content
    root = node_tag(keys, tree[depth][0], depth, 0)
    control = MARKS[family] + bytes([1, depth, 1]) + root
    control += bytes(CONTROL_LENGTH - len(control))
    return done(), Module(bytes(array), control, bytes(cache_length(depth)))


def tree_over(keys, h, blocks):
    """The contents of all levels over the given counter blocks."""
    tree = [list(blocks)]
    for level in range(1, h + 1):
        below = tree[level - 1]
        tree.append([node_over(keys, level - 1, 8 * i, below[8 * i:8 * i + 8])
                     for i in range(nodes(h, level))])
    return tree


def read_call(keys, line, allowance, output, module):
    refusal = line_refusal(keys, line, output, module)
    if refusal is not None:
        return refusal, module, output
    page, place = divmod(line, 64)
    refusal, found, batch = load_path(keys, page, module)
    if refusal is not None:
        return refusal, module, output
    block = found[slot_of(0, page)].content
    major, minor = major_of(block), minors_of(block)[place]
    text = BLANK_TEXT
    if minor != 0:
        text = text_at(keys, module, line, major, minor)
        if text is None:
            return refused(25, line), module, output
    stores = stores_of_batch(batch, root_of(module.control))
    ended, module = make_stores(stores, allowance, module,
                                cache_of_slots(found))
    if ended is not None:
        return ended, module, output
    answer = done(len(stores)) if minor != 0 else blank(len(stores))
    return answer, module, text


def text_at(keys, module, line, major, minor):
    """The text of a line, or None if its cell's side bytes differ."""
    cell = cell_at(module.array, line)
    content, side = cell[:CONTENT], cell[CONTENT:]
    family = family_of(module.control)
    if side != data_side(keys, family, content, line, major, minor):
        return None
    return xor(content, pad(keys, line, major, minor))


def data_cell(keys, family, text, line, major, minor):
    content = xor(text, pad(keys, line, major, minor))
    return content + data_side(keys, family, content, line, major, minor)


def renew_path(keys, h, page, found, content):
    """Put a new counter block and the nodes over it into their slots, dirty;
    gives the new root."""
    found[slot_of(0, page)] = Slot(page + 1, 1, content)
    tag = node_tag(keys, content, 0, page)
    for level in range(1, h + 1):
        index = page // 8**level
        child = page // 8**(level - 1) % 8
        slot = slot_of(level, index)
        node = found[slot].content
        node = node[:8 * child] + tag + node[8 * child + 8:]
        found[slot] = Slot(index + 1, 1, node)
        tag = node_tag(keys, node, level, index)
    return tag


def write_call(keys, line, text, allowance, module):
    refusal = line_refusal(keys, line, text, module)
    if refusal is not None:
        return refusal, module
    h, family = depth_of(module.control), family_of(module.control)
    page, place = divmod(line, 64)
    refusal, found, batch = load_path(keys, page, module)
    if refusal is not None:
        return refusal, module
    block = found[slot_of(0, page)].content
    major, minors = major_of(block), list(minors_of(block))
    if minors[place] == MINOR_MAX:
        return refused(26), module
    minors[place] += 1
    minor = minors[place]
    content = counter_block(major, minors)
    root = renew_path(keys, h, page, found, content)
    if minor % STOP_LOSS == 0:
        batch.append((node_cell(h, 0, page), content + bytes(SIDE)))
        found[slot_of(0, page)] = Slot(page + 1, 0, content)
    batch.append((line, data_cell(keys, family, text, line, major, minor)))
    stores = stores_of_batch(batch, root)
    ended, module = make_stores(stores, allowance, module,
                                cache_of_slots(found))
    if ended is not None:
        return ended, module
    return done(len(stores)), module


def turn_call(keys, page, allowance, module):
    refusal, stores, cache = turn_stores(keys, page, module)
    if refusal is not None:
        return refusal, module
    ended, module = make_stores(stores, allowance, module, cache)
    if ended is not None:
        return ended, module
    return done(len(stores)), module


def turn_stores(keys, page, module):
    """All stores of a turn; gives (refusal or None, stores, cache)."""
    refusal = turn_refusal(keys, page, module)
    if refusal is not None:
        return refusal, None, None
    h, family = depth_of(module.control), family_of(module.control)
    refusal, found, path = load_path(keys, page, module)
    if refusal is not None:
        return refusal, None, None
    block = found[slot_of(0, page)].content
    major, minors = major_of(block), minors_of(block)
    if major == MAJOR_MAX:
        return refused(31), None, None
    places = places_to_turn(module.control, minors)
    turned = []
    for place in places:
        line, minor = 64 * page + place, minors[place]
        text = None
        if minor != 0:
            text = text_at(keys, module, line, major, minor)
        if text is None:
            return refused(25, line), None, None
        turned.append((line, data_cell(keys, family, text, line, major + 1,
                                       1)))
    new_block = counter_block(major + 1, [min(minor, 1) for minor in minors])
    new_root = renew_path(keys, h, page, found, new_block)
    found[slot_of(0, page)] = Slot(page + 1, 0, new_block)

    # A batch for each line, or one without a line.
    batches = [[cell] for cell in turned] or [[]]
    if open_page(module.control) is None and len(places) > 1:
        batches[0].insert(0, (node_cell(h, 0, page), block + bytes(SIDE)))
    batches[-1].insert(0, (node_cell(h, 0, page), new_block + bytes(SIDE)))
    batches[0] = path + batches[0]
    stores = []
    for number, batch in enumerate(batches[:-1], 1):
        stores += stores_of_batch(batch, root_of(module.control),
                                  open_section(page, places[number:]))
    stores += stores_of_batch(batches[-1], new_root, bytes(17))
    return None, stores, cache_of_slots(found)


def places_to_turn(control, minors):
    """Of an open page the mask's places, else those of the written lines."""
    if open_page(control) is None:
        return [place for place in range(64) if minors[place] != 0]
    mask = turn_mask(control)
    return [place for place in range(64) if mask >> place & 1]


def open_section(page, places):
    mask = sum(1 << place for place in places)
    return b"\x01" + number8(page) + number8(mask)


def recover_call(keys, allowance, module):
    refusal = opening_refusal(keys, module)
    if refusal is not None:
        return refusal, module
    h = depth_of(module.control)
    stores = stores_of_pending(module.control)
    ended, module = make_stores(stores, allowance, module, module.cache)
    if ended is not None:
        return ended, module

    owners = shadow_owners(h, module.array)
    fault = owners_fault(h, owners)
    if fault is not None:
        return refused(27, fault, stores=len(stores)), module
    fault, blocks, total = rebuilt_blocks(keys, module, owners)
    if fault is not None:
        return refused(*fault, stores=len(stores)), module
    found = rebuilt_slots(keys, h, module.array, owners, blocks)
    top = node_of(h, module.array, found, h, 0)
    if node_tag(keys, top, h, 0) != root_of(module.control):
        return refused(29, stores=len(stores)), module
    return (done(len(stores), total),
            module._replace(cache=cache_of_slots(found)))


def shadow_owners(h, array):
    return [number_at(cell_at(array, shadow_cell(h, slot)), 0)
            for slot in range(slots(h))]


def page_cells(array, page):
    """The data cells of a page."""
    return array[CELL * 64 * page:CELL * 64 * (page + 1)]


def rebuilt_blocks(keys, module, owners):
    """The counter block of each listed page, and the sum by which minors were
    brought forward: (None, blocks, sum). Or the refusal of the first line
    that fails, by slot and then by line: ((refusal, line), None, None). An
    open page's block is the array's, and its data cells are not read."""
    h, family = depth_of(module.control), family_of(module.control)
    blocks, total = {}, 0
    for owner in owners[:COUNTER_SLOTS]:
        page = owner - 1
        if owner == 0:
            continue
        stored = array_node(h, module.array, 0, page)
        blocks[page] = stored
        if page != open_page(module.control):
            fault, blocks[page] = forwarded_block(
                keys, family, page, stored, page_cells(module.array, page))
            if fault is not None:
                return fault, None, None
        total += sum(minors_of(blocks[page])) - sum(minors_of(stored))
    return None, blocks, total


def rebuilt_slots(keys, h, array, owners, blocks):
    """The slots of the given owners: these blocks, and over them the nodes,
    each level from the one below."""
    found = [EMPTY_SLOT] * slots(h)
    for slot, owner in enumerate(owners):
        if owner == 0:
            continue
        level, index = level_of_slot(slot), owner - 1
        if level == 0:
            content = blocks[index]
        else:
            children = [node_of(h, array, found, level - 1, 8 * index + i)
                        for i in range(8)]
            content = node_over(keys, level - 1, 8 * index, children)
        found[slot] = Slot(owner, 1, content)
    return found


def node_of(h, array, found, level, index):
    """A block's or node's content: its slot's if cached, else the array's."""
    slot = found[slot_of(level, index)]
    if slot.owner == index + 1:
        return slot.content
    return array_node(h, array, level, index)


def dirty_list_call(output, control, cache):
    if len(control) != CONTROL_LENGTH:
        return refused(3), output
    if not control_valid(control):
        return refused(21), output
    if len(cache) != cache_length(depth_of(control)):
        return refused(5), output
    if len(output) != LIST_LENGTH:
        return refused(7), output
    found = slots_of_cache(cache)
    if not cache_formed(depth_of(control), found):
        return refused(23), output
    pages = [slot.owner - 1 for slot in found[:COUNTER_SLOTS] if slot.dirty]
    listed = b"".join(number8(page) for page in sorted(pages))
    return done(), listed.ljust(LIST_LENGTH, b"\xff")


CODES = {"done": 0, "blank": 1, "cut": 2}


def for_c(buffer, answer):
    """Return code and number buffer as the C side gets them.

    With a buffer of another length the call itself is not made, so the
    caller must then drop whatever the call would have changed.
    """
    if len(buffer) != 24:
        return 107, buffer
    if answer.kind == "refused":
        code = 100 + answer.number
    else:
        code = CODES[answer.kind]
    return code, (number8(answer.stores) + number8(answer.first)
                  + number8(answer.second))


# ---- Bench program ----

def parse_number(text, limit):
    """A decimal number below the limit, or None."""
    if not re.fullmatch("[0-9]+", text):
        return None
    digits = text.lstrip("0") or "0"
    if len(digits) > 20 or int(digits) >= limit:
        return None
    return int(digits)


FORMS = {"w": (2**64, 256), "r": (2**64,), "p": (), "k": (2**64,)}


def parse_command(text):
    """(command, numbers), or None if the line is not a command."""
    command, *parts = text.split(" ")
    limits = FORMS.get(command)
    if limits is None or len(parts) != len(limits):
        return None
    numbers = [parse_number(part, limit)
               for part, limit in zip(parts, limits)]
    return None if None in numbers else (command, numbers)


def zero_module(h):
    return Module(bytes(array_length(h)), bytes(CONTROL_LENGTH),
                  bytes(cache_length(h)))


def run_command(keys, command, numbers, allowance, module):
    """Make a command's call; gives (answer, module, value to print)."""
    if command == "w":
        line, byte = numbers
        answer, module = write_call(keys, line, bytes([byte]) * CONTENT,
                                    allowance, module)
        return answer, module, None
    if command == "r":
        answer, module, output = read_call(keys, numbers[0], allowance,
                                           bytes(CONTENT), module)
        return answer, module, output[0]
    answer, module = recover_call(keys, allowance, module)
    return answer, module, answer.first


def answer_text(command, numbers, answer, value):
    words = [command] + numbers[:1]
    if answer.kind == "refused":
        words += ["refused", answer.number]
    else:
        words += [answer.kind, answer.stores]
        if answer.kind != "cut" and value is not None:
            words.append(value)
    return " ".join(str(word) for word in words)


def bench(lines_of_text, run=run_command):
    """What the program prints; run makes the calls."""
    keys = bytes(range(KEYS_LENGTH))
    _, module = format_call(keys, 1, PHASE_FAMILY, zero_module(1))
    allowance = UNLIMITED
    printed = []
    for text in lines_of_text:
        parsed = parse_command(text[:-1] if text.endswith("\n") else text)
        if parsed is None:
            printed.append("?")
            continue
        command, numbers = parsed
        if command == "k":
            allowance = numbers[0]
            continue
        answer, module, value = run(keys, command, numbers, allowance, module)
        allowance = UNLIMITED
        if answer.kind == "cut":
            module = module._replace(cache=bytes(len(module.cache)))
        printed.append(answer_text(command, numbers, answer, value))
    return printed


# ---- History checker ----

def claim(holds, what):
    if not holds:
        raise AssertionError(what)


def allow(holds, what):
    if not holds:
        raise ValueError(what)


def is_number64(value):
    return isinstance(value, int) and 0 <= value <= MASK64


class History:
    """A list of events run from a done format, with its book.

    An event that the list may not hold raises ValueError and changes
    nothing; a clause that fails raises AssertionError.
    """

    # How many parts follow each event's name.
    SHAPES = {"read": 4, "write": 4, "turn": 3, "recover": 2, "list": 1,
              "format": 3, "power_cut": 1}

    def __init__(self, keys, depth, family=PHASE_FAMILY):
        allow(depth in (1, 2, 3), "depth")
        answer, self.module = format_call(keys, depth, family,
                                          zero_module(depth))
        allow(answer.kind == "done", "format not done")
        self.keys = keys
        self.depth = depth
        self.counts = {}
        self.texts = {}
        self.turns = {}  # of each page, those that are finished
        self.open = None  # the page whose turn is not finished
        self.left = []  # its places still to turn
        self.answers = []
        self.after_cut = False

    def copy(self):
        other = object.__new__(History)
        other.__dict__.update(self.__dict__)
        other.counts = dict(self.counts)
        other.texts = dict(self.texts)
        other.turns = dict(self.turns)
        other.answers = list(self.answers)
        return other

    def step(self, event):
        """Run one event; gives (answer or None, output or None)."""
        kind, *rest = event
        allow(kind in self.SHAPES and len(rest) == self.SHAPES[kind],
              "unknown event")
        if kind == "power_cut":
            return self.power_cut(*rest)
        allow(kind == "recover" or not self.after_cut,
              "a cut not yet recovered from")
        answer, module, output = getattr(self, "run_" + kind)(*rest)
        if kind == "format":
            allow(answer.kind == "refused", "a format that is not refused")
        same_keys = kind == "list" or rest[0] == self.keys
        if not same_keys:
            allow(answer.kind == "refused" and answer.stores == 0,
                  "other keys in a call that is not refused without stores")
        if kind == "recover" and same_keys and answer.kind == "refused":
            self.claim_in_doubt(answer, module)
        if kind == "write":
            self.note_write(answer, *rest)
        if kind == "turn" and answer.kind != "refused":
            self.note_turn(answer, *rest)
        self.module = module
        self.answers.append(answer)
        if answer.kind == "cut":
            self.after_cut = True
        if kind == "recover" and answer.kind == "done":
            self.after_cut = False
            self.check_recovered(answer.first)
        return answer, output

    def claim_in_doubt(self, answer, module):
        """The one refusal of a recovery that the rule leaves open, and what
        it leaves."""
        claim(answer.number == 34 and lines_in_doubt(
            self.keys, self.module, self.counts), "recovery refused")
        left = apply_stores(stores_of_pending(self.module.control),
                            self.module.array, self.module.control)
        claim(module == (*left, self.module.cache), "left by a refusal as 34")

    def power_cut(self, cache):
        allow(len(cache) == cache_length(self.depth), "cache length")
        self.module = self.module._replace(cache=cache)
        self.after_cut = True
        self.answers.append(None)
        return None, None

    def run_read(self, keys, line, allowance, output):
        allow(is_number64(line) and is_number64(allowance), "number")
        return read_call(keys, line, allowance, output, self.module)

    def run_write(self, keys, line, text, allowance):
        allow(is_number64(line) and is_number64(allowance), "number")
        return write_call(keys, line, text, allowance, self.module) + (None,)

    def run_turn(self, keys, page, allowance):
        allow(is_number64(page) and is_number64(allowance), "number")
        return turn_call(keys, page, allowance, self.module) + (None,)

    def run_recover(self, keys, allowance):
        allow(is_number64(allowance), "number")
        return recover_call(keys, allowance, self.module) + (None,)

    def run_list(self, output):
        answer, output = dirty_list_call(output, self.module.control,
                                         self.module.cache)
        return answer, self.module, output

    def run_format(self, keys, depth, family):
        allow(is_number64(depth) and is_number64(family), "number")
        return format_call(keys, depth, family, self.module) + (None,)

    def note_write(self, answer, keys, line, text, allowance):
        if answer.kind == "cut":
            whole, _ = write_call(keys, line, text, UNLIMITED, self.module)
            batch_cells = (whole.stores - 3) // 2
            commits = answer.stores > batch_cells
        else:
            commits = answer.kind == "done"
        if commits:
            self.counts[line] = self.counts.get(line, 0) + 1
            self.texts[line] = text

    def note_turn(self, answer, keys, page, allowance):
        whole, _ = turn_call(keys, page, UNLIMITED, self.module)
        places = self.left if self.open == page else [
            place for place in range(64) if 64 * page + place in self.counts]
        batches = turn_batches(len(places), whole.stores)
        committed = batches_committed(batches, answer.stores)
        if committed == len(batches):
            self.finish_turn(page)
        elif committed > 0:
            self.open, self.left = page, places[committed:]

    def finish_turn(self, page):
        self.open, self.left = None, []
        self.turns[page] = self.turns.get(page, 0) + 1
        for line in range(64 * page, 64 * page + 64):
            if line in self.counts:
                self.counts[line] = 1

    def lines_to_read(self):
        """Every written line and some that may be unwritten."""
        last = lines(self.depth) - 1
        chosen = {0, 1, 63, 64, 255, 256, last // 2, last}
        chosen.update(self.texts)
        chosen.update(min(line + 1, last) for line in list(self.texts)[:8])
        return sorted(chosen)

    def check_recovered(self, told_sum, to_read=None):
        h, keys, module = self.depth, self.keys, self.module
        found = slots_of_cache(module.cache)
        blocks = []
        counter_sum = 0
        behind = 0
        for page in range(pages(h)):
            counts = tuple(self.counts.get(line, 0)
                           for line in range(64 * page, 64 * page + 64))
            now = minors_of(node_of(h, module.array, found, 0, page))
            stored = minors_of(array_node(h, module.array, 0, page))
            claim(now == counts, "counters of page %d" % page)
            claim(all(n - s <= 3 for n, s in zip(now, stored)),
                  "page %d too far ahead of the array" % page)
            counter_sum += sum(now)
            behind += sum(now) - sum(stored)
            blocks.append(fresh_block(self.turns.get(page, 0), counts))
        claim(counter_sum == sum(self.counts.values()), "sum of counters")
        claim(told_sum == behind, "told sum")
        tree = tree_over(keys, h, blocks)
        for level, contents in enumerate(tree):
            for index, content in enumerate(contents):
                claim(node_of(h, module.array, found, level, index) == content,
                      "node %d of level %d" % (index, level))
        claim(root_of(module.control) == node_tag(keys, tree[h][0], h, 0),
              "root")
        claim(open_page(module.control) == self.open, "open page")
        if self.open is not None:
            claim(module.control[TURN_AT:] == open_section(self.open, self.left),
                  "section of the turn")
        for line in self.lines_to_read() if to_read is None else to_read:
            self.check_read(line)

    def check_read(self, line):
        """A read as the next call gives what the book has, or on an open page
        its refusal."""
        if line // 64 == self.open:
            answer = read_call(self.keys, line, 0, bytes(CONTENT), self.module)
            claim(answer == (refused(30), self.module, bytes(CONTENT)),
                  "read of line %d on the open page" % line)
            return
        written = line in self.texts
        kind = "done" if written else "blank"
        text = self.texts.get(line, BLANK_TEXT)
        before = b"\xa5" * CONTENT
        answer, _, output = read_call(self.keys, line, UNLIMITED, before,
                                      self.module)
        claim((answer.kind, output) == (kind, text), "read of line %d" % line)
        again, _, output = read_call(self.keys, line, answer.stores, before,
                                     self.module)
        claim((again, output) == (answer, text),
              "read of line %d with no store to spare" % line)


@lru_cache(maxsize=1 << 14)
def fresh_block(turns, counts):
    return counter_block(turns, counts)


def turn_batches(lines_left, whole):
    """The cells of each batch of a turn, from how many lines it has to turn
    and how many stores it makes in all."""
    later = [1] * (lines_left - 2) + [2] if lines_left > 1 else []
    first = whole - sum(2 * m + 3 for m in later)
    return [(first - 3) // 2] + later


def batches_committed(batches, stores):
    """How many batches of so many cells are committed by so many stores."""
    committed = 0
    for m in batches:
        if stores <= m:
            break
        committed += 1
        stores -= 2 * m + 3
    return committed


def lines_in_doubt(keys, module, counts):
    """The lines that a recovery with the module's keys goes through and whose
    cell, as the pending stores leave it, fits a candidate other than the
    line's count: none, where the rule says that the recovery is not
    refused."""
    if family_of(module.control) != TAG_FAMILY:
        return []
    h = depth_of(module.control)
    array, control = apply_stores(stores_of_pending(module.control),
                                  module.array, module.control)
    found = []
    for owner in shadow_owners(h, array)[:COUNTER_SLOTS]:
        page = owner - 1
        if owner == 0 or page == open_page(control):
            continue
        fit = fitting_minors(keys, page, array_node(h, array, 0, page),
                             page_cells(array, page))
        found += [line for line, minors in enumerate(fit, 64 * page)
                  if set(minors) - {counts.get(line, 0)}]
    return found


def run_history(keys, depth, events, family=PHASE_FAMILY):
    """Run a list of events; gives the History at its end."""
    history = History(keys, depth, family)
    for event in events:
        history.step(event)
    return history


def self_check():
    block = chacha20_block(bytes(range(32)), 1,
                           bytes.fromhex("000000090000004a00000000"))
    assert block[:8] == bytes.fromhex("10f1e7e4d13b5915")
    assert siphash_2_4(bytes(range(16)), b"") == 0x726FDB47DD0E0E31


if __name__ == "__main__":
    self_check()
    print("self-check passed")
