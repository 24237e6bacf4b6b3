"""docs/LAYOUT.md: its tables against the header, the constants of the code, those of the definitions and the model; and modules
of the library, at all depths and of both families, read by these tables alone.
"""

import os
import random
import re

import model
import states
from library import DONE, Library, Session, Tally
from states import DEPTHS, KEYS

TOP = os.path.join(os.path.dirname(os.path.abspath(__file__)), "..")


def text_of_file(*path):
    with open(os.path.join(TOP, *path)) as file:
        return file.read()


def number(word):
    return int(word.replace(",", ""))


def numbers_in(text):
    return [number(word) for word in re.findall(r"\d[\d,]*", text)]


def tables(text):
    """For each heading the tables below it: lists of rows, the first of them the table's head."""
    found = {}
    heading, table = None, None
    for line in text.split("\n"):
        if line.startswith("#"):
            heading, table = line.strip("# "), None
            found[heading] = []
        elif line.startswith("|"):
            if table is None:
                table = []
                found[heading].append(table)
            if not line.startswith("|---"):
                table.append([cell.strip() for cell in line.strip("|").split("|")])
        else:
            table = None
    return found


class Layout:
    """The tables of the document: fields as (byte, bytes) by their first words, and what each depth has."""

    LENGTHS = {"Counter block": 72, "Tree node": 72, "Shadow cell": 72}

    def __init__(self, text):
        self.tables = tables(text)
        self.fields, self.lengths = {}, dict(self.LENGTHS)
        for heading, below in self.tables.items():
            name = heading.split(":")[0]
            length = re.search(r": (?:\w+ of )?(\d+) bytes", heading)
            if length:
                self.lengths[name] = int(length.group(1))
            for table in below:
                if table[0] == ["Byte", "Bytes", "Content"]:
                    self.fields[name] = [(int(byte), int(size), content) for byte, size, content in table[1:]]
        self.data_cells = [name for name in self.fields if name.startswith("Data cell")]  # of each family
        self.lengths.update(dict.fromkeys(self.data_cells, 72))
        self.depths = {row[0]: row[1:] for row in self.tables["Layout"][0][1:]}
        self.cells = {row[0]: row[1:] for row in self.tables["Array: cells of 72 bytes"][0][1:]}

    def at(self, record, start):
        """Where the field lies whose text starts so."""
        found = [(byte, size) for byte, size, content in self.fields[record] if content.startswith(start)]
        assert len(found) == 1, (record, start)
        return found[0]

    def part(self, record, start, data):
        byte, size = self.at(record, start)
        return data[byte:byte + size]

    def span(self, row, depth):
        """First and last cell of a row of the table of cells, or None."""
        found = numbers_in(self.cells[row][depth - 1])
        return (found[0], found[-1]) if found else None


# ---- The tables ----

def whole(tally, layout):
    """Each record is told from its first byte to its last."""
    for name, fields in layout.fields.items():
        at = 0
        for byte, size, content in fields:
            tally.check(byte == at, "%s: %s starts at %d, the one before ends at %d" % (name, content, byte, at))
            at = byte + size
        tally.check(at == layout.lengths[name], "%s has %d bytes of %d" % (name, at, layout.lengths[name]))
    tally.check(len(layout.fields) == 11, "tables of bytes: %s" % sorted(layout.fields))
    tally.check(len(layout.data_cells) == len(model.FAMILIES), "tables of data cells: %s" % layout.data_cells)


def constants_of(pattern, *path):
    return {name: number(value) for name, value in re.findall(pattern, text_of_file(*path))}


def fields(tally, layout):
    """Where fields are: header, code, definitions and model say the same."""
    header = constants_of(r"\b(NV_\w+) = (\d+)", "include", "nightvelvet.h")
    code = constants_of(r"const (\w+): usize = (\d+);", "crates", "control", "src", "lib.rt")
    defined = constants_of(r"(?m)^(\w+)(?: j)? = (\d+)(?: \+ 80 \* j)?$", "crates", "control", "specs", "Control.antt")
    record = "Control record"
    places = {
        "depth": (header["NV_DEPTH_AT"], code["DEPTH"], defined["depth_at"], model.DEPTH_AT),
        "root": (code["ROOT"], defined["root_at"], model.ROOT_AT),
        "queue's count": (code["COUNT"], defined["count_at"], model.COUNT_AT),
        "new root": (code["NEW_ROOT"], model.NEW_ROOT_AT),
        "queue: eight places": (code["PLACES"], defined["place_at"], model.QUEUE_AT),
        "count of the section": (header["NV_TURN_AT"], code["TURN"], defined["turn_at"], model.TURN_AT),
        "open page": (header["NV_TURN_PAGE_AT"], code["TURN_PAGE"], model.TURN_PAGE_AT),
        "mask": (code["TURN_MASK"], model.TURN_MASK_AT),
    }
    for start, said in places.items():
        byte, _ = layout.at(record, "the " + start)
        tally.check(set(said) == {byte}, "%s is at %d, elsewhere %s" % (start, byte, said))
    lengths = {
        record: (header["NV_CONTROL_LENGTH"], code["LENGTH"], defined["control_length"], model.CONTROL_LENGTH),
        "Keys": (header["NV_KEYS_LENGTH"], model.KEYS_LENGTH), "Array": (model.CELL,),
        "Queue place": (model.PLACE,), "Cache": (model.SLOT_LENGTH,),
        "List of dirty pages": (header["NV_LIST_LENGTH"], model.LIST_LENGTH),
        "Numbers of an answer": (header["NV_NUMBERS_LENGTH"],),
    }
    for name, said in lengths.items():
        tally.check(set(said) == {layout.lengths[name]}, "%s has %d bytes, elsewhere %s" % (name, layout.lengths[name], said))
    answer = [byte for byte, _, _ in layout.fields["Numbers of an answer"]]
    tally.check(answer == [header["NV_STORES_AT"], header["NV_SUM_AT"], header["NV_SECOND_AT"]], "numbers at %s" % answer)
    marks = layout.fields[record][0][2]
    names, digits = re.findall(r"`(PIG.)`", marks), re.findall(r"(?:[0-9A-F]{2} ){3}[0-9A-F]{2}", marks)
    tally.check([name.encode() for name in names] == [bytes.fromhex(four) for four in digits] == list(model.MARKS),
                "the marks are %s" % marks)
    version(tally, layout)
    return header


def version(tally, layout):
    """The layout is that of the header's version, which is the last in the table of them."""
    now = number(re.search(r"#define NV_VERSION (\d+)", text_of_file("include", "nightvelvet.h")).group(1))
    said = number(re.search(r"layout of `NV_VERSION` (\d+)", text_of_file("docs", "LAYOUT.md")).group(1))
    last = layout.tables["Modules of another layout"][0][-1]
    tally.check(now == said == numbers_in(last[0])[-1], "the layout of version %d, the header has %d" % (said, now))
    tally.check(numbers_in(last[1]) == [model.CONTROL_LENGTH] and last[2] == "as here", "the last layout: %s" % last)


def depths(tally, layout, header):
    for depth in DEPTHS:
        def told(row):
            return number(layout.depths[row][depth - 1])

        wanted = {"pages": model.pages(depth), "lines, 64 on each page": model.lines(depth),
                  "array, bytes": model.array_length(depth), "cache, bytes": model.cache_length(depth),
                  "control record, bytes": model.CONTROL_LENGTH}
        for row, value in wanted.items():
            tally.check(told(row) == value, "depth %d: %s: %d, the model has %d" % (depth, row, told(row), value))
        for row, name in (("array, bytes", "NV_ARRAY_LENGTH_"), ("cache, bytes", "NV_CACHE_LENGTH_"),
                          ("lines, 64 on each page", "NV_LINES_")):
            tally.check(told(row) == header[name + str(depth)], "depth %d: %s: the header has another" % (depth, row))
        cells(tally, layout, depth)
        slots(tally, layout, depth)


def cells(tally, layout, depth):
    """The rows follow each other, and each starts where the model says."""
    rows = list(layout.cells)
    starts = [0] + [model.node_cell(depth, level, 0) if level <= depth else None for level in range(4)]
    starts += [model.shadow_cell(depth, 0), model.shadow_cell(depth, 4)]
    at = 0
    for row, start in zip(rows, starts):
        span = layout.span(row, depth)
        tally.check((span is None) == (start is None), "depth %d: %s" % (depth, row))
        if span:
            tally.check(span[0] == start == at, "depth %d: %s start at %d, wanted %s" % (depth, row, span[0], start))
            at = span[1] + 1
    tally.check(number(layout.cells["cells in all"][depth - 1]) == at == model.cells(depth), "depth %d: %d cells" % (depth, at))


def slots(tally, layout, depth):
    """Each slot stands in one row, and what it says of its level is what the model says."""
    found = []
    for slot_range, holds, of_depths in layout.tables["Cache: slots of 73 bytes"][1][1:]:
        low, high = numbers_in(of_depths)[0], numbers_in(of_depths)[-1]
        first, last = numbers_in(slot_range)
        tally.check(high == 3 and (first == 0 or "in slot %d + i" % first in holds), "slots %s: %s" % (slot_range, holds))
        if low <= depth <= high:
            found += range(first, last + 1)
            level = int(re.search(r"level (\d)", holds).group(1)) if "level" in holds else 0
            modulus = int(re.search(r"mod (\d)", holds).group(1))
            for index in range(model.nodes(depth, level)):
                tally.check(first + index % modulus == model.slot_of(level, index),
                            "depth %d: node %d of level %d" % (depth, index, level))
    tally.check(found == list(range(model.slots(depth))), "depth %d: slots %s" % (depth, found))


def stores(tally, layout):
    """Each store of the model's batch lies where the table says."""
    table = {row[0]: row[1:] for row in layout.tables["Stores"][0][1:]}
    batch = [(5, bytes(72)), (9, bytes(72))]
    made = model.stores_of_batch(batch, bytes(8), bytes(17))
    wanted = [("queue place j, for each cell", j) for j in range(2)] + [("count with new root: the commit", 0)]
    wanted += [("cell n, for each cell", cell) for cell, _ in batch] + [("root", 0), ("count 0", 0)]
    for store, (row, index) in zip(made, wanted):
        where, byte, size = table[row]
        at = sum(int(a or 1) * (index if b else 1) for a, b in re.findall(r"(\d*)([jn]?)(?: \+ |$)", byte) if a or b)
        offset, data = store.pieces[0]
        tally.check((where.startswith("control"), at, int(size)) == (store.target == "control", offset, len(data)), "store: %s" % row)
    section = table["the same in a turn, with the section"]
    tally.check([int(word) for word in section[1:]] == [made[2].pieces[1][0], len(made[2].pieces[1][1])], "the section of a commit")
    whole_commit = sum(len(data) for _, data in made[2].pieces)
    told = numbers_in(re.search(r"one store of both places, (\d+) bytes", text_of_file("docs", "LAYOUT.md")).group(1))
    tally.check(told == [whole_commit], "the commit of a turn has %d bytes" % whole_commit)


# ---- Modules read by the tables ----

class Image:
    """A module after a done recovery, read by the tables alone."""

    def __init__(self, layout, depth, family, module):
        self.layout, self.depth, self.module = layout, depth, module
        self.data_cell, self.has_phase = layout.data_cells[family], family == 0
        self.pad_key = layout.part("Keys", "the key of the pads", KEYS)
        self.tag_key = layout.part("Keys", "the key of the tags", KEYS)

    def cell(self, cell):
        return self.module.array[72 * cell:72 * cell + 72]

    def node(self, level, index):
        """The content of a block or node: the slot's that holds it, else the cell's."""
        layout = self.layout
        first, modulus = ((0, 4) if level == 0 else (4 + 2 * (level - 1), 2))
        slot = self.module.cache[73 * (first + index % modulus):][:73]
        if model.number_at(layout.part("Cache", "the owner", slot), 0) == index + 1:
            return layout.part("Cache", "the content", slot)
        row = [row for row in layout.cells if ("level %d" % level) in row][0]
        return self.cell(layout.span(row, self.depth)[0] + index)[:64]

    def counter(self, line):
        block = self.node(0, line // 64) + bytes(8)
        minors = int.from_bytes(self.layout.part("Counter block", "64 minors", block), "little")
        return model.number_at(self.layout.part("Counter block", "the major", block), 0), minors >> 7 * (line % 64) & 127

    def hash(self, *parts):
        return model.number8(model.siphash_2_4(self.tag_key, b"".join(parts)))

    def text(self, line):
        """The text of a line, or None; its phase and tag must be right."""
        major, minor = self.counter(line)
        cell = self.cell(line)
        content = self.layout.part(self.data_cell, "the text", cell)
        if minor == 0:
            return None
        number8 = model.number8
        tag = self.layout.part(self.data_cell, "the data tag", cell)
        assert not self.has_phase or self.layout.part(self.data_cell, "the phase", cell) == bytes([minor % 4])
        assert tag == self.hash(content, number8(line), number8(major), number8(minor))[:len(tag)]
        return model.xor(content, model.chacha20_block(self.pad_key, line, minor.to_bytes(4, "little") + number8(major)))

    def tag(self, level, index):
        return self.hash(self.node(level, index), model.number8(level), model.number8(index))

    def tree_holds(self):
        """Each node has the tags of its children, and the root is the top's."""
        for level in range(1, self.depth + 1):
            for index in range(8**(self.depth - level)):
                children = b"".join(self.tag(level - 1, 8 * index + k) for k in range(8))
                if children != self.node(level, index):
                    return False
        return self.layout.part("Control record", "the root", self.module.control) == self.tag(self.depth, 0)


def made(session, depth, family, rng):
    """A module of some writes, a finished turn and one that is cut: the texts of its lines."""
    texts = {}
    assert session.format(family)[0] == DONE
    last = model.lines(depth)
    for line in [0, 3, 7, 63, 64, 65, last - 1] + [rng.randrange(last) for _ in range(40)] + [5] * 9:
        texts[line] = rng.randbytes(64)
        assert session.write(line, texts[line])[0] == DONE
    assert session.turn(0)[0] == DONE
    return texts


def images(tally, layout, depth, family):
    session = Session(Library(), depth, KEYS)
    rng = random.Random(depth)
    texts = made(session, depth, family, rng)
    session.put("cache", rng.randbytes(model.cache_length(depth)))
    tally.check(session.recover()[0] == DONE, "depth %d: recovery" % depth)
    module = session.module()
    image = Image(layout, depth, family, module)
    for line in range(model.lines(depth)):
        tally.check(image.text(line) == texts.get(line), "depth %d: line %d read by the tables" % (depth, line))
    tally.check(image.tree_holds(), "depth %d: the tree by the tables" % depth)
    control = module.control
    tally.check(layout.part("Control record", "the mark", control) == model.MARKS[family], "the mark")
    tally.check(layout.part("Control record", "the depth", control) == bytes([depth]), "the depth")
    top = model.node_cell(depth, depth, 0)
    tally.check(image.cell(top) == model.cell_at(states.formatted(depth).array, top), "depth %d: the top's cell has changed" % depth)
    rest_is_zero(tally, layout, depth, image, texts)
    open_page(tally, layout, depth, session, texts)


def rest_is_zero(tally, layout, depth, image, texts):
    """Side bytes of blocks, nodes and shadow cells, and the cells of lines never written."""
    first, last = model.node_cell(depth, 0, 0), model.shadow_cell(depth, 0)
    zero = all(layout.part("Counter block" if cell < model.node_cell(depth, 1, 0) else "Tree node", "zero", image.cell(cell)) == bytes(8)
               for cell in range(first, last))
    tally.check(zero, "depth %d: side bytes of a block or node" % depth)
    tally.check(all(layout.part("Shadow cell", "zero", image.cell(last + slot)) == bytes(64) for slot in range(model.slots(depth))),
                "depth %d: the rest of a shadow cell" % depth)
    tally.check(all(image.cell(line) == bytes(72) for line in range(model.lines(depth)) if line not in texts),
                "depth %d: the cell of a line never written" % depth)


def open_page(tally, layout, depth, session, texts):
    """A turn of page 0, cut after its second batch: the section says so."""
    left = sorted(line for line in texts if line < 64)[2:]
    assert len(left) > 1
    stores, _ = model.turn_stores(KEYS, 0, session.module())[1:]
    commits = [i for i, store in enumerate(stores) if len(store.pieces) == 2]
    session.turn(0, commits[1] + 1)
    control = session.get("control")
    tally.check(layout.part("Control record", "the count of the section", control) == b"\x01"
                and layout.part("Control record", "the open page", control) == bytes(8)
                and layout.part("Control record", "the mask", control) == model.number8(sum(1 << line for line in left)),
                "depth %d: the section of a turn" % depth)


def main():
    tally = Tally("layout")
    layout = Layout(text_of_file("docs", "LAYOUT.md"))
    whole(tally, layout)
    header = fields(tally, layout)
    depths(tally, layout, header)
    stores(tally, layout)
    for family in range(len(layout.data_cells)):
        for depth in DEPTHS:
            images(tally, layout, depth, family)
    print("layout: %d tables of bytes; every line of modules of depth 1, 2 and 3 and of both families read by them" % len(layout.fields))
    tally.finish()


if __name__ == "__main__":
    main()
