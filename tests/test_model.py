"""Tests of the reference model; run as a plain script."""

import random
import sys
from itertools import product

import model
from model import (Answer, History, Module, UNLIMITED, array_length, bench,
                   brought_forward, cache_length, candidates, cells, choice,
                   counter_block, dirty_list_call, fits, for_c, format_call,
                   forward_fault, minors_of, node_cell, number8, pages, lines,
                   read_call, recover_call, run_history, shadow_cell, slot_of,
                   slots, turn_call, write_call, zero_module)
from states import (KEYS, LISTING, OTHER_PAD, OTHER_TAG, PRINTED, block_stored,
                    cell_patched, formatted, opened, patched, resealed,
                    settled, text_of, with_stored_minor)

OUTPUT = b"\x5a" * 64

results = {"passed": 0, "failed": 0}


def check(what, holds):
    results["passed" if holds else "failed"] += 1
    if not holds:
        print("FAILED: " + what)


def equal(what, got, wanted):
    if got != wanted:
        what += ": got %.200s, wanted %.200s" % (repr(got), repr(wanted))
    check(what, got == wanted)


def attempt(what, action):
    """Count one action as passed unless a clause of the model fails."""
    try:
        action()
    except AssertionError as failure:
        check("%s: %s" % (what, failure), False)
    else:
        check(what, True)


def raises_value_error(what, action):
    try:
        action()
    except ValueError:
        check(what, True)
    else:
        check(what, False)


# ---- Primitives and layout ----

def test_primitives():
    equal("quarter round",
          model.quarter_round(0x11111111, 0x01020304, 0x9B8D6F43, 0x01234567),
          (0xEA2A92F4, 0xCB1CF8CE, 0x4581472E, 0x5881C4BB))
    equal("ChaCha20 block",
          model.chacha20_block(bytes(range(32)), 1, bytes.fromhex(
              "000000090000004a00000000")).hex(),
          "10f1e7e4d13b5915500fdd1fa32071c4"
          "c7d1f4c733c068030422aa9ac3d46c4e"
          "d2826446079faa0914c2d705d98b02a2"
          "b5129cd1de164eb9cbd083e8a2503c4e")
    equal("ChaCha20 block of zeros",
          model.chacha20_block(bytes(32), 0, bytes(12)).hex()[:32],
          "76b8e0ada0f13d90405d6ae55386bd28")
    key = bytes(range(16))
    equal("SipHash of nothing", model.siphash_2_4(key, b""),
          0x726FDB47DD0E0E31)
    equal("SipHash of 15 bytes", model.siphash_2_4(key, bytes(range(15))),
          0xA129CA6149BE45E5)


def test_arithmetic():
    for minor, phase, wanted in ((4, 2, 6), (0, 3, 3), (5, 1, 5), (6, 1, 9),
                                 (124, 3, 127), (127, 3, 127),
                                 (125, 0, 128), (126, 1, 129), (0, 0, 0)):
        equal("minor %d, phase %d" % (minor, phase),
              brought_forward(minor, phase), wanted)
    past = [(125, 0), (126, 0), (126, 1), (127, 0), (127, 1), (127, 2)]
    equal("minors brought past 127",
          [(minor, phase) for minor in range(128) for phase in range(4)
           if forward_fault(minor, phase) is not None], past)
    equal("their refusal", {forward_fault(*pair) for pair in past}, {32})
    equal("phases over 3", {forward_fault(minor, phase) for minor in range(128)
                            for phase in range(4, 256)}, {28})
    equal("top of depth 1", node_cell(1, 1, 0), 520)
    equal("block of page 0", node_cell(1, 0, 0), 512)
    equal("shadow of slot 0", shadow_cell(1, 0), 521)
    equal("shadow of slot 4", shadow_cell(1, 4), 525)
    equal("lines of depth 1", lines(1), 512)
    block = counter_block(0, [0, 127] + [0] * 62)
    equal("packed minor 1", (block[8], block[9], sum(block[10:])),
          (0x80, 0x3F, 0))
    everything = tuple(range(64, 128))
    equal("minors there and back",
          minors_of(counter_block(7, everything)), everything)
    for h, wanted in ((1, (8, 512, 527, 37944, 438, 6)),
                      (2, (64, 4096, 4177, 300744, 584, 8)),
                      (3, (512, 32768, 33363, 2402136, 730, 10))):
        equal("sizes of depth %d" % h,
              (pages(h), lines(h), cells(h), array_length(h),
               cache_length(h), slots(h)), wanted)
    equal("slots", (slot_of(0, 7), slot_of(1, 0), slot_of(1, 7),
                    slot_of(2, 1), slot_of(3, 0)), (3, 4, 5, 7, 8))


def test_candidates():
    """Without a phase byte: the minors tried, those that fit, the choice."""
    for stored in range(128):
        equal("candidates of %d" % stored, list(candidates(stored)),
              [minor for minor in range(128) if 0 <= minor - stored <= 3])
    for found, wanted in (([], (33, None)), ([0], (None, 0)),
                          ([127], (None, 127)), ([5, 6], (34, None)),
                          ([0, 3], (34, None)), ([1, 2, 3, 4], (34, None))):
        equal("choice among %s" % found, choice(found), wanted)
    content, major = bytes(range(64)), 2**64 - 3
    for minor in (1, 2, 3, 4, 126, 127, 128):
        tag = model.siphash_2_4(KEYS[32:], content + number8(9)
                                + number8(major) + number8(minor))
        cell = content + number8(tag)
        equal("minors that a tag fits", [
            other for other in range(132) if fits(KEYS, cell, 9, major, other)],
              [minor])
        check("another line, major, content or key",
              not any((fits(KEYS, cell, 8, major, minor),
                       fits(KEYS, cell, 9, major + 1, minor),
                       fits(KEYS, b"\x01" + cell[1:], 9, major, minor),
                       fits(OTHER_TAG, cell, 9, major, minor))))
        for at in range(64, 72):
            check("byte %d of a tag" % at, not fits(
                KEYS, patched(cell, at, bytes([cell[at] ^ 128])), 9, major,
                minor))
    check("zero cell", fits(KEYS, bytes(72), 9, major, 0))
    for at in range(72):
        check("cell with byte %d" % at, not fits(
            KEYS, patched(bytes(72), at, b"\x01"), 9, major, 0))


# ---- Bench ----

def test_bench():
    got = bench(LISTING)
    wanted = PRINTED
    equal("bench length", len(got), len(wanted))
    for number, pair in enumerate(zip(got, wanted)):
        equal("bench line %d" % (number + 1), *pair)
    for bad in ("", " ", "w", "w 0", "w 0 256", "w 0 1 2", "w  0 1", " r 0",
                "r 0 ", "r", "r -1", "r +1", "r 0x1", "r 1_0", "R 0", "p 0",
                "p ", "k", "k 1 2", "k 18446744073709551616", "r \u0661",
                "r 18446744073709551616", "q", "r\t0", "r 0\r",
                "r " + "9" * 5000, "w 0 1.0"):
        equal("bench of %r" % bad[:30], bench([bad]), ["?"])
    equal("bench refusals",
          bench(["r 512", "w 18446744073709551615 0", "k 2", "w 0 1",
                 "r 0", "p", "k 0", "?", "r 0", "k 0", "k 9", "w 64 255"]),
          ["r 512 refused 6", "w 18446744073709551615 refused 6",
           "w 0 cut 2", "r 0 blank 7 255", "p done 0 0", "?",
           "r 0 blank 0 255", "w 64 done 7"])
    equal("bench while pending",
          bench(["k 4", "w 0 1", "r 0", "w 0 2", "k 3", "p", "p", "r 0"]),
          ["w 0 cut 4", "r 0 refused 22", "w 0 refused 22", "p cut 3",
           "p done 5 1", "r 0 done 0 1"])
    equal("bench without a cache after a cut",
          bench(["w 0 1", "k 0", "w 0 2", "r 0", "p", "r 0"]),
          ["w 0 done 9", "w 0 cut 0", "r 0 refused 24", "p done 0 1",
           "r 0 done 0 1"])
    equal("bench holds an allowance once",
          bench(["k 0", "r 600", "r 0", "k 00", "p", "r 007"]),
          ["r 600 refused 6", "r 0 blank 7 255", "p done 0 0",
           "r 7 blank 0 255"])


# ---- Single calls ----

def written(depth, *where, family=0):
    """A module after done writes of the named lines, in order."""
    module = formatted(depth, family)
    for count, line in enumerate(where):
        answer, module = write_call(KEYS, line, text_of(count), UNLIMITED,
                                    module)
        assert answer.kind == "done"
    return module


def test_format():
    for depth, mark, family in ((1, b"PIGK", 0), (2, b"PIGK", 0),
                                (3, b"PIGK", 0), (1, b"PIGN", 1),
                                (2, b"PIGN", 1), (3, b"PIGN", 1)):
        dirty = Module(b"\x11" * array_length(depth), b"\x22" * 681,
                       b"\x33" * cache_length(depth))
        answer, module = format_call(KEYS, depth, family, dirty)
        equal("format %d" % depth, answer, Answer("done", 0, 0, 0, 0))
        equal("control of format %d" % depth,
              (module.control[:7], module.control[15:]),
              (mark + b"\x01" + bytes([depth, 1]), bytes(666)))
        equal("array of the other family", module.array,
              formatted(depth, 1 - family).array)
        equal("cache of format %d" % depth, module.cache,
              bytes(cache_length(depth)))
        check("data and blocks of format %d are zero" % depth,
              not any(module.array[:72 * node_cell(depth, 1, 0)]))
        check("shadow of format %d is zero" % depth,
              not any(module.array[72 * shadow_cell(depth, 0):]))
        check("side bytes of format %d are zero" % depth,
              not any(any(module.array[72 * cell + 64:72 * cell + 72])
                      for cell in range(cells(depth))))
        attempt("fresh state of depth %d" % depth,
                lambda d=depth, f=family: run_history(
                    KEYS, d, [("recover", KEYS, 0)], f))


def test_bytes_of_a_write():
    """Pad, tags and cells put together from the primitives alone."""
    for family in (0, 1):
        bytes_of_a_write(family)


def bytes_of_a_write(family):
    text = bytes(range(100, 164))
    major = 0x0807060504030201
    module = written(1, 130, family=family)
    block = number8(major) + module.cache[2 * 73 + 17:3 * 73]
    module = module._replace(cache=patched(module.cache, 2 * 73 + 9, block))
    answer, module = write_call(KEYS, 130, text, UNLIMITED, module)
    equal("write with a major", answer, Answer("done", 0, 5, 0, 0))
    stream = model.chacha20_block(
        KEYS[:32], 130, bytes([2, 0, 0, 0, 1, 2, 3, 4, 5, 6, 7, 8]))
    content = bytes(a ^ b for a, b in zip(text, stream))

    def tag(message):
        return model.siphash_2_4(KEYS[32:], message).to_bytes(8, "little")

    side = tag(content + number8(130) + number8(major) + number8(2))
    if family == 0:
        side = b"\x02" + side[:7]
    equal("data cell", module.array[72 * 130:72 * 131], content + side)
    block = number8(major) + (2 << 14).to_bytes(56, "little")
    equal("counter slot", module.cache[2 * 73:3 * 73],
          number8(3) + b"\x01" + block)
    tags = [tag(bytes(64) + number8(0) + number8(page)) for page in range(8)]
    tags[2] = tag(block + number8(0) + number8(2))
    equal("top slot", module.cache[4 * 73:5 * 73],
          number8(1) + b"\x01" + b"".join(tags))
    equal("root", module.control[7:15],
          tag(b"".join(tags) + number8(1) + number8(0)))
    equal("shadow cells", module.array[72 * 521:],
          bytes(144) + number8(3) + bytes(136) + number8(1) + bytes(136))
    answer, after, output = read_call(KEYS, 130, 0, OUTPUT, module)
    equal("read with a major", (answer, after, output),
          (Answer("done", 0, 0, 0, 0), module, text))
    behind = module._replace(
        array=cell_patched(module.array, 514, 0, number8(major)),
        cache=bytes(cache_length(1)))
    equal("recovery with a major", recover_call(KEYS, 0, behind),
          (Answer("done", 0, 0, 2, 0),
           behind._replace(cache=module.cache)))


def test_bytes_of_a_turn():
    """Data cells, block, tree and record put together from the primitives."""
    for family in (0, 1):
        bytes_of_a_turn(family)


def bytes_of_a_turn(family):
    def tag(message):
        return model.siphash_2_4(KEYS[32:], message).to_bytes(8, "little")

    module = written(1, 130, 130, 133, 5, family=family)
    answer, after = turn_call(KEYS, 2, UNLIMITED, module)
    equal("turn of two lines", answer, Answer("done", 0, 14, 0, 0))
    for line, text in ((130, text_of(1)), (133, text_of(2))):
        stream = model.chacha20_block(
            KEYS[:32], line, bytes([1, 0, 0, 0, 1, 0, 0, 0, 0, 0, 0, 0]))
        content = bytes(a ^ b for a, b in zip(text, stream))
        side = tag(content + number8(line) + number8(1) + number8(1))
        if family == 0:
            side = b"\x01" + side[:7]
        equal("turned cell %d" % line, after.array[72 * line:72 * line + 72],
              content + side)
    block = number8(1) + (1 << 14 | 1 << 35).to_bytes(56, "little")
    equal("turned block", after.array[72 * 514:72 * 515], block + bytes(8))
    equal("slot of the turned block", after.cache[2 * 73:3 * 73],
          number8(3) + b"\x00" + block)
    tags = [tag(bytes(64) + number8(0) + number8(page)) for page in range(8)]
    other = number8(0) + (1 << 35).to_bytes(56, "little")
    tags[0] = tag(other + number8(0) + number8(0))
    tags[2] = tag(block + number8(0) + number8(2))
    equal("top slot over it", after.cache[4 * 73:5 * 73],
          number8(1) + b"\x01" + b"".join(tags))
    equal("record after a turn",
          (after.control[7:15], after.control[15], after.control[664:]),
          (tag(b"".join(tags) + number8(1) + number8(0)), 0, bytes(17)))
    equal("page 0 after a turn of page 2", after.cache[:73],
          number8(1) + b"\x01" + other)
    for line, text in ((130, text_of(1)), (133, text_of(2)), (5, text_of(3))):
        equal("line %d after a turn" % line,
              read_call(KEYS, line, 0, OUTPUT, after)[::2],
              (Answer("done", 0, 0, 0, 0), text))
    equal("unwritten line after a turn",
          read_call(KEYS, 131, 0, OUTPUT, after)[::2],
          (Answer("blank", 0, 0, 0, 0), b"\xff" * 64))


def test_turn_batches():
    """Stores of turns of 0, 1, 2, 3 and 64 lines, path cached or not."""
    for depth, far, most in ((1, 256, 328), (2, 1024, 332), (3, 8192, 336)):
        for count, cached in ((0, 5), (1, 7), (2, 14), (3, 19), (64, 324)):
            module = read_call(KEYS, far, UNLIMITED, OUTPUT, written(
                depth, *range(far, far + count)))[1]
            equal("stores of a turn of %d lines" % count,
                  turn_call(KEYS, far // 64, UNLIMITED, module)[0],
                  Answer("done", 0, cached, 0, 0))
            module = write_call(KEYS, 0, OUTPUT, UNLIMITED, module)[1]
            stores = turn_call(KEYS, far // 64, UNLIMITED, module)[0].stores
            equal("the same with the path missing", stores, cached + 4 * depth)
        equal("most stores of depth %d" % depth, stores, most)


def test_turn_again():
    """A page is turned twice; writes go on from minor 1."""
    module = written(1, *[70] * 127, 64)
    equal("worn", write_call(KEYS, 70, OUTPUT, 0, module)[0], refusal(26))
    for major in (1, 2):
        _, module = turn_call(KEYS, 1, UNLIMITED, module)
        _, module = write_call(KEYS, 70, text_of(major), UNLIMITED, module)
        block = counter_block(major, [1] + [0] * 5 + [2] + [0] * 57)
        equal("block of major %d" % major, module.cache[73 + 9:2 * 73], block)
    equal("text after two turns", read_call(KEYS, 70, 0, OUTPUT, module)[2],
          text_of(2))


def test_dirty_slots():
    def listed(module):
        _, output = dirty_list_call(bytes(32), module.control, module.cache)
        numbers = [model.number_at(output, 8 * i) for i in range(4)]
        return [n for n in numbers if n != 2**64 - 1]

    def top_dirty(module):
        return module.cache[4 * 73 + 8]

    module = formatted(1)
    answer, module, _ = read_call(KEYS, 0, UNLIMITED, OUTPUT, module)
    equal("clean after a load", (answer.stores, listed(module),
                                 top_dirty(module)), (7, [], 0))
    answer, module, _ = read_call(KEYS, 256, UNLIMITED, OUTPUT, module)
    equal("clean former owner", (answer.stores, listed(module)), (5, []))
    for count, wanted in ((1, [4]), (2, [4]), (3, [4]), (4, []), (5, [4])):
        answer, module = write_call(KEYS, 257, OUTPUT, UNLIMITED, module)
        equal("stores of write %d" % count, answer.stores,
              7 if count == 4 else 5)
        equal("dirty after write %d" % count,
              (listed(module), top_dirty(module)), (wanted, 1))
    answer, module, _ = read_call(KEYS, 0, UNLIMITED, OUTPUT, module)
    equal("dirty former owner", (answer.stores, listed(module)), (7, []))
    equal("evicted block", module.array[72 * 516:72 * 517],
          counter_block(0, [0, 5] + [0] * 62) + bytes(8))
    answer, module = recover_call(KEYS, 0, module)
    equal("all dirty after recovery",
          (answer, listed(module), top_dirty(module)),
          (Answer("done", 0, 0, 0, 0), [0], 1))
    equal("empty slots after recovery", module.cache[73:4 * 73], bytes(219))
    for line in (64, 128, 448):
        _, module = write_call(KEYS, line, OUTPUT, UNLIMITED, module)
    equal("four dirty pages", listed(module), [0, 1, 2, 7])
    _, module = write_call(KEYS, 256, OUTPUT, UNLIMITED, module)
    equal("pages in rising number, not by slot", dirty_list_call(bytes(32), module.control, module.cache)[1],
          b"".join(number8(page) for page in (1, 2, 4, 7)))


# ---- Refusals ----

def refusal(number, stores=0, first=0, second=0):
    return Answer("refused", number, stores, first, second)


def short(data):
    return data[:-1]


def longer(data):
    return data + b"\x00"


def bytes_at(offset, piece):
    return lambda data: patched(data, offset, piece)


def cell_bytes_at(cell, offset, piece):
    return bytes_at(72 * cell + offset, piece)


def peeled(check_refused, inputs, defects):
    """Put all defects in, then take them out from the first on: each time
    the first one left must be the one that answers."""
    for start, (wanted, _, _) in enumerate(defects):
        faulty = dict(inputs)
        for _, name, change in defects[start:]:
            faulty[name] = change(faulty[name])
        check_refused(wanted, **faulty)


def test_format_refusals():
    def check_refused(wanted, keys, depth, family, **parts):
        module = Module(**parts)
        equal("format refusal", format_call(keys, depth, family, module),
              (wanted, module))

    module = zero_module(2)
    for depth, family in ((0, 0), (4, 1), (2**64 - 1, 0), (2, 2), (2, 255),
                          (2, 2**64 - 1), (4, 2)):
        inputs = dict(module._asdict(), keys=KEYS, depth=2, family=family % 2)
        peeled(check_refused, inputs, [
            (refusal(1), "depth", lambda _, d=depth: d),
            (refusal(2), "keys", short),
            (refusal(3), "control", short),
            (refusal(4), "array", longer),
            (refusal(5), "cache", longer),
        ] if family < 2 else [
            (refusal(1), "family", lambda _, f=family: f),
            (refusal(2), "keys", short),
            (refusal(4), "array", short),
        ])
    for family in (0, 1):
        equal("format without a defect",
              format_call(KEYS, 2, family, module)[0].kind, "done")


LINE_DEFECTS = [
    (refusal(2), "keys", short),
    (refusal(3), "control", longer),
    (refusal(21), "control", bytes_at(0, b"p")),
    (refusal(4), "array", longer),
    (refusal(5), "cache", longer),
    (refusal(7), "buffer", short),
    (refusal(6), "line", lambda _: 512),
    (refusal(22), "control", bytes_at(15, b"\x01")),
    (refusal(23), "cache", bytes_at(73, number8(1))),
    (refusal(30), "control", bytes_at(664, b"\x01" + bytes(8) + number8(2))),
    (refusal(24), "array", cell_bytes_at(512, 0, b"\x01")),
]


def line_inputs(module):
    return dict(module._asdict(), keys=KEYS, line=0, buffer=OUTPUT)


def evicted(writes, family=0):
    """Line 0 written so often, its page then evicted by page 4."""
    return written(1, *[0] * writes, 256, family=family)


def test_read_refusals():
    def check_refused(wanted, keys, line, buffer, **parts):
        module = Module(**parts)
        for allowance in (0, UNLIMITED):
            equal("read refusal",
                  read_call(keys, line, allowance, buffer, module),
                  (wanted, module, buffer))

    for family in (0, 1):
        module = evicted(1, family)
        for at in range(72):
            other = bytes([module.array[at] ^ 4])
            peeled(check_refused, line_inputs(module),
                   LINE_DEFECTS[at and 99:] + [
                       (refusal(25), "array", cell_bytes_at(0, at, other))])
        for allowance, kind in ((0, "cut"), (UNLIMITED, "done")):
            answer, _, _ = read_call(KEYS, 0, allowance, OUTPUT, module)
            equal("read without a defect", answer.kind, kind)
    other_mark = module._replace(control=patched(module.control, 0, b"PIGK"))
    equal("tag of the other family",
          read_call(KEYS, 0, 0, OUTPUT, other_mark)[0], refusal(25))


def test_write_refusals():
    def check_refused(wanted, keys, line, buffer, **parts):
        module = Module(**parts)
        for allowance in (0, UNLIMITED):
            equal("write refusal",
                  write_call(keys, line, buffer, allowance, module),
                  (wanted, module))

    inputs = line_inputs(evicted(127))
    peeled(check_refused, inputs, LINE_DEFECTS)
    check_refused(refusal(26), **inputs)


def test_turn_refusals():
    def check_refused(wanted, keys, page, **parts):
        module = Module(**parts)
        for allowance in (0, UNLIMITED):
            equal("turn refusal", turn_call(keys, page, allowance, module),
                  (wanted, module))

    other_page = bytes_at(664, b"\x01" + number8(1) + number8(2))
    defects = [(refusal(6), "page", lambda _: 8) if name == "line" else
               (wanted, name, other_page) if wanted == refusal(30) else
               (wanted, name, change) for wanted, name, change in LINE_DEFECTS
               if name != "buffer"]
    rows = tuple((line, minor, text_of(line)) for line, minor in
                 ((2, 7), (9, 127), (63, 1)))
    bad_cells = [(refusal(25, first=line), "array",
                  cell_bytes_at(line, 64, bytes(8))) for line in (2, 9, 63)]
    for family in (0, 1):
        worn = settled(1, rows, 2**64 - 1, family)
        inputs = dict(worn._asdict(), keys=KEYS, page=0)
        peeled(check_refused, inputs, defects + [(refusal(31), "array",
                                                  bad_cells[0][2])])
        check_refused(refusal(31), **inputs)
        inputs.update(settled(1, rows, 2**64 - 2, family)._asdict())
        peeled(check_refused, inputs, defects + bad_cells)
        answer, after = turn_call(KEYS, 0, UNLIMITED, Module(
            inputs["array"], inputs["control"], inputs["cache"]))
        equal("turn to the last major", answer, Answer("done", 0, 23, 0, 0))
        equal("another turn", turn_call(KEYS, 0, UNLIMITED, after)[0],
              refusal(31))


def test_resumed_turns():
    """Only the mask's lines are checked and turned; those left out keep their
    cells, which are already turned in a history."""
    rows = tuple((line, 5, text_of(line)) for line in (64, 65, 66))
    module = settled(1, rows)
    junk = module._replace(array=cell_patched(module.array, 64, 0, OUTPUT))
    whole = 7  # one line: path of two cells, new block, data cell
    for mask, wanted in (
            (0b110, Answer("done", 0, 9 + 7, 0, 0)),
            (0b100, Answer("done", 0, whole + 4, 0, 0)),
            (0b111, refusal(25, first=64)),
            (0b1100, refusal(25, first=67)),
            (0b1001, refusal(25, first=64)),
            (1 << 63, refusal(25, first=127))):
        answer, after = turn_call(KEYS, 1, UNLIMITED, opened(junk, 1, mask))
        equal("resumed turn of mask %s" % bin(mask), answer, wanted)
        if wanted.kind == "done":
            equal("block of a resumed turn",
                  after.array[72 * 513:72 * 513 + 64],
                  counter_block(1, [1, 1, 1] + [0] * 61))
            changed = [line for line in range(512)
                       if after.array[72 * line:72 * line + 72]
                       != junk.array[72 * line:72 * line + 72]]
            equal("cells of a resumed turn", changed,
                  [64 + place for place in range(64) if mask >> place & 1])
    equal("turn of another page",
          turn_call(KEYS, 0, 0, opened(module, 1, 1))[0], refusal(30))
    equal("resumed at the last major",
          turn_call(KEYS, 1, 0, opened(settled(1, rows, 2**64 - 1), 1, 1))[0],
          refusal(31))


def two_pages(family=0):
    """Slot 2 is empty, and page 0's block is behind its data cells."""
    return written(1, 0, 0, 0, 1, 64, family=family)


def pending_write(family=0):
    return write_call(KEYS, 64, text_of(9), 3, two_pages(family))


def late_refusal(wanted, keys, **parts):
    """What a refused recovery tells and leaves, and that it is cut before."""
    module = Module(**parts)
    answer, after = recover_call(keys, UNLIMITED, module)
    equal("recovery refusal", answer, wanted)
    equal("cache after a refused recovery", after.cache, module.cache)
    stores = model.stores_of_pending(module.control)[:wanted.stores]
    equal("stores of a refused recovery", (after.array, after.control),
          model.apply_stores(stores, module.array, module.control))
    for allowance in range(wanted.stores):
        equal("cut before a late refusal",
              recover_call(keys, allowance, module)[0],
              Answer("cut", 0, allowance, 0, 0))


def test_recovery_refusals():
    past_127 = counter_block(0, [0, 0, 0, 127] + [0] * 59 + [125])
    with_phase = [
        (refusal(28, 3, 0), "array", cell_bytes_at(0, 64, b"\xff")),
        (refusal(28, 3, 3), "array", cell_bytes_at(3, 64, b"\x04")),
        (refusal(32, 3, 3), "array", cell_bytes_at(512, 0, past_127)),
        (refusal(28, 3, 65), "array", cell_bytes_at(65, 64, b"\x04")),
        (refusal(32, 3, 127), "array", cell_bytes_at(
            513, 0, counter_block(0, [0] * 63 + [126]))),
    ]
    without = [
        (refusal(33, 3, 0), "array", cell_bytes_at(0, 64, bytes(8))),
        (refusal(33, 3, 1), "array", lambda a: resealed(1, a, 1, 4)),
        (refusal(33, 3, 3), "array", cell_bytes_at(512, 0, past_127)),
        (refusal(33, 3, 65), "array", cell_bytes_at(65, 71, b"\x01")),
        (refusal(33, 3, 127), "array", cell_bytes_at(
            513, 0, counter_block(0, [0] * 63 + [1]))),
    ]
    for family, late in ((0, with_phase), (1, without)):
        answer, module = pending_write(family)
        equal("pending write", answer, Answer("cut", 0, 3, 0, 0))
        equal("cell that the pending stores overwrite",
              [cell for cell, _ in model.queue_of(module.control)], [64])
        peeled(late_refusal, dict(module._asdict(), keys=KEYS), [
            (refusal(2), "keys", longer),
            (refusal(3), "control", short),
            (refusal(21), "control", bytes_at(24, number8(527))),
            (refusal(4), "array", short),
            (refusal(5), "cache", short),
            (refusal(27, 3, 2), "array",
             cell_bytes_at(shadow_cell(1, 2), 0, number8(2))),
            (refusal(27, 3, 4), "array",
             cell_bytes_at(shadow_cell(1, 4), 0, number8(0))),
            *late,
            (refusal(29, 3), "array", cell_bytes_at(519, 9, b"\x01")),
        ])
        equal("recovery without a defect",
              recover_call(KEYS, UNLIMITED, module)[0],
              Answer("done", 0, 3, 6, 0))


def with_stored(module, line, minor, phase):
    """The module with another stored minor and phase of a line."""
    array = with_stored_minor(module.control[5], module.array, line, minor)
    return module._replace(array=cell_patched(array, line, 64, bytes([phase])))


def with_tag(module, line, stored, minor):
    """Without a phase byte: the module with another stored minor of a line,
    and its cell that of a minor."""
    h = module.control[5]
    array = with_stored_minor(h, module.array, line, stored)
    return module._replace(array=resealed(h, array, line, minor))


def modules_to_damage(family):
    """At each depth a module whose counter slots list these pages, and lines
    of them in the sequence of recovery."""
    for depth, listed in ((1, (4, 5, 2, 7)), (2, (4, 9, 2, 63)),
                          (3, (508, 9, 2, 3))):
        module = written(depth, *(64 * page + 9 for page in listed),
                         family=family)
        equal("recovery before damage", recover_call(KEYS, 0, module)[0],
              Answer("done", 0, 0, 4, 0))
        yield depth, module, [64 * page + place for page in listed
                              for place in (0, 1, 30, 63)]
        for line in (0, 63):
            hurt = module._replace(array=cell_patched(
                module.array, line, 64, b"\x04"))
            equal("line %d of a page that is not listed" % line,
                  recover_call(KEYS, 0, hurt)[0].kind, "done")


def test_damaged_lines():
    """28 and 32 with the first line, by slot and then by line; the phase of
    a line comes before its minor."""
    phase, minor = (0, 4), (127, 2)
    for depth, module, in_sequence in modules_to_damage(0):
        for place, line in enumerate(in_sequence):
            for later in in_sequence[place + 1:] + [None]:
                for pair, number in ((phase, 28), (minor, 32)):
                    hurt = with_stored(module, line, *pair)
                    if later is not None:
                        hurt = with_stored(hurt, later, *(
                            phase if number == 32 else minor))
                    equal("lines %d, %s of depth %d" % (line, later, depth),
                          recover_call(KEYS, 0, hurt),
                          (refusal(number, first=line), hurt))
            for both in ((127, 4), (126, 5), (127, 254), (125, 128), (0, 255)):
                hurt = with_stored(module, line, *both)
                equal("minor %d, phase %d" % both,
                      recover_call(KEYS, 0, hurt)[0], refusal(28, 0, line))
            for good in ((124, 3), (125, 1), (126, 2), (127, 3)):
                hurt = with_stored(module, line, *good)
                check("minor %d, phase %d" % good,
                      recover_call(KEYS, 0, hurt)[0].number in (0, 29))


def test_damaged_tags():
    """Without a phase byte: 33 with the first line, by slot and then by line;
    where one candidate fits, the minor is brought forward to it."""
    for depth, module, in_sequence in modules_to_damage(1):
        for place, line in enumerate(in_sequence):
            for later in in_sequence[place + 1:] + [None]:
                hurt = with_tag(module, line, 0, 4)
                if later is not None:
                    hurt = with_tag(hurt, later, 5, 4)
                equal("lines %d, %s of depth %d" % (line, later, depth),
                      recover_call(KEYS, 0, hurt),
                      (refusal(33, first=line), hurt))
            for stored, minor in ((0, 4), (1, 0), (5, 4), (5, 9), (124, 128),
                                  (125, 128), (127, 126), (127, 128)):
                equal("minor %d, tag of %d" % (stored, minor), recover_call(
                    KEYS, 0, with_tag(module, line, stored, minor))[0],
                    refusal(33, first=line))
            for stored, minor in ((0, 1), (0, 3), (5, 5), (5, 8), (124, 127),
                                  (126, 127), (127, 127)):
                hurt, page = with_tag(module, line, stored, minor), line // 64
                check("minor %d, tag of %d" % (stored, minor),
                      recover_call(KEYS, 0, hurt)[0].number in (0, 29))
                block = model.array_node(depth, hurt.array, 0, page)
                fault, forward = model.forwarded_block(
                    KEYS, 1, page, block, model.page_cells(hurt.array, page))
                equal("brought forward", (fault, minors_of(forward)[line % 64]),
                      (None, minor))


def with_tag_bits(bits, action):
    model.set_tag_bits(bits)
    try:
        action()
    finally:
        model.set_tag_bits(64)


def cell_that_fits(line, minor, wanted):
    """A text, and its cell at a minor, that fits just these candidates of the
    stored minor 0, where tags have few bits."""
    for number in range(1 << 16):
        text = number8(number) * 8
        cell = model.data_cell(KEYS, 1, text, line, 0, minor)
        if model.fitting(KEYS, cell, line, 0, 0) == wanted:
            return text, cell


def quiet_lines():
    """Of each counter slot a line on whose page no line, being blank, fits
    another candidate than 0."""
    found = {}
    for page in range(8):
        if all(model.fitting(KEYS, bytes(72), line, 0, 0) == [0]
               for line in range(64 * page, 64 * page + 64)):
            found.setdefault(page % 4, 64 * page + 20)
    return [found[slot] for slot in sorted(found)]


def test_several_fit():
    """34, with tags of few bits."""
    with_tag_bits(10, pairs_that_fit)
    with_tag_bits(10, several_lines)
    with_tag_bits(10, several_pending)
    with_tag_bits(3, blank_that_fits)


def pairs_that_fit():
    """Candidates that fit beside the right one, and those that do not."""
    line = quiet_lines()[0]
    for minor, wanted in ((1, [1]), (1, [1, 2]), (1, [1, 3]), (2, [2]),
                          (2, [1, 2]), (2, [2, 3]), (3, [1, 3]), (3, [3])):
        module = written(1, *[line] * (minor - 1), family=1)
        text, _ = cell_that_fits(line, minor, wanted)
        _, module = write_call(KEYS, line, text, UNLIMITED, module)
        junk = module._replace(cache=b"\x77" * cache_length(1))
        equal("text at %d that fits %s" % (minor, wanted),
              recover_call(KEYS, 0, junk), (refusal(34, first=line), junk)
              if len(wanted) > 1 else recover_call(KEYS, 0, module))
        equal("sum at %d that fits %s" % (minor, wanted),
              recover_call(KEYS, 0, junk)[0].first,
              line if len(wanted) > 1 else minor)
        equal("lines in doubt",
              model.lines_in_doubt(KEYS, junk, {line: minor}),
              [line] if len(wanted) > 1 else [])


def several_lines():
    """Lines on the pages of three slots, each of which fits one candidate,
    two or none: the first that does not fit one is told."""
    places = quiet_lines()[:3]
    equal("lines on pages of different slots", len(places), 3)
    module = written(1, *places, family=1)
    kinds = {0: (1, [1]), 33: (4, []), 34: (1, [1, 2])}
    for chosen in product(kinds, repeat=3):
        array = module.array
        for line, kind in zip(places, chosen):
            _, cell = cell_that_fits(line, *kinds[kind])
            array = cell_patched(array, line, 0, cell)
        faults = [(kind, line) for line, kind in zip(places, chosen) if kind]
        hurt = module._replace(array=array)
        wanted = refusal(faults[0][0], first=faults[0][1]) if faults else (
            Answer("done", 0, 0, 3, 0))
        equal("lines that end it: %s" % faults,
              recover_call(KEYS, 0, hurt)[0], wanted)


def several_pending():
    """The cell that fits two candidates is pending; on an open page it is
    not looked at."""
    line, other = quiet_lines()[:2]
    module = written(1, line, other, family=1)
    text, _ = cell_that_fits(line, 2, [2, 3])
    answer, cut = write_call(KEYS, line, text, 2, module)
    equal("pending write", answer, Answer("cut", 0, 2, 0, 0))
    late_refusal(refusal(34, 3, line), KEYS, **cut._asdict())
    equal("lines in doubt", model.lines_in_doubt(KEYS, cut, {line: 2,
                                                             other: 1}), [line])
    _, whole = write_call(KEYS, line, text, UNLIMITED, module)
    for page, wanted in ((line // 64, Answer("done", 0, 0, 1, 0)),
                         (other // 64, refusal(34, first=line))):
        stored = opened(block_stored(1, whole, page), page, 1)
        equal("page %d open" % page, recover_call(KEYS, 0, stored)[0], wanted)


def blank_that_fits():
    """A blank line whose zero cell fits a minor above 0 too."""
    line = next(line for line in range(512) if model.fitting(
        KEYS, bytes(72), line, 0, 0) != [0])
    first = line // 64 * 64
    module = read_call(KEYS, first, UNLIMITED, OUTPUT, formatted(1, 1))[1]
    equal("blank line", recover_call(KEYS, 0, module)[0],
          refusal(34, first=line))


def test_list_refusals():
    def check_refused(wanted, output, control, cache):
        equal("list refusal", dirty_list_call(output, control, cache),
              (wanted, output))

    _, module = pending_write()
    inputs = {"output": b"\x01" * 32, "control": module.control,
              "cache": module.cache}
    peeled(check_refused, inputs, [
        (refusal(3), "control", short),
        (refusal(21), "control", bytes_at(6, b"\x02")),
        (refusal(5), "cache", longer),
        (refusal(7), "output", longer),
        (refusal(23), "cache", bytes_at(8, b"\x02")),
    ])
    equal("list without a defect", dirty_list_call(**inputs),
          (Answer("done", 0, 0, 0, 0),
           number8(0) + number8(1) + b"\xff" * 16))


def test_bad_top():
    """With a shadow that lists nothing the array's top must give the root."""
    fresh = formatted(1)
    bad_top = fresh._replace(array=cell_patched(fresh.array, 520, 3, b"\x07"))
    bad_root = fresh._replace(control=patched(fresh.control, 7, bytes(8)))
    for module in (bad_top, bad_root):
        equal("top of the array", recover_call(KEYS, UNLIMITED, module)[0],
              refusal(29))
        equal("top on the path",
              read_call(KEYS, 9, UNLIMITED, OUTPUT, module)[0],
              refusal(24, first=1))


def test_bad_nodes():
    deep = formatted(3)
    for level, index in ((3, 0), (2, 6), (1, 53), (0, 427)):
        module = deep._replace(array=cell_patched(
            deep.array, node_cell(3, level, index), 63, b"\x80"))
        equal("bad node of level %d" % level,
              write_call(KEYS, 64 * 427 + 9, OUTPUT, 0, module)[0],
              refusal(24, first=level, second=index))


def test_bad_shadows():
    for depth, slot, owner, place in (
            (1, 5, 2, 5), (1, 4, 2, 4), (1, 3, 4, 4), (1, 3, 12, 3),
            (2, 0, 61, 6), (2, 4, 7, 6), (2, 4, 9, 4), (2, 5, 1, 5),
            (2, 7, 2, 7), (3, 6, 7, 8), (3, 9, 2, 9), (3, 2, 511, 8),
            (3, 8, 2**63, 8)):
        module = formatted(depth)
        module = module._replace(array=cell_patched(
            module.array, shadow_cell(depth, slot), 0, number8(owner)))
        equal("shadow of slot %d, owner %d, depth %d" % (slot, owner, depth),
              recover_call(KEYS, 0, module)[0], refusal(27, first=place))


def test_bad_control_records():
    base = two_pages()
    for offset, piece in ((3, b"J"), (3, b"M"), (0, b"NGIP"), (4, b"\x00"), (4, b"\x02"),
                          (5, b"\x00"), (5, b"\x04"), (6, b"\x00"),
                          (15, b"\x09"), (15, b"\xff")):
        module = base._replace(control=patched(base.control, offset, piece))
        equal("control byte %d" % offset,
              recover_call(KEYS, UNLIMITED, module)[0].number, 21)
    ignored = patched(base.control, 24 + 80, number8(2**64 - 1))
    for count, wanted in ((0, 0), (1, 0), (2, 21)):
        control = patched(ignored, 15, bytes([count]))
        equal("cell number in an unused place, count %d" % count,
              dirty_list_call(bytes(32), control, base.cache)[0].number,
              wanted)


def test_open_sections():
    """Count, page and mask at bytes 664, 665 and 673."""
    for depth in (1, 2, 3):
        fresh = formatted(depth)
        for section, wanted in (
                (b"\x02" + bytes(8) + number8(1), 21),
                (b"\xff" * 17, 21),
                (b"\x01" + number8(8**depth) + number8(1), 21),
                (b"\x01" + number8(2**64 - 1) + number8(1), 21),
                (b"\x01" + bytes(16), 21),
                (b"\x00" + b"\xff" * 16, 0),
                (b"\x00" + bytes(16), 0),
                (b"\x01" + number8(8**depth - 1) + number8(1), 0),
                (b"\x01" + bytes(8) + number8(2**63), 0)):
            module = fresh._replace(control=fresh.control[:664] + section)
            found = (read_call(KEYS, 64, UNLIMITED, OUTPUT, module)[0],
                     write_call(KEYS, 64, OUTPUT, UNLIMITED, module)[0],
                     recover_call(KEYS, UNLIMITED, module)[0],
                     dirty_list_call(bytes(32), module.control,
                                     module.cache)[0])
            equal("section %s" % section.hex(),
                  [answer.number for answer in found], [wanted] * 4)


def test_open_page():
    """An open page is not read, and recovery takes its block as it is."""
    module = opened(written(1, 0, 0, 0, 0, 64, 64, 129), 0, 1)
    block = counter_block(0, [4] + [0] * 63)
    equal("block in the array", module.array[72 * 512:72 * 512 + 64], block)
    for line, number in ((0, 30), (5, 30), (63, 30), (64, 0), (511, 0)):
        for answer in (read_call(KEYS, line, UNLIMITED, OUTPUT, module)[0],
                       write_call(KEYS, line, OUTPUT, UNLIMITED, module)[0]):
            equal("call on line %d, page 0 open" % line, answer.number, number)
    for line, phase in ((0, 1), (1, 4), (2, 255), (63, 3)):
        module = module._replace(array=cell_patched(
            module.array, line, 64, bytes([phase])))
    answer, after = recover_call(KEYS, 0, module)
    equal("recovery of an open page", answer, Answer("done", 0, 0, 3, 0))
    equal("slot of an open page", after.cache[:73],
          number8(1) + b"\x01" + block)
    equal("media after it", after[:2], module[:2])
    equal("recovery of the same page, not open",
          recover_call(KEYS, 0, opened(module, 2, 1))[0],
          refusal(28, first=1))
    for pair, number in (((0, 4), 28), ((127, 1), 32)):
        for line in (64, 127, 128, 191):
            equal("damage on another page",
                  recover_call(KEYS, 0, with_stored(module, line, *pair))[0],
                  refusal(number, first=line))
    behind = opened(written(1, 64, 0, 0), 0, 1)
    equal("an open page whose block is behind",
          recover_call(KEYS, 0, behind)[0], refusal(29))
    unlisted = opened(written(1, 0, 0, 0, 0, 256), 0, 1)
    answer, after = recover_call(KEYS, 0, unlisted)
    equal("an open page that no slot has", answer,
          Answer("done", 0, 0, 1, 0))


def test_open_worn_page():
    """In a turn of worn lines a turned one has phase 1 and its old minor is
    stored, which that phase would bring past 127; without a phase byte its
    tag fits no candidate."""
    rows = tuple((line, 127, text_of(line)) for line in (64, 66, 127))
    for family, number in ((0, 32), (1, 33)):
        _, module = write_call(KEYS, 0, OUTPUT, UNLIMITED,
                               settled(1, rows, 0, family))
        for allowance, pending in ((9, 0), (3, 4)):
            answer, module = turn_call(KEYS, 1, allowance, module)
            equal("cut turn of worn lines", answer,
                  Answer("cut", 0, allowance, 0, 0))
            for turn, wanted in (
                    (module.control[664:], Answer("done", 0, pending, 1, 0)),
                    (bytes(17), refusal(number, pending, 64))):
                control = module.control[:664] + turn
                equal("recovery, page 1 open or not", recover_call(
                    KEYS, UNLIMITED, module._replace(control=control))[0],
                    wanted)


def test_open_page_without_phases():
    """Without a phase byte: an open page's data cells are not read."""
    module = opened(written(1, 0, 0, 0, 0, 64, 64, 129, family=1), 0, 1)
    for line in (0, 1, 63):
        module = module._replace(array=cell_patched(
            module.array, line, 60, b"\xee" * 12))
    answer, after = recover_call(KEYS, 0, module)
    equal("recovery of an open page", answer, Answer("done", 0, 0, 3, 0))
    equal("slot of an open page", after.cache[:73],
          number8(1) + b"\x01" + counter_block(0, [4] + [0] * 63))
    equal("recovery of the same page, not open",
          recover_call(KEYS, 0, opened(module, 2, 1))[0], refusal(33))
    for line in (64, 127, 128, 191):
        equal("damage on another page",
              recover_call(KEYS, 0, with_tag(module, line, 0, 4))[0],
              refusal(33, first=line))


def test_bad_caches():
    base = two_pages()
    for slot, owner, dirty, wanted in (
            (2, 0, 1, 23), (2, 3, 0, 0), (2, 3, 1, 0), (2, 3, 2, 23),
            (2, 2, 0, 23), (2, 7, 0, 0), (2, 11, 0, 23), (3, 2**64 - 1, 0, 23),
            (5, 1, 0, 23), (5, 2, 0, 23), (4, 0, 0, 23), (4, 3, 0, 23)):
        cache = patched(base.cache, 73 * slot,
                        number8(owner) + bytes([dirty]))
        module = base._replace(cache=cache)
        equal("slot %d of owner %d" % (slot, owner),
              read_call(KEYS, 0, UNLIMITED, OUTPUT, module)[0].number, wanted)


# ---- C side ----

def test_c_side():
    full = b"\xee" * 24
    for answer, code, numbers in (
            (Answer("done", 0, 5, 0, 0), 0, (5, 0, 0)),
            (Answer("done", 0, 3, 6, 0), 0, (3, 6, 0)),
            (Answer("blank", 0, 7, 0, 0), 1, (7, 0, 0)),
            (Answer("cut", 0, 4, 0, 0), 2, (4, 0, 0)),
            (Answer("refused", 24, 0, 2, 63), 124, (0, 2, 63)),
            (Answer("refused", 27, 5, 4, 0), 127, (5, 4, 0)),
            (Answer("refused", 32, 5, 511, 0), 132, (5, 511, 0)),
            (Answer("refused", 33, 3, 64, 0), 133, (3, 64, 0)),
            (Answer("refused", 34, 0, 1, 0), 134, (0, 1, 0))):
        equal("C side of %r" % (answer,), for_c(full, answer),
              (code, b"".join(number8(n) for n in numbers)))
        for length in (0, 23, 25):
            equal("C side, %d bytes" % length,
                  for_c(bytes(length), answer), (107, bytes(length)))


# ---- Stores ----

def test_stores_one_by_one():
    """Each further unit of allowance makes exactly the next store."""
    module = written(1, 256, 256, 256, 0)
    whole, after = write_call(KEYS, 256, text_of(77), UNLIMITED, module)
    batch = model.queue_of(patched(after.control, 15, b"\x04"))
    equal("cells of the batch", [cell for cell, _ in batch],
          [512, shadow_cell(1, 0), 516, 256])
    array, control = bytearray(module.array), bytearray(module.control)
    new_root = after.control[7:15]
    for k in range(12):
        answer, state = write_call(KEYS, 256, text_of(77), k, module)
        equal("state after %d stores" % k, (state.array, state.control),
              (bytes(array), bytes(control)))
        if k < 11:
            equal("cut %d" % k, (answer, state.cache),
                  (Answer("cut", 0, k, 0, 0), module.cache))
        if k < 4:
            cell, data = batch[k]
            control[24 + 80 * k:104 + 80 * k] = number8(cell) + data
        elif k == 4:
            control[15:24] = bytes([4]) + new_root
        elif k < 9:
            cell, data = batch[k - 5]
            array[72 * cell:72 * cell + 72] = data
        elif k == 9:
            control[7:15] = new_root
        else:
            control[15] = 0
    equal("done at 11", (answer, state), (Answer("done", 0, 11, 0, 0), after))
    equal("whole write", whole, answer)


def test_turn_stores_one_by_one():
    module = written(1, 256, 257, 256, 258, 0)
    module = module._replace(control=patched(module.control, 665, b"\xee" * 16))
    _, after = turn_call(KEYS, 4, UNLIMITED, module)
    old, new = counter_block(0, [2, 1, 1]), counter_block(1, [1, 1, 1])

    def turned(line):
        return line, after.array[72 * line:72 * line + 72]

    root = module.control[7:15]
    batches = [
        ([(512, counter_block(0, [1]) + bytes(8)),
          (shadow_cell(1, 0), number8(5) + bytes(64)),
          (516, old + bytes(8)), turned(256)], root,
         b"\x01" + number8(4) + number8(6)),
        ([turned(257)], root, b"\x01" + number8(4) + number8(4)),
        ([(516, new + bytes(8)), turned(258)], after.control[7:15], bytes(17)),
    ]
    array, control = bytearray(module.array), bytearray(module.control)
    states = [(bytes(array), bytes(control))]

    def note():
        states.append((bytes(array), bytes(control)))

    for batch, new_root, section in batches:
        for j, (cell, data) in enumerate(batch):
            control[24 + 80 * j:104 + 80 * j] = number8(cell) + data
            note()
        control[15:24] = bytes([len(batch)]) + new_root
        control[664:681] = section
        note()
        for cell, data in batch:
            array[72 * cell:72 * cell + 72] = data
            note()
        control[7:15] = new_root
        note()
        control[15] = 0
        note()
    equal("number of stores", len(states) - 1, 11 + 5 + 7)
    for k, wanted in enumerate(states):
        answer, state = turn_call(KEYS, 4, k, module)
        equal("turn after %d stores" % k, state[:2], wanted)
        if k < 23:
            equal("cut turn %d" % k, (answer, state.cache),
                  (Answer("cut", 0, k, 0, 0), module.cache))
    equal("turn done at 23", (answer, state),
          (Answer("done", 0, 23, 0, 0), after))


def test_batch_bound():
    for depth, others, wanted in ((1, 256, 11), (2, 1024, 15), (3, 8192, 19)):
        module = written(depth, 0, 0, 0, others)
        answer, _ = write_call(KEYS, 0, text_of(1), UNLIMITED, module)
        equal("largest batch of depth %d" % depth, answer.stores, wanted)


# ---- Histories ----

WRITE = ("write", KEYS, 0, text_of(1), UNLIMITED)
CUT_WRITE = ("write", KEYS, 0, text_of(2), 2)
JUNK = b"\xc3" * cache_length(1)


def test_forbidden_lists():
    forbidden = {
        "done format": [("format", KEYS, 1, 0)],
        "done format of the other family": [("format", KEYS, 1, 1)],
        "read after a cut": [("power_cut", JUNK),
                             ("read", KEYS, 0, UNLIMITED, OUTPUT)],
        "list after a cut": [WRITE, CUT_WRITE, ("list", bytes(32))],
        "refused format after a cut": [("power_cut", JUNK),
                                       ("format", KEYS, 0, 0)],
        "write after a cut recovery": [WRITE, CUT_WRITE, ("recover", KEYS, 1),
                                       WRITE],
        "cache length": [("power_cut", JUNK + b"\x00")],
        "other keys, blank read": [WRITE, ("read", OTHER_TAG, 1, UNLIMITED,
                                           OUTPUT)],
        "other keys, done read": [WRITE, ("read", OTHER_PAD, 0, UNLIMITED,
                                          OUTPUT)],
        "other keys, done recovery": [WRITE, ("recover", OTHER_PAD, 0)],
        "other keys, cut recovery": [WRITE, CUT_WRITE,
                                     ("recover", OTHER_TAG, 0)],
        "other keys, refused recovery with stores": [
            WRITE, CUT_WRITE, ("recover", OTHER_TAG, UNLIMITED)],
        "turn after a cut": [WRITE, CUT_WRITE, ("turn", KEYS, 0, 0)],
        "read after a cut turn": [WRITE, ("turn", KEYS, 0, 3),
                                  ("read", KEYS, 64, UNLIMITED, OUTPUT)],
        "other keys, done turn": [WRITE, ("turn", OTHER_PAD, 0, UNLIMITED)],
        "unknown event": [("erase", KEYS)],
        "page": [("turn", KEYS, 2**64, 0)],
        "family": [("format", KEYS, 1, 2**64)],
        "allowance": [("recover", KEYS, 2**64)],
    }
    for what, events in forbidden.items():
        for family in (0, 1):
            raises_value_error(what, lambda e=events, f=family: run_history(
                KEYS, 1, e, f))
    raises_value_error("depth", lambda: run_history(KEYS, 4, []))
    raises_value_error("no family", lambda: run_history(KEYS, 1, [], 2))
    raises_value_error("keys", lambda: run_history(KEYS[:47], 1, []))


def test_allowed_list():
    events = [
        WRITE, ("format", KEYS, 3, 0), ("format", b"", 1, 0),
        ("format", OTHER_TAG, 2**64 - 1, 0), ("format", KEYS, 1, 2),
        ("format", KEYS, 3, 1), ("format", KEYS[:47], 1, 1),
        ("format", OTHER_TAG, 1, 2**64 - 1), ("list", b""),
        ("read", b"k", 0, 0, OUTPUT), ("read", OTHER_TAG, 0, 0, OUTPUT),
        ("write", OTHER_TAG, 64, text_of(3), 0),
        ("turn", OTHER_TAG, 0, 0), ("turn", KEYS + KEYS, 0, 0),
        ("turn", KEYS, 8, 0), ("turn", KEYS, 0, UNLIMITED),
        ("recover", OTHER_TAG, 0), ("recover", KEYS + KEYS, 0), CUT_WRITE,
        ("recover", KEYS[:5], 0), ("power_cut", JUNK), ("recover", KEYS, 1),
        ("power_cut", JUNK), ("recover", KEYS, UNLIMITED), ("list", bytes(32)),
        ("recover", KEYS, 0)]
    for family in (0, 1):
        attempt("allowed list of family %d" % family,
                lambda f=family: run_history(KEYS, 1, events, f))


def tampered(change):
    """Check the clauses after a recovery and then a change."""
    history = History(KEYS, 1)
    for line in (0, 0, 256, 0):
        history.step(("write", KEYS, line, text_of(line + 1), UNLIMITED))
    answer, _ = history.step(("recover", KEYS, UNLIMITED))
    change(history)
    history.check_recovered(answer.first)


def test_checker_bites():
    """A module that has been tampered with fails the clauses."""
    def book_count(history):
        history.counts[0] += 1

    def book_turns(history):
        history.turns[0] = 1

    def book_open(history):
        history.open, history.left = 1, [0]

    def book_text(history):
        history.texts[256] = text_of(200)

    def data_cell(history):
        history.module = history.module._replace(
            array=cell_patched(history.module.array, 256, 0, b"\x00\x00"))

    def top(history):
        history.module = history.module._replace(
            cache=patched(history.module.cache, 73 * 4 + 9 + 20, b"\x00\x00"))

    def root(history):
        history.module = history.module._replace(
            control=patched(history.module.control, 7, bytes(8)))

    attempt("nothing tampered with",
            lambda: tampered(lambda history: None))
    for change in (book_count, book_turns, book_open, book_text, data_cell,
                   top, root):
        try:
            tampered(change)
        except AssertionError:
            check("tampering seen", True)
        else:
            check("tampering not seen: " + change.__name__, False)


def recovery_after(change, family):
    """A recovery as the next event after a change to module or book."""
    history = History(KEYS, 1, family)
    for line in (0, 0, 256, 0):
        history.step(("write", KEYS, line, text_of(line + 1), UNLIMITED))
    change(history)
    return history.step(("recover", KEYS, UNLIMITED))[0]


def test_refused_recoveries_bite():
    """Of the refusals of a recovery the rule leaves 34 open, and only where
    another candidate than the count fits."""
    def other_cell(history):
        history.module = history.module._replace(
            array=cell_patched(history.module.array, 256, 0, bytes(70) + b"ab"))

    def other_shadow(history):
        history.module = history.module._replace(
            array=cell_patched(history.module.array, shadow_cell(1, 1), 0,
                               number8(1)))

    for change, family in ((other_cell, 1), (other_shadow, 0),
                           (other_shadow, 1)):
        try:
            recovery_after(change, family)
        except AssertionError:
            check("refused recovery seen", True)
        else:
            check("refused recovery not seen: " + change.__name__, False)
    with_tag_bits(10, refused_in_doubt)


def refused_in_doubt():
    """34 with another candidate beside the count is allowed, and what is not
    awaited before is not awaited after; the list goes on."""
    line, other = quiet_lines()[:2]
    text, _ = cell_that_fits(line, 1, [1, 2])
    history = History(KEYS, 1, 1)
    history.step(("write", KEYS, other, text_of(1), UNLIMITED))
    history.step(("write", KEYS, line, text, UNLIMITED))
    wanted = refusal(34, first=line)
    equal("recovery in doubt", history.step(("recover", KEYS, 0))[0], wanted)
    equal("a read goes on", history.step(
        ("read", KEYS, line, UNLIMITED, OUTPUT))[1], text)
    clear, _ = cell_that_fits(line, 2, [2])
    for again, events in ((False, []), (True, [("power_cut", JUNK)]),
                          (True, [("write", KEYS, line, text, 1)])):
        part = history.copy()
        for event in events:
            part.step(event)
        equal("recovery in doubt", part.step(("recover", KEYS, UNLIMITED))[0],
              wanted)
        equal("a recovery is awaited", part.after_cut, again)
        write = ("write", KEYS, line, clear, UNLIMITED)
        if again:
            raises_value_error("a write", lambda: part.step(write))
        else:
            part.step(write)
            equal("recovery after it", part.step(("recover", KEYS, 0))[0].kind,
                  "done")


def random_cache(rng, history):
    length = cache_length(history.depth)
    style = rng.randrange(3)
    if style == 0:
        return bytes(length)
    if style == 1:
        return history.module.cache
    return bytes(rng.randrange(256) for _ in range(length))


def random_keys(rng):
    style = rng.randrange(4)
    if style == 0:
        return KEYS[:rng.randrange(48)]
    if style == 1:
        return KEYS + bytes(1 + rng.randrange(4))
    return OTHER_TAG if style == 2 else OTHER_PAD


def random_event(rng, history, hot):
    keys = random_keys(rng) if rng.random() < 0.1 else KEYS
    allowance = rng.randrange(20) if rng.random() < 0.3 else UNLIMITED
    style = rng.random()
    if history.after_cut:
        if style < 0.2:
            return ("power_cut", random_cache(rng, history))
        if rng.random() < 0.4:
            allowance = rng.randrange(11)
        return ("recover", keys, allowance)
    line = rng.choice(hot)
    if rng.random() < 0.1:
        line = rng.randrange(lines(history.depth))
    if history.open is not None and rng.random() < 0.4:
        line = 64 * history.open + rng.randrange(3)
    if rng.random() < 0.04:
        line = lines(history.depth) + rng.choice((0, 1, 2**63))
    length = 64 if rng.random() < 0.96 else rng.choice((0, 63, 65))
    content = bytes([rng.randrange(256)]) * length
    if style < 0.1:
        if rng.random() < 0.6:
            allowance = rng.randrange(40)
        page = line // 64
        if history.open is not None and rng.random() < 0.9:
            other = rng.choice((0, 0, 1, 5))
            page = (history.open + other) % pages(history.depth)
        return ("turn", keys, page, allowance)
    if style < 0.55:
        return ("write", keys, line, content, allowance)
    if style < 0.75:
        return ("read", keys, line, allowance, content)
    if style < 0.82:
        return ("recover", keys, allowance)
    if style < 0.88:
        return ("list", bytes(32 if rng.random() < 0.8 else 31))
    if style < 0.92:
        return ("format", random_keys(rng) if rng.random() < 0.5 else KEYS,
                rng.choice((0, 1, 2, 3, 4, 2**64 - 1)),
                rng.choice((0, 1, 0, 1, 2, 255, 2**64 - 1)))
    return ("power_cut", random_cache(rng, history))


def check_step(history, before, event, answer, output):
    """What holds of every single event, not only after a recovery."""
    kind = event[0]
    if kind == "power_cut":
        return
    if answer.kind == "refused" and answer.stores == 0:
        model.claim(history.module == before, "module changed by a refusal")
    if answer.kind == "cut":
        model.claim(history.module.cache == before.cache, "cache at a cut")
        model.claim(answer.stores == event[{"read": 3, "write": 4, "turn": 3,
                                            "recover": 2}[kind]],
                    "stores of a cut")
    if kind == "read":
        line = event[2]
        wanted = {"done": history.texts.get(line), "blank": b"\xff" * 64}
        model.claim(output == wanted.get(answer.kind, event[4]),
                    "output of a read")
        if answer.kind == "blank":
            model.claim(line not in history.texts, "blank of a written line")
    if kind == "list" and answer.kind == "done":
        numbers = [model.number_at(output, 8 * i) for i in range(4)]
        found = model.slots_of_cache(history.module.cache)[:4]
        dirty = sorted(slot.owner - 1 for slot in found if slot.dirty)
        model.claim(numbers == dirty + [2**64 - 1] * (4 - len(dirty)),
                    "listed pages")


def random_history(seed, depth, family, length, hot_lines):
    rng = random.Random(seed)
    history = History(KEYS, depth, family)
    hot_pages = rng.sample(range(pages(depth)), 5)
    hot = [64 * rng.choice(hot_pages) + rng.randrange(3)
           for _ in range(hot_lines)]
    events = []
    seen = {}
    while len(events) < length:
        before = history.module
        event = random_event(rng, history, hot)
        try:
            answer, output = history.step(event)
        except ValueError:
            model.claim(history.module == before, "changed by a bad event")
            continue
        check_step(history, before, event, answer, output)
        events.append(event)
        name = event[0]
        if answer is not None:
            name += " " + answer.kind
            if answer.number:
                name += " %d" % answer.number
        seen[name] = seen.get(name, 0) + 1
    history.step(("power_cut", random_cache(rng, history)))
    answer, _ = history.step(("recover", KEYS, UNLIMITED))
    if depth == 1:
        history.check_recovered(answer.first, range(lines(1)))
    events += [("power_cut", bytes(cache_length(depth))),
               ("recover", KEYS, UNLIMITED)]
    again = run_history(KEYS, depth, events, family)
    model.claim((again.counts, again.texts, again.turns, again.open)
                == (history.counts, history.texts, history.turns,
                    history.open), "book of the same list")
    return seen


def test_random_histories():
    random_histories(0, ((1, 6, 120, 10), (2, 4, 100, 10), (3, 1, 60, 8)),
                     "recover refused 29")
    random_histories(1, ((1, 6, 120, 10), (2, 4, 100, 10), (3, 1, 60, 8)),
                     "recover refused 33")


def random_histories(family, rows, with_other_keys):
    seen = {}
    for depth, runs, length, hot in rows:
        for seed in range(runs):
            what = "random history %d at depth %d" % (seed, depth)

            def action(seed=seed, depth=depth, length=length, hot=hot):
                part = random_history(1000 * depth + seed, depth, family,
                                      length, hot)
                for name, count in part.items():
                    seen[name] = seen.get(name, 0) + count

            attempt(what, action)
    for name in ("write done", "write cut", "read done", "read blank",
                 "read cut", "turn done", "turn cut", "turn refused 2",
                 "turn refused 6", "turn refused 30", "read refused 30",
                 "write refused 30", "recover done", "recover cut", "list done",
                 "power_cut", "write refused 2", "write refused 6",
                 "write refused 7", "read refused 2", "read refused 6",
                 "read refused 7", "recover refused 2", with_other_keys,
                 "list refused 7", "format refused 1", "format refused 2",
                 "format refused 4"):
        check("random histories have no %s" % name, seen.get(name, 0) > 0)
    check("random histories have no refusal of other keys on the path",
          any(name in seen for name in ("read refused 24", "write refused 24",
                                        "read refused 25")))


def every_recovery(history, rounds):
    """Recover, and also cut each recovery at every store and go on."""
    ended = history.copy()
    ended.step(("recover", KEYS, UNLIMITED))
    ends = [ended]
    if rounds == 0:
        return ends
    allowance = 0
    while True:
        partly = history.copy()
        answer, _ = partly.step(("recover", KEYS, allowance))
        if answer.kind != "cut":
            return ends
        ends += every_recovery(partly, rounds - 1)
        allowance += 1


def every_cut(depth, family, first, other, rounds):
    """A write that evicts and reaches the stop-loss, cut at every store."""
    history = History(KEYS, depth, family)
    for line in (first, first, first, other):
        history.step(("write", KEYS, line, text_of(line + 1), UNLIMITED))
    last = ("write", KEYS, first, text_of(200))
    whole, after = write_call(*last[1:], UNLIMITED, history.module)
    cells_in_batch = (whole.stores - 3) // 2
    for k in range(whole.stores + 1):
        part = history.copy()
        answer, _ = part.step(last + (k,))
        model.claim(answer.kind == ("cut" if k < whole.stores else "done"),
                    "answer of cut %d" % k)
        if k == whole.stores:
            part.step(("power_cut", b"\xff" * cache_length(depth)))
        count = 4 if k > cells_in_batch else 3
        model.claim(part.counts[first] == count, "book of cut %d" % k)
        for ended in every_recovery(part, rounds):
            model.claim((ended.counts[first], ended.counts[other])
                        == (count, 1), "book after recovery")
            if count == 4:
                model.claim((ended.module.array, ended.module.control[7:15])
                            == (after.array, after.control[7:15]),
                            "array after cut %d" % k)
            else:
                model.claim(ended.module.array == history.module.array,
                            "array after cut %d" % k)
            model.claim(ended.module.control[15] == 0, "count")
            # Work goes on: evict what was recovered, and cut again.
            for line in (other, first + 1, first):
                ended.step(("write", KEYS, line, text_of(line + 50),
                            UNLIMITED))
            ended.step(("power_cut", bytes(cache_length(depth))))
            ended.step(("recover", KEYS, UNLIMITED))


def test_every_cut():
    attempt("every cut at depth 1", lambda: every_cut(1, 0, 256, 0, 2))
    attempt("every cut at depth 2", lambda: every_cut(2, 0, 0, 1024, 1))
    attempt("every cut at depth 3", lambda: every_cut(3, 0, 0, 8192, 0))
    attempt("every cut, family 1", lambda: every_cut(1, 1, 256, 0, 1))


def every_cut_of_a_turn(before, rounds, again):
    """A turn of page 4 cut at every store, recovered from, and resumed, so
    many times cut at every store again."""
    whole, _ = turn_call(KEYS, 4, UNLIMITED, before.module)
    lines_left = len(before.left) or len(before.counts) - 1
    last_cells = 2 if lines_left > 1 else (whole.stores - 3) // 2
    finishes = whole.stores - 3 - last_cells
    for k in range(whole.stores):
        part = before.copy()
        part.step(("turn", KEYS, 4, k))
        model.claim((part.turns.get(4, 0) > before.turns.get(4, 0))
                    == (k > finishes), "book of a turn cut after %d" % k)
        for ended in every_recovery(part, rounds):
            if ended.open is not None:
                model.claim(ended.open == 4, "open page")
                for refused in (("write", KEYS, 257, text_of(1), 0),
                                ("read", KEYS, 300, 0, OUTPUT),
                                ("turn", KEYS, 0, 0)):
                    model.claim(ended.step(refused)[0] == refusal(30), "30")
                ended.step(("write", KEYS, 0, text_of(k), UNLIMITED))
            if ended.open is not None and again:
                every_cut_of_a_turn(ended, 0, again - 1)
            if ended.turns.get(4, 0) == before.turns.get(4, 0):
                answer, _ = ended.step(("turn", KEYS, 4, UNLIMITED))
                model.claim(answer.kind == "done", "turn resumed")
            ended.step(("write", KEYS, 256, text_of(k), UNLIMITED))
            ended.step(("power_cut", bytes(cache_length(1))))
            ended.step(("recover", KEYS, UNLIMITED))
            model.claim(ended.counts[256] == 2, "count since the turn")


def test_every_cut_of_a_turn():
    for others, family in (((), 0), ((257,), 0), ((257, 319), 0), ((), 1),
                           ((257,), 1)):
        def action(others=others, family=family):
            history = History(KEYS, 1, family)
            for line in (256, 256, *others, 0):
                history.step(("write", KEYS, line, text_of(line), UNLIMITED))
            every_cut_of_a_turn(history, 1, 1)
        attempt("every cut of a turn, %d lines" % (1 + len(others)), action)


def test_worn_line():
    """A line up to its last minor, with cuts on the way; then its page is
    turned."""
    def action(family):
        history = History(KEYS, 1, family)
        for count in range(127):
            history.step(("write", KEYS, 70, text_of(count), UNLIMITED))
            if count % 5 == 0:
                history.step(("power_cut", bytes(cache_length(1))))
                history.step(("recover", KEYS, UNLIMITED))
        answer, _ = history.step(("write", KEYS, 70, text_of(1), 0))
        model.claim(answer == Answer("refused", 26, 0, 0, 0), "last minor")
        history.step(("power_cut", bytes(cache_length(1))))
        answer, _ = history.step(("recover", KEYS, UNLIMITED))
        model.claim(answer.first == 3, "sum for 127 writes")
        model.claim(history.counts == {70: 127}, "127 writes")
        history.step(("turn", KEYS, 1, UNLIMITED))
        model.claim(history.counts == {70: 1}, "count after a turn")
        history.step(("write", KEYS, 70, text_of(1), UNLIMITED))
        history.step(("power_cut", bytes(cache_length(1))))
        answer, _ = history.step(("recover", KEYS, UNLIMITED))
        model.claim(answer.first == 1, "sum after a turn")
    for family in (0, 1):
        attempt("worn line of family %d" % family, lambda f=family: action(f))


def main():
    for test in (test_primitives, test_arithmetic, test_candidates, test_bench,
                 test_format,
                 test_bytes_of_a_write, test_bytes_of_a_turn,
                 test_turn_batches, test_turn_again, test_dirty_slots,
                 test_format_refusals, test_read_refusals,
                 test_write_refusals, test_turn_refusals,
                 test_resumed_turns, test_recovery_refusals,
                 test_damaged_lines, test_damaged_tags, test_several_fit,
                 test_list_refusals, test_bad_top,
                 test_bad_nodes, test_bad_shadows, test_bad_control_records,
                 test_open_sections, test_open_page,
                 test_open_page_without_phases, test_open_worn_page,
                 test_bad_caches, test_c_side, test_stores_one_by_one,
                 test_turn_stores_one_by_one, test_batch_bound,
                 test_forbidden_lists, test_allowed_list, test_checker_bites,
                 test_refused_recoveries_bite,
                 test_random_histories, test_every_cut,
                 test_every_cut_of_a_turn, test_worn_line):
        try:
            test()
        except Exception as failure:
            check("%s: %r" % (test.__name__, failure), False)
    print("%d passed, %d failed" % (results["passed"], results["failed"]))
    return 1 if results["failed"] else 0


if __name__ == "__main__":
    sys.exit(main())
