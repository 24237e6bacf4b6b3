"""Writes the runs of the definitions that the must-fail edits of crate calls are held against, with what model.py answers and leaves.

usage: test_examples.py [--write]

Each run becomes a theorem of crates/calls/proofs/Examples.antt, proved by running the definitions. Without --write nothing is
written, and the script tells whether the file is what it makes, and so whether the model agrees with the definitions.
"""
import os
import sys

import model
from model import UNLIMITED
from states import KEYS, formatted

TOP = os.path.dirname(os.path.dirname(os.path.abspath(__file__)))
FILE = "crates/calls/proofs/Examples.antt"


# ---- terms

def runs(data):
    """data as pairs of a count of zeros and the bytes after them, cut at runs of twelve zeros or more."""
    found, at = [], 0
    while at < len(data):
        start = at
        while start < len(data) and data[start] == 0:
            start += 1
        end = start
        while end < len(data):
            stop = end
            while stop < len(data) and data[stop] == 0:
                stop += 1
            if stop - end >= 12 or stop == len(data):
                break
            end = max(stop, end + 1)
        found.append((start - at, data[start:end]))
        at = end
    return found


def octets(data):
    """The list of data, twenty to a line."""
    words = ["%d ∷" % b for b in data] + ["[]"]
    return "\n    ".join(" ".join(words[at:at + 20]) for at in range(0, len(words), 20))


def literal(data):
    parts = ["(%d, %s)" % (zeros, octets(some)) for zeros, some in runs(data)]
    return "sparse (%s)" % "\n    ∷ ".join(parts + ["[]"])


def listed_terms(terms):
    return "\n    ∷ ".join(terms + ["[]"])


def module_text(module):
    return "record {\n    array = %s;\n    control = %s;\n    cache = %s;\n    }" % tuple(literal(part) for part in module)


# ---- the runs: small, since a run that fails takes twice as long as one that does not

def before_eviction():
    """Line 256 is at minor 3, and its block's slot has page 0, dirty, with three written lines."""
    module = formatted(1)
    for line, byte in (256, 1), (256, 2), (256, 3), (0, 4), (1, 6), (2, 7):
        module = model.write_call(KEYS, line, bytes([byte]) * 64, UNLIMITED, module)[1]
    return module


def theorem(name, left, right, opened):
    return "\n%s :\n    %s\n    ≡ %s\nunfolding %s\n%s = refl\n" % (name, left, right, " ".join(["run sparse up_to", opened]).strip(), name)


def written(start):
    """A write with an eviction and a stop-loss store."""
    answer, after = model.write_call(KEYS, 256, bytes([5]) * 64, 19, start)
    assert answer == model.Answer("done", 0, 11, 0, 0)
    return theorem("written", "seen 256 (write (up_to 48 0) 256 (replicate 64 5) 19 start)",
                   "record { answer = Done 11 0; cache = %s; cell = %s }" % (
                       literal(after.cache), literal(after.array[72 * 256:72 * 257])), "seen start")


def rebuilding(array, control):
    return "rebuild_blocks 1 (up_to 48 0) (media %s %s)" % (array, control)


def rebuilt(start):
    """What a recovery after a power failure rebuilds: counter blocks, then nodes."""
    answer, module = model.recover_call(KEYS, 0, start._replace(cache=bytes(len(start.cache))))
    assert answer == model.Answer("done", 0, 0, 3, 0)
    owners = [slot.owner for slot in model.slots_of_cache(module.cache)]
    blocks = literal(module.cache[:4 * 73] + bytes(len(module.cache) - 4 * 73))
    return theorem("blocks", "%s 0 (%s) (empty_cache 1) 0" % (rebuilding("start.array", "start.control"), octets(owners[:4])),
                   "so_far (%s) 3" % blocks, "start") + theorem(
        "nodes", "rebuild_nodes 1 (up_to 48 0) start.array 4 (%s)\n    (%s)" % (octets(owners[4:]), blocks),
        literal(module.cache), "start")


def reads(start):
    """What a read answers and leaves in its output: of a blank line, cut, refused before the path and after it."""
    lent, damaged = bytes([7]) * 64, start._replace(array=bytes([9]) + start.array[1:])
    found = ""
    for name, line, module, term, wanted, told in (
            ("read-blank", 3, start, "start", model.Answer("blank", 0, 0, 0, 0), "Blank 0"),
            ("read-cut", 64, start, "start", model.Answer("cut", 0, 4, 0, 0), "Cut 4"),
            ("read_past", 512, start, "start", model.Answer("refused", 6, 0, 0, 0), "Refused 6 0 0 0"),
            ("read-damaged", 0, damaged, "\n    (record { array = set start.array 0 9; control = start.control; cache = start.cache })",
             model.Answer("refused", 25, 0, 0, 0), "Refused 25 0 0 0")):
        answer, _, output = model.read_call(KEYS, line, 4, lent, module)
        assert answer == wanted and output == output[:1] * 64
        found += theorem(name, "given (read (up_to 48 0) %d 4 (replicate 64 7) %s)" % (line, term),
                         "(%s, replicate 64 %d)" % (told, output[0]), "given start")
    return found


def batches(stores):
    """The batches of a turn's stores: cells, new root and section of each."""
    found, cells = [], []
    for target, pieces in stores:
        at, data = pieces[0]
        if target == "control" and at >= model.QUEUE_AT:
            cells.append((model.number_at(data, 0), data[8:]))
        elif len(pieces) == 2:
            found.append((cells, model.number_at(data, 1), pieces[1][1]))
            cells = []
    return found


def opened(start):
    """The control record with a turn of page 0 that has its lines 1 and 2 left."""
    section = bytes([1]) + model.number8(0) + model.number8(6)
    return start.control[:664] + section


def turned(start):
    """The batches of a turn of page 0, and of a resumed one; the last batch whole."""
    def shape(control):
        refusal, stores, _ = model.turn_stores(KEYS, 0, start._replace(control=control))
        assert refusal is None
        return batches(stores)

    def shapes(found):
        pairs = ["(%s, %s)" % (octets([number for number, _ in cells]), octets(section)) for cells, _, section in found]
        return "\n    ∷ ".join(pairs + ["[]"])

    def cell_text(cell):
        return "record { number = %d; bytes = %s }" % (cell[0], literal(cell[1]))

    whole, resumed = shape(start.control), shape(opened(start))
    cells, root, section = whole[-1]
    last = "record { cells = %s ∷ []; root = %d; section = %s } ∷ []" % (
        " ∷ ".join(cell_text(cell) for cell in cells), root, octets(section))
    resuming = "(record { array = start.array; control = open_control; cache = start.cache })"
    return (theorem("front", "turn_front 1 start.control start.cache 0 []", "%s ∷ []" % cell_text(whole[0][0][0]), "start")
            + theorem("turned", "shapes (turn_batches (up_to 48 0) 0 start start.cache [])", shapes(whole), "shapes start")
            + theorem("resumed", "shapes (turn_batches (up_to 48 0) 0\n    %s start.cache [])" % resuming, shapes(resumed),
                      "shapes start open_control")
            + theorem("last", "batches_of 1 0 (up_to 48 0) start.array start.cache 0 0 [] (2 ∷ [])", last, "start"))


def finished(start):
    """How many stores of a turn of page 0 come before the commit of its last batch."""
    _, stores, _ = model.turn_stores(KEYS, 0, start)
    before = max(k for k, store in enumerate(stores) if len(store.pieces) == 2)
    return theorem("finished", "before_last (turn_batches (up_to 48 0) 0 start start.cache [])", before, "start")


def rebuilt_open(start):
    """Recovery takes the block of an open page from the array."""
    answer, module = model.recover_call(KEYS, 0, start._replace(control=opened(start)))
    assert answer.number == 29
    block = model.array_node(1, start.array, 0, 0)
    slot = model.number8(1) + bytes([1]) + block
    return theorem("open_blocks", "%s 0 (1 ∷ 0 ∷ 0 ∷ 0 ∷ []) (empty_cache 1) 0" % rebuilding("start.array", "(open_control)"),
                   "so_far (%s) 0" % literal(slot + bytes(len(start.cache) - 73)), "start open_control")


def failing(start):
    """The line that ends a recovery, and what this answers: two faults on one line, on two, and on the pages of two slots."""
    shadow, block, next_block = (model.CELL * cell for cell in (522, 512, 513))
    pending = bytes([1]) + start.control[7:15] + model.number8(0) + start.array[:model.CELL]
    control = start.control[:15] + pending + start.control[15 + len(pending):]
    calls, ends, answers, told = [], [], [], []
    for pieces, owners, wanted in (
            ([(136, 5), (block + 9, 63)], (1, 0, 0, 0), (28, 3, 1, 0)),
            ([(208, 4), (block + 9, 63)], (1, 0, 0, 0), (32, 3, 1, 0)),
            ([(208, 4), (4672, 1), (next_block + 8, 126)], (1, 2, 0, 0), (28, 3, 2, 0))):
        array, term = bytearray(start.array), "start.array"
        for at, byte in pieces:
            array[at] = byte
            term = "(set %s %d %d)" % (term, at, byte)
        array[shadow] = owners[1]
        answer, _ = model.recover_call(KEYS, UNLIMITED, start._replace(array=bytes(array), control=control))
        assert answer == model.Answer("refused", *wanted)
        end = "failed %d %d" % (answer.number, answer.first)
        calls.append("%s\n    0 (%s) (empty_cache 1) 0" % (rebuilding(term, "start.control"), octets(owners)))
        ends.append(end)
        answers.append("(recover_rebuilt (up_to 48 0) %d start [] (%s)).answer" % (answer.stores, end))
        told.append("Refused %d %d %d %d" % answer[1:])
    return theorem("failing", listed_terms(calls), listed_terms(ends), "start") + theorem(
        "failing-told", listed_terms(answers), listed_terms(told), "start")


def chosen(start):
    """Where there is no phase byte: what none and several candidates give, and the step of line 1 whose cell is that of the last."""
    content = bytes([5]) * 64
    cell = content + model.data_side(KEYS, 1, content, 1, 3, 6)
    none, several, last = (model.choice(found) for found in ([], [5, 6], model.fitting(KEYS, cell, 1, 3, 3)))
    assert last == (None, 6)
    step = "line_step (record { family = 1; keys = up_to 48 0; array = replicate 72 0 ++ (%s); major = 3 }) 1 3" % literal(cell)
    return theorem("chosen", listed_terms(["by_choice None", "by_choice Several", step]),
                   listed_terms(["bad %d" % none[0], "bad %d" % several[0], "to %d" % last[1]]), "")


def judged(start):
    """A cache that is not formed is judged before a page that is open."""
    module = start._replace(control=opened(start), cache=bytes([9]) + start.cache[1:])
    assert model.read_call(KEYS, 0, 0, bytes(64), module)[0].number == 23
    assert model.turn_call(KEYS, 1, 0, module)[0].number == 23
    assert model.turn_call(KEYS, 1, 0, start._replace(control=opened(start)))[0].number == 30
    torn = "(record { array = start.array; control = open_control; cache = set start.cache 0 9 })"
    return "".join(theorem(name, call, number, "start open_control") for name, call, number in (
        ("read-judged", "access_refusal (up_to 48 0) 0 (replicate 64 0)\n    %s" % torn, 23),
        ("turn-judged", "turn_refusal (up_to 48 0) 1 %s" % torn, 23),
        ("other-judged", "turn_refusal (up_to 48 0) 1 (record { array = start.array; control = open_control; cache = start.cache })", 30)))


def listed(start):
    """A list of dirty pages whose slots do not have them in rising number, with one that is clean among them."""
    slots = [(5, 1), (2, 1), (7, 0), (4, 1), (1, 1), (0, 0)]
    cache = b"".join(owner.to_bytes(8, "little") + bytes([dirty]) + bytes(64) for owner, dirty in slots)
    answer, output = model.dirty_list_call(bytes(32), start.control, cache)
    assert answer == model.Answer("done", 0, 0, 0, 0)
    return theorem("listed", "dirty_pages start.control (%s) (replicate 32 0)" % literal(cache),
                   "record { answer = Done 0 0; output = %s }" % octets(output), "start")


HEAD = """\
-- Written by tests/test_examples.py: a write with an eviction and a stop-loss store, outputs of reads, the batches of a turn and of a
-- resumed one, what a recovery rebuilds, where a page is open too, the line that ends one, the step of a line without a phase byte,
-- refusals in sequence, and a list of dirty pages. Assumes nothing.
use mathlib.Core.Path.{◌≡◌, refl}
use mathlib.Core.List.{List, [], ◌∷◌, ◌++◌, map}
use Prim.Native.Nat.{ℕ, ◌*◌}
use lib.ListN.{replicate, set}
use Rattle.words.specs.Bytes.{part}
use Rattle.candidates.specs.declared.Choice.TheVariants.{None, Several}
use Rattle.answer.specs.declared.Answer.{Answer}
use Rattle.answer.specs.declared.Answer.TheVariants.{Done, Blank, Cut, Refused}
use Rattle.cache.specs.Cache.{empty_cache}
use Rattle.control.specs.Control.{Cell}
use Rattle.journal.specs.Journal.{media}
use Rattle.calls.specs.Call.{Module, Called, access_refusal}
use Rattle.calls.specs.Read.{Reading, read}
use Rattle.calls.specs.Write.{write}
use Rattle.calls.specs.Turn.{Batch, turn_refusal, turn_front, turn_batches, batches_of, before_last}
use Rattle.calls.specs.Recovery.{to, bad, by_choice, line_step, so_far, failed, rebuild_blocks, rebuild_nodes, recover_rebuilt}
use Rattle.calls.specs.DirtyPages.{dirty_pages}
use Rattle.calls.proofs.Run.{run}
use Rattle.calls.proofs.Sparse.{sparse, up_to}

-- what a call answers, and what it leaves in the cache and in one cell
record Seen : Type 0 where
  answer : Answer
  cache : List ℕ
  cell : List ℕ

seen : ℕ → Called → Seen
seen n c = record { answer = c.answer; cache = c.after.cache; cell = part c.after.array (72 * n) 72 }

-- what a read answers, and what it leaves in its output
given : Reading → Answer × List ℕ
given r = (r.called.answer, r.output)

-- the cell numbers of each batch, and its section
shapes : List Batch → List (List ℕ × List ℕ)
shapes bs = map (λ (b : Batch). (map (λ (c : Cell). c.number) b.cells, b.section)) bs

start : Module
start =
    %s

open_control : List ℕ
open_control =
    %s
"""


def plain(text):
    """The text without the layout that rt fmt gives it."""
    return "".join(text.split()).replace(",)", ")").replace(";}", "}")


def main(words):
    if words not in (["--write"], []):
        print(__doc__)
        return 2
    start = before_eviction()
    text = HEAD % (module_text(start), literal(opened(start)))
    for runs_of in written, reads, turned, finished, rebuilt, rebuilt_open, failing, chosen, judged, listed:
        text += runs_of(start)
    path = os.path.join(TOP, FILE)
    if words:
        with open(path, "w", encoding="utf-8") as f:
            f.write(text)
        return 0
    with open(path, encoding="utf-8") as f:
        same = plain(f.read()) == plain(text)
    if not same:
        print("%s is not what tests/test_examples.py makes" % FILE)
    print("examples: %d passed, %d failed" % (same, not same))
    return 0 if same else 1


if __name__ == "__main__":
    sys.exit(main(sys.argv[1:]))
