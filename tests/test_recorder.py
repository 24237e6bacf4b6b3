"""examples/recorder.c with the static library that NV_ARCHIVE names, on modules of both families: a recorder that is killed at any
time, a supply that fails at any store, and what the example must find out: libraries that lie, wrong keys, damage, an older copy."""

import os
import random
import re
import subprocess
import sys
import tempfile
import time

import model
from library import Library, Session, Tally

TOP = os.path.join(os.path.dirname(os.path.abspath(__file__)), "..")
INCLUDE = os.path.join(TOP, "include")
STRICT = ("-O2", "-Wall", "-Wextra", "-Wpedantic", "-Werror")
SEEDS = {0: range(1, 41), 1: range(41, 61)}  # of each family
KILLS = {0: 200, 1: 80}  # at least, and what they must find
FOUND = {0: {"pending": 2, "open": 3, "boots": 1, "records": 5000, "turns": 10},
         1: {"pending": 2, "open": 1, "boots": 1, "records": 2000, "turns": 4}}
PASS = 882  # records until a data row is written again
FOREVER = str(2**64 - 1)

# The file of a module.
MARK_AT, CONTROL_AT, ARRAY_AT = 48, 49, 49 + model.CONTROL_LENGTH

# Each takes the place of the call that it names first; a write's is found by `check`, the others by whoever calls them.
LIARS = (
    ("nv_write", "a write that is told as done and was not made", """
    static int calls, lied;
    if (++calls > 1900 && line % NV_PAGE_LINES != 0 && !lied) {
        lied = 1;
        memset(numbers, 0, numbers_len);
        return NV_DONE;
    }
    return nv_write(keys, keys_len, control, control_len, array, array_len, cache, cache_len, line, text, text_len,
                    allowance, numbers, numbers_len);"""),
    ("nv_read", "a read that gives an older text", """
    static uint8_t older[NV_LINES_1][NV_TEXT_LENGTH], known[NV_LINES_1];
    uint32_t code = nv_read(keys, keys_len, control, control_len, array, array_len, cache, cache_len, line, out, out_len,
                            allowance, numbers, numbers_len);
    if (code == NV_DONE && known[line] == 1)
        memcpy(out, older[line], NV_TEXT_LENGTH);
    if (code == NV_DONE && known[line] == 0)
        memcpy(older[line], out, NV_TEXT_LENGTH), known[line] = 1;
    return code;"""),
    ("nv_read", "a blank read with a zero at its end", """
    uint32_t code = nv_read(keys, keys_len, control, control_len, array, array_len, cache, cache_len, line, out, out_len,
                            allowance, numbers, numbers_len);
    if (code == NV_BLANK)
        out[NV_TEXT_LENGTH - 1] = 0;
    return code;"""),
    ("nv_turn", "a turn that is told as done and was not made", """
    (void)keys, (void)keys_len, (void)control, (void)control_len, (void)array, (void)array_len;
    (void)cache, (void)cache_len, (void)page, (void)allowance;
    memset(numbers, 0, numbers_len);
    return NV_DONE;"""),
    ("nv_recover", "a recovery that brings an older state back", """
    static uint8_t controls[NV_CONTROL_LENGTH], arrays[NV_ARRAY_LENGTH_1];
    static int calls;
    if (++calls == 100)
        memcpy(controls, control, control_len), memcpy(arrays, array, array_len);
    if (calls == 160)
        memcpy(control, controls, control_len), memcpy(array, arrays, array_len);
    return nv_recover(keys, keys_len, control, control_len, array, array_len, cache, cache_len, allowance, numbers,
                      numbers_len);"""),
)
# Those that a new process tells again, and so show in `run` and `check` too.
SHOWN_IN_RUNS = ("a write that is told as done and was not made", "a blank read with a zero at its end",
                 "a turn that is told as done and was not made")


def build(archive, work, name, *more, flags=STRICT):
    """The example as a program, with these words for the compiler."""
    program = os.path.join(work, name)
    command = ("cc", "-std=c99", *flags, "-I", INCLUDE, os.path.join(TOP, "examples", "recorder.c"), *more, archive, "-o", program)
    done = subprocess.run(command, capture_output=True, text=True)
    return program, done.returncode == 0 and not done.stderr, done.stderr


def run(program, *words):
    done = subprocess.run((program, *words), capture_output=True, text=True)
    return done.returncode, done.stdout, done.stderr


def content(path):
    with open(path, "rb") as file:
        return file.read()


def store(path, raw):
    with open(path, "wb") as file:
        file.write(raw)


def changed(raw, at, piece):
    return raw[:at] + piece + raw[at + len(piece):]


class Place:
    """A recorder's file and its witness, new."""

    def __init__(self, tally, program, work, family=0):
        self.tally, self.program, self.family = tally, program, family
        self.file, self.witness = os.path.join(work, "module"), os.path.join(work, "witness")
        self.format()

    def format(self):
        for path in (self.file, self.witness):
            if os.path.exists(path):
                os.remove(path)
        store(self.witness, bytes(8))
        self.expect(0, "format", self.file, *(("1",) if self.family else ()))
        self.tally.check(content(self.file)[CONTROL_AT:].startswith(model.MARKS[self.family]), "the family of a format")

    def record(self, records):
        self.expect(0, "run", self.file, str(records), self.witness)

    def expect(self, status, *words, saying=""):
        """Runs the example: with status 0 it says something and no fault, else a fault with these words and no result."""
        got, said, fault = run(self.program, *words)
        right = not fault if status == 0 else fault.startswith("recorder: ") and saying in fault
        self.tally.check(got == status and right, "%s: status %d, wanted %d: %s%s" % (" ".join(words), got, status, said, fault))
        return said

    def answered(self):
        return model.number_at(content(self.witness), 0)


def is_pending(raw):
    return raw[CONTROL_AT + model.COUNT_AT] != 0


def is_open(raw):
    return raw[CONTROL_AT + model.TURN_AT] != 0


def turns_finished(raw):
    """The sum of the majors that the array has: the last batch of a turn stores its page's block."""
    return sum(model.number_at(raw, ARRAY_AT + model.CELL * model.node_cell(1, 0, page)) for page in range(8))


# ---- Killed at any time ----

def kill(place, delay):
    """Starts `run`, kills it after so many seconds; gives the raw file."""
    process = subprocess.Popen((place.program, "run", place.file, FOREVER, place.witness), stdout=subprocess.DEVNULL,
                               stderr=subprocess.DEVNULL)
    time.sleep(delay)
    process.kill()
    status = process.wait()
    place.tally.check(status == -9, "run ended by itself with status %d" % status)
    return content(place.file)


def kills(tally, program, work, family):
    place, rng = Place(tally, program, work, family), random.Random(20261117)
    seen = dict.fromkeys(("kills", "boots", "pending", "open", "marked", "ahead", "torn", "records", "turns"), 0)
    while seen["kills"] < KILLS[family] or seen["pending"] < 2 and seen["kills"] < 800:
        before, turns = place.answered(), turns_finished(content(place.file))
        raw = kill(place, rng.uniform(0, 0.003 if rng.randrange(4) == 0 else 0.02))
        answered = place.answered()
        status, _, fault = run(program, "check", place.file, place.witness)
        seen["kills"] += 1
        seen["boots"] += answered == before
        seen["pending"] += is_pending(raw)
        seen["open"] += is_open(raw)
        seen["marked"] += raw[MARK_AT] != 0
        seen["ahead"] += place.answered() == answered + 1
        seen["records"] += answered - before
        seen["turns"] += turns_finished(raw) - turns
        tally.check(content(place.file) == raw, "check changed the file")
        tally.check(not is_open(raw) or raw[MARK_AT] == 1, "a page is open without the mark of a turn")
        if status == 3 and raw[MARK_AT] != 0:
            seen["torn"] += 1
            print("recorder: killed in a turn: %s" % fault.split("\n")[0])
            place.format()
            continue
        tally.check(status == 0, "after kill %d: status %d: %s" % (seen["kills"], status, fault))
    print("recorder: family %d: " % family
          + "killed %(kills)d times, %(boots)d before the first record of a run: %(pending)d found a batch pending, "
            "%(open)d a page open, %(marked)d the mark of a turn, %(ahead)d a record that was not yet answered, %(torn)d a torn "
            "commit; %(records)d records, %(turns)d turns finished" % seen)
    for what, least in FOUND[family].items():
        tally.check(seen[what] >= least, "family %d: kills: only %d %s" % (family, seen[what], what))


# ---- A supply that fails at any store ----

def seeds(tally, program, file, family):
    totals = [0] * 6
    for seed in SEEDS[family]:
        status, said, fault = run(program, "try", "%s.%d" % (file, seed), str(seed), *(("1",) if family else ()))
        tally.check(status == 0 and not fault, "recorder with seed %d: status %d %s" % (seed, status, fault))
        told = re.search(r"(\d+) turns of a worn row's page begun, (\d+) times resumed\n"
                         r"recorder: power failed (\d+) times in writes, (\d+) in reads, (\d+) in turns, (\d+) in recoveries", said)
        tally.check(told and all(int(n) >= 5 for n in told.groups()), "recorder with seed %d: %s" % (seed, said))
        totals = [a + int(b) for a, b in zip(totals, told.groups())] if told else totals
    print("recorder: family %d: %d runs, %d turns begun, %d times resumed, power failed %d times in writes, %d in reads, %d in "
          "turns, %d in recoveries" % (family, len(SEEDS[family]), *totals))


# ---- Lies ----

def lying_program(tally, archive, work, call, what, body):
    with open(os.path.join(INCLUDE, "nightvelvet.h")) as header:
        prototype = re.search(r"uint32_t %s\([^)]*\);" % call, header.read()).group(0).replace(call, "lying")
    source, lie = os.path.join(work, call + ".c"), os.path.join(work, call + ".o")
    with open(source, "w") as out:
        out.write('#include "nightvelvet.h"\n#include <string.h>\n%s\n%s\n{%s\n}\n' % (prototype, prototype[:-1], body))
    compiled = subprocess.run(("cc", "-std=c99", *STRICT, "-I", INCLUDE, "-c", source, "-o", lie), capture_output=True)
    program, built, said = build(archive, work, "with_lying_" + call, "-D%s=lying" % call, lie)
    tally.check(compiled.returncode == 0 and built, "building %s: %s %s" % (what, compiled.stderr, said))
    return program


def liars(tally, program, archive, work):
    for i, (call, what, body) in enumerate(LIARS):
        lying = lying_program(tally, archive, work, call, what, body)
        status, _, fault = run(lying, "try", os.path.join(work, "lie.%d" % i), "1", str(i % 2))
        tally.check(status == 1 and fault.startswith("recorder: "), "not found out: %s (status %d)" % (what, status))
        print("recorder: finds out %s: %s" % (what, fault.split("\n")[0]))
        if what not in SHOWN_IN_RUNS:
            continue
        place = Place(tally, program, work)
        status, _, fault = run(lying, "run", place.file, str(3 * PASS), place.witness)
        if call == "nv_write":
            tally.check(status == 0, "a lying write ends a run: %s" % fault)
            status, _, fault = run(program, "check", place.file, place.witness)
        tally.check(status == 1 and fault.startswith("recorder: "), "run: not found out: %s (status %d)" % (what, status))


# ---- Keys, torn commits, damage, an older copy ----

def session_on(raw, library):
    """The module of a file, after a recovery."""
    session = Session(library, 1, raw[:MARK_AT])
    session.load(model.Module(raw[ARRAY_AT:], raw[CONTROL_AT:ARRAY_AT], bytes(model.cache_length(1))))
    assert session.recover()[0] == 0
    return session


def file_of(raw, session, mark):
    return raw[:MARK_AT] + bytes([mark]) + session.get("control") + session.get("array")


def turn_cut(raw, library, page, stores):
    """The file after power failed in a turn after so many stores."""
    session = session_on(raw, library)
    assert session.turn(page, stores)[0] == 2
    return file_of(raw, session, 1)


def wrong_keys(tally, program, work, library, family):
    """A byte of the pad keys: the check row ends the boot, and nothing is stored but by recovery and the read of that row.
    A byte of the tag keys: the recovery is refused."""
    place = Place(tally, program, work, family)
    place.record(PASS + 118)
    whole = content(place.file)
    cut = [raw for raw in (turn_cut(whole, library, 3, stores) for stores in range(50, 60)) if is_open(raw)]
    states = {"whole": whole, "open": next(raw for raw in cut if not is_pending(raw)), "pending": next(filter(is_pending, cut))}
    for name, raw in states.items():
        status = 1 if name == "whole" else 3
        for at in (0, 13, 31, 32, 47):
            other = changed(raw, at, bytes([raw[at] ^ 1]))
            store(place.file, other)
            if at < 32:
                session = session_on(other, library)
                tally.check(session.read(0)[0] == 0, "wrong pad keys are refused")
                place.expect(status, "run", place.file, "0", saying="the pad keys are not this module's")
                tally.check(content(place.file) == file_of(other, session, raw[MARK_AT]), "%s: more than a read was stored" % name)
                store(place.file, raw[:MARK_AT] + content(place.file)[MARK_AT:])
                place.expect(0, "check", place.file, place.witness)
            else:
                place.expect(status, "run", place.file, "0", saying="recovery gave %d " % (129, 133)[family])
        store(place.file, raw)
        place.expect(0, "run", place.file, "500", place.witness)
        place.expect(0, "check", place.file, place.witness)
        store(place.witness, model.number8(PASS + 118))


def torn_commits(tally, program, work, library, family):
    """Inside the commit of a turn: the open page's lines without the count. With the mark that is told apart."""
    place = Place(tally, program, work, family)
    place.record(PASS)
    whole = content(place.file)
    section = slice(CONTROL_AT + model.TURN_AT, ARRAY_AT)
    cuts = [turn_cut(whole, library, 2, stores) for stores in range(session_on(whole, library).turn(2)[1])]
    commits = [(before, after) for before, after in zip(cuts, cuts[1:]) if before[section] != after[section]]
    tally.check(len(commits) == 64, "%d commits of a turn" % len(commits))
    for before, after in commits[::9]:
        torn = changed(before, section.start, after[section])
        for mark, status in ((1, 3), (0, 1)):
            store(place.file, changed(torn, MARK_AT, bytes([mark])))
            place.expect(status, "check", place.file)
            place.expect(status, "run", place.file, "1")
            tally.check(content(place.file)[MARK_AT] >= mark, "a boot that failed cleared the mark")
        for whole_commit in (before, after):
            store(place.file, whole_commit)
            place.expect(0, "check", place.file, place.witness)
            place.expect(0, "run", place.file, "0")
            tally.check(content(place.file)[MARK_AT] == 0, "a boot that was good left the mark")


def listed_pages(raw):
    """The pages that the shadow lists."""
    owners = (model.number_at(raw, ARRAY_AT + model.CELL * model.shadow_cell(1, slot)) for slot in range(model.COUNTER_SLOTS))
    return [owner - 1 for owner in owners if owner]


def damage(tally, program, work, family):
    place = Place(tally, program, work, family)
    place.record(300)
    older = content(place.file)
    place.record(300)
    raw = content(place.file)
    tally.check(4 in listed_pages(raw) and 1 not in listed_pages(raw), "listed are pages %s" % listed_pages(raw))
    unlisted, listed = (changed(raw, ARRAY_AT + model.CELL * line, b"\xa5" * 8) for line in (65, 257))
    found = ("read gave 125 (the line's data cell has", "recovery gave 133 (the line's data cell fits no counter), place 257, 0\n")
    for what, other, status, saying in (
            ("a data cell", unlisted, 1, "read gave 125 (the line's data cell has"),
            ("the same, marked", changed(unlisted, MARK_AT, b"\1"), 3, "place 65, 0\n"),
            ("a data cell of a listed page", listed, 1, found[family]),
            ("no module", raw[:CONTROL_AT] + bytes(len(raw) - CONTROL_AT), 1, "recovery gave 121 (the control record"),
            ("a cut file", raw[:-1], 1, "not of this recorder"),
            ("an older copy", older, 1, "the last record is 300, but 600 was")):
        store(place.file, other)
        place.expect(status, "check", place.file, place.witness, saying=saying)
        tally.check(content(place.file) == other, "check of %s changed the file" % what)
    place.expect(0, "check", place.file)  # an older copy, as the recorder alone sees it
    store(place.file, raw)
    place.expect(0, "check", place.file, place.witness)
    session = session_on(raw, Library())
    session.format(family)
    store(place.file, file_of(raw, session, 0))
    place.expect(1, "run", place.file, "1", saying="the check row is blank")


# ---- The command line ----

def command_line(tally, program, work):
    place = Place(tally, program, work)
    place.record(10)
    raw, absent = content(place.file), os.path.join(work, "none", "module")
    for words in (("format", place.file), ("format", place.file, "1"), ("try", place.file, "1"), ("try", place.file, "1", "0")):
        place.expect(1, *words, saying="exists, and format would destroy what it holds")
    for words in (("format", absent), ("run", absent), ("check", absent), ("try", absent, "1"),
                  ("check", place.file, os.path.join(work, "no witness"))):
        place.expect(1, *words, saying="No such file or directory")
    for words in ((), ("format",), ("format", place.file, "2"), ("format", place.file, ""), ("format", place.file, "1", "1"), ("run",),
                  ("run", place.file, "x"), ("run", place.file, "-1"), ("run", place.file, "2" * 20),
                  ("run", place.file, "1", place.witness, "1"), ("check",), ("check", place.file, place.witness, "1"),
                  ("try", place.file), ("try", place.file, "1 "), ("try", place.file, "1", "2"), ("try", place.file, "1", "1", "1"),
                  ("look", place.file)):
        status, said, fault = run(program, *words)
        tally.check(status == 2 and not said and fault.startswith("usage: ") and fault.count("\n") == 1,
                    "recorder %s: status %d, %s" % (" ".join(words), status, fault))
    tally.check(content(place.file) == raw, "a refused command changed the file")
    busy = subprocess.Popen((program, "run", place.file), stdout=subprocess.DEVNULL)
    while busy.poll() is None and content(place.file) == raw:
        time.sleep(0.001)
    for words in (("run", place.file, "1"), ("check", place.file)):
        place.expect(1, *words, saying="another recorder has it")
    busy.kill()
    busy.wait()
    place.expect(0, "check", place.file)


def main():
    archive = os.environ.get("NV_ARCHIVE")
    if not archive:
        sys.exit("NV_ARCHIVE does not name the static library (tools/test builds it)")
    tally, library = Tally("recorder"), Library()
    with tempfile.TemporaryDirectory() as work:
        for name, flags in (("plain", ()), ("recorder", STRICT)):
            program, built, said = build(archive, work, name, flags=flags)
            tally.check(built, "recorder.c as C99: %s" % said)
            if not built:
                tally.finish()
        for family in model.FAMILIES:
            kills(tally, program, work, family)
            seeds(tally, program, os.path.join(work, "try"), family)
            wrong_keys(tally, program, work, library, family)
            torn_commits(tally, program, work, library, family)
            damage(tally, program, work, family)
        liars(tally, program, archive, work)
        command_line(tally, program, work)
    tally.finish()


if __name__ == "__main__":
    main()
