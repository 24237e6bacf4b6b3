"""The documents: each quote of docs/INSPECTOR.md stands in the file that is named last before it, as it stands there; every code
is explained; and numbers are what was measured in this run of tools/test, from what its tests have said, or counted in the tree.

To hold another number, add a row to `rows`.
"""

import glob
import os
import re
import subprocess
import sys

import model
import test_cuts
import test_turns
from library import Tally
from states import DEPTHS

TOP = os.path.join(os.path.dirname(os.path.abspath(__file__)), "..")
N = r"([\d,]+)"  # a number in a document


def text_of(path):
    with open(os.path.join(TOP, path), encoding="utf-8") as file:
        return file.read()


# ---- Quotes ----

def quotes(text):
    """(file, quote) of each fenced block."""
    named = None
    for i, part in enumerate(text.split("```\n")):
        if i % 2 == 1:
            yield named, part
        else:
            files = [name for name in re.findall(r"`(crates/[^`\s]+)`", part) if os.path.isfile(os.path.join(TOP, name))]
            named = (files or [named])[-1]


def check_quotes(tally):
    found = list(quotes(text_of("docs/INSPECTOR.md")))
    for name, quote in found:
        tally.check(name and quote in text_of(name), "%s has not:\n%s" % (name, quote))
    tally.check(len(found) > 20, "quotes are missing: %d" % len(found))


# ---- Counted in the tree, or of the library ----

def definitions():
    """Of the statement of the history rule and the files that it uses, directly or through others: how many lines they have,
    without blank ones, comments and imports, and how many files there are."""
    left, lines = [("history_laws", "History")], {}
    while left:
        file = left.pop()
        path = "crates/%s/specs/%s.antt" % file
        if file not in lines and os.path.isfile(os.path.join(TOP, path)):
            text = text_of(path)
            lines[file] = sum(1 for line in map(str.strip, text.split("\n")) if line and not line.startswith(("--", "use ")))
            left += re.findall(r"^use Rattle\.(\w+)\.specs\.(\w+)", text, re.M)
    return sum(lines.values()), len(lines)


def edits(crate="*"):
    return len(glob.glob(os.path.join(TOP, "crates", crate, "must-fail", "*.edit")))


def code_size():
    """Bytes of code and constants in the library."""
    said = subprocess.run(("size", os.environ["NV_ARCHIVE"]), capture_output=True, text=True, check=True).stdout
    return sum(int(text) + int(data) for text, data in re.findall(r"^\s*(\d+)\s+(\d+)\s", said, re.M))


# ---- Said in this run ----

def said(pattern):
    """The parts of each line of this run that fits; there must be one."""
    with open(os.environ["NV_SAID"], encoding="utf-8") as file:
        found = re.findall("^%s$" % pattern, file.read(), re.M)
    if not found:
        sys.exit("documents: no test of this run has said: %s" % pattern)
    return found


def most_stores():
    """Of each call, at each depth."""
    found = {}
    for depth, calls in said(r"(?:cuts|turns): depth (\d): .*stores at most: (.*)"):
        for call, stores in re.findall(r"nv_(\w+) (\d+)", calls):
            found.setdefault(call, {})[int(depth)] = int(stores)
    return {call: [stores[depth] for depth in DEPTHS] for call, stores in found.items()}


def near(instructions):
    """Up to one in 50 more or less: those of the C library's functions, which machines differ in, are among them."""
    return range(instructions * 49 // 50, instructions * 51 // 50 + 1)


def rows():
    """Document, a pattern that stands in it once, and the number of each of its groups, or a range of numbers."""
    firmware, performance, inspector = "docs/FIRMWARE.md", "docs/PERFORMANCE.md", "docs/INSPECTOR.md"
    header = "include/nightvelvet.h"
    stores = most_stores()
    commit = [int(word) for word in said(r"instructions: the commit of a turn: (\d+) instructions, (\d+) bytes")[0]][::-1]
    stepped = len(said(r"instructions: depth 3: .* (\d+) stores, .*"))
    arrays, caches, lines = ([size(depth) for depth in DEPTHS] for size in (model.array_length, model.cache_length, model.lines))
    yield firmware, f"it has {N} bytes of code and constants", [code_size()]
    yield firmware, f"It sets {N} bytes in two places of the control record, in {N} instructions of this build", commit
    yield firmware, f"the lines that are left: {N} bytes, on this build in {N} instructions", commit
    yield firmware, f"At every depth it does so for {N} calls", [stepped]
    by_tag = [len(said(fr"instructions: depth {depth}, family 1: (?!recovery from).* (\d+) stores, .*")) for depth in (1, 3)]
    yield firmware, f"it is the same {N} calls at depth 1 and {N} calls with long batches at depths 2 and 3", by_tag
    yield firmware, fr"\| array \| {N} at depth 1; {N} at 2; {N} at 3 \|", arrays
    yield firmware, fr"\| cache \| {N}; {N}; {N} \|", caches
    yield firmware, f"Depths 1, 2 and 3 have {N}, {N} and {N} lines", lines
    yield firmware, fr"\| stores of a read \| {N} \| {N} \| {N} \|", stores["read"]
    yield firmware, fr"\| stores of a write \| {N} \| {N} \| {N} \|", stores["write"]
    yield firmware, fr"\| stores of a turn \| {N} \| {N} \| {N} \|", stores["turn"]
    yield firmware, fr"\| stores of a recovery \| {N} \| {N} \| {N} \|", stores["recover"]
    yield inspector, f"It makes at most {N} stores", [max(stores["recover"])]
    yield inspector, f"It sets {N} bytes in two places, in {N} instructions on this build", commit
    yield inspector, fr"\({N} calls at each", [stepped]
    yield inspector, f"The statement stands on {N} lines in {N} files", definitions()
    yield inspector, f"`tools/test` does so with {N} edits of", [edits("history_laws")]
    yield inspector, f"of {N} reads and writes with small and full batches", [len(list(test_cuts.scenarios(1)))]
    yield inspector, f"of turns of pages with {N} {N} {N} {N} and {N} written lines", test_turns.COUNTS
    failures = [int(re.search(r"FAILURES = (\d+)", text_of("examples/recorder.c")).group(1))]
    yield inspector, f"`recorder try` loses power {N} times", failures
    yield "README.md", f"recorder try trial 1 +loses power {N} times", failures
    yield header, f"at most {N} stores", [max(stores["turn"])]
    yield header, f"STORED WHOLE: {N} bytes", commit[:1]
    for call, size in said(r"stack: (nv_\w+): at most (\d+) bytes"):
        yield firmware, fr"\| `{call}` \| {N} \|\n", [int(size)]
        yield performance, fr"\| `{call}` \| {N} \| [\d,]+ \|\n", [int(size)]
    for depth, count in said(r"instructions: depth (\d): recovery, full shadow +0 stores, +(\d+) instructions, .*"):
        yield performance, fr"\| {depth} \| [\d,]+ bytes \| \d+ \| \d+ \| {N} \|", [near(int(count))]
    for count in said(r"instructions: depth 1, family 1: recovery, full shadow +0 stores, +(\d+) instructions, .*"):
        yield performance, f"At depth 1 that is {N} instructions", [near(int(count))]


def check_numbers(tally):
    for document, pattern, wanted in rows():
        found = [match.groups() for match in re.finditer(pattern, text_of(document))]
        tally.check(len(found) == 1, "%s has %d times: %s" % (document, len(found), pattern))
        for told in found:
            told = [int(text.replace(",", "")) for text in told]
            holds = len(told) == len(wanted) and all(a == b or isinstance(b, range) and a in b for a, b in zip(told, wanted))
            tally.check(holds, "%s: %s is %s, and was measured as %s" % (document, pattern, told, wanted))
    print("documents: %d edits that must be refused, %d lines of definitions, %d bytes of code and constants" % (
        edits(), definitions()[0], code_size()))


# ---- Codes ----

def rows_of(document, head):
    """The rows of the table whose head starts so."""
    table = text_of(document).split("\n| %s |" % head)[1].split("\n\n")[0]
    return [[cell.strip() for cell in row.strip("|").split("|")] for row in table.split("\n")[2:]]


def codes_in(text):
    """`124`, `101 to 107`, `127, 128`: the codes."""
    found = []
    for first, last in re.findall(r"(\d+)(?: to (\d+))?", text):
        found += range(int(first), int(last or first) + 1)
    return found


def check_codes(tally):
    """DEPOT and FIRMWARE have each code of the header, once in each table, and the lines that a node covers."""
    header = text_of("include/nightvelvet.h")
    numbers = [int(number) for number in re.findall(r"^    NV_[A-Z_]+ = (\d+)", header[header.index("// Numbers of refusals."):], re.M)]
    wanted = [100 + number for number in numbers]
    meanings = rows_of("docs/DEPOT.md", "Code | Number")
    tally.check([(int(code), number) for code, number, *_ in meanings]
                == [(code, "") for code in (0, 1, 2)] + [(100 + number, str(number)) for number in numbers], "DEPOT: the codes' meanings")
    for document, head, first in (("docs/DEPOT.md", "Code | What still reads", []),
                                  ("docs/FIRMWARE.md", "Code | | Still reads", [0, 1, 2])):
        told = [code for row in rows_of(document, head) for code in codes_in(row[0])]
        tally.check(sorted(told) == first + wanted, "%s: what to do after the codes %s" % (document, told))
    for level, row in enumerate(rows_of("docs/DEPOT.md", "Level")):
        size = model.CONTENT * 8**level
        tally.check(row[0].startswith(str(level)) and row[2] == f"{size:,}"
                    and (level == 3 or row[1] == f"{size:,}i to {size:,}i + {size - 1:,}"), "DEPOT: the lines of level %d" % level)


def main():
    if not os.environ.get("NV_SAID") or not os.environ.get("NV_ARCHIVE"):
        sys.exit("documents: this test needs what the other tests say: run tools/test, which runs it last")
    tally = Tally("documents")
    check_quotes(tally)
    check_codes(tally)
    check_numbers(tally)
    tally.finish()


if __name__ == "__main__":
    main()
