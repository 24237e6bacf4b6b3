"""The headers and the static library that NV_ARCHIVE names: dialects, C++, constants, words, symbols, instructions, null
pointers."""

import os
import re
import shutil
import subprocess
import sys
import tempfile

import model
from library import COUNTS, Library, SEQUENCES, SLICES, Tally
from states import DEPTHS, KEYS, formatted

HERE = os.path.dirname(os.path.abspath(__file__))
INCLUDE = os.path.join(HERE, "..", "include")
HEADERS = ("nightvelvet.h", "nightvelvet_module.h")
ASKED = {"memcpy", "memset"}
LENT_FOR_READING = {"keys", "text"}
COMPILERS = {"c": ("gcc", "clang"), "c++": ("g++", "clang++")}  # the second of each if it is installed
DIALECTS = (("c", "c99"), ("c", "c11"), ("c++", "c++17"), ("c++", "c++20"))
STRICT = ("-Wall", "-Wextra", "-Wpedantic", "-Wconversion", "-Wsign-conversion", "-Wshadow", "-Werror")
REFUSALS = list(range(1, 8)) + list(range(21, 35))
DIVISION = re.compile(r"\bv?(?:i|f|fi)?div\w*")
DIVIDED = [("%sint%d_t" % (sign, bits), operator) for sign in ("", "u") for bits in (8, 16, 32, 64) for operator in "/%"]
DIVIDED += [(kind, "/") for kind in ("float", "double", "long double")]

# The plain calls, with codes in a comparison and in a `case`, and constants that are joined.
PROGRAM = """#include "nightvelvet.h"
#include <string.h>
#if NV_VERSION < 6
#error
#endif
static uint8_t control[NV_CONTROL_LENGTH], array[NV_ARRAY_LENGTH_1], cache[NV_CACHE_LENGTH_1], text[NV_TEXT_LENGTH],
    out[NV_TEXT_LENGTH], list[NV_LIST_LENGTH], numbers[NV_NUMBERS_LENGTH], keys[NV_KEYS_LENGTH];
static int kind_of(uint32_t code)
{
    switch (code) {
    case NV_DONE:
    case NV_BLANK:
        return 1;
    case NV_REFUSED + NV_BAD_LINE:
        return 2;
    default:
        return 0;
    }
}
int main(void)
{
    text[0] = 7;
    return nv_format(1, NV_FAMILY_TAG, keys, sizeof keys, control, sizeof control, array, sizeof array, cache, sizeof cache,
                     numbers, sizeof numbers) != NV_DONE
        || control[NV_DEPTH_AT] != 1
        || nv_write(keys, sizeof keys, control, sizeof control, array, sizeof array, cache, sizeof cache, 3, text,
                    sizeof text, UINT64_MAX, numbers, sizeof numbers) != NV_DONE
        || nv_number(numbers, NV_STORES_AT) != 9
        || nv_recover(keys, sizeof keys, control, sizeof control, array, sizeof array, cache, sizeof cache, 0, numbers,
                      sizeof numbers) != NV_DONE
        || nv_number(numbers, NV_SUM_AT) != 1
        || kind_of(nv_read(keys, sizeof keys, control, sizeof control, array, sizeof array, cache, sizeof cache, 3, out,
                           sizeof out, 0, numbers, sizeof numbers)) != 1
        || memcmp(out, text, sizeof out) != 0
        || nv_turn(keys, sizeof keys, control, sizeof control, array, sizeof array, cache, sizeof cache, 0, UINT64_MAX,
                   numbers, sizeof numbers) != NV_DONE
        || nv_number(numbers, NV_STORES_AT) != 7 || control[NV_TURN_AT] != 0
        || nv_turn(keys, sizeof keys, control, sizeof control, array, sizeof array, cache, sizeof cache,
                   NV_LINES_1 / NV_PAGE_LINES, 0, numbers, sizeof numbers) != NV_REFUSED + NV_BAD_LINE
        || kind_of(nv_read(keys, sizeof keys, control, sizeof control, array, sizeof array, cache, sizeof cache, NV_LINES_1,
                           out, sizeof out, 0, numbers, sizeof numbers)) != 2
        || strcmp(nv_word(NV_REFUSED + NV_BAD_LINE), "the module has no such line or page") != 0
        || nv_dirty_pages(control, sizeof control, cache, sizeof cache, list, sizeof list, numbers, sizeof numbers)
            != NV_DONE
        || nv_number(list, 0) != UINT64_MAX;
}
"""

# The value of each constant, the word of each code, and numbers of all bytes.
TELLING = """#include "nightvelvet.h"
#include <inttypes.h>
#include <stdio.h>
int main(void)
{
    static const uint8_t bytes[] = { 0xff, 1, 2, 3, 4, 5, 6, 7, 0x88, 0xff };
    %s
    for (uint32_t code = 0; code < 300; code++)
        printf("word %%" PRIu32 " %%s\\n", code, nv_word(code));
    printf("word %%" PRIu32 " %%s\\n", UINT32_MAX, nv_word(UINT32_MAX));
    for (uint64_t at = 0; at < 3; at++)
        printf("number %%" PRIu64 " %%" PRIu64 "\\n", at, nv_number(bytes, at));
}
"""


def run(*command):
    done = subprocess.run(command, capture_output=True, text=True)
    return done.returncode, done.stdout + done.stderr


def compilers():
    """(compiler, language, dialect): gcc in every dialect, and clang if it is there."""
    for language, dialect in DIALECTS:
        for compiler in COMPILERS[language]:
            if compiler == COMPILERS[language][0] or shutil.which(compiler):
                yield compiler, language, dialect


def build(work, compiler, language, dialect, name, source, *archive):
    """Compiles a source, with an archive as a program; gives what the compiler says and the program."""
    path = os.path.join(work, name + ".c")
    with open(path, "w") as file:
        file.write(source)
    program = os.path.join(work, "%s.%s.%s" % (name, compiler, dialect))
    linked = ("-x", "none", *archive) if archive else ("-c",)
    status, said = run(compiler, "-std=" + dialect, *STRICT, "-I", INCLUDE, "-x", language, path, *linked, "-o", program)
    return said or (status and "status %d" % status), program


def dialects(tally, archive, work):
    """Each header alone, twice, and both in either sequence; the plain calls and the forms in programs that are run."""
    include = '#include "%s"\n'
    sources = {name.split(".")[0]: 2 * (include % name) for name in HEADERS}
    sources["together"] = "".join(include % name for name in HEADERS)
    sources["module_first"] = "".join(include % name for name in reversed(HEADERS))
    with open(os.path.join(HERE, "module_forms.c")) as file:
        forms = file.read().replace('"../include/', '"')
    for compiler, language, dialect in compilers():
        where = "%s as %s" % (compiler, dialect)
        for name, source in sources.items():
            said, _ = build(work, compiler, language, dialect, name, source + "typedef int unit;\n")
            tally.check(not said, "%s with %s: %s" % (name, where, said))
        for name, source in (("program", PROGRAM), ("module_forms", forms)):
            said, program = build(work, compiler, language, dialect, name, source, archive)
            tally.check(not said, "%s with %s: %s" % (name, where, said))
            tally.check(not said and run(program)[0] == 0, "%s with %s does not run" % (name, where))
    print("interface: the headers compile without a warning with %s" % ", ".join("%s as %s" % (c, d) for c, _, d in compilers()))


def prototypes(text):
    """From the header: for each function its parts, and which are const."""
    found = {}
    for name, inner in re.findall(r"uint32_t nv_(\w+)\(([^)]*)\)", text):
        parts = []
        lent = set()
        for argument in (" ".join(a.split()) for a in inner.split(",")):
            kind, part = re.fullmatch(r"(.*?)(\w+)", argument).groups()
            if part.endswith("_len"):
                assert kind == "uint64_t " and parts[-1] == part[:-4], argument
                continue
            parts.append(part)
            assert kind in (("uint64_t ",) if part in COUNTS else ("const uint8_t *", "uint8_t *")), argument
            if kind.startswith("const"):
                lent.add(part)
        found[name] = tuple(parts), lent
    return found


def signatures(tally, text):
    found = prototypes(text)
    tally.check(set(found) == set(SEQUENCES), "functions of the header: %s" % sorted(found))
    for name, (parts, lent) in found.items():
        tally.check(parts == SEQUENCES[name], "nv_%s: arguments %s" % (name, parts))
        wanted = {"control", "cache"} if name == "dirty_pages" else LENT_FOR_READING & set(parts)
        tally.check(lent == wanted, "nv_%s: const %s" % (name, sorted(lent)))


def constants(tally, text, told):
    """The header's constants, as a C program tells them, held to the model."""
    values = {name: int(value) for name, value in re.findall(r"^constant (\w+) (\d+)$", told, re.M)}
    wanted = {"NV_VERSION": 6, "NV_KEYS_LENGTH": model.KEYS_LENGTH, "NV_CONTROL_LENGTH": model.CONTROL_LENGTH,
              "NV_TEXT_LENGTH": model.CONTENT, "NV_LIST_LENGTH": model.LIST_LENGTH, "NV_NUMBERS_LENGTH": 24,
              "NV_PAGE_LINES": model.lines(1) // model.pages(1), "NV_FAMILY_PHASE": model.PHASE_FAMILY,
              "NV_FAMILY_TAG": model.TAG_FAMILY, "NV_BLANK_BYTE": model.BLANK_TEXT[0], "NV_DEPTH_AT": model.DEPTH_AT,
              "NV_TURN_AT": model.TURN_AT, "NV_TURN_PAGE_AT": model.TURN_PAGE_AT, "NV_STORES_AT": 0, "NV_SUM_AT": 8,
              "NV_FIRST_AT": 8, "NV_SECOND_AT": 16, "NV_DONE": 0, "NV_BLANK": 1, "NV_CUT": 2, "NV_REFUSED": 100}
    for depth in DEPTHS:
        wanted["NV_ARRAY_LENGTH_%d" % depth] = model.array_length(depth)
        wanted["NV_CACHE_LENGTH_%d" % depth] = model.cache_length(depth)
        wanted["NV_LINES_%d" % depth] = model.lines(depth)
    for name, value in wanted.items():
        tally.check(values.get(name) == value, "%s is %s" % (name, values.get(name)))
    others = sorted(value for name, value in values.items() if name not in wanted)
    tally.check(others == REFUSALS, "refusal numbers %s" % others)
    lines = [line for line in text.split("\n") if re.match(r"\s+NV_\w+ = ", line)]
    tally.check(len(lines) == len(values) - 1 and all("//" in line for line in lines), "a constant without its meaning")


def words(tally, told):
    """Each code has a word of its own, and all other numbers share one."""
    found = {int(code): word for code, word in re.findall(r"^word (\d+) (.+)$", told, re.M)}
    codes = [0, 1, 2] + [100 + number for number in REFUSALS]
    none = found.get(2**32 - 1)
    tally.check(none and all(found.get(code) == none for code in range(300) if code not in codes), "words of no code")
    tally.check(len({found.get(code) for code in codes} | {none}) == len(codes) + 1, "words of codes: %s" % found)
    tally.check([found.get(code) for code in (0, 1, 2)] == ["done", "blank", "cut"], "words of answers")
    numbers = re.findall(r"^number \d+ (\d+)$", told, re.M)
    wanted = [int.from_bytes(bytes.fromhex("ff0102030405060788ff")[at:at + 8], "little") for at in range(3)]
    tally.check([int(number) for number in numbers] == wanted, "nv_number gives %s" % numbers)


def telling(tally, text, work):
    names = re.findall(r"^\s+(NV_\w+) = ", text, re.M) + ["NV_VERSION"]
    lines = ['printf("constant %s %%lld\\n", (long long)%s);' % (name, name) for name in names]
    for language, dialect in DIALECTS[::3]:
        said, program = build(work, COMPILERS[language][0], language, dialect, "telling", TELLING % "\n    ".join(lines), "-lc")
        tally.check(not said, "telling as %s: %s" % (dialect, said))
        told = "" if said else run(program)[1]
        constants(tally, text, told)
        words(tally, told)


def symbols(tally, archive):
    _, defined = run("nm", "-g", "--defined-only", archive)
    _, undefined = run("nm", "-u", archive)
    given = set(re.findall(r"^[0-9a-f]+ [A-Z] (\S+)$", defined, re.M))
    asked = set(re.findall(r"^\s+[Uw] (\S+)$", undefined, re.M)) - given
    functions = {"nv_" + name for name in SEQUENCES}
    tally.check(given == functions, "the library defines %s" % sorted(given ^ functions))
    tally.check(asked == ASKED, "the library asks for %s" % sorted(asked))
    print("interface: the library defines %s; asks for %s" % (" ".join(sorted(given)), " ".join(sorted(asked)) or "nothing"))


def borrowers(tally, archive):
    """The functions of the library that call what it asks for: the code of reads, writes and turns does not."""
    found, here = set(), None
    for line in run("objdump", "-dr", archive)[1].split("\n"):
        symbol = re.match(r"[0-9a-f]+ <(\S+)>:", line)
        here = symbol.group(1) if symbol else here
        if re.search(r"R_X86_64_\w+\s+(?:%s)\b" % "|".join(sorted(ASKED)), line):
            found.add(here)
    tally.check(found == {"nv_format", "nv_recover"}, "memcpy or memset is called in %s" % sorted(found))
    print("interface: what it asks for is called in %s alone" % " and ".join(sorted(found)))


def instructions(path):
    """The instructions of an object or archive, in words, by the symbol that they follow."""
    found = {}
    for line in run("objdump", "-d", "--no-show-raw-insn", path)[1].split("\n"):
        symbol = re.match(r"[0-9a-f]+ <(\S+)>:", line)
        if symbol:
            here = found.setdefault(symbol.group(1), [])
        elif re.match(r"\s+[0-9a-f]+:\t", line):
            here.append(re.sub("<.*?>|#.*", "", line.split("\t", 1)[1]))
    return found


def divisions(path):
    return [text for texts in instructions(path).values() for text in texts if DIVISION.search(text)]


def without_division(tally, archive, work):
    """The library has no instruction that divides; those of each integer and floating type are found."""
    source = os.path.join(work, "divides.c")
    for kind, operator in DIVIDED:
        with open(source, "w") as file:
            file.write("#include <stdint.h>\n%s f(%s a, %s b) { return a %s b; }\n" % (kind, kind, kind, operator))
        status, said = run("gcc", "-O2", "-c", source, "-o", source + ".o")
        tally.check(status == 0 and len(divisions(source + ".o")) > 0, "%s %s is not found: %s" % (kind, operator, said))
    found = instructions(archive)
    tally.check({"nv_" + name for name in SEQUENCES} <= set(found), "instructions of %s" % sorted(found))
    tally.check(divisions(archive) == [], "the library divides: %s" % divisions(archive))
    print("interface: none of the library's %d instructions divides" % sum(map(len, found.values())))


def null_pointers(tally, library):
    """A slice of no bytes behind a null pointer is refused as that length is, and all else stays."""
    module = formatted(1)
    content = {"keys": KEYS, "control": module.control, "array": module.array, "cache": module.cache, "out": bytes(64),
               "text": bytes(64), "list": bytes(32), "numbers": b"\xd3" * 24}
    refusals = {"keys": 102, "control": 103, "array": 104, "cache": 105, "out": 107, "text": 107, "list": 107, "numbers": 107}
    counts = {"depth": 1, "family": 0, "line": 0, "page": 0, "allowance": model.UNLIMITED}
    for name in SEQUENCES:
        for absent in SLICES[name]:
            expected = dict(content)
            if absent != "numbers":
                expected["numbers"] = bytes(24)
            arguments = [counts.get(part, content.get(part)) for part in SEQUENCES[name]]
            code, left = library.call_with_null(name, SEQUENCES[name].index(absent), arguments)
            wanted = {part: expected[part] for part in SLICES[name] if part != absent}
            tally.check(code == refusals[absent] and dict(zip(wanted, left)) == wanted,
                        "nv_%s with a null %s gave %d" % (name, absent, code))
        nothing = [0 if part in COUNTS else b"" for part in SEQUENCES[name]]
        code, _ = library.call_with_null(name, None, nothing)
        tally.check(code == 107, "nv_%s with nothing but null gave %d" % (name, code))
    print("interface: a null pointer with length 0 is refused as that length is, in every call and slice")


def main():
    archive = os.environ.get("NV_ARCHIVE")
    if not archive:
        sys.exit("NV_ARCHIVE does not name the static library (tools/test builds it)")
    tally = Tally("interface")
    with open(os.path.join(INCLUDE, HEADERS[0])) as file:
        text = file.read()
    with tempfile.TemporaryDirectory() as work:
        dialects(tally, archive, work)
        telling(tally, text, work)
        without_division(tally, archive, work)
    signatures(tally, text)
    symbols(tally, archive)
    borrowers(tally, archive)
    null_pointers(tally, Library())
    tally.finish()


if __name__ == "__main__":
    main()
