"""Runs the bench program, crates/bench_program/out/bench_program, and holds what it prints to the paper and to the
reference model."""

import os
import random
import subprocess
import sys

from model import bench

TOP = os.path.dirname(os.path.dirname(os.path.abspath(__file__)))
PROGRAM = os.path.join(TOP, "crates", "bench_program", "out", "bench_program")
LISTING = ("w 0 17,w 0 18,r 0,k 2,w 0 19,p,r 0,k 4,w 0 20,p,r 0,k 1,"
           "w 0 99,p,r 0,r 64")
PRINTED = """w 0 done 9
w 0 done 5
r 0 done 0 18
w 0 cut 2
p done 3 3
r 0 done 0 19
w 0 cut 4
p done 4 0
r 0 done 0 20
w 0 cut 1
p done 0 0
r 0 done 0 20
r 64 blank 5 255
"""

results = {"passed": 0, "failed": 0}


def check(what, holds):
    results["passed" if holds else "failed"] += 1
    if not holds:
        print("FAILED: " + what)


def run(data):
    done = subprocess.run([PROGRAM], input=data, stdout=subprocess.PIPE,
                          timeout=300, check=True)
    return done.stdout


def expected(data):
    """What the model prints; a last line without a newline counts if it is not empty."""
    lines = data.decode("latin-1").split("\n")
    if lines[-1] == "":
        lines.pop()
    return "".join(line + "\n" for line in bench(lines)).encode()


def same(what, data, wanted=None):
    """The program prints what the model does, and what is wanted where the paper or a decision says it."""
    got, model = run(data), expected(data)
    if wanted is not None:
        check("%s: the model printed %.200r" % (what, model), model == wanted)
    check("%s: printed %.200r, wanted %.200r" % (what, got, model), got == model)


def test_listing():
    data = LISTING.replace(",", "\n").encode() + b"\n"
    same("listing", data, PRINTED.encode())
    folder = os.path.join(TOP, "crates", "bench_program")
    for name, text in (("stdin", data), ("stdout", PRINTED.encode())):
        with open(os.path.join(folder, name), "rb") as f:
            check(name + " of the crate is the paper's", f.read() == text)


def test_ends():
    same("empty input", b"", b"")
    same("one empty line", b"\n", b"?\n")
    same("empty lines", b"\n\np\n\n", b"?\n?\np done 0 0\n?\n")
    same("no last newline", b"r 0", b"r 0 blank 7 255\n")
    same("no last newline after lines", b"w 1 2\nr 1", b"w 1 done 9\nr 1 done 0 2\n")
    same("a last line of one byte", b"x", b"?\n")
    same("a last line with `k` alone", b"r 0\nk 1", b"r 0 blank 7 255\n")


UNKNOWN = [
    b"", b" ", b"  ", b"?", b"w", b"w ", b"w 0", b"w 0 ", b"w  0 1", b"w 0  1", b" w 0 1", b"w 0 1 ", b"w 0 1 2",
    b"w 0 256", b"w 0 -1", b"w 0 +1", b"w 0 0x1", b"w 0 1.0", b"w 0 1e1", b"w 0 a", b"w a 0", b"w 1a 0", b"w 0 18446744073709551616",
    b"W 0 1", b"ww 0 1", b"w\t0\t1", b"w,0,1", b"w 0 1\r", b"r", b"r ", b"r 0 ", b" r 0", b"r 0 0", b"r -1", b"r 18446744073709551616",
    b"r 99999999999999999999", b"r 184467440737095516150", b"r 0\r", b"\rr 0", b"r 0\x00", b"r\x000", b"r \xb2", b"r \xd9\xa3",
    b"p ", b" p", b"pp", b"p 0", b"P", b"p\r", b"p\t", b"k", b"k ", b"k 0 0", b"k x", b"k -1", b"k 18446744073709551616", b"kk 1",
    b"1", b"0 0", b"/", b":", b"r /", b"r :", b"r 0/", b"r 0:", b"\xff", b"\x00", b"format", b"q", b"w 0 1;", b"r 0 1 2 3 4",
]


def test_unknown():
    for line in UNKNOWN:
        same("%r" % line, line + b"\n", b"?\n")
    same("all of them", b"\n".join(UNKNOWN) + b"\n", b"?\n" * len(UNKNOWN))


def test_numbers():
    most = b"18446744073709551615"
    same("largest line", b"r " + most, b"r " + most + b" refused 6\n")
    same("largest line written", b"w " + most + b" 255", b"w " + most + b" refused 6\n")
    same("first line past the module", b"r 511\nr 512\nw 512 0\n", b"r 511 blank 7 255\nr 512 refused 6\nw 512 refused 6\n")
    same("largest allowance", b"k " + most + b"\nw 0 1\n", b"w 0 done 9\n")
    for zeros in (1, 2, 19, 20, 21, 100, 4094, 4095, 4096, 4097, 100000):
        pad = b"0" * zeros
        same("%d leading zeros" % zeros, b"w " + pad + b"7 " + pad + b"255\nr " + pad + b"7\nk " + pad + b"\nr 70\n",
             b"w 7 done 9\nr 7 done 0 255\nr 70 cut 0\n")
        same("%d leading zeros, too large" % zeros, b"w 0 " + pad + b"256\nr " + pad + b"18446744073709551616\n", b"?\n?\n")
    for byte in (0, 1, 9, 10, 99, 100, 127, 128, 254, 255):
        same("byte %d" % byte, b"w 3 %d\nr 3\n" % byte, b"w 3 done 9\nr 3 done 0 %d\n" % byte)


def test_allowance():
    same("`k` before `?`", b"k 0\n?\nw 0 1\nw 0 1\n", b"?\nw 0 cut 0\nw 0 done 9\n")
    same("`k` before a refused call", b"k 0\nr 512\nr 0\n", b"r 512 refused 6\nr 0 blank 7 255\n")
    same("`k` twice", b"k 0\nk 100\nw 0 1\n", b"w 0 done 9\n")
    same("`k` and a call that needs less", b"w 0 1\nk 0\nr 0\nk 4\nw 0 2\n", b"w 0 done 9\nr 0 done 0 1\nw 0 cut 4\n")
    same("`k` 0 before an idle recovery", b"k 0\np\nw 0 1\n", b"p done 0 0\nw 0 done 9\n")
    same("pending", b"k 4\nw 0 1\nr 0\nw 0 2\nk 1\np\np\nr 0\n")
    for n in range(21):
        same("cut after %d" % n, b"w 0 1\nw 64 2\nk %d\nw 128 3\np\nr 0\nr 64\nr 128\n" % n)
        same("recovery cut after %d" % n, b"k 7\nw 128 3\nk %d\np\nk %d\np\np\nr 128\n" % (n, n))


def test_refusals():
    same("a line written out", b"w 5 1\n" * 127 + b"w 5 2\nr 5\nk 0\nw 5 3\np\nr 5\n")
    check("its refusal is 26", b"w 5 refused 26\n" in run(b"w 5 1\n" * 128))
    check("pending is 22", run(b"k 7\nw 0 1\nr 0\nw 0 1\n").endswith(b"r 0 refused 22\nw 0 refused 22\n"))


def test_long():
    same("a long line", b"x" * 1000000 + b"\nr 0\n", b"?\nr 0 blank 7 255\n")
    same("a long line that starts as a command", b"r 0" + b" " * 1000000 + b"\nr 0\n", b"?\nr 0 blank 7 255\n")
    same("a long number", b"r " + b"1" * 1000000 + b"\nr 0\n", b"?\nr 0 blank 7 255\n")
    same("a long last line", b"r 0\n" + b"0" * 1000000, b"r 0 blank 7 255\n?\n")
    same("many lines", b"r 0\n" * 50000)
    for before in range(4080, 4100):
        same("a line across two reads", b"?" * before + b"\nw 511 200\nr 511\n", b"?\nw 511 done 9\nr 511 done 0 200\n")


def test_pieces():
    """Input that comes in pieces of any length."""
    data = LISTING.replace(",", "\n").encode()
    for size in (1, 2, 3, 7):
        program = subprocess.Popen([PROGRAM], stdin=subprocess.PIPE, stdout=subprocess.PIPE)
        for at in range(0, len(data), size):
            program.stdin.write(data[at:at + size])
            program.stdin.flush()
        got, _ = program.communicate(timeout=300)
        check("pieces of %d" % size, got == PRINTED.encode() and program.returncode == 0)


def random_line(rng):
    kind = rng.random()
    line = rng.choice([0, 1, 63, 64, 65, 128, 255, 256, 320, 448, 511, 512, rng.randrange(512), rng.randrange(2**64)])
    if kind < 0.4:
        return b"w %d %d" % (line, rng.randrange(256))
    if kind < 0.6:
        return b"r %d" % line
    if kind < 0.75:
        return b"p"
    if kind < 0.92:
        return b"k %d" % rng.choice([rng.randrange(21), rng.randrange(21), rng.randrange(2**64)])
    text = bytearray(rng.choice([b"w 0 1", b"r 64", b"p", b"k 3"]))
    for _ in range(rng.randrange(1, 4)):
        at = rng.randrange(len(text) + 1)
        text[at:at + rng.randrange(2)] = bytes([rng.choice(b" 0129wrpk\r\t?\xff\x00")])
    return bytes(text)


def test_random():
    for seed in range(60):
        rng = random.Random(seed)
        data = b"\n".join(random_line(rng) for _ in range(200))
        same("random lines, seed %d" % seed, data + rng.choice([b"", b"\n"]))


def main():
    if not os.path.exists(PROGRAM):
        print("crates/bench_program/out/bench_program is missing: tools/run builds it")
        print("bench program: 0 passed, 1 failed")
        return 1
    for test in (test_listing, test_ends, test_unknown, test_numbers, test_allowance, test_refusals, test_long, test_pieces, test_random):
        try:
            test()
        except Exception as failure:
            check("%s: %r" % (test.__name__, failure), False)
    print("bench program: %d passed, %d failed" % (results["passed"], results["failed"]))
    return 1 if results["failed"] else 0


if __name__ == "__main__":
    sys.exit(main())
