"""The library behind include/nightvelvet.h, called through ctypes, and the same calls made by the model.

The shared object is the one that the environment variable NV_LIBRARY names. Both sides take a call's arguments in the
header's sequence, numbers as int and slices as bytes, and give the code and the slices as the call left them.
"""

import ctypes
import os
import sys
from concurrent.futures import ProcessPoolExecutor

import model

SEQUENCES = {
    "format": ("depth", "family", "keys", "control", "array", "cache", "numbers"),
    "read": ("keys", "control", "array", "cache", "line", "out", "allowance", "numbers"),
    "write": ("keys", "control", "array", "cache", "line", "text", "allowance", "numbers"),
    "turn": ("keys", "control", "array", "cache", "page", "allowance", "numbers"),
    "recover": ("keys", "control", "array", "cache", "allowance", "numbers"),
    "dirty_pages": ("control", "cache", "list", "numbers"),
}
COUNTS = ("depth", "family", "line", "page", "allowance")
SLICES = {name: tuple(part for part in parts if part not in COUNTS) for name, parts in SEQUENCES.items()}

DONE, BLANK, CUT, REFUSED = 0, 1, 2, 100
NUMBERS = b"\xd3" * 24
GUARD = bytes(range(0x80, 0xA0))


def keep_memory():
    """Has malloc keep what is freed: arrays of megabytes come and go with every call."""
    trim_threshold, mmap_threshold = -1, -3
    libc = ctypes.CDLL(None)
    for parameter in (trim_threshold, mmap_threshold):
        libc.mallopt(parameter, 1 << 30)


keep_memory()


class Library:
    """Calls with every slice between guard bytes, at any alignment."""

    def __init__(self, path=None):
        path = path or os.environ.get("NV_LIBRARY")
        if not path:
            sys.exit("NV_LIBRARY does not name the library (tools/test builds it)")
        self.functions = {}
        library = ctypes.CDLL(os.path.abspath(path))
        for name, parts in SEQUENCES.items():
            function = getattr(library, "nv_" + name)
            function.restype = ctypes.c_uint32
            function.argtypes = [kind for part in parts for kind in
                                 ([ctypes.c_uint64] if part in COUNTS else [ctypes.c_void_p, ctypes.c_uint64])]
            self.functions[name] = function
        self.room = None
        self.calls = 0

    def made_in(self, size):
        """The address of a room of at least so many bytes."""
        if self.room is None or len(self.room) < size + 16:
            self.room = ctypes.create_string_buffer(2 * size + 16)
        self.calls += 1
        return ctypes.addressof(self.room) + self.calls % 16

    def image_after(self, name, arguments):
        """Makes a call; gives its code and the bytes of guards and slices after it."""
        pieces = [GUARD]
        places = []
        at = len(GUARD)
        for argument in arguments:
            if isinstance(argument, int):
                places.append(None)
                continue
            places.append(at)
            pieces += (argument, GUARD)
            at += len(argument) + len(GUARD)
        base = self.made_in(at)
        passed = []
        for argument, place in zip(arguments, places):
            if place is None:
                passed.append(argument)
            else:
                passed += (base + place, len(argument))
        ctypes.memmove(base, b"".join(pieces), at)
        code = self.functions[name](*passed)
        return code, ctypes.string_at(base, at)

    def call(self, name, *arguments):
        """Makes a call; gives its code and its slices. Guard bytes must stay."""
        code, image = self.image_after(name, arguments)
        slices = []
        at = len(GUARD)
        for argument in arguments:
            if not isinstance(argument, int):
                slices.append(image[at:at + len(argument)])
                at += len(argument) + len(GUARD)
        if image != image_of(slices):
            raise AssertionError("nv_%s wrote outside its slices" % name)
        return code, slices

    def call_with_null(self, name, absent, arguments):
        """Makes a call in which one argument, or if None every slice, is a null pointer with length 0; gives its code
        and the other slices."""
        passed = []
        rooms = []
        for place, argument in enumerate(arguments):
            if isinstance(argument, int):
                passed.append(argument)
            elif place == absent or absent is None:
                passed += (None, 0)
            else:
                rooms.append(ctypes.create_string_buffer(argument, len(argument)))
                passed += (ctypes.addressof(rooms[-1]), len(argument))
        return self.functions[name](*passed), [room.raw for room in rooms]

    def agrees(self, name, arguments, code, slices):
        """Whether a call gives this code and these slices, every byte of them, and leaves the guards."""
        return self.image_after(name, arguments) == (code, image_of(slices))


def image_of(slices):
    pieces = [GUARD]
    for piece in slices:
        pieces += (piece, GUARD)
    return b"".join(pieces)


class Session:
    """A module that stays in place from call to call, with its own output, list and numbers, all between guards."""

    PARTS = ("keys", "control", "array", "cache", "out", "text", "list", "numbers")

    def __init__(self, library, depth, keys):
        self.functions = library.functions
        self.depth = depth
        self.lengths = {"keys": len(keys), "control": model.CONTROL_LENGTH, "array": model.array_length(depth),
                        "cache": model.cache_length(depth), "out": 64, "text": 64, "list": 32, "numbers": 24}
        size = sum(self.lengths.values()) + (len(self.PARTS) + 1) * len(GUARD)
        self.room = ctypes.create_string_buffer(image_of([bytes(self.lengths[part]) for part in self.PARTS]), size)
        self.at = {}
        at = ctypes.addressof(self.room)
        for part in self.PARTS:
            at += len(GUARD)
            self.at[part] = at
            at += self.lengths[part]
        self.put("keys", keys)

    def put(self, part, data):
        assert len(data) <= self.lengths[part]
        ctypes.memmove(self.at[part], data, len(data))

    def get(self, part):
        return ctypes.string_at(self.at[part], self.lengths[part])

    def module(self):
        return model.Module(self.get("array"), self.get("control"), self.get("cache"))

    def load(self, module):
        for part, data in zip(("array", "control", "cache"), module):
            assert len(data) == self.lengths[part]
            self.put(part, data)

    def guards_hold(self):
        return self.room.raw == image_of([self.get(part) for part in self.PARTS])

    def make(self, name, lengths={}, **counts):
        """Makes a call, with these lengths in the place of right ones; gives its code, the stores made, and the two further
        numbers."""
        passed = []
        for part in SEQUENCES[name]:
            passed += (counts[part],) if part in COUNTS else (self.at[part], lengths.get(part, self.lengths[part]))
        code = self.functions[name](*passed)
        return (code,) + tuple(model.number_at(self.get("numbers"), at) for at in (0, 8, 16))

    def format(self, family=0):
        return self.make("format", depth=self.depth, family=family)

    def read(self, line, allowance=model.UNLIMITED):
        return self.make("read", line=line, allowance=allowance)

    def write(self, line, text, allowance=model.UNLIMITED):
        self.put("text", text)
        return self.make("write", line=line, allowance=allowance)

    def turn(self, page, allowance=model.UNLIMITED):
        return self.make("turn", page=page, allowance=allowance)

    def recover(self, allowance=model.UNLIMITED):
        return self.make("recover", allowance=allowance)


# ---- The same calls by the model ----

def by_model_format(depth, family, keys, control, array, cache, numbers):
    answer, module = model.format_call(keys, depth, family, model.Module(array, control, cache))
    return answer, (keys, module.control, module.array, module.cache)


def by_model_read(keys, control, array, cache, line, out, allowance, numbers):
    answer, module, out = model.read_call(keys, line, allowance, out, model.Module(array, control, cache))
    return answer, (keys, module.control, module.array, module.cache, out)


def by_model_write(keys, control, array, cache, line, text, allowance, numbers):
    answer, module = model.write_call(keys, line, text, allowance, model.Module(array, control, cache))
    return answer, (keys, module.control, module.array, module.cache, text)


def by_model_turn(keys, control, array, cache, page, allowance, numbers):
    answer, module = model.turn_call(keys, page, allowance, model.Module(array, control, cache))
    return answer, (keys, module.control, module.array, module.cache)


def by_model_recover(keys, control, array, cache, allowance, numbers):
    answer, module = model.recover_call(keys, allowance, model.Module(array, control, cache))
    return answer, (keys, module.control, module.array, module.cache)


def by_model_dirty_pages(control, cache, listed, numbers):
    answer, listed = model.dirty_list_call(listed, control, cache)
    return answer, (control, cache, listed)


BY_MODEL = {"format": by_model_format, "read": by_model_read, "write": by_model_write, "turn": by_model_turn,
            "recover": by_model_recover, "dirty_pages": by_model_dirty_pages}


def by_model(name, arguments):
    """What the paper says of a call: its code and its slices."""
    if len(arguments[-1]) != 24:
        return 107, tuple(a for a in arguments if not isinstance(a, int))
    answer, slices = BY_MODEL[name](*arguments)
    code, numbers = model.for_c(arguments[-1], answer)
    return code, slices + (numbers,)


def numbers_of(slices):
    """The three numbers of an answer."""
    return tuple(model.number_at(slices[-1], at) for at in (0, 8, 16))


def tell(name, arguments, got, wanted):
    """One line that says where a call differs from what is wanted."""
    words = ["nv_%s(%s)" % (name, ", ".join(
        "%s=%d" % (part, value) if isinstance(value, int) else "%s[%d]" % (part, len(value))
        for part, value in zip(SEQUENCES[name], arguments)))]
    if got[0] != wanted[0]:
        words.append("code %d, wanted %d" % (got[0], wanted[0]))
    for part, mine, theirs in zip(SLICES[name], got[1], wanted[1]):
        if mine != theirs:
            at = next(i for i in range(len(mine)) if mine[i:i + 1] != theirs[i:i + 1])
            words.append("%s differs at %d: %s, wanted %s" % (part, at, mine[at:at + 8].hex(), theirs[at:at + 8].hex()))
    return "; ".join(words)


class Tally:
    """Counts what holds and what does not, and tells the first of what does not."""

    SHOWN = 10

    def __init__(self, title):
        self.title = title
        self.passed = self.failed = 0

    def check(self, holds, what):
        if holds:
            self.passed += 1
            return
        self.failed += 1
        if self.failed <= self.SHOWN:
            print("%s: FAILED: %s" % (self.title, what() if callable(what) else what))

    def add(self, passed, failed):
        self.passed += passed
        self.failed += failed

    def compare(self, library, name, arguments, wanted=None):
        """Holds one call to what is wanted of it, or to the model; gives what was wanted."""
        if wanted is None:
            wanted = by_model(name, arguments)
        if library.agrees(name, arguments, *wanted):
            self.passed += 1
        else:
            self.check(False, lambda: tell(name, arguments, library.call(name, *arguments), wanted))
        return wanted

    def finish(self):
        print("%s: %d passed, %d failed" % (self.title, self.passed, self.failed))
        sys.exit(1 if self.failed else 0)


def in_parallel(work, jobs):
    """What work gives for each job, in their sequence, from as many processes as NV_JOBS or the machine says."""
    with ProcessPoolExecutor(int(os.environ.get("NV_JOBS", os.cpu_count()))) as pool:
        yield from pool.map(work, jobs)
