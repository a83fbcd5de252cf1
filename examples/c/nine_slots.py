# The nine slots of the README's table by ctypes, over a shared object of the library: its path is the argument.
import ctypes
import sys
from ctypes import c_size_t, c_uint8, c_uint16, c_uint32, c_uint64


class Buffer(ctypes.Structure):
    _fields_ = [
        ("regs", c_size_t * 9),
        ("tail", c_uint16 * 2144),
        ("head", c_uint16 * 4034),
        ("cells", c_uint32 * 2017),
        ("firsts", c_uint8 * 64),
        ("stored", c_uint8 * 64),
        ("tails", c_uint16 * 64),
        ("heads", c_uint16 * 64),
        ("owing", c_uint16 * 64),
    ]


class Answer(ctypes.Structure):
    _fields_ = [(name, c_uint8) for name in ("number", "dropped", "delivers", "writes", "reads", "value")]
    _fields_ += [(name, c_uint16) for name in ("queue", "written", "read")]
    _fields_ += [("slots_left", c_uint32)]


def call(arrives=None, asks=None):
    word = 0
    if arrives:
        word |= 1 << 24 | arrives[0] << 8 | ord(arrives[1])
    if asks is not None:
        word |= 1 << 41 | asks << 25
    return c_uint64(word)


library = ctypes.CDLL(sys.argv[1])
library.gel_open.restype = c_uint8
library.gel_slot.restype = Answer
buffer = Buffer()
arrays = [getattr(buffer, name) for name, _ in Buffer._fields_]
store = (c_uint8 * (2 * 4 * 2))()
if library.gel_open(c_size_t(2), c_size_t(2), c_size_t(4), *arrays) != 0:
    sys.exit(1)
calls = [call((0, "a")), call((0, "b")), call((1, "x"), 0), call((1, "y"), 1), call(None, 0), call(None, 1)]
for t, word in enumerate(calls + 3 * [call()]):
    a = library.gel_slot(*arrays, word, store, c_size_t(len(store)))
    if a.number:
        print(f"slot {t} is refused with {a.number}")
    if a.dropped & 1:
        print(f"slot {t} drops its arrival, with 5")
    if a.dropped & 2:
        print(f"slot {t} drops its request, with 7")
    if a.delivers:
        print(f"slot {t} delivers byte {a.value} of queue {a.queue}")
    if a.writes:
        print(f"slot {t} writes a block of queue {a.written}")
    if a.reads:
        print(f"slot {t} reads a block of queue {a.read}")
