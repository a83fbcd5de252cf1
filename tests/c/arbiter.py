# The round robin arbiter by ctypes, over a shared object of the library: its path is the argument. The answer has 20
# bytes, which other languages hand back in memory, not in registers as the 16 of a slot's.
import ctypes
import sys
from ctypes import c_size_t, c_uint8, c_uint16, c_uint32, c_uint64


class Answer(ctypes.Structure):
    _fields_ = [(name, c_uint8) for name in ("number", "dropped", "delivers", "writes", "reads", "value")]
    _fields_ += [(name, c_uint16) for name in ("queue", "written", "read")]
    _fields_ += [("slots_left", c_uint32)]


class ArbiterAnswer(ctypes.Structure):
    _fields_ = [("slot", Answer), ("asks", c_uint8), ("asked", c_uint16)]


def arrival(queue, letter):
    return c_uint64(1 << 24 | queue << 8 | ord(letter))


library = ctypes.CDLL(sys.argv[1])
library.gel_open.restype = c_uint8
library.gel_slot.restype = Answer
library.gel_arbiter_slot.restype = ArbiterAnswer
library.gel_arbiter_step.restype = ArbiterAnswer
regs = (c_size_t * 9)()
places = [c_uint16 * 2144, c_uint16 * 4034, c_uint32 * 2017, c_uint8 * 64, c_uint8 * 64] + 3 * [c_uint16 * 64]
arrays = [regs] + [array() for array in places]
store = (c_uint8 * (2 * 1 * 2))()
if library.gel_open(c_size_t(2), c_size_t(2), c_size_t(1), *arrays) != 0:
    sys.exit(1)
# The caller fills queue 0, so that the arbiter's first slot drops what arrives there.
for letter in "ab":
    a = library.gel_slot(*arrays, arrival(0, letter), store, c_size_t(len(store)))
    if a.number or a.dropped:
        sys.exit(1)
# Each slot by the other function; the fourth arrival is of a queue that there is not.
for t, arrives in enumerate([(0, "c"), (1, "d"), None, (2, "x"), (0, "e"), None]):
    word = arrival(*arrives) if arrives else c_uint64(0)
    slot = library.gel_arbiter_step if t % 2 else library.gel_arbiter_slot
    a = slot(*arrays, word, store, c_size_t(len(store)))
    asked = f"asks queue {a.asked}" if a.asks else "asks none"
    leaves = f", delivers byte {a.slot.value} of queue {a.slot.queue}" if a.slot.delivers else ""
    reads = f", reads queue {a.slot.read} with {a.slot.slots_left} slots left" if a.slot.reads else ""
    numbers = f"answers {a.slot.number}, drops {a.slot.dropped}"
    print(f"slot {t} {numbers}, {asked}, the last one asked is {regs[8]}{leaves}{reads}")
