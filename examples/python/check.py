"""Checks the job files named on the command line: for each its line, the verdict, the room, and, for an array that can be built, a
run beside the plain loop nest, entry k of the input table being k + 1. Exit status 1 where a value differs.

    (cd crates/najluthed && rt lib); mkdir -p target
    gcc -shared -o target/libnajluthed.so -Wl,--whole-archive crates/najluthed/out/libnajluthed.a -Wl,--no-whole-archive
    python3 examples/python/check.py target/libnajluthed.so FILE...
"""
import ctypes
import os
import sys
from ctypes import POINTER, c_char_p, c_int64, c_size_t, c_uint32, c_uint64


class Reply(ctypes.Structure):
    _fields_ = [("number", c_uint32), ("stream", c_uint32), ("hops", c_int64)]


class Done(ctypes.Structure):
    _fields_ = [("number", c_uint32), ("count", c_uint64)]


class Extent(ctypes.Structure):
    _fields_ = [(name, c_uint32) for name in ("number", "dimensions", "streams")] + [
        (name, c_uint64) for name in ("points", "cells", "ticks", "room")
    ]


class Najluthed:
    """The library: names, types and what each call promises are those of include/najluthed.h. A job is bytes, a table `table(n)`."""

    MOST_ROOM = 8192
    LONGEST_LINE = 269

    def __init__(self, path):
        library = ctypes.CDLL(os.path.abspath(path))
        job, table = [c_char_p, c_size_t], [POINTER(c_uint32), c_size_t]
        for name, answer, takes in (
            ("verdict", Reply, job),
            ("room", Done, job),
            ("sizes", Extent, job),
            ("line", c_size_t, job + [c_char_p, c_size_t]),
            ("run", Done, job + 3 * table),
            ("loop", Done, job + 2 * table),
        ):
            call = getattr(library, "najluthed_" + name)
            call.restype, call.argtypes = answer, takes
            setattr(self, "_" + name, call)

    @staticmethod
    def table(length):
        return (c_uint32 * length)()

    def verdict(self, job):
        return self._verdict(job, len(job))

    def room(self, job):
        return self._room(job, len(job))

    def sizes(self, job):
        return self._sizes(job, len(job))

    def line(self, job):
        out = ctypes.create_string_buffer(self.LONGEST_LINE)
        end = self._line(job, len(job), out, len(out))
        return out.raw[:end].decode("ascii")

    def run(self, job, given, values, places):
        return self._run(job, len(job), given, len(given), values, len(values), places, len(places))

    def loop(self, job, given, values):
        return self._loop(job, len(job), given, len(given), values, len(values))


def compare(library, job):
    """Runs the array beside the loop: whether a value differs."""
    sizes = library.sizes(job)
    size = sizes.streams * sizes.points
    given, values, looped = library.table(size), library.table(size), library.table(size)
    places = library.table(sizes.room if sizes.room <= library.MOST_ROOM else 0)
    given[:] = range(1, size + 1)
    run = library.run(job, given, values, places)
    loop = library.loop(job, given, looped)
    print("run number", run.number, "count", run.count)
    print("loop number", loop.number, "count", loop.count)
    if run.number != 0:
        return False
    differ = list(values) != list(looped)
    print("values", "differ" if differ else "the same")
    for s in range(sizes.streams):
        print("stream", s, "last value", values[(s + 1) * sizes.points - 1])
    return differ


def check(library, name, job):
    """Tells all about one job: whether the array and the loop differ."""
    print(name + ": " + library.line(job), end="")
    reply = library.verdict(job)
    print("verdict number", reply.number, "stream", reply.stream, "hops", reply.hops)
    room = library.room(job)
    print("room number", room.number, "count", room.count)
    return reply.number == 0 and compare(library, job)


def main(words):
    if len(words) < 3:
        print("check.py LIBRARY FILE...", file=sys.stderr)
        return 2
    differ = False
    try:
        library = Najluthed(words[1])
        for name in words[2:]:
            with open(name, "rb") as file:
                differ |= check(library, name, file.read())
    except OSError as error:
        print(error, file=sys.stderr)
        return 2
    return int(differ)


if __name__ == "__main__":
    sys.exit(main(sys.argv))
