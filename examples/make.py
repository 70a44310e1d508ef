"""Writes the job files of this folder, by the layout of a job file. Usage: python3 examples/make.py"""
import pathlib


def job(box, streams, time, places):
    """The bytes of a job: header, box, streams (d, kind, rule, a, b), time row, place rows."""
    n, k, m = len(box), len(places), len(streams)
    at_streams = 16 + 2 * n
    at_matrices = at_streams + m * (n + 4)
    total = at_matrices + (1 + k) * n
    pair = lambda x: [x % 256, x // 256]
    out = pair(1) + [n, k, m, 0] + pair(16) + pair(at_streams) + pair(at_matrices) + pair(total) + [0, 0]
    for low, high in box:
        out += [low, high]
    for d, kind, rule, a, b in streams:
        out += list(d) + [kind, rule, a, b]
    for row in [time] + places:
        out += row
    return bytes(x % 256 for x in out)


def through(*d):
    return (d, 0, 0, 0, 0)


def local(*d):
    return (d, 1, 0, 0, 0)


def product(*d):
    """own + stream 0 × stream 1"""
    return (d, 0, 1, 0, 1)


def shorter(*d):
    """the smaller of own and stream 0 + stream 1"""
    return (d, 0, 2, 0, 1)


CUBE = [(0, 2), (0, 2), (0, 2)]
MATRICES = [through(0, 1, 0), through(1, 0, 0), product(0, 0, 1)]
FILTER = [through(1, 1), through(1, 0), product(0, 1)]
JOBS = {
    "matrix_square": (CUBE, MATRICES, [1, 1, 1], [[1, 0, 0], [0, 1, 0]]),
    "matrix_moving": (CUBE, MATRICES, [1, 1, 1], [[1, 0, -1], [0, 1, -1]]),
    "matrix_line": (CUBE, MATRICES, [1, 1, 3], [[1, 0, 0]]),
    "filter_drops": ([(0, 7), (0, 2)], FILTER, [3, 1], [[3, 1]]),
    "filter_mended": ([(0, 7), (0, 2)], FILTER, [1, 1], [[0, 1]]),
    "convolution": ([(0, 7), (0, 2)], FILTER, [1, 1], [[1, -1]]),
    "closure": ([(0, 3)] * 3, MATRICES, [1, 1, 1], [[1, 0, 0], [0, 1, 0]]),
    "shortest_path": ([(0, 3)] * 3, [through(0, 1, 0), through(1, 0, 0), shorter(0, 0, 1)], [1, 1, 1], [[1, 0, 0], [0, 1, 0]]),
    "squares": ([(0, 2)], [((1,), 0, 1, 0, 0)], [1], [[1]]),
    "late": ([(0, 3), (0, 2)], [through(0, 1)], [1, 0], [[0, 2]]),
    "uneven": ([(0, 3), (0, 2)], [through(0, 1)], [1, 1], [[0, 2]]),
    "crowded": ([(0, 1), (0, 1)], [through(1, 0)], [1, 1], [[1, 1]]),
    "slanted": ([(0, 1)] * 3, [through(1, 0, 0)], [1, 2, 1], [[1, 2, 0]]),
    "slanted_local": ([(0, 1)] * 3, [local(1, 0, 0)], [1, 2, 1], [[1, 2, 0]]),
    "collision": ([(0, 1), (0, 1)], [local(0, 1)], [1, 2], [[1, 2]]),
}

if __name__ == "__main__":
    here = pathlib.Path(__file__).parent
    for name, parts in JOBS.items():
        (here / (name + ".job")).write_bytes(job(*parts))
