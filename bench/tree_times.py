#!/usr/bin/env python3
"""Times `canpack check` on certificates of the kind `best`: trees over the groupings of equal signals of one sender.

usage: tree_times.py PROGRAM [SIGNALS ..]      PROGRAM is the built canpack
So many free signals of 64 bits at 100 ms, so at most 8 in a frame. The tree goes down to each grouping of all signals, but where the
load of the classes so far reaches the best. It prints a line for each number of signals: the signals, the nodes, the bytes of CERT, the
least of 5 times in milliseconds, nodes a second, MB/s, the status and the line said.
"""
import os
import subprocess
import sys
import tempfile
import time

NOMINAL, DATA, MOST = 160, 40, 8
SIZES = [0, 1, 2, 3, 4, 5, 6, 7, 8, 12, 16, 20, 24, 32, 48, 64]


def size_of(count):
    return next(s for s in SIZES if s >= 8 * count)


def ticks(count):
    """The greatest ticks of a frame of so many signals: 33 nominal bits, and the data bits with the CRC."""
    size = size_of(count)
    return 33 * NOMINAL + (6 + 10 * size + (27 if size <= 16 else 32)) * DATA


def best_counts(total):
    """The numbers of signals in each frame of the least load, by dynamic programming over frames of 1 to 8."""
    least = [(0, [])]
    for n in range(1, total + 1):
        least.append(min((least[n - k][0] + ticks(k), least[n - k][1] + [k]) for k in range(1, min(n, MOST) + 1)))
    return least[total]


def tree(total, best):
    """The lines of the tree in preorder."""
    lines, counts = [], []

    def at(load, left):
        if load >= best:
            lines.append("b")
            return
        options = [k for k in range(len(counts)) if counts[k] < MOST]
        lines.append(f"i {len(options) + 1}")
        for k in options:
            counts[k] += 1
            at(load - ticks(counts[k] - 1) + ticks(counts[k]), left - 1)
            counts[k] -= 1
        counts.append(1)
        at(load + ticks(1), left - 1)
        counts.pop()

    at(0, total)
    return lines


def frame_lines(counts):
    """A line for each frame by ascending identifier: once each is sent, and once the longest lower one."""
    for place in range(len(counts)):
        through = sum(map(ticks, counts[:place + 1])) + max(map(ticks, counts[place + 1:]), default=0)
        yield f"frame {through} {through - ticks(counts[place])}"


def files(folder, total):
    """The four files. Answers the number of nodes."""
    def write(name, lines):
        with open(os.path.join(folder, name), "w") as out:
            out.write("\n".join(lines) + "\n")

    best, counts = best_counts(total)
    rows, first = [], 0
    for number, count in enumerate(counts):
        rows += [f"{256 + number},ECU1,{size_of(count)},{ticks(count)},none,,0,S{first + k},{64 * k},64" for k in range(count)]
        first += count
    lines = tree(total, best)
    write("n.json", ['{"version":1,"ticks_per_us":80,"nominal_ticks":160,"data_ticks":40,"first_id":256}'])
    write("s.csv", ["signal,sender,pdu,bits,period_us,deadline_us,jitter_us"]
          + [f"S{k},ECU1,,64,100000,100000,0" for k in range(total)])
    write("m.csv", ["id,sender,size,ticks,header,pdu,at,signal,start,bits"] + rows)
    write("c.cert", ["canpack certificate 1", "kind best", *frame_lines(counts), "main", *lines, "end"])
    return len(lines)


def main():
    program = os.path.abspath(sys.argv[1])
    for total in map(int, sys.argv[2:] or ["8", "9", "10", "11"]):
        with tempfile.TemporaryDirectory() as folder:
            nodes = files(folder, total)
            size = os.path.getsize(os.path.join(folder, "c.cert"))
            words = [program, "check", "n.json", "s.csv", "m.csv", "c.cert", "1"]
            least = None
            for _ in range(5):
                start = time.perf_counter()
                run = subprocess.run(words, cwd=folder, capture_output=True, text=True)
                took = time.perf_counter() - start
                least = took if least is None else min(least, took)
            print(f"{total:3} signals {nodes:9} nodes {size:9} bytes {1000 * least:9.2f} ms {nodes / least / 1e6:7.2f} M nodes/s"
                  f" {size / least / 1e6:7.1f} MB/s  status {run.returncode}  {run.stdout.strip()}")


main()
