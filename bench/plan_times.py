#!/usr/bin/env python3
"""Times `canpack plan`, and `canpack check` of what it wrote; with a second program, the same of both in one run.

usage: plan_times.py PROGRAM [OTHER]      PROGRAM is the built canpack, OTHER one with the same words

A line for each case: the nodes of the certificate besides open leaves, the least of 5 times of `plan` and of `check` in milliseconds
above that of starting a process, nodes a second of `plan`, the status and the line said; with OTHER its times and the ratios.
Cases: one sender of 8, 16, 20 and 24 free signals within 1000000 branches, one of 32 whose branches are spent; four senders of six
signals; periods and deadlines that leave few orders; and last the generated cases 0 to 100 together, by `make NUMBER`.
"""
import os
import random
import subprocess
import sys
import tempfile
import time

NETWORK = '{"version":1,"ticks_per_us":80,"nominal_ticks":160,"data_ticks":40,"first_id":256}\n'
HEADER = "signal,sender,pdu,bits,period_us,deadline_us,jitter_us"


def one_sender(count):
    return [f"S{k},ECU1,,{8 + 7 * (k % 9)},{10000 * (1 + k % 3)},," for k in range(count)]


def four_senders():
    kinds = [(8, 10000), (16, 10000), (12, 20000), (10, 20000), (8, 50000), (16, 100000)]
    return [f"{name}{k + 1},{name},,{bits},{period},," for name in "ABCD" for k, (bits, period) in enumerate(kinds)]


def tight(seed, senders, each):
    """Short deadlines against long frames, so that the test of times is asked at each place."""
    draw = random.Random(seed)
    return [f"S{s}_{k},E{s},,{draw.randint(8, 64)},{draw.choice([5000, 10000, 20000])},{draw.choice([900, 1500, 2500])},"
            for s in range(senders) for k in range(each)]


CASES = [(f"{n} of one sender", one_sender(n), 1000000) for n in (8, 16, 20, 24, 32)] + [
    ("four senders of 6", four_senders(), 100000),
    ("tight, 3 senders of 8", tight(1, 3, 8), 100000),
    ("tight, 6 senders of 4", tight(2, 6, 4), 100000),
]


def least(words, folder, runs=5):
    best = None
    for _ in range(runs):
        start = time.perf_counter()
        run = subprocess.run(words, cwd=folder, capture_output=True, text=True)
        took = time.perf_counter() - start
        best = took if best is None else min(best, took)
    return best, run


def nodes(folder):
    with open(os.path.join(folder, "c")) as cert:
        return sum(line[:2] in ("i ", "b\n", "f ") for line in cert)


def timed(program, folder, branches, start):
    plan, said = least([program, "plan", "n", "s", "m", "c", str(branches), "1"], folder)
    check, _ = least([program, "check", "n", "s", "m", "c", "1"], folder)
    return max(plan - start, 1e-5), max(check - start, 1e-5), said


def main():
    programs = [os.path.abspath(p) for p in sys.argv[1:]]
    with tempfile.TemporaryDirectory() as folder:
        start, _ = least(["/bin/true"], folder, 40)
        for name, signals, branches in CASES:
            with open(os.path.join(folder, "n"), "w") as out:
                out.write(NETWORK)
            with open(os.path.join(folder, "s"), "w") as out:
                out.write("\n".join([HEADER, *signals]) + "\n")
            rows = [timed(p, folder, branches, start) for p in programs]
            plan, check, said = rows[0]
            count = nodes(folder)
            line = (f"{name:22} {count:8} nodes  plan {1e3 * plan:8.2f} ms {count / plan / 1e6:6.2f} M/s  check {1e3 * check:8.2f} ms"
                    f"  {said.returncode:2} {said.stdout.strip()}")
            for other_plan, other_check, _ in rows[1:]:
                line += f"  other {1e3 * other_plan:.2f} {1e3 * other_check:.2f} ratio {plan / other_plan:.2f} {check / other_check:.2f}"
            print(line)
        for program in programs:
            begun = time.perf_counter()
            for number in range(101):
                subprocess.run([program, "make", str(number)], capture_output=True)
            print(f"make 0 to 100: {1e3 * (time.perf_counter() - begun - 101 * start):.1f} ms  {os.path.basename(program)}")


main()
