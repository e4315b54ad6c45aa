#!/usr/bin/env python3
"""Times `canpack check` on placed matrices of growing lists of signals.

usage: check_times.py PROGRAM [SIGNALS ..]      PROGRAM is the built canpack
One sender. Lists of up to 128 signals are of free signals, 8 of 8 bits in a frame; longer ones are of I-PDUs of 16 signals of
8 bits, two in a container. It prints a line for each number of signals: the signals, the bytes of the four files, the least of
20 times in milliseconds, the status and the line said.
"""
import os
import subprocess
import sys
import tempfile
import time


def free_rows(signals):
    """The rows of SIGNALS and MATRIX: 8 free signals a frame of 8 bytes, 9800 ticks."""
    listed = [f"S{i},ECU1,,8,10000,10000,0" for i in range(signals)]
    placed = [f"{256 + i // 8},ECU1,8,9800,none,,0,S{i},{8 * (i % 8)},8" for i in range(signals)]
    return listed, placed


def pdu_rows(signals):
    """Two I-PDUs of 16 bytes a container of 40 bytes in a frame of 48, 26000 ticks; the parts begin at 4 and 24."""
    listed, placed = [], []
    for i in range(signals):
        pdu, frame, at = 1 + i // 16, 256 + i // 32, 4 + 20 * (i // 16 % 2)
        listed.append(f"S{i},ECU1,{pdu},8,10000,10000,0")
        placed.append(f"{frame},ECU1,48,26000,short,{pdu},{at},S{i},{8 * (at + i % 16)},8")
    return listed, placed


def files(folder, signals):
    def write(name, text):
        with open(os.path.join(folder, name), "w") as out:
            out.write(text)

    listed, placed = free_rows(signals) if signals <= 128 else pdu_rows(signals)
    write("n.json", '{"version":1,"ticks_per_us":80,"nominal_ticks":160,"data_ticks":40,"first_id":256}\n')
    write("s.csv", "\n".join(["signal,sender,pdu,bits,period_us,deadline_us,jitter_us"] + listed) + "\n")
    write("m.csv", "\n".join(["id,sender,size,ticks,header,pdu,at,signal,start,bits"] + placed) + "\n")
    write("c.cert", "canpack certificate 1\nkind placed\nend\n")


def main():
    program = os.path.abspath(sys.argv[1])
    for signals in map(int, sys.argv[2:] or ["16", "32", "64", "128", "256", "512", "1024", "2048"]):
        with tempfile.TemporaryDirectory() as folder:
            files(folder, signals)
            size = sum(os.path.getsize(os.path.join(folder, f)) for f in os.listdir(folder))
            best = None
            for _ in range(20):
                start = time.perf_counter()
                run = subprocess.run([program, "check", "n.json", "s.csv", "m.csv", "c.cert", "1"], cwd=folder, capture_output=True, text=True)
                took = time.perf_counter() - start
                best = took if best is None else min(best, took)
            print(f"{signals:5} signals {size:7} bytes {1000 * best:8.2f} ms  status {run.returncode}  {run.stdout.strip()}")


main()
