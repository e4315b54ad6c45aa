#!/usr/bin/env python3
"""Shows the peak memory of `canpack check` as CERT grows.

usage: check_memory.py PROGRAM [MEGABYTES]      PROGRAM is the built canpack; 1000 megabytes where no number is given

For certificates of a megabyte, of a tenth and of the whole size: frame lines of one number, frame lines of 256 numbers, and a tree of
the two-signal example again and again, which is refused at its second tree. A line each: the size, the time, the peak of the process's
resident memory in MiB, the status and the line said.
"""
import os
import subprocess
import sys
import tempfile
import time

FILES = {
    "n": '{"version":1,"ticks_per_us":80,"nominal_ticks":160,"data_ticks":40,"first_id":256}\n',
    "s": "signal,sender,pdu,bits,period_us,deadline_us,jitter_us\nS1,ECU1,,8,10000,10000,0\nS2,ECU1,,8,10000,10000,0\n",
    "m": "id,sender,size,ticks,header,pdu,at,signal,start,bits\n256,ECU1,2,7400,none,,0,S1,0,8\n256,ECU1,2,7400,none,,0,S2,8,8\n",
}
HEAD = "canpack certificate 1\nkind best\n"
LONG = "frame " + " ".join(["18446744073709551615"] * 257) + "\n"
KINDS = {
    "frame lines of one number": (HEAD, "frame 7400 0\n", "main\ni 1\nb\nend\n"),
    "frame lines of 256 numbers": (HEAD, LONG, "main\ni 1\nb\nend\n"),
    "trees after the first": (HEAD + "frame 7400 0\nmain\n", "i 1\ni 2\nb\nb\n", "end\n"),
}


def write(path, parts, size):
    front, line, end = parts
    piece = (line * (1 + (1 << 20) // len(line))).encode()
    with open(path, "wb") as out:
        out.write(front.encode())
        while out.tell() < size:
            out.write(piece)
        out.write(end.encode())


def peak(words, folder):
    """The run's time, peak memory in MiB, status and line; `/usr/bin/time` (Debian's package time) starts it, since a child of
    this interpreter would count the interpreter's own memory."""
    start = time.perf_counter()
    run = subprocess.run(["/usr/bin/time", "-q", "-f", "%M", "-o", "peak", *words], cwd=folder, capture_output=True, text=True)
    took = time.perf_counter() - start
    with open(os.path.join(folder, "peak")) as told:
        return took, int(told.read()) / 1024, run.returncode, run.stdout.strip()


def main():
    if len(sys.argv) < 2:
        sys.exit(__doc__)
    program = os.path.abspath(sys.argv[1])
    whole = int(sys.argv[2]) if len(sys.argv) > 2 else 1000
    with tempfile.TemporaryDirectory() as folder:
        for name, text in FILES.items():
            with open(os.path.join(folder, name), "w") as out:
                out.write(text)
        for kind, parts in KINDS.items():
            for megabytes in (1, max(1, whole // 10), whole):
                write(os.path.join(folder, "c"), parts, megabytes * 1000000)
                took, mib, status, said = peak([program, "check", "n", "s", "m", "c", "1"], folder)
                print(f"{kind:28} {megabytes:5} MB  {took:7.2f} s  {mib:7.1f} MiB  {status} {said}", flush=True)


main()
