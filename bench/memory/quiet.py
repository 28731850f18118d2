#!/usr/bin/env python3
"""Shows that calls which are said to take no memory take none.

The programs that measure read the clock just before and just after the calls they time: `Solver::run`, `worth`,
`sawtooth`, `split_into` and `fits`, thousands of them. Between two such readings no call for memory may come. For
`check`, the program runs on a full certificate that stands and on the same with its first node raised so that it
fails at once: reading both takes the same calls, so judging all nodes and points may add only those of the answer.
"""
import os
import re
import subprocess
import sys
import tempfile
from pathlib import Path

HERE = Path(__file__).resolve().parent
TOP = HERE.parents[1]
FEW = 40


def counts(shim, folder, words, text=b""):
    """All calls for memory of a run, the measured spans, and the calls within these."""
    told = folder / "counts"
    done = subprocess.run(words, input=text, capture_output=True, env={**os.environ, "LD_PRELOAD": str(shim), "COUNTS": str(told)})
    numbers = [int(line.split()[0]) for line in told.read_text().splitlines()]
    return numbers, done


def measure_program(shim, folder, name):
    program = TOP / f"crates/{name}/out/{name}"
    (calls, spans, measured), done = counts(shim, folder, [program, "measure"])
    if done.returncode != 0 or spans == 0 or calls == 0:
        sys.exit(f"{name}: nothing was measured: {done.stdout + done.stderr}")
    if measured != 0:
        sys.exit(f"{name}: {measured} calls for memory while the clock ran")
    print(f"{name}: {spans} measured spans, no call for memory within them, {calls} in all")


def measure_check(shim, folder):
    full = folder / "full"
    subprocess.run([sys.executable, TOP / "bench/check/make-certificate.py"], stdout=full.open("wb"), check=True)
    text = full.read_bytes()
    span = re.search(rb"\ntail (\d+)/", text).group(1)
    raised = re.sub(rb"(\nnode 0\nvector) -?\d+", rb"\1 " + span, text, count=1)
    program = TOP / "crates/osposg_cli/out/osposg_cli"
    (yes, _, _), stood = counts(shim, folder, [program, "check"], text)
    (no, _, _), failed = counts(shim, folder, [program, "check"], raised)
    if stood.returncode != 0 or failed.returncode != 1:
        sys.exit(f"check: {stood.stdout[:200]} and {failed.stdout[:200]}")
    if abs(yes - no) > FEW:
        sys.exit(f"check: {yes} calls for memory where all is judged, {no} where the first node fails")
    print(f"check: {yes} calls for memory where all is judged, {no} where the first node fails")


def main():
    with tempfile.TemporaryDirectory() as name:
        folder = Path(name)
        shim = folder / "count.so"
        subprocess.run(["cc", "-O2", "-shared", "-fPIC", "-o", shim, HERE / "count.c"], check=True)
        for program in ("simplex_bench", "sets_bench"):
            measure_program(shim, folder, program)
        measure_check(shim, folder)


main()
