#!/usr/bin/env python3
"""Runs a command on an input file and prints its status, wall time and greatest resident memory.

The memory is the process's own high-water mark (VmHWM), read again and again until it ends.

Usage: measure.py INPUT COMMAND [WORD..]
"""
import subprocess
import sys
import time


def high_water(pid):
    try:
        with open(f"/proc/{pid}/status") as status:
            for line in status:
                if line.startswith("VmHWM"):
                    return int(line.split()[1])
    except (OSError, ProcessLookupError):
        pass
    return 0


def main():
    if len(sys.argv) < 3:
        sys.exit(__doc__)
    with open(sys.argv[1], "rb") as source:
        size = source.seek(0, 2)
        source.seek(0)
        begun = time.monotonic()
        process = subprocess.Popen(sys.argv[2:], stdin=source, stdout=subprocess.DEVNULL)
        most = 0
        while process.poll() is None:
            most = max(most, high_water(process.pid))
        took = time.monotonic() - begun
    print(f"status {process.returncode}, {size} bytes, {took:.3f} s, {most} KiB at the most ({most * 1024 / max(1, size):.1f} times the input)")


if __name__ == "__main__":
    main()
