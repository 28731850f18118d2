#!/usr/bin/env python3
"""Runs a command whose standard error is a terminal, writes what it shows to a file, and ends with the command's code.

    bench/program/terminal.py SHOWN COMMAND [WORD..]

The code of a command that a signal ends is 128 and its number, as in a shell. The file PID beside SHOWN has its process.
"""
import os
import pathlib
import pty
import subprocess
import sys


def main():
    if len(sys.argv) < 3:
        sys.exit(__doc__)
    shown = pathlib.Path(sys.argv[1])
    ours, theirs = pty.openpty()
    child = subprocess.Popen(sys.argv[2:], stderr=theirs)
    os.close(theirs)
    shown.with_name("PID").write_text(f"{child.pid}\n")
    with open(shown, "wb") as file:
        while True:
            try:
                piece = os.read(ours, 65536)
            except OSError:
                # The last process that had the terminal has ended.
                break
            if not piece:
                break
            file.write(piece)
    code = child.wait()
    sys.exit(code if code >= 0 else 128 - code)


if __name__ == "__main__":
    main()
