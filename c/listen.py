"""Reads a log as candump -L writes it on standard input, and prints what its controllers reported."""
import sys

import j1939

for line in j1939.report(sys.stdin.buffer):
    print(line)
