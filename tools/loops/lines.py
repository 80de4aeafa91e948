#!/usr/bin/env python3
"""lines.py COUNTS PROGRAM FUNCTION: the function's instructions, each with how often callgrind (--dump-instr=yes) saw it."""
import re
import subprocess
import sys

counts_file, program, function = sys.argv[1:4]
counts, address, called = {}, 0, False
for line in open(counts_file):
    if line.startswith("calls="):
        called = True  # the next line is the callee's cost
        continue
    m = re.match(r"(0x[0-9a-f]+|[+-]\d+|\*) (?:\d+|[+-]\d+|\*) (\d+)$", line.rstrip())
    if not m:
        continue
    where = m.group(1)
    address = int(where, 16) if where.startswith("0x") else address + (0 if where == "*" else int(where))
    if not called:
        counts[address] = counts.get(address, 0) + int(m.group(2))
    called = False

inside = False
code = subprocess.run(["objdump", "-d", "--no-show-raw-insn", "-M", "intel", program], capture_output=True, text=True, check=True).stdout
for line in code.split("\n"):
    m = re.match(r"[0-9a-f]+ <(.*)>:$", line)
    if m:
        inside = m.group(1) == function
    m = re.match(r"\s*([0-9a-f]+):\s*(.*)$", line)
    if inside and m:
        print("%10s %6s  %s" % (counts.get(int(m.group(1), 16), ""), m.group(1), m.group(2)))
