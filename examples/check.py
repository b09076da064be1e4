#!/usr/bin/env python3
"""Checks a certificate for a level in a string, and prints the report.

At the top of a checkout, after 'make lib':
    PYTHONPATH=out/lib python3 examples/check.py
Where the library is installed, no PYTHONPATH is needed."""
import sys

import sokoaudit

LEVEL = "#####\n#@ .#\n# $ #\n#####\n"
ANSWERS = """\
sokoban-answers 1
level 1
unsolvable
pattern 2,3 @ *
pattern 3,3 @ *
pattern 4,3 @ *
end
"""
try:
    report, counts = sokoaudit.audit(LEVEL, ANSWERS)
except sokoaudit.Fault as fault:
    sys.exit(str(fault))
print(report.decode(), end="")
sys.exit(counts.refused + counts.missing > 0)
