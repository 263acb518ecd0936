"""From Python: `python3 counts.py FILE` prints the counts of a sample file and its report, with bindings/python on PYTHONPATH."""

import sys

import krakobran

try:
    sample = krakobran.Sample.open(sys.argv[1])
except krakobran.Refused as refused:
    sys.exit(f"refused {refused.number}")
counts = sample.counts()
print(f"L {counts.arrived}, reordered {counts.reordered}, duplicates {counts.duplicates}, in order {counts.inorder}")
print(sample.report(), end="")
