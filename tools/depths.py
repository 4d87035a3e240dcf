#!/usr/bin/env python3
"""depths.py CRATE PROOF NEED [MOST [ARGUMENTS]]: what a proof knows at each depth of `.before`, from the need on.

A `returns` of a function with many calls says `c .before .before .. .put-bytes .ensures`; this prints a line for each depth, with the record that
stands there (After-put-bytes: the call's `.ensures` is one of its fields). PROOF is the function's Proof.antt, with a hole for what is not proved
yet; it is left as it was. ARGUMENTS are those of a need behind a loop: ' Inv-loop μ-loop'.
"""
import re
import subprocess
import sys

crate, path, need = sys.argv[1:4]
most = int(sys.argv[4]) if len(sys.argv) > 4 else 24
arguments = sys.argv[5] if len(sys.argv) > 5 else ""
with open(path) as f:
    proof = f.read()
probes = "".join(f"\nprobe{d} : tie.{need}{arguments}\nprobe{d} c = c{' .before' * d} .no-such-field\n" for d in range(most + 1))
with open(path, "w") as f:
    f.write(proof + probes)
try:
    said = subprocess.run(["rt", "dev", crate, "--allow-holes"], capture_output=True, text=True)
finally:
    with open(path, "w") as f:
        f.write(proof)
for line in (said.stdout + said.stderr).splitlines():
    there = re.search(r"`probe(\d+)`: record `[^`]*\.([^.`]*)` has no field `no-such-field`", line)
    if there:
        print(there.group(1), there.group(2))
