#!/usr/bin/env python3
"""unproved.py [NAME] < SCRIPT: runs the program NAME, `replay` if none is named, as its crates' sources stand, with nothing proved (`rt try`).

For running a change on the vectors before it is proved. No test of the gate uses it. The library, for host tests and for counting, is draft.py's.
"""
import os
import sys

TOP = os.path.dirname(os.path.dirname(os.path.abspath(__file__)))
name, *words = sys.argv[1:] or ["replay"]
os.chdir(os.path.join(TOP, "crates", name))
os.execvp("rt", ["rt", "try", *(["--", *words] if words else [])])
