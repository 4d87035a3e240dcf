#!/usr/bin/env python3
"""chains.py CRATE FUNCTION..: sets the `.before` chains of the functions' proofs anew, after their code has changed.

A proof says `c .before .before .put-bytes .ensures`; a line more or less in the code moves every such place. This takes the records from what the toolchain
generates (`rt dev CRATE --generated`) and counts again: a chain leads to the nearest record that has the field behind it; `.args`, `.pre`, `.good`, and the chain of
`let s = c .before .. in`, to the start. Any other chain with no field behind it is left alone. Needs that the proof lacks, and those that are no longer asked, are
printed. FUNCTION is its path below proofs/, as `steps/undo`. A chain may be written with too few steps: `c .before .undo .ensures` will do.
"""
import os
import re
import subprocess
import sys
import tempfile

TOP = os.path.dirname(os.path.dirname(os.path.abspath(__file__)))
crate, functions = sys.argv[1], sys.argv[2:]
FIELD = r"[^\s).,;]+"
AT_START = {"args", "pre", "good", "κs", "blocks"}


def records(text):
    """Each record's fields with their types, and for each need the record of its `c`."""
    fields = {}
    for name, body in re.findall(r"pub record (\S+) : Type 0 where\n((?:.*\S.*\n)*)", text):
        fields[name] = dict(re.findall(r"pub (\S+) : (\S+)", body))
    return fields, dict(re.findall(r"Need-(\S+)(?: \S+)* =\s+\(c : (\S+?)(?: [^)]*)?\)", text))


def steps_to(field, record, fields):
    """How many `.before` lead from the record to the nearest one with the field."""
    n = 0
    while field not in fields[record]:
        if "before" not in fields[record]:
            return None
        record, n = fields[record]["before"], n + 1
    return n


def set_anew(proof, record, fields):
    def chain(m):
        field = m[1]
        if field is None and not m.string[: m.start()].endswith("let s = "):
            return m[0]
        n = steps_to("args" if field is None or field in AT_START else field, record, fields)
        if n is None:
            print(f"  no record before {record} has {field}")
            return m[0]
        return "c" + " .before" * n + (f" .{field}" if field else "")

    return re.sub(rf"\bc(?= \.)(?: \.before\b)*(?: \.(?!before\b)({FIELD}))?", chain, proof)


with tempfile.TemporaryDirectory() as made:
    said = subprocess.run(["rt", "dev", crate, "--generated", made], cwd=TOP, capture_output=True, text=True)
    if not os.listdir(made):
        sys.exit(said.stdout + said.stderr)
    for function in functions:
        print(function)
        with open(os.path.join(made, f"Rattle·{crate}·proofs/proofs/{function}/Lts.antt")) as f:
            generated = f.read()
        fields, starts = records(generated)
        path = os.path.join(TOP, "crates", crate, "proofs", function, "Proof.antt")
        with open(path) as f:
            parts = f.read().split("\n\n")
        had = []
        for i, part in enumerate(parts):
            need = re.search(r"^\S+ : tie\.Need-(\S+)", part, re.M)
            if need:
                had.append(need[1])
                if need[1] in starts:
                    parts[i] = set_anew(part, starts[need[1]], fields)
        with open(path, "w") as f:
            f.write("\n\n".join(parts))
        asked = re.findall(r"^ *abbrev pub Need-(\S+) : Type 0", generated, re.M)
        for word, names in (("lacking", [n for n in asked if n not in had]), ("no longer asked", [n for n in had if n not in asked])):
            if names:
                print(f"  {word}: {' '.join(names)}")
