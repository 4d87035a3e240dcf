#!/usr/bin/env python3
"""places.py [POINT..]: counts, in crates/*/src, the places that docs/DESIGN-PASS.md speaks of, and lists those of the points named (1 to 8).

It goes by text: it finds what looks like an older form, and the page says of each place that stays why it does. A comment line that begins
with `// Kept` beside a place is such a reason; it is counted apart.
"""
import collections
import glob
import os
import re
import sys

TOP = os.path.dirname(os.path.dirname(os.path.abspath(__file__)))
FILES = sorted(glob.glob(os.path.join(TOP, "crates", "*", "src", "*.rt")))


def lines():
    for file in FILES:
        with open(file) as f:
            for n, line in enumerate(f, 1):
                yield f"{os.path.relpath(file, TOP)[7:]}:{n}", line.rstrip("\n")


def found(pattern, no=None):
    return [f"{at}: {line.strip()}" for at, line in lines() if re.search(pattern, line) and not line.lstrip().startswith("//") and not (no and re.search(no, line))]


def functions():
    """(place, name, generics, parameters, result, requires, body) of each function."""
    head = re.compile(r"^ *(?:pub(?:\([a-z]+\))? )?(?:const )?(?:extern \"C\" )?fn (\w+)(<[^(]*>)?\(", re.M)
    for file in FILES:
        with open(file) as f:
            text = f.read()
        starts = list(head.finditer(text))
        for m, after in zip(starts, starts[1:] + [None]):
            part = text[m.end() : after.start() if after else len(text)]
            depth, i = 1, 0
            while depth:
                depth += {"(": 1, ")": -1}.get(part[i], 0)
                i += 1
            params, rest = part[: i - 1], part[i:]
            sign, _, body = rest.partition("\n{\n") if "\n{\n" in rest else rest.partition("{\n")
            at = f"{os.path.relpath(file, TOP)[7:]}:{text.count(chr(10), 0, m.start()) + 1}"
            yield at, m.group(1), m.group(2) or "", params, re.sub(r"\n.*", "", sign, flags=re.S), re.findall(r"requires(?: \w+)? \{ (.*) \}\n", sign + "\n"), body


def same_but_for_numbers():
    """Functions of one body but for names of their own, numbers and types' numbers."""
    seen = collections.defaultdict(list)
    for at, name, generics, params, result, _, body in functions():
        own = sorted(set(re.findall(r"(\w+):", params)), key=len, reverse=True)
        text = re.sub(r"//.*", "", body)
        for k, p in enumerate(own):
            text = re.sub(rf"\b{p}\b", f"p{k}", text)
        text = re.sub(r"\b\d+\b", "0", re.sub(r"\b(run|eight|eights|runs)\b|_(run|eight|eights|runs)\b", "x", text))
        text = re.sub(r"\s+", " ", text).strip()
        if len(text) > 8:
            seen[(text, len(own))].append(f"{at}: {name}")
    return ["; ".join(v) for v in seen.values() if len(v) > 1]


def facts():
    """Facts that stand in the requires of three functions or more."""
    seen = collections.defaultdict(set)
    for at, name, _, _, _, requires, _ in functions():
        for clause in requires:
            parts = re.split(r" × ", clause)
            for part in parts:
                seen[part.strip().removeprefix("(").removesuffix(")") if part.startswith("(") and part.endswith(")") else part.strip()].add(at + " " + name)
    return [f"{len(v)} functions: {k}" for k, v in sorted(seen.items(), key=lambda kv: -len(kv[1])) if len(v) > 2]


def travellers():
    """Groups of three parameters or more that three functions or more have, by name and type; the largest groups."""
    sets = []
    for at, name, _, params, _, _, _ in functions():
        sets.append((at + " " + name, frozenset(re.sub(r"\s+", " ", p.strip()) for p in re.split(r",\s*(?![^\[]*\])", params) if ":" in p)))
    groups = collections.Counter()
    for i, (_, a) in enumerate(sets):
        for _, b in sets[i + 1 :]:
            if len(a & b) > 2:
                groups[a & b] += 1
    out = []
    for g in groups:
        users = [n for n, s in sets if g <= s]
        if len(users) > 2:
            out.append((len(g), len(users), ", ".join(sorted(g)), users))
    best, covered = [], set()
    for size, n, text, users in sorted(out, key=lambda x: (-x[0] * x[1], x[2])):
        if not set(users) <= covered:
            covered |= set(users)
            best.append(f"{n} functions: {text}")
    return best


NUMBER_ARM = r"^\s+\d+( \| \d+)* =>"
POINTS = {
    "1 variants for a fault, a refusal or nothing, beside others that carry the answer": lambda: found(r"^\s+(Wrong|Bad|Damaged|Fault|Nowhere|Refused|BadBlock|Illegal)(\(|,)"),
    "1 functions that answer a refusal as a number": lambda: [f"{at}: {n}" for at, n, _, _, r, _, _ in functions() if re.search(r"refusal|^check$|_check$", n) and "usize" in r],
    "1 refusals written as numbers": lambda: found(r"refused(_shared)?\([a-z]+, [0-9n]+\)|Refused\([0-9n]+\)")
    + [f"{at}: {n}: {x}" for at, n, _, _, r, _, b in functions() if re.search(r"refusal|^check$|_check$|^ts11_", n) and "usize" in r for x in re.findall(r"return \d+;", b)],
    "1 tests of a kind that is a number": lambda: found(r"\b(code|mode|class|k|kind) (==|!=|<) \d+|\d+ < (k|class)\b|KIND (<=|==)|(== |<= )tape::[A-Z_]*KIND|(== )[A-Z]+_KIND"),
    "1 matches over the numbers of kinds": lambda: [f"{at}: {n}" for at, n, _, _, _, _, b in functions() if re.search(NUMBER_ARM, b, re.M)],
    "1 answers with a number that stands for none": lambda: [f"{at}: {n}" for at, n, _, _, _, _, _ in functions() if n in ("digit", "find", "place_in", "find_word", "append", "place_found", "last", "fill_length")],
    "1 flags with the value beside them": lambda: found(r"^    pub (cut|table_cut|cuts|whole|ended|moves|sends): |Cut\(Sizes, bool\)|^    (whole|ended|filled): "),
    "2 functions alike but for names and numbers": same_but_for_numbers,
    "3 loops by while": lambda: found(r"^\s*while "),
    "4 conversions by hand": lambda: [f"{at}: {n}" for at, n, _, p, r, _, b in functions() if re.fullmatch(r"\s*(\(?\w+(\.\w+)* (% \d+)?\)? ?as \w+|if \w+ \{ 1 \} else \{ 0 \}|if \w+ \{ \w+ \} else \{ 0 \}|if \w+ < \w+ \{ \w+ \} else \{ \w+ \})\s*\}?\s*(\}\s*)?", re.sub(r"//.*", "", b))],
    "4 equality, order or a test of a variant by hand": lambda: [f"{at}: {n}" for at, n, _, _, r, _, b in functions() if "bool" in r and (len(re.findall(r"=> (true|false),", b)) > 1 or "!= b[i]" in b)],
    "5 facts in the requires of three functions": facts,
    "5 parameters that travel together": travellers,
    "6 a buffer with its length beside it": lambda: [f"{at}: {n}" for at, n, _, p, _, q, _ in functions() if re.search(r"&(mut )?\[", p) and any(re.search(r"\bn ≤ length", x) for x in q)]
    + [f"{at}: {n}" for at, n, _, p, _, _, _ in functions() if re.search(r"(mem|reel|table|b): &\[u8\], (m|r|n): usize", re.sub(r"\s+", " ", p))],
    "7 a flag that says which step to run": lambda: [f"{at}: {n}" for at, n, _, p, _, _, _ in functions() if re.search(r"\b(again|blank|opp|hex|gap|reel|mark): bool", p)],
    "8 functions with proofs of their own": lambda: sorted({os.path.dirname(f)[len(TOP) + 8 :] for f in glob.glob(os.path.join(TOP, "crates", "*", "proofs", "**", "*.antt"), recursive=True) if os.path.basename(f) in ("Answers.antt", "Invariants.antt", "Proof.antt")}),
}


def main(points):
    kept = collections.Counter()
    for name, count in POINTS.items():
        it = count()
        print(f"{len(it):4} {name}")
        if name[0] in points:
            for x in it:
                print(f"       {x}")
    reasons = [f"{at}: {line.strip()}" for at, line in lines() if re.search(r"// Kept\b", line)]
    print(f"{len(reasons):4} reasons (`// Kept`)")
    if "k" in points:
        for x in reasons:
            print(f"       {x}")


main(sys.argv[1:])
