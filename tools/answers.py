#!/usr/bin/env python3
"""Turns each proof that walks the code by hand (proofs/F/Proof.antt) into Invariants.antt and Answers.antt.

usage: python3 tools/answers.py CRATE NAMES.json [FUNCTION..]      at the top

NAMES.json is what `rt check --generated DIR --old-names` writes for the crate. An answer that is only `search rules` is left out, since the
check tries that by itself. What could not be resolved is printed, and stays as it was.
"""
import json
import os
import re
import sys

WORD = r"[A-Za-z_ℕℤα-ωΑ-Ωκ][\w'′-]*[₀-₉]*"
PATH = re.compile(r"(?<![\w'′.◌-])(" + WORD + r")((?:\.[\w'′-]+)+)?")


def norm(s):
    s = s.replace("-", "_").lower()
    return s[:-4] if s.endswith("_lem") else s


class Function:
    def __init__(self, entry):
        self.e = entry
        self.index = {norm(p[0]): i for i, p in enumerate(entry["places"])}

    def place(self, name):
        return self.index.get(norm(name))

    def parent(self, i):
        p = self.e["places"][i][1]
        return None if p is None else self.index[norm(p)]

    def above(self, i):
        while i is not None:
            yield i
            i = self.parent(i)

    def need(self, name):
        name = name[len("overflow-"):] if name.startswith("overflow-") else name
        for k, (old, new) in enumerate(self.e["needs"]):
            if norm(old) == norm(name):
                return new, self.index[norm(self.e["asked_at"][k][0])]
        return None

    def fact(self, i, parts):
        """The path from c of the field `parts` of the place i, or None."""
        label, rest = parts[0], parts[1:]
        old, new = self.e["places"][i][2]
        if old == "" or label in ("args", "requires", "ranges"):
            if label in ("args", "requires", "ranges"):
                text = ".".join(parts)
                for a, b in self.e.get("args") or []:
                    a, b = a.replace(" ", ""), b.replace(" ", "")
                    if a.startswith(".") and ("." + text + ".").startswith(a + "."):
                        text = b[1:] + text[len(a) - 1:]
                return "c." + text
            return "c." + ".".join(parts)
        arm = self.e["arms"][i]
        if arm:
            best = None
            for name, lab, prefix in arm[2]:
                if norm(lab) == norm(label) and rest[: len(prefix)] == prefix and (best is None or len(prefix) > len(best[1])):
                    if prefix or name.endswith("-own"):
                        best = (name, prefix)
            if best and best[1]:
                return ".".join(["c", arm[0], best[0]] + rest[len(best[1]):])
            if norm(label) == norm(old) and old == "match":
                return ".".join(["c", arm[0]] + rest)
        if norm(label) != norm(old):
            return None
        for a, b in self.e["places"][i][4]:
            if rest and rest[0] == a and b not in ("true-raw", "false-raw"):
                rest = [b] + rest[1:]
                break
        clause = self.e["clauses"][i]
        if clause and rest and rest[0] == "ensures" and len(rest) > 1 and rest[1].isdigit():
            fields, k, more = clause["fields"], 0, rest[1:]
            # nested pairs: 0, 1.0, 1.1.0 .. with the last one bare
            while more and more[0] in ("0", "1") and k < len(fields):
                if more[0] == "0":
                    rest = ["ensures", fields[k]] + more[1:]
                    break
                k += 1
                more = more[1:]
                if k == len(fields) - 1:
                    rest = ["ensures", fields[k]] + more
                    break
        return ".".join(["c", new] + rest)


def blocks(text):
    """The top-level definitions: (name, lines)."""
    out, lines = [], text.split("\n")
    comment, current = [], None
    for line in lines:
        if line.startswith("use ") or line.startswith("open "):
            out.append(("use", [line]))
            current = None
        elif line.startswith("--"):
            comment.append(line)
            current = None
        elif line and not line[0].isspace():
            m = re.match(r"(?:pub |abbrev |unfoldable )*(" + WORD + r") :(?:\s|$)", line)
            if m:
                current = [line]
                out.append((m.group(1), comment + current if False else current))
                if comment:
                    out.insert(len(out) - 1, ("comment", comment))
                    comment = []
            elif current is not None:
                current.append(line)
            else:
                current = [line]
                out.append(("?", current))
        elif current is not None:
            current.append(line)
    if comment:
        out.append(("comment", comment))
    return out


class Turner:
    def __init__(self, f, told, helpers):
        self.f, self.told, self.helpers = f, told, helpers
        self.goal, self.guessed = None, []

    def resolve(self, root, dotted, env):
        """('place', i) or ('fact', path), or None where root is no place."""
        if root not in env:
            return None
        kind, at = env[root]
        if kind == "args":
            return ("fact", self.f.fact(at, ["args"] + [p for p in dotted.split(".") if p]))
        parts = [p for p in dotted.split(".") if p]
        start = at
        while parts and parts[0] == "before":
            at = self.f.parent(at) if at is not None else None
            parts = parts[1:]
        if not parts:
            return ("place", start if at is None else at)
        got = self.f.fact(at, parts) if at is not None else None
        if got is None or (parts[0] not in ("args", "requires", "ranges") and got == "c." + ".".join(parts) and at is not None and self.f.e["places"][at][2][0] == ""):
            # the chain has fewer or more steps now: the label alone says which one it was
            for i in self.f.above(self.goal):
                if self.f.e["places"][i][2][0] != "":
                    got = self.f.fact(i, parts)
                    if got:
                        self.guessed.append(root + dotted)
                        return ("fact", got)
            return ("bad", root + dotted)
        return ("fact", got)

    def body(self, text, env, lets):
        """The text with its paths turned. Adds typed lets for the helpers that it calls."""
        env = dict(env)
        out, pos = [], 0
        # lets whose right side is a path of a place go
        let = re.compile(r"let (" + WORD + r") = (" + WORD + r")((?:\.[\w'′-]+)*) in\s*")
        while True:
            m = PATH.search(text, pos)
            l = let.search(text, pos)
            if l and (not m or l.start() <= m.start()):
                r = self.resolve(l.group(2), l.group(3), env)
                if r and r[0] == "place":
                    out.append(text[pos:l.start()])
                    env[l.group(1)] = ("place", r[1])
                    pos = l.end()
                    continue
                if r and r[1] == "c.args":
                    out.append(text[pos:l.start()])
                    env[l.group(1)] = ("args", 0)
                    pos = l.end()
                    continue
                # an ordinary let: its name hides a place
                out.append(text[pos:l.start()])
                rhs = l.group(2) + l.group(3)
                if r and r[0] == "fact":
                    rhs = r[1]
                elif r and r[0] == "bad":
                    self.told.append(r[1])
                env.pop(l.group(1), None)
                out.append("let %s = %s in " % (l.group(1), rhs))
                tail = text[l.end() - (len(l.group(0)) - len(l.group(0).rstrip())):l.end()]
                if "\n" in tail:
                    out[-1] = out[-1].rstrip() + tail
                pos = l.end()
                continue
            if not m:
                out.append(text[pos:])
                break
            out.append(text[pos:m.start()])
            root, dotted = m.group(1), m.group(2) or ""
            if root in self.helpers and not dotted:
                # a helper over a place
                a = re.compile(r"\s+(" + WORD + r")((?:\.before)*)(?![\w.'-])").match(text, m.end())
                r = self.resolve(a.group(1), a.group(2), env) if a else None
                if r and r[0] == "place":
                    h = self.helpers[root]
                    name = root if not any(n == root for n, _, _ in lets) else root + str(len(lets))
                    for n, where, _ in lets:
                        if n.rstrip("0123456789") == root and where == r[1]:
                            name = n
                            break
                    else:
                        inner = {h["arg"]: ("place", r[1])}
                        ty = self.body(h["type"], inner, lets)
                        bd = self.body(h["body"], inner, lets)
                        lets.append((name, r[1], "let %s : %s = %s in" % (name, " ".join(ty.split()), " ".join(bd.split()))))
                    out.append(name)
                    pos = a.end()
                    # take off parentheses that held only this call
                    continue
            r = self.resolve(root, dotted, env)
            if r is None:
                out.append(m.group(0))
            elif r[0] == "fact":
                out.append(r[1])
            else:
                self.told.append(r[1] if r[0] == "bad" else "place: " + m.group(0))
                out.append(m.group(0))
            pos = m.end()
        return "".join(out)


def asked(entry):
    """The goals that ask a record, by their new names, with its fields."""
    out = {}
    for old, new in entry["needs"]:
        for k, fields in entry["asked"].items():
            if norm(k) == norm(old):
                out[new] = fields
    return out


def split_tuple(text):
    """The parts of a tuple, or None where the text is none."""
    text = text.strip()
    if not text.startswith("("):
        return None
    depth, parts, last = 0, [], 1
    for i, ch in enumerate(text):
        if ch in "([{":
            depth += 1
        elif ch in ")]}":
            depth -= 1
            if depth == 0:
                if i != len(text) - 1:
                    return None
                parts.append(text[last:i])
        elif ch == "," and depth == 1:
            parts.append(text[last:i])
            last = i + 1
    return parts if len(parts) > 1 else None


def as_record(body, fields):
    """A tuple of the clauses as a record of them."""
    at = max([0] + [m.end() for m in re.finditer(r"(?m)^\s*let [^\n]* in\s*$\n", body)])
    front, last = body[:at], body[at:]
    values, rest = [], last
    while len(values) < len(fields) - 1:
        parts = split_tuple(rest)
        if parts is None:
            break
        if len(parts) == len(fields) - len(values):
            values += [p.strip() for p in parts]
            break
        values.append(parts[0].strip())
        rest = parts[1].strip() if len(parts) == 2 else "(" + ",".join(parts[1:]) + ")"
        if len(values) == len(fields) - 1:
            values.append(rest)
    indent = re.match(r"\s*", last).group(0).replace("\n", "")
    if len(values) == len(fields):
        return front + indent + "record { " + "; ".join("%s = %s" % x for x in zip(fields, values)) + " }"
    path, values = "both", []
    for k in range(len(fields)):
        values.append("both" + ".1" * k + (".0" if k < len(fields) - 1 else ""))
    return front + indent + "let both = " + last.strip() + " in record { " + "; ".join("%s = %s" % x for x in zip(fields, values)) + " }"


def turn(crate, entry, path, goalpath):
    f = Function(entry)
    with open(path, encoding="utf-8") as it:
        text = it.read()
    told, uses, answers, invariants, head = [], [], [], [], []
    parts = blocks(text)
    helpers = {}
    alias = "tie"
    for name, lines in parts:
        if name in ("use", "comment", "?"):
            continue
        sig = "\n".join(lines)
        m = re.match(r"(?:pub |abbrev )*" + WORD + r" : \((" + WORD + r") : (?:lts|tie)\.([\w'-]+)[^→]*?\) → (.*)", lines[0])
        if m and len(lines) > 1:
            rest = "\n".join(l for l in lines[1:] if not l.startswith("unfolding"))
            b = re.match(re.escape(name) + r" (" + WORD + r") =\s*([\s\S]*)", rest)
            if b:
                helpers[name] = {"arg": b.group(1), "place": m.group(2), "type": re.sub(r"\b" + re.escape(m.group(1)) + r"\b", b.group(1), m.group(3)), "body": b.group(2)}
    t = Turner(f, told, helpers)
    loops = {norm(l[0][0]): (l[0][1], l[1], entry["changed"][k]) for k, l in enumerate(entry["loops"])}
    pending, defined = [], {}
    for name, lines in parts:
        if name == "use":
            l = lines[0]
            if re.search(r"\.(Statement\.\{statement\}|Tie as tie|Reads as [\w-]+|Lts as lts|Spec as [\w-]+)$", l):
                continue
            uses.append(l)
        elif name == "comment":
            pending += lines
        elif name == "?":
            told.append("unread: " + lines[0][:80])
        elif name in helpers or "statement M" in lines[0]:
            pending = []
        else:
            comment, pending = pending, []
            inv = re.search(r" : tie\.(invariant|decreases)-([\w'-]+)", lines[0])
            need = re.search(r" : tie\.Need-([\w'-]+)", lines[0])
            if inv and "decreases-" + inv.group(2) in lines[0] + "" or inv:
                kind, loop = inv.group(1), inv.group(2)
                if norm(loop) not in loops:
                    told.append("loop " + loop)
                    continue
                new, names, changed = loops[norm(loop)]
                d = re.match(re.escape(name) + r"((?: " + WORD + r"| _)*) =\s*([\s\S]*)", "\n".join(lines[1:]))
                if not d:
                    told.append("invariant " + name)
                    continue
                given = d.group(1).split()
                first, later = given[: len(names)], given[len(names):]
                table = {}
                for v, n, ch in zip(first, names, changed):
                    table[v] = ("l.initial." if ch else "l.") + n
                for v, n in zip(later, [n for n, ch in zip(names, changed) if ch]):
                    table[v] = "l." + n
                body = d.group(2).strip()
                defined[name] = (given, body)
                again = re.fullmatch(r"((?:invariant|decreases)-[\w'-]+)((?: [\w'₀-₉]+)*)", body)
                if again and again.group(1) in defined:
                    params, inner = defined[again.group(1)]
                    swap = dict(zip(params, again.group(2).split()))
                    body = PATH.sub(lambda m: swap.get(m.group(1), m.group(1)) + (m.group(2) or ""), inner)
                body = PATH.sub(lambda m: table.get(m.group(1), m.group(1)) + (m.group(2) or ""), body)
                invariants.append((comment, "abbrev pub %s-%s : goal.%s-%s\n%s-%s l = %s" % (kind, new, kind, new, kind, new, body)))
            elif need:
                got = f.need(need.group(1))
                if got is None:
                    told.append("no goal for " + need.group(1))
                    continue
                new, at = got
                unf = [l for l in lines[1:] if l.startswith("unfolding")]
                rest = "\n".join(l for l in lines[1:] if not l.startswith("unfolding"))
                d = re.match(re.escape(name) + r"((?: " + WORD + r"| _)*) =\s*([\s\S]*)", rest)
                if not d:
                    told.append("answer " + name)
                    continue
                body = d.group(2).strip()
                if body in ("search rules", "search needs") and not unf:
                    continue
                args = d.group(1).split()
                lets = []
                t.goal = at
                body = t.body(body, {args[0]: ("place", at)}, lets)
                if new in asked(entry):
                    body = as_record(body, asked(entry)[new])
                if lets:
                    body = "\n    " + "\n    ".join(x[2] for x in lets) + "\n    " + body.lstrip()
                elif "\n" in body:
                    body = "\n    " + body
                else:
                    body = " " + body
                answers.append((comment, "pub %s : goal.%s\n%s%s c =%s" % (new, new, "".join(u + "\n" for u in unf), new, body)))
            else:
                comment and head.extend(comment)
                head.append("\n".join(lines).strip("\n"))
                told.append("kept: " + name)
        if name == "comment" and not head and not answers and not invariants and not uses:
            pass
    first = [l for l in text.split("\n")[:3] if l.startswith("--")]
    base = os.path.dirname(path)

    def write(name, module, made, extra):
        if not made:
            return
        body = "\n".join(first) + "\n" + "\n".join(uses + ["use %s.%s as goal" % (goalpath, module)]) + "\n\n"
        for x in extra:
            body += x + "\n\n"
        for comment, it in made:
            comment = [c for c in comment if c not in first]
            body += "".join(c + "\n" for c in comment) + it.rstrip() + "\n\n"
        with open(os.path.join(base, name), "w", encoding="utf-8") as it:
            it.write(body.rstrip("\n") + "\n")

    write("Invariants.antt", "Given", invariants, [])
    write("Answers.antt", "Goals", answers, head)
    os.remove(path)
    return told


def main(argv):
    crate, names = argv[0], argv[1]
    with open(names) as f:
        table = json.load(f)
    top = os.path.join("crates", crate, "proofs")
    for folder, _, files in sorted(os.walk(top)):
        if "Proof.antt" not in files:
            continue
        rel = os.path.relpath(folder, top).replace("/", ".")
        if argv[2:] and rel.split(".")[-1] not in argv[2:] and rel not in argv[2:]:
            continue
        entry = table.get("Rattle-%s-proofs.%s.Lts" % (crate, rel))
        if entry is None:
            print("%s: no names" % rel)
            continue
        told = turn(crate, entry, os.path.join(folder, "Proof.antt"), "Rattle.%s.proofs.%s" % (crate, rel))
        for t in told:
            print("%s: %s" % (rel, t))


if __name__ == "__main__":
    main(sys.argv[1:])
