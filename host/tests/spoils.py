#!/usr/bin/env python3
"""spoils.py HEADER DIRECTORY [all]: copies of ts11.h with one thing spoiled in each.

Each is DIRECTORY/N/ts11.h, with what is spoiled in DIRECTORY/N/what: the value of a constant, a number in a macro or in
an inline function, a type, or a prototype's parameters. With `all`, numbers are also spoiled in each of 18 bits,
and letters are every letter.
"""
import itertools
import os
import re
import sys

NUMBER = re.compile(r"\b(0x[0-9A-Fa-f]+|\d+)\b")
LETTER = re.compile(r"'([A-Z])'")


def other_numbers(text, every_bit):
    """Values near a number, and ones that differ from it in a bit."""
    n = int(text, 0)
    values = [n + 1, n - 1, n ^ 2, n ^ 0x10]
    if every_bit:
        values += [n ^ 1 << bit for bit in range(18)]
    return [str(v) for v in dict.fromkeys(values) if v >= 0 and v != n]


def spoiled_numbers(text, every_bit):
    """The text with one of its numbers changed, for each number that is no part of a name."""
    for m in NUMBER.finditer(text):
        for value in other_numbers(m.group(), every_bit):
            yield text[: m.start()] + value + text[m.end() :]


def other_letters(letter, used, every_letter):
    """The letters of the other constants, the neighbours, the small letter, none; or every letter."""
    letters = used + [chr(ord(letter) - 1), chr(ord(letter) + 1), letter.lower()]
    if every_letter:
        letters += "ABCDEFGHIJKLMNOPQRSTUVWXYZ"
    return [f"'{other}'" for other in dict.fromkeys(letters) if other != letter] + ["0"]


def word_of(value):
    """The word that a code and a mode give: where it stays the same, nothing is spoiled."""
    m = re.fullmatch(r"TS11_COMMAND\((\d+), (\d+)\)", value)
    return (int(m.group(2)) << 8 | int(m.group(1))) & 0xFFFF if m else value


def spoiled_constants(header, every_bit):
    for m in re.finditer(r"^#define (TS11_\w+)(\([^)]*\))? (.*?)[ \t]*(/\*.*)?$", header, re.M):
        name, parameters, value = m.group(1), m.group(2), m.group(3)
        letter = LETTER.fullmatch(value)
        if value in ("false", "true"):
            values = ["true" if value == "false" else "false"]
        elif letter:
            values = other_letters(letter.group(1), LETTER.findall(header), every_bit)
        else:
            values = spoiled_numbers(value, every_bit and not parameters)
        for v in values:
            if word_of(v) != word_of(value):
                yield f"{name} {value} -> {v}", m.start(3), m.end(3), v


def spoiled_inline(header):
    for m in re.finditer(r"static inline \w+ (\w+).*?^}", header, re.M | re.S):
        body = m.start() + m.group().index("{")
        text = header[body : m.end()]
        for n in NUMBER.finditer(text):
            value = str(int(n.group()) + 1)
            what = f"{m.group(1)}, {text[max(0, n.start() - 4):n.end() + 1]!r} -> {value}"
            yield what, body + n.start(), body + n.end(), value


def spoiled_types(header):
    for old, new in (
        ("typedef size_t ts11_answer", "typedef uint32_t ts11_answer"),
        ("uint8_t bytes[TS11_STATE_BYTES]", "uint8_t bytes[TS11_STATE_BYTES + 1]"),
        ("uint8_t bytes[TS11_STATE_BYTES]", "uint16_t bytes[TS11_STATE_BYTES]"),
    ):
        at = header.index(old)
        yield f"{old} -> {new}", at, at + len(old), new


def split(parameter):
    """A parameter's type and name."""
    m = re.fullmatch(r"(.*?)(\w+)", parameter.strip(), re.S)
    return m.group(1), m.group(2)


def spoiled_lists(parameters):
    """Parameter lists with names exchanged, neighbours exchanged, one dropped, or one of another type."""
    n = len(parameters)
    parts = [split(p) for p in parameters]
    for i, j in itertools.combinations(range(n), 2):
        (ti, ni), (tj, nj) = parts[i], parts[j]
        if ti == tj:
            yield f"{ni} <-> {nj}", [ti + nj if k == i else tj + ni if k == j else p for k, p in enumerate(parameters)]
    for i in range(n - 1):
        exchanged = parameters[:i] + [parameters[i + 1], parameters[i]] + parameters[i + 2 :]
        yield f"parameters {i}, {i + 1} exchanged", exchanged
    for i in range(n):
        yield f"{parts[i][1]} dropped", parameters[:i] + parameters[i + 1 :]
    for i, (t, name) in enumerate(parts):
        for old, new in (
            ("size_t", "uint16_t"),
            ("bool", "int"),
            ("uint16_t", "uint32_t"),
            ("uint8_t", "uint16_t"),
            ("const ", ""),
        ):
            if old in t:
                yield f"{name} {old} -> {new}", parameters[:i] + [t.replace(old, new) + name] + parameters[i + 1 :]


def spoiled_prototypes(header):
    for m in re.finditer(r"^ts11_answer (ts11_\w+)\((.*?)\);", header, re.M | re.S):
        parameters = [re.sub(r"\s+", " ", p).strip() for p in m.group(2).split(",")]
        for what, spoiled in spoiled_lists(parameters):
            yield f"{m.group(1)}: {what}", m.start(2), m.end(2), ", ".join(spoiled)
        yield f"{m.group(1)}: answer of another type", m.start(), m.start() + len("ts11_answer"), "uint8_t"


def main():
    header = open(sys.argv[1], encoding="utf-8").read()
    every_bit = "all" in sys.argv[3:]
    spoils = itertools.chain(
        spoiled_constants(header, every_bit), spoiled_inline(header), spoiled_types(header), spoiled_prototypes(header)
    )
    for count, (what, start, end, text) in enumerate(spoils):
        directory = os.path.join(sys.argv[2], f"{count:05}")
        os.makedirs(directory)
        with open(os.path.join(directory, "ts11.h"), "w", encoding="utf-8") as f:
            f.write(header[:start] + text + header[end:])
        with open(os.path.join(directory, "what"), "w", encoding="utf-8") as f:
            f.write(what + "\n")


main()
