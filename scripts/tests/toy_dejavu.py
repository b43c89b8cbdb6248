"""Stands in for `dejavu`: it reads and writes the files of docs/formats.md, of sources that are no C.

A source has a line `INPUT OUTPUT STATUS` for each input that it knows, where OUTPUT has `_` for a newline, and - for
nothing. A test runs the line of its input: it crosses the edge of that line's number from 0, and takes as many turns as
the line has bytes. An edge is dangerous where the new source has another line of that number. A line `BAD` is a fault
of syntax. What runs is written to the file that the variable RUNS names.

`points SOURCE` stands in for the program of that name: point 0 is at the first line, and behind it there is a point for
each line, with the line's edge, which leads back to it.
"""
import hashlib
import os
import sys


class Refused(Exception):
    """The status and the line of a refusal."""


def read(path):
    with open(path, "rb") as file:
        return file.read()


def source_of(role, path):
    lines = read(path).decode("utf-8").splitlines()
    if "BAD" in lines:
        raise Refused(3, f"{role} syntax at {lines.index('BAD') + 1}:1")
    return lines


def digest_of(path):
    return hashlib.sha256(read(path)).hexdigest()


def run(path, lines, name, budget, given):
    """The seven lines of a test that runs."""
    with open(os.environ["RUNS"], "a", encoding="utf-8") as log:
        log.write(f"{name}\n")
    text = bytes.fromhex(given.strip("-")).decode("utf-8")
    at = next(at for at, line in enumerate(lines) if line.split()[0] == text)
    _, output, status = lines[at].split()
    row = (1 << at).to_bytes((len(lines) + 7) // 8, "little").hex()
    shown = "" if output == "-" else output.replace("_", "\n").encode("utf-8").hex()
    ended = f"exit {status}" if status.isdigit() else f"trap {status}"
    return [f"test {name}", f"budget {budget}", f"input {given}", f"status {ended}", f"turns {len(lines[at])}",
            f"output {shown or '-'}", f"crossed {row}"]


def put_history(path, lines, entries):
    text = "\n".join(("dejavu history 3", f"source {digest_of(path)}", f"edges {len(lines)}", f"tests {len(entries)}",
                      *(line for entry in entries for line in entry), ""))
    print(f"{text}end {hashlib.sha256(text.encode()).hexdigest()}")


def entries_of(path, old, lines):
    told = read(path).decode("ascii").splitlines()
    if told[1] != f"source {digest_of(old)}":
        raise Refused(5, f"history source {told[1][7:]} {digest_of(old)}")
    if told[2] != f"edges {len(lines)}":
        raise Refused(5, f"history edges {told[2][6:]} {len(lines)}")
    return [told[at:at + 7] for at in range(4, len(told) - 1, 7)]


def chosen(entry, old, new):
    """The dangerous edge that an entry crossed, if there is one."""
    edge = int.from_bytes(bytes.fromhex(entry[6][8:]), "little").bit_length() - 1
    return edge if new[edge:edge + 1] != [old[edge]] else None


def record(source, suite):
    lines = source_of("source", source)
    tests = [line.split() for line in read(suite).decode("ascii").splitlines()[1:]]
    put_history(source, lines, [run(source, lines, *words[1:]) for words in tests])


def select(old_path, new_path, history):
    old, new = source_of("old", old_path), source_of("new", new_path)
    entries = entries_of(history, old_path, old)
    edges = [chosen(entry, old, new) for entry in entries]
    for entry, edge in zip(entries, edges):
        print(f"left {entry[0][5:]}" if edge is None else f"run {entry[0][5:]} edge {edge}")
    print(f"selected {len(edges) - edges.count(None)} of {len(edges)}")


def carry(old_path, new_path, history):
    old, new = source_of("old", old_path), source_of("new", new_path)
    made = []
    for entry in entries_of(history, old_path, old):
        name, budget, given = (line.split()[1] for line in entry[:3])
        made.append(entry if chosen(entry, old, new) is None else run(new_path, new, name, budget, given))
    put_history(new_path, new, made)


def explain(old_path, new_path, history, name):
    old, new = source_of("old", old_path), source_of("new", new_path)
    entry = next(entry for entry in entries_of(history, old_path, old) if entry[0] == f"test {name}")
    edge = chosen(entry, old, new)
    print(f"run {name} edge {edge}\nedge {edge} main {edge + 1}:1 case {edge}\n1 #start 0 0 start")
    print(f"danger 1 case {edge} {f'{edge + 1}:1' if edge < len(new) else 'none'}")


def walk(old_path, new_path):
    old, new = source_of("old", old_path), source_of("new", new_path)
    edges = [edge for edge in range(len(old)) if new[edge:edge + 1] != [old[edge]]]
    for edge in edges:
        print(f"edge {edge} main {edge + 1}:1 case {edge}")
    print(f"dangerous {len(edges)} of {len(old)}\npairs {len(old) - len(edges)}")


def points(source):
    lines = source_of("source", source)
    print(f"points 1\npoint 0 #start 1:1 {lines[0]}")
    for at, line in enumerate(lines):
        print(f"point {at + 1} main {at + 1}:1 {line}\nedge {at} {at + 1} case {at} {at + 1}")
    print(f"end {len(lines) + 1} {len(lines)}")


COMMANDS = {command.__name__: command for command in (record, select, carry, explain, walk, points)}


def main():
    words = [word for word in sys.argv[1:] if not word.isdigit() and word != "--workers"]
    try:
        COMMANDS[words[0]](*words[1:])
    except Refused as refused:
        status, line = refused.args
        print(f"refused: {line}")
        sys.exit(status)


if __name__ == "__main__":
    main()
