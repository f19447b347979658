#!/usr/bin/env python3
"""An independent implementation of the program `serial`, to make and to check the stored outputs with.

  serial.py < MESSAGES         prints what `serial` prints
  serial.py --cases < CASES    prints what `serial_cases` prints: a case a line, as `label times hex`

It shares no code with the crates and follows docs/MODEL.md, docs/MESSAGES.md, docs/REFUSALS.md and docs/HOSTS.md.
"""
import sys

LIMIT = 65536
MASK = 2 ** 64 - 1


def rule(kind, access, values):
    code = kind + access
    for v in values:
        code = ((code << 7) & MASK | code >> 57) ^ v
        code = (code + 1) & MASK
    return code


class Refused(Exception):
    def __init__(self, number, place, sentence):
        self.number, self.place, self.sentence = number, place, sentence


def number(data, start, byte, width):
    if start + byte + width > len(data):
        raise Refused(4, byte, f"the field at byte {byte} of the message reaches beyond the end of the stream")
    return int.from_bytes(data[start + byte:start + byte + width], "little")


def read(data, start):
    if start >= len(data):
        raise Refused(1, start, "")
    if data[start] != 2:
        raise Refused(2, 0, f"version {data[start]} is not known: messages have version 2")
    kind = number(data, start, 1, 1)
    if kind not in (1, 2):
        raise Refused(3, 1, f"message kind {kind} is not known: 1 is a submission, 2 a finish notice")
    if kind == 2:
        return ("notice", number(data, start, 2, 2)), start + 4
    n = number(data, start, 2, 2)
    if n > 15:
        raise Refused(5, 2, f"the message announces {n} accesses: a task has at most 15")
    name, work = number(data, start, 4, 4), number(data, start, 8, 4)
    addresses = [number(data, start, 12 + 8 * i, 8) for i in range(n)]
    directions = []
    for i in range(n):
        byte = 12 + 8 * n + i
        code = number(data, start, byte, 1)
        if code not in (1, 2, 3):
            raise Refused(6, byte, f"direction {code} at byte {byte} of the message is not known: 1 is in, 2 out, 3 inout")
        directions.append(code)
    return ("task", name, work, list(zip(addresses, directions))), start + 12 + 9 * n


def check(accesses, stamps):
    for i, (a, _) in enumerate(accesses):
        if a in [b for b, _ in accesses[:i]]:
            raise Refused(7, i, f"the address of access {i} occurs earlier in the task: name each address once")
    for i, (a, _) in enumerate(accesses):
        if a >= len(stamps):
            raise Refused(8, i, f"the host does not hold the address of access {i}")


def step(message, stamps, out):
    """Does one message and writes its line."""
    if message[0] == "notice":
        out.write(f"notice for seat {message[1]}: passed over, since a task that runs alone is finished at once\n")
        return
    _, name, kind, accesses = message
    check(accesses, stamps)
    values = [stamps[a] for a, d in accesses if d & 1]
    read_pairs = "".join(f" {a}={stamps[a]}" for a, d in accesses if d & 1)
    wrote_pairs = ""
    for i, (a, d) in enumerate(accesses):
        if d & 2:
            stamps[a] = rule(kind, i, values)
            wrote_pairs += f" {a}={stamps[a]}"
    out.write(f"task {name} kind {kind}: read{read_pairs or ' nothing'}; wrote{wrote_pairs or ' nothing'}\n")


def serial(data, out):
    cut = len(data) > LIMIT
    data = data[:LIMIT]
    stamps = [0] * 64
    place = 0
    try:
        while True:
            message, after = read(data, place)
            step(message, stamps, out)
            place = after
    except Refused as refused:
        if cut:
            out.write(f"the input is longer than {LIMIT} bytes: the rest was not read\n")
        if refused.number == 1:
            out.write(f"end of the stream at byte {place}\n")
        else:
            out.write(f"refused: number {refused.number}, place {refused.place}, in the message at byte {place}: {refused.sentence}\n")
    for a, v in enumerate(stamps):
        if v:
            out.write(f"stamp {a} = {v}\n")


if __name__ == "__main__":
    if sys.argv[1:] == ["--cases"]:
        for line in sys.stdin.read().splitlines():
            label, times, text = line.split()
            sys.stdout.write(f"== {label}\n")
            serial(bytes.fromhex(text.strip("-")) * int(times), sys.stdout)
    else:
        serial(sys.stdin.buffer.read(), sys.stdout)
