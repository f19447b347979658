#!/usr/bin/env python3
"""An independent implementation of the program `rehearse`, to make and to check the stored outputs with.

  rehearse.py < MESSAGES         prints what `rehearse` prints
  rehearse.py --make-cases       prints the cases, a case a line, as `label times hex`
  rehearse.py --cases < CASES    prints what `rehearse_cases` prints

crates/rehearse_cases/stdin is made by --make-cases and its stdout by --cases; crates/rehearse/stdout is made from its stdin.
It shares no code with the crates and follows docs/MODEL.md, docs/MESSAGES.md, docs/REFUSALS.md and docs/HOSTS.md.
"""
import random
import struct
import sys

LIMIT = 65536
SEATS = 256
VERSIONS = 512
STAMPS = 64
WAYS = 8
IN, OUT, INOUT = 1, 2, 3


class Refused(Exception):
    """A refusal, by its number."""


# Messages

def read(data, at):
    """The message at a place, and the place behind it: an int for a finish notice, or (name, kind, accesses)."""
    if at >= len(data):
        raise Refused(1)

    def field(byte, width):
        piece = data[at + byte:at + byte + width]
        if len(piece) < width:
            raise Refused(4)
        return int.from_bytes(piece, "little")

    if field(0, 1) != 2:
        raise Refused(2)
    what = field(1, 1)
    if what == 2:
        return field(2, 2), at + 4
    if what != 1:
        raise Refused(3)
    count = field(2, 2)
    if count > 15:
        raise Refused(5)
    name, kind = field(4, 4), field(8, 4)
    addresses = [field(12 + 8 * i, 8) for i in range(count)]
    directions = []
    for i in range(count):
        code = field(12 + 8 * count + i, 1)
        if not 1 <= code <= 3:
            raise Refused(6)
        directions.append(code)
    return (name, kind, list(zip(addresses, directions))), at + 12 + 9 * count


# Work on stamps

def work(kind, access, values):
    code = kind + access
    for value in values:
        turned = (code * 128) % 2 ** 64 + code // 2 ** 57
        code = ((turned ^ value) + 1) % 2 ** 64
    return code


def alone(task, stamps):
    """A task from first to last."""
    _, kind, accesses = task
    values = [stamps[a] for a, d in accesses if d != OUT]
    for number, (a, d) in enumerate(accesses):
        if d != IN:
            stamps[a] = work(kind, number, values)


def conflict(one, other):
    return any(a == b and (d != IN or e != IN) for a, d in one[2] for b, e in other[2])


class Manager:
    """The unfinished tasks in order of acceptance, as [seat, task, waiting], with the ready and the free line."""

    def __init__(self, stamps):
        self.stamps = stamps
        self.roll = []
        self.ready = []
        self.free = list(range(SEATS))

    def versions_of(self, address):
        """The versions in use of an address: a writer's own, and one that the first only reads."""
        kinds = [d for _, task, _ in self.roll for a, d in task[2] if a == address]
        return sum(d != IN for d in kinds) + (1 if kinds and kinds[0] == IN else 0)

    def check(self, accesses):
        addresses = [a for a, _ in accesses]
        if len(set(addresses)) < len(addresses):
            raise Refused(7)
        if any(a >= STAMPS for a in addresses):
            raise Refused(8)
        live = {a for _, task, _ in self.roll for a, _ in task[2]}
        per_set = [[a for a in addresses if a % 64 == s] for s in range(64)]
        if len(addresses) > VERSIONS or any(len(p) > WAYS for p in per_set):
            raise Refused(9)
        if not self.free:
            raise Refused(10)
        wanted = sum(d != IN or a not in live for a, d in accesses)
        if wanted > VERSIONS - sum(map(self.versions_of, live)):
            raise Refused(11)
        if any(len({a for a in live if a % 64 == s} | set(per_set[s])) > WAYS for s in range(64)):
            raise Refused(12)

    def submit(self, task):
        self.check(task[2])
        seat = self.free.pop(0)
        waiting = any(conflict(earlier, task) for _, earlier, _ in self.roll)
        self.roll.append([seat, task, waiting])
        if not waiting:
            self.ready.append(seat)
        return seat

    def turn(self):
        """The first ready task from take to finish; its seat."""
        if not self.ready:
            raise Refused(16)
        seat = self.ready.pop(0)
        place = next(i for i, entry in enumerate(self.roll) if entry[0] == seat)
        alone(self.roll[place][1], self.stamps)
        del self.roll[place]
        self.free.append(seat)
        for i, entry in enumerate(self.roll):
            if entry[2] and not any(conflict(earlier[1], entry[1]) for earlier in self.roll[:i]):
                entry[2] = False
                self.ready.append(entry[0])
        return seat


def rehearse(data):
    """The lines of a stream, and the stamps that it leaves."""
    data = data[:LIMIT]
    manager = Manager([0] * STAMPS)
    lines = []
    at = 0
    while True:
        try:
            message, behind = read(data, at)
            if isinstance(message, int):
                raise Refused(13)  # between turns no seat is running
            lines.append(f"sub {manager.submit(message)}")
            at = behind
        except Refused as refused:
            number = refused.args[0]
            if number == 1:
                break
            if number not in (10, 11, 12):
                return lines + [f"no {number}"], manager.stamps
            lines.append(f"ran {manager.turn()}")
    while manager.roll:
        lines.append(f"ran {manager.turn()}")
    return lines + ["end"], manager.stamps


def one_at_a_time(data):
    """The stamps that the submissions of a stream leave, one after the other."""
    data = data[:LIMIT]
    stamps = [0] * STAMPS
    at = 0
    while at < len(data):
        task, at = read(data, at)
        alone(task, stamps)
    return stamps


# Cases

def task_bytes(name, kind, accesses):
    return struct.pack("<BBHII", 2, 1, len(accesses), name, kind) + b"".join(struct.pack("<Q", a) for a, _ in accesses) + bytes(d for _, d in accesses)


def notice_bytes(seat):
    return struct.pack("<BBH", 2, 2, seat)


EXAMPLE = task_bytes(7, 0, [(5, OUT)]) + task_bytes(8, 1, [(5, IN)]) + task_bytes(9, 0, [])


def random_stream(seed, count, span, most):
    pick = random.Random(seed)
    stream = b""
    for name in range(count):
        addresses = pick.sample(range(span), pick.randint(0, min(most, span)))
        stream += task_bytes(name, pick.choice([0, 1, 2, 3, 2 ** 32 - 1, pick.randrange(2 ** 32)]), [(a, pick.randint(1, 3)) for a in addresses])
    return stream


def cases():
    wide = [(a, OUT) for a in range(15)]
    yield "empty_stream", 1, b""
    yield "example", 1, EXAMPLE
    yield "out_in_in_inout_of_5", 1, b"".join(task_bytes(i, i, [(5, d)]) for i, d in enumerate([OUT, IN, IN, INOUT]))
    yield "a_reader_waits_behind_a_writer", 1, b"".join(task_bytes(i, i, [(5, d)]) for i, d in enumerate([IN, OUT, IN]))
    yield "readers_and_writers_of_two_addresses", 1, b"".join(task_bytes(i, 1, x) for i, x in enumerate(
        [[(1, INOUT)], [(2, INOUT)], [(1, IN), (2, OUT)], [(2, IN)], [(1, OUT)], [], [(1, IN), (2, IN), (3, OUT)]]))
    # stalls
    for count in (255, 256, 257, 258, 300, 513, 600):
        yield f"{count}_tasks_without_accesses", count, task_bytes(1, 1, [])
    for count in (256, 257, 400):
        yield f"{count}_tasks_inout_7", count, task_bytes(1, 1, [(7, INOUT)])
        yield f"{count}_tasks_in_7", count, task_bytes(1, 1, [(7, IN)])
    for count in (34, 35, 36, 69, 100):
        yield f"{count}_tasks_of_15_out", count, task_bytes(1, 3, wide)
        yield f"{count}_tasks_of_15_inout", count, task_bytes(1, 3, [(a + 20, INOUT) for a in range(15)])
    full = b"".join(task_bytes(i, 2, wide) for i in range(34))
    yield "512_versions_in_use", 1, full + task_bytes(40, 1, [(20, OUT), (21, IN)])
    yield "513_versions_needed", 1, full + task_bytes(40, 1, [(20, OUT), (21, IN), (22, IN)])
    yield "a_live_address_needs_no_version_to_read", 1, full + task_bytes(40, 1, [(20, OUT), (21, IN)]) + task_bytes(41, 1, [(20, IN), (3, IN)]) + task_bytes(42, 1, [(20, IN), (4, OUT)])
    yield "a_version_stays_while_a_reader_remains", 1, task_bytes(1, 1, [(0, OUT)]) + task_bytes(2, 1, [(0, IN), (1, OUT)]) + full + task_bytes(3, 1, [(0, IN), (1, IN), (30, OUT)])
    # refusals
    first = task_bytes(1, 1, [(3, OUT), (4, IN)])
    bad = [
        ("2_version_1", b"\x01" + first[1:]), ("2_version_0", b"\x00"), ("2_version_255", b"\xff\x01"), ("3_kind_0", b"\x02\x00" + first[2:]), ("3_kind_3", b"\x02\x03\x00\x00"),
        ("4_one_byte", b"\x02"), ("4_two_bytes", b"\x02\x01"), ("4_notice_of_three_bytes", b"\x02\x02\x00"), ("5_sixteen", task_bytes(1, 1, [(a, IN) for a in range(16)])),
        ("5_announced_only", b"\x02\x01\x10\x00"), ("5_announces_65535", b"\x02\x01\xff\xff"), ("6_direction_0", first[:-1] + b"\x00"), ("6_direction_4", first[:-2] + b"\x04\x01"),
        ("6_direction_255", first[:-1] + b"\xff"), ("7_in_in", task_bytes(1, 1, [(3, IN), (3, IN)])), ("7_first_and_last_of_15", task_bytes(1, 1, wide[:14] + [(0, IN)])),
        ("7_before_8", task_bytes(1, 1, [(70, IN), (3, IN), (3, OUT)])), ("8_address_64", task_bytes(1, 1, [(63, IN), (64, OUT)])),
        ("8_largest_address", task_bytes(1, 1, [(2 ** 64 - 1, IN)])), ("13_notice_for_0", notice_bytes(0)), ("13_notice_for_255", notice_bytes(255)),
        ("13_notice_for_256", notice_bytes(256)), ("13_notice_for_65535", notice_bytes(65535)),
    ]
    for label, message in bad:
        yield f"refused_{label}", 1, message
        yield f"refused_{label}_after_two", 1, EXAMPLE[:42] + message
        yield f"refused_{label}_and_not_beyond", 1, message + EXAMPLE
    yield "refused_7_where_no_seat_is_free", 1, task_bytes(1, 1, []) * 256 + task_bytes(2, 2, [(1, IN), (1, OUT)])
    yield "refused_8_where_versions_are_short", 1, full + task_bytes(2, 2, [(1, INOUT), (20, OUT), (21, OUT), (64, OUT)])
    yield "refused_13_where_no_seat_is_free", 1, task_bytes(1, 1, []) * 257 + notice_bytes(0)
    yield "refused_13_for_a_seat_that_has_run", 1, task_bytes(1, 1, []) * 300 + notice_bytes(3)
    yield "refused_4_after_a_stall", 1, task_bytes(1, 1, [(1, INOUT)]) * 260 + first[:20]
    # damage
    for size in range(len(EXAMPLE)):
        yield f"example_cut_to_{size}_bytes", 1, EXAMPLE[:size]
    pick = random.Random(5)
    for byte in range(len(EXAMPLE)):
        for mask in (1, 1 << pick.randrange(1, 8)):
            yield f"example_byte_{byte}_flipped_by_{mask}", 1, EXAMPLE[:byte] + bytes([EXAMPLE[byte] ^ mask]) + EXAMPLE[byte + 1:]
    for seed in range(12):
        pick = random.Random(100 + seed)
        yield f"random_bytes_{seed}", 1, bytes(pick.choice([0, 1, 2, 2, 3, pick.randrange(256)]) for _ in range(pick.randint(1, 40)))
    for seed in range(12):
        stream = bytearray(random_stream(200 + seed, 20, 10, 6))
        stream[random.Random(seed).randrange(len(stream))] ^= 1 << (seed % 8)
        yield f"random_tasks_with_a_flipped_bit_{seed}", 1, bytes(stream)
    # the limit
    yield "5461_tasks_of_12_bytes", 5461, task_bytes(1, 1, [])
    yield "65536_bytes_with_a_last_task_cut", 5462, task_bytes(1, 1, [])
    yield "65536_bytes_with_a_last_notice", 1, task_bytes(1, 1, []) * 5461 + notice_bytes(0)
    yield "more_than_65536_bytes", 900, task_bytes(1, 3, [(a, d) for a, d in zip(range(9), [IN, OUT, INOUT] * 3)])
    # conflicts
    for seed, count, span, most in [(1, 30, 4, 3), (2, 60, 4, 4), (3, 100, 6, 3), (4, 150, 8, 8), (5, 200, 16, 5), (6, 60, 64, 15), (7, 150, 64, 15), (8, 300, 64, 15),
                                    (9, 400, 64, 2), (10, 400, 2, 2), (11, 500, 64, 1), (12, 120, 32, 12), (13, 40, 1, 1), (14, 150, 20, 15)]:
        yield f"random_{count}_tasks_over_{span}_addresses_{seed}", 1, random_stream(seed, count, span, most)


def print_lines(out, lines):
    out.write("".join(line + "\n" for line in lines))


def main():
    if sys.argv[1:] == ["--make-cases"]:
        for label, times, unit in cases():
            sys.stdout.write(f"{label} {times} {unit.hex() or '-'}\n")
    elif sys.argv[1:] == ["--cases"]:
        for case in sys.stdin.read().splitlines():
            label, times, text = case.split()
            data = bytes.fromhex(text.strip("-")) * int(times)
            lines, stamps = rehearse(data)
            print_lines(sys.stdout, [f"== {label}"] + lines)
            if lines[-1] == "end":
                print_lines(sys.stdout, ["agrees" if stamps == one_at_a_time(data) else "differs"])
    else:
        print_lines(sys.stdout, rehearse(sys.stdin.buffer.read())[0])


if __name__ == "__main__":
    main()
