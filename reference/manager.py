#!/usr/bin/env python3
"""An independent implementation of the manager's calls, to make and to check the stored output of `manager_cases` with.

  manager.py --make-cases       prints the cases, a case a line, as `label seats versions stamps work notices calls`
  manager.py --cases < CASES    prints what `manager_cases` prints

crates/manager_cases/stdin is made by --make-cases and its stdout by --cases. It follows docs/MODEL.md and docs/REFUSALS.md: every
conflict, every live address and every version is found anew on the roll, with no tables.
"""
import random
import sys

from rehearse import IN, INOUT, OUT, WAYS, conflict, notice_bytes, task_bytes, work

CODES = {"in": IN, "out": OUT, "inout": INOUT}
WORDS = {code: word for word, code in CODES.items()}


class Refused(Exception):
    """A refusal: its number, its place and its sentence."""

    def line(self):
        return "refused {} at {}: {}".format(*self.args)


class Entry:
    """An unfinished task: its seat, its standing, the steps that are left and the values brought."""

    def __init__(self, seat, task, standing):
        self.seat, self.task, self.standing = seat, task, standing
        accesses = list(enumerate(task[2]))
        self.steps = [("brought", n) for n, (_, d) in accesses if d != OUT] + [("put", n) for n, (_, d) in accesses if d != IN]
        self.values = []


class Manager:
    def __init__(self, seats, versions, stamps):
        self.seats, self.versions = min(seats, 256), min(versions, 512)
        self.stamps = [0] * min(stamps, 4096)
        self.roll, self.ready, self.free = [], [], list(range(self.seats))

    def claims(self, address):
        return [d for entry in self.roll for a, d in entry.task[2] if a == address]

    def used(self, address):
        """The versions in use of an address: one for each writer, and one where the first claim only reads."""
        claims = self.claims(address)
        return sum(d != IN for d in claims) + (claims[:1] == [IN])

    def refusal(self, accesses):
        addresses = [a for a, _ in accesses]
        if len(accesses) > 15:
            raise Refused(5, 0, "a task has at most 15 accesses")
        for n, a in enumerate(addresses):
            if a in addresses[:n]:
                raise Refused(7, n, f"the address of access {n} occurs earlier in the task: name each address once")
        for n, a in enumerate(addresses):
            if a >= len(self.stamps):
                raise Refused(8, n, f"the host does not hold the address of access {n}")
        if not self.seats or len(accesses) > self.versions or any(sum(a % 64 == s for a in addresses) > WAYS for s in range(64)):
            raise Refused(9, 0, "the task can never fit: there is no seat, or it has more accesses than there are versions, or over 8 addresses in one set")
        if not self.free:
            raise Refused(10, 0, "every seat is taken: try again after a task has finished")
        live = {a for entry in self.roll for a, _ in entry.task[2]}
        missing = sum(d != IN or a not in live for a, d in accesses) + sum(map(self.used, live)) - self.versions
        if missing > 0:
            raise Refused(11, missing, f"too few versions are free, {missing} more are needed: try again after a task has finished")
        for s in range(64):
            if sum(a % 64 == s for a in live | set(addresses)) > WAYS:
                raise Refused(12, s, f"set {s} of the address table has no room: try again after a task has finished")

    def submit(self, task):
        self.refusal(task[2])
        entry = Entry(self.free.pop(0), task, "ready")
        if any(conflict(earlier.task, task) for earlier in self.roll):
            entry.standing = "waiting"
        else:
            self.ready.append(entry.seat)
        self.roll.append(entry)
        return entry.seat

    def take(self):
        if not self.ready:
            raise Refused(16, 0, "nothing is in the line")
        entry = next(e for e in self.roll if e.seat == self.ready[0])
        self.ready.pop(0)
        entry.standing = "running"
        return entry.seat, entry.task[1], entry.task[0]

    def running(self, seat):
        for entry in self.roll:
            if entry.seat == seat and entry.standing == "running":
                return entry
        raise Refused(13, seat, f"seat {seat} is not running")

    def step(self, seat):
        entry = self.running(seat)
        if not entry.steps:
            raise Refused(14, seat, f"the task in seat {seat} has no step left: finish it")
        what, number = entry.steps.pop(0)
        address = entry.task[2][number][0]
        if what == "brought":
            entry.values.append(self.stamps[address])
        else:
            self.stamps[address] = work(entry.task[1], number, entry.values)
        return what, number

    def finish(self, seat):
        entry = self.running(seat)
        if entry.steps:
            raise Refused(15, seat, f"the task in seat {seat} has steps left: do them first")
        self.roll.remove(entry)
        self.free.append(seat)
        woken = [e for i, e in enumerate(self.roll) if e.standing == "waiting" and not any(conflict(f.task, e.task) for f in self.roll[:i])]
        for e in woken:
            e.standing = "ready"
            self.ready.append(e.seat)
        return len(woken)


def message(data, at):
    """The message at a place and the place behind it, or its refusal."""
    if at >= len(data):
        raise Refused(1, at, f"no byte is left at byte {at} of the stream")

    def field(byte, width):
        piece = data[at + byte:at + byte + width]
        if len(piece) < width:
            raise Refused(4, byte, f"the field at byte {byte} of the message reaches beyond the end of the stream")
        return int.from_bytes(piece, "little")

    if field(0, 1) != 2:
        raise Refused(2, 0, f"version {data[at]} is not known: messages have version 2")
    what = field(1, 1)
    if what == 2:
        return field(2, 2), at + 4
    if what != 1:
        raise Refused(3, 1, f"message kind {what} is not known: 1 is a submission, 2 a finish notice")
    count = field(2, 2)
    if count > 15:
        raise Refused(5, 2, f"the message announces {count} accesses: a task has at most 15")
    name, kind = field(4, 4), field(8, 4)
    addresses = [field(12 + 8 * i, 8) for i in range(count)]
    directions = []
    for i in range(count):
        byte = 12 + 8 * count + i
        if not 1 <= field(byte, 1) <= 3:
            raise Refused(6, byte, f"direction {data[at + byte]} at byte {byte} of the message is not known: 1 is in, 2 out, 3 inout")
        directions.append(data[at + byte])
    return (name, kind, list(zip(addresses, directions))), at + 12 + 9 * count


class Case:
    """The words of a case, done one after the other."""

    def __init__(self, words):
        seats, versions, stamps, self.work_slots, self.notice_slots = map(int, words[:5])
        self.manager = Manager(seats, versions, stamps)
        self.words = iter(words[5:])
        self.work, self.notices, self.lines = [], [], []

    def run(self):
        plain = True
        for word in self.words:
            plain &= word in ("submit", "take", "step", "finish")
            try:
                getattr(self, word)()
            except Refused as refused:
                self.lines.append(refused.line())
        self.lines += [f"stamp {a} = {s}" for a, s in enumerate(self.manager.stamps) if s]
        return self.lines + ["the same by run_calls"] * plain

    def number(self):
        return int(next(self.words))

    def say(self, line):
        self.lines.append(line)

    def submit(self):
        name, kind, accesses = self.number(), self.number(), []
        for word in self.words:
            if word == ".":
                break
            accesses.append((self.number(), CODES[word]))
        self.say(f"seat {self.manager.submit((name, kind, accesses))}")

    def take(self):
        self.say("took seat {} kind {} name {}".format(*self.manager.take()))

    def step(self):
        self.say("{} {}".format(*self.manager.step(self.number())))

    def finish(self):
        self.say(f"woke {self.manager.finish(self.number())}")

    def turn(self):
        seat = self.manager.take()[0]
        while self.manager.running(seat).steps:
            self.manager.step(seat)
        self.say(f"ran seat {seat}, woke {self.manager.finish(seat)}")

    def dispatch(self):
        if len(self.work) == self.work_slots:
            raise Refused(17, 0, "the line is full")
        seat, kind, name = self.manager.take()
        self.work.append(seat)
        self.say(f"sent out seat {seat} kind {kind} name {name}; {len(self.work)} in the line")

    def fetch(self):
        if not self.work:
            raise Refused(16, 0, "nothing is in the line")
        self.say(f"fetched seat {self.work.pop(0)}")

    def send(self):
        seat = self.number()
        if len(self.notices) == self.notice_slots:
            raise Refused(17, 0, "the line is full")
        self.notices.append(seat)
        self.say(f"noticed seat {seat}")

    def settle(self):
        if not self.notices:
            raise Refused(16, 0, "nothing is in the line")
        seat = self.notices.pop(0)
        self.say(f"settled seat {seat}; {len(self.notices)} in the line")
        self.say(f"woke {self.manager.finish(seat)}")

    def feed(self):
        data, at = bytes.fromhex(next(self.words).strip("-")), 0
        while True:
            try:
                asked, behind = message(data, at)
                if isinstance(asked, int):
                    said = f"woke {self.manager.finish(asked)}"
                else:
                    said = f"seat {self.manager.submit(asked)}"
            except Refused as refused:
                number, place, sentence = refused.args
                self.say(f"refused {number} at {place}: the message at byte {at} of the stream is refused: {sentence}; still at {at}")
                return
            at = behind
            self.say(f"fed: {said}; now at {at}")


# Cases

def submit(accesses, name=1, kind=1):
    return "submit {} {} {}.".format(name, kind, "".join(f"{WORDS[d]} {a} " for a, d in accesses))


def run(seat, steps):
    """The rest of a task that was taken."""
    return [f"step {seat}"] * steps + [f"finish {seat}"]


def random_calls(seed, seats, versions, addresses, most, count):
    """Calls picked at random, most of them such as succeed. The same model says which seats are running."""
    pick = random.Random(seed)
    manager = Manager(seats, versions, max(addresses) + 1)
    calls = []
    for name in range(count):
        running = [e for e in manager.roll if e.standing == "running"]
        what = pick.choice(["submit"] * 4 + ["take"] * 2 + ["step"] * 3 + ["finish"] * 2 + ["wild"])
        try:
            if what == "submit":
                chosen = pick.sample(addresses, pick.randint(0, min(most, len(addresses))))
                task = (name, pick.randrange(2 ** 32), [(a, pick.choice([IN, IN, OUT, INOUT])) for a in chosen])
                calls.append(submit(task[2], task[0], task[1]))
                manager.submit(task)
            elif what == "take":
                calls.append("take")
                manager.take()
            elif what == "wild" or not running:
                seat = pick.choice([0, 1, seats - 1, seats, 255, 256, 65535])
                calls.append(f"{pick.choice(['step', 'finish'])} {seat}")
                getattr(manager, calls[-1].split()[0])(seat)
            elif what == "step":
                entry = pick.choice(running)
                calls.append(f"step {entry.seat}")
                manager.step(entry.seat)
            else:
                entry = pick.choice(running)
                for _ in list(entry.steps):
                    calls.append(f"step {entry.seat}")
                    manager.step(entry.seat)
                calls.append(f"finish {entry.seat}")
                manager.finish(entry.seat)
        except Refused:
            pass
    return calls


def cases():
    def plain(label, seats, versions, stamps, calls):
        return label, (seats, versions, stamps, 0, 0), calls

    # refusals of a submission
    yield plain("in_5_then_out_5_in_one_task", 256, 512, 64, [submit([(5, IN), (5, OUT)]), submit([(5, IN), (5, IN)]), submit([(9, IN), (5, OUT), (6, IN), (5, INOUT)]), "take"])
    yield plain("5_before_all_others", 0, 0, 8, [submit([(a % 3, IN) for a in range(16)]), submit([(a, IN) for a in range(17)]), submit([(a % 3 + 90, IN) for a in range(15)])])
    yield plain("7_before_8_before_9", 0, 0, 8, [submit([(9, IN), (1, OUT), (1, IN)]), submit([(1, IN), (9, IN), (8, IN)]), submit([(1, IN)]), submit([])])
    yield plain("largest_address", 256, 512, 4096, [submit([(4095, OUT)]), submit([(4096, OUT)]), submit([(2 ** 64 - 1, IN)])])
    yield plain("4097_stamps_are_4096", 256, 512, 4097, [submit([(4096, OUT)])])
    yield plain("no_stamps", 256, 512, 0, [submit([(0, IN)]), submit([]), "take", "finish 0"])
    # sizes
    yield plain("no_seats", 0, 512, 64, [submit([]), submit([(1, IN)]), "take", "step 0", "finish 0"])
    yield plain("no_versions", 256, 0, 64, [submit([]), submit([(1, IN)]), submit([(1, OUT)]), "take", "step 0", "finish 0", "take"])
    yield plain("one_version_inout", 256, 1, 64, [submit([(5, INOUT)]), submit([(6, IN)]), submit([(5, IN)]), submit([(5, INOUT)]), submit([(5, IN), (6, IN)]), "take"] + run(0, 2) + [submit([(5, INOUT)]), "take"] + run(1, 1) + ["take", submit([(5, INOUT)])])
    yield plain("one_version_of_a_writer_stays_while_a_reader_remains", 4, 1, 64, [submit([(5, OUT)]), submit([(5, IN)]), "take"] + run(0, 1) + [submit([(6, OUT)]), "take"] + [submit([(6, OUT)])] + run(1, 1) + [submit([(6, OUT)]), submit([(7, OUT)])])
    yield plain("two_versions_reader_then_writer", 8, 2, 64, [submit([(5, IN)]), submit([(5, OUT)]), submit([(5, IN)]), submit([(5, OUT)]), "take"] + run(0, 1) + [submit([(5, OUT)]), "take", "step 1"] + ["finish 1", submit([(5, OUT)]), submit([(5, OUT)])])
    yield plain("one_seat", 1, 512, 64, [submit([(1, OUT)]), submit([(2, OUT)]), "take", submit([(2, OUT)]), "step 0", submit([(2, OUT)]), "finish 0", submit([(2, OUT)]), "finish 0", "take"] + run(0, 1))
    yield plain("257_seats_are_256", 257, 513, 64, [submit([], name=i) for i in range(257)] + ["take", "finish 0", submit([], name=999), submit([])])
    yield plain("more_seats_than_a_machine_has_bytes", 2 ** 64 - 1, 2 ** 64 - 1, 2 ** 64 - 1, [submit([(4095, OUT)]), "take"] + run(0, 1))
    # seats
    yield plain("every_seat_is_used_and_given_back_in_turn", 256, 512, 64, [submit([(i % 64, IN)], name=i, kind=i) for i in range(256)] + [submit([])] + ["take"] * 257 + [f"step {i}" for i in range(0, 256, 5)] + [f"finish {i}" for i in (0, 255, 5, 250, 250)] + [submit([], name=1000 + i) for i in range(5)] + ["take"] * 5)
    yield plain("seats_that_do_not_exist", 3, 512, 64, [submit([(1, INOUT)]), "take"] + [f"{what} {seat}" for what in ("step", "finish") for seat in (1, 2, 3, 255, 256, 257, 65535)] + ["step 0", "step 0", "step 0", "finish 0", "finish 0", "step 0"])
    yield plain("waiting_and_ready_seats_are_not_running", 4, 512, 64, [submit([(1, OUT)]), submit([(1, IN)]), "step 0", "finish 0", "step 1", "finish 1", "take", "take", "finish 0", "step 1"] + run(0, 1) + ["step 1", "take", "step 1", "step 1", "finish 1"])
    # readers and writers
    yield plain("256_readers_and_a_writer", 256, 512, 64, [submit([(7, IN), (8, IN)], name=i) for i in range(255)] + [submit([(7, OUT)], name=255, kind=9)] + ["take"] * 256 + sum((run(i, 2) for i in range(255)), []) + ["take"] + run(255, 1))
    yield plain("a_writer_and_255_readers", 256, 512, 64, [submit([(7, OUT)], kind=9)] + [submit([(7, IN)], name=i) for i in range(1, 256)] + ["take", "take"] + run(0, 1) + ["take"] * 256 + run(200, 1) + [submit([(7, INOUT)])] + sum((run(i, 1) for i in range(1, 256) if i != 200), []) + ["take"] + run(0, 2))
    yield plain("a_reader_does_not_pass_a_waiting_writer", 8, 512, 64, [submit([(5, IN)]), submit([(5, OUT)], kind=4), submit([(5, IN)]), "take", "take"] + run(0, 1) + ["take", "take"] + run(1, 1) + ["take"] + run(2, 1))
    yield plain("out_in_in_inout", 8, 512, 64, [submit([(5, OUT)], 1, 3), submit([(5, IN), (6, OUT)], 2, 1), submit([(5, IN), (7, OUT)], 3, 2), submit([(5, INOUT)], 4, 5), "take"] + run(0, 1) + ["take", "take", "take"] + run(2, 2) + run(1, 2) + ["take"] + run(3, 2))
    yield plain("tasks_side_by_side", 8, 512, 64, [submit([(i, OUT)], i, i) for i in range(4)] + ["take"] * 4 + ["step 3", "step 1", "step 0", "step 2", "finish 1", "finish 2", "finish 0", "finish 3", submit([]), submit([]), "take", "take"])
    yield plain("a_put_does_not_read_again", 8, 512, 64, [submit([(5, INOUT), (6, INOUT)], 1, 3), "take", "step 0", "step 0", "step 0", "step 0", "finish 0"])
    yield plain("woken_in_order_of_acceptance", 8, 512, 64, [submit([(1, OUT), (2, OUT)]), submit([(2, IN)], 2), submit([(1, IN)], 3), submit([(2, IN), (1, IN)], 4), submit([(3, OUT)], 5), "take", "take", "take"] + run(0, 2) + ["take"] * 4)
    yield plain("one_woken_twice_is_woken_once", 8, 512, 64, [submit([(1, OUT)]), submit([(2, OUT)]), submit([(1, IN), (2, IN)]), "take", "take"] + run(1, 1) + ["take"] + run(0, 1) + ["take", "take"])
    yield plain("without_accesses", 8, 512, 64, [submit([], 1, 2), submit([], 3, 4), "take", "step 0", "take", "finish 1", "finish 0", "take"])
    # sets
    eight = [(64 * i + 3, OUT) for i in range(8)]
    yield plain("nine_of_one_set_in_one_task", 8, 512, 1024, [submit(eight + [(515, IN)]), submit(eight), "take"])
    yield plain("a_ninth_of_a_set_stalls", 8, 512, 1024, [submit(eight), submit([(515, IN)]), submit([(515, OUT), (1, OUT)]), submit([(3, IN)]), submit([(4, OUT), (579, OUT), (512 + 4, OUT)]), "take"] + run(0, 8) + [submit([(515, IN)])] + [submit([(64 * i + 3, IN) for i in range(1, 8)])])
    yield plain("the_lowest_set_is_named", 8, 512, 1024, [submit(eight[:7]), submit([(64 * i + 60, OUT) for i in range(7)]), submit([(508, IN), (572, IN), (451, IN), (515, IN)]), submit([(508, IN), (572, IN)]), submit([(508, IN), (451, IN)])])
    yield plain("11_before_12", 8, 9, 1024, [submit(eight), submit([(515, OUT), (579, OUT)]), submit([(515, IN)]), submit([(3, IN), (515, IN), (1, IN)])])
    yield plain("512_addresses_live", 256, 512, 512, [submit([(a, OUT) for a in range(15 * i, min(15 * i + 15, 512))], i) for i in range(35)] + [submit([(1, IN)]), submit([(1, OUT)]), submit([(2, IN), (4, OUT), (3, INOUT)])] + ["take"] + run(0, 15) + [submit([(1, OUT)])])
    # many tasks, so that places of the order of acceptance are used again
    yield plain("one_task_stays_while_600_come_and_go", 4, 512, 64, [submit([(1, OUT)], 1), "take", submit([(1, IN)], 2)] + sum(([submit([(2, INOUT)], i, i), "take"] + run(2 + i % 2, 2) for i in range(600)), []) + run(0, 1) + ["take", "step 1", "finish 1"])
    # calls built of calls
    drive = lambda label, calls, work=2, notices=2: (label, (4, 512, 64, work, notices), calls)
    two = [submit([(5, OUT)], 7, 3), submit([(5, IN), (6, OUT)], 8, 1), submit([(9, INOUT)], 9, 2)]
    yield drive("turns", ["turn"] + two + ["turn"] * 4)
    yield drive("a_turn_after_a_take", two + ["take", "turn", "turn", "step 0", "turn", "finish 0", "turn"])
    yield drive("a_line_without_slots", two + ["dispatch", "send 0", "settle", "fetch", "take"], 0, 0)
    yield drive("17_before_16", ["dispatch", submit([]), "dispatch", "dispatch", "fetch", "dispatch", "fetch"], 1, 1)
    yield drive("dispatch_and_settle", two + ["dispatch", "dispatch", "dispatch", "fetch", "step 0", "send 0", "settle", "settle", "fetch", "fetch", "dispatch", "fetch", "step 1", "send 1", "send 2", "send 0", "settle", "step 1", "settle", "step 2", "step 2", "send 2", "send 1", "settle", "settle"])
    yield drive("notices_for_seats_that_do_not_exist", two + ["send 256", "send 65535", "send 1", "settle", "settle", "send 1", "settle", "settle", "take", "step 0", "send 0", "send 0", "settle", "settle"])
    yield drive("a_line_that_goes_round", ["send 1", "send 2", "settle", "send 3", "send 4", "settle", "send 0", "settle", "settle", "settle"])
    example = task_bytes(7, 3, [(5, OUT)]) + task_bytes(8, 1, [(5, IN), (6, OUT)])
    done = [submit([(5, OUT)]), "take", "step 0"]
    yield drive("feed", ["feed -", f"feed {example.hex()}", "take", f"feed {notice_bytes(0).hex()}", "step 0", f"feed {(notice_bytes(0) + notice_bytes(0)).hex()}", "turn"])
    yield drive("feed_that_stalls", [f"feed {(task_bytes(1, 1, []) * 6).hex()}", "turn", f"feed {task_bytes(1, 1, []).hex()}"])
    bad = [b"\x01", b"\x02", b"\x02\x03", b"\x02\x01\x10\x00", example[:5], example[:20], example[:-1], example[:-1] + b"\x04", example[:12] + b"\x40" + example[13:], task_bytes(1, 1, [(5, IN), (5, IN)]),
           notice_bytes(256), notice_bytes(65535), b"\x02\x02\x00"]
    yield drive("feed_refuses", done + [f"feed {message.hex()}" for message in bad] + [f"feed {(notice_bytes(0) + message).hex()}" for message in bad[:1]])
    # calls at random
    for seed, sizes, addresses, most, count in [
            (1, (4, 6), range(4), 3, 300), (2, (8, 512), range(3), 2, 300), (3, (16, 20), range(8), 4, 300), (4, (256, 512), range(16), 6, 300), (5, (3, 3), range(2), 2, 200),
            (6, (40, 512), [64 * i + 3 for i in range(12)], 4, 300), (7, (40, 40), [64 * i + j for i in range(10) for j in (0, 63)], 8, 300), (8, (1, 512), range(2), 2, 100), (9, (256, 30), range(64), 15, 300),
            (10, (200, 512), range(1), 1, 400)]:
        yield plain(f"calls_at_random_{seed}", *sizes, max(addresses) + 1, random_calls(seed, *sizes, list(addresses), most, count))


def main():
    if sys.argv[1:] == ["--make-cases"]:
        for label, sizes, calls in cases():
            print(label, *sizes, *calls)
    elif sys.argv[1:] == ["--cases"]:
        for line in sys.stdin.read().splitlines():
            label, *words = line.split()
            print("\n".join([f"== {label}"] + Case(words).run()))
    else:
        sys.exit(__doc__)


if __name__ == "__main__":
    main()
