#!/usr/bin/env python3
"""An independent model of the program `pass`, written from docs/ and not from the code: it plays a script and writes the
answers. `bench/random_passes` compares both on random scripts."""
import sys


class Slot:
    def __init__(self, octets, width, notes):
        self.slots = 0 if width == 0 else min(notes, octets // width)
        self.held, self.largest = [], min(width, 65535) if self.slots else 0

    def room(self, n):
        return 1 <= n <= self.largest and len(self.held) < self.slots

    def add(self, record):
        self.held.append(record)


class Packed:
    def __init__(self, octets):
        self.octets, self.held = octets, []
        self.largest = min(octets - 2, 65535) if octets >= 3 else 0

    def room(self, n):
        return 1 <= n <= self.largest and sum(len(r) + 2 for r in self.held) + n + 2 <= self.octets

    def add(self, record):
        self.held.append(record)


class Quota:
    def __init__(self, limit, below):
        self.limit, self.below, self.largest = max(limit, 1), below, below.largest

    @property
    def held(self):
        return self.below.held

    def room(self, n):
        return self.below.room(n) and len(self.below.held) < self.limit

    def add(self, record):
        self.below.add(record)

    def drop(self):
        drop(self.below)


class Tandem:
    def __init__(self, near, far):
        self.near, self.far, self.largest = near, far, max(near.largest, far.largest)

    @property
    def held(self):
        return self.near.held + self.far.held

    def chosen(self, n):
        return self.near if not self.far.held and self.near.room(n) else self.far

    def room(self, n):
        return self.chosen(n).room(n)

    def add(self, record):
        self.chosen(len(record)).add(record)

    def drop(self):
        drop(self.near if self.near.held else self.far)


def drop(queue):
    if isinstance(queue, (Quota, Tandem)):
        queue.drop()
    else:
        queue.held.pop(0)


class Fault(Exception):
    pass


class Reader:
    """Fields in turn, presence before value."""

    def __init__(self, octets):
        self.octets, self.at = octets, 0

    def take(self, n):
        if self.at + n > len(self.octets):
            raise Fault("S", len(self.octets))
        self.at += n
        return self.octets[self.at - n:self.at]

    def number(self, n, allowed, kind="V"):
        place = self.at
        value = int.from_bytes(self.take(n), "big")
        if not allowed(value):
            raise Fault(kind, place)
        return value

    def time(self):
        return (self.number(2, lambda v: True), self.number(4, lambda v: v <= 86399999), self.number(2, lambda v: v <= 999))

    def optional_time(self):
        return self.time() if self.number(1, lambda v: v <= 1) else None


def read_invocation(octets):
    r = Reader(octets)
    r.number(2, lambda v: v == 0x4956, "M")
    operation = r.number(1, lambda v: v in (0, 2, 100, 102, 104))
    if operation == 104:
        result = ("abort", r.number(1, lambda v: True))
    else:
        invoke_id = r.number(2, lambda v: True)
        if operation == 0:
            result = ("start", invoke_id, r.number(1, lambda v: v <= 2), r.optional_time(), r.optional_time())
        elif operation == 2:
            result = ("stop", invoke_id)
        elif operation == 100:
            version = r.number(1, lambda v: v >= 1)
            result = ("bind", invoke_id, version, r.take(r.number(1, lambda v: 3 <= v <= 16)))
        else:
            result = ("unbind", invoke_id, r.number(1, lambda v: v in (0, 1, 2, 127)))
    if r.at < len(octets):
        raise Fault("E", r.at)
    return result


def time_octets(time):
    return time[0].to_bytes(2, "big") + time[1].to_bytes(4, "big") + time[2].to_bytes(2, "big")


class Provider:
    def __init__(self, frames, transport, n, l, version, name):
        self.frames, self.transport, self.n, self.l, self.version, self.name = frames, transport, n, l, version, name
        self.opening = 0
        if not (1 <= n <= 8 and 1 <= l <= 3600 and 1 <= version <= 255 and 3 <= len(name) <= 16):
            self.opening = 1
        elif frames.held or transport.held:
            self.opening = 2
        elif frames.largest < 2061 or transport.largest < n * 2061:
            self.opening = 3
        self.phase = "closed" if self.opening else "unbound"
        self.buffer, self.age, self.mark, self.status, self.selection = [], 0, False, 0, None
        self.waiting = []  # the records of the frame buffer: (kind, quality, time)
        self.count = dict.fromkeys("accepted handed pending untaken passed discarded sent collected".split(), 0)

    def receive(self, record, entry):
        if not self.frames.room(len(record)):
            return "refused 13"
        self.frames.add(record)
        self.waiting.append((entry, record))
        self.count["accepted"] += 1
        self.count["untaken"] += 1
        return "accepted"

    def acquire(self, quality, time, data):
        if self.phase == "closed":
            return "refused 4"
        if quality > 2:
            return "refused 10"
        if time[1] > 86399999 or time[2] > 999:
            return "refused 11"
        if not 1 <= len(data) <= 2048:
            return "refused 12"
        record = b"\x46\x52" + bytes([quality]) + time_octets(time) + len(data).to_bytes(2, "big") + data
        return self.receive(record, ("frame", quality, time))

    def note(self, kind, time, status):
        if self.phase == "closed":
            return "refused 4"
        if kind > 1 or (kind == 1 and status > 2):
            return "refused 14"
        if kind == 0:
            if time[1] > 86399999 or time[2] > 999:
                return "refused 11"
            return self.receive(b"\x4e\x54\x00" + time_octets(time) + b"\x00", ("note",))
        answer = self.receive(b"\x4e\x54\x01" + bytes(8) + bytes([status]), ("note",))
        if answer == "accepted":
            self.status = status
        return answer

    def send(self):
        pdu = b"".join(record for record, _ in self.buffer)
        if not self.transport.room(len(pdu)):
            return "waiting"
        self.transport.add(pdu)
        self.count["handed"] += self.count["pending"]
        self.count["pending"] = 0
        self.count["sent"] += 1
        self.buffer = []
        return "sent"

    def enter(self, record, accepted):
        if not self.buffer:
            self.age = 0
        self.buffer.append((record, accepted))

    def move(self):
        if self.phase != "active":
            return "idle"
        if len(self.buffer) == self.n or (self.mark and self.buffer):
            return self.send()
        if self.mark or not self.waiting:
            return "idle"
        entry, record = self.waiting[0]
        quality, start, stop = self.selection
        if entry[0] == "frame" and stop is not None and entry[2] > stop:
            self.enter(b"\x4e\x54\x03" + bytes(9), False)
            self.mark = True
            return "ended"
        self.waiting.pop(0)
        drop(self.frames)
        self.count["untaken"] -= 1
        if entry[0] == "note" or ((quality == 2 or entry[1] == quality) and (start is None or entry[2] >= start)):
            self.enter(record, True)
            self.count["pending"] += 1
            return "moved"
        self.count["passed"] += 1
        return "passed over"

    def tick(self):
        if self.phase != "active" or not self.buffer:
            return "quiet"
        self.age = min(self.age + 1, self.l)
        return self.send() if self.age == self.l else "quiet"

    def collect(self, capacity):
        held = self.transport.held
        if not held:
            return "refused 30"
        if len(held[0]) > capacity:
            return "refused 34"
        pdu = held[0]
        drop(self.transport)
        self.count["collected"] += 1
        return f"collected {len(pdu)} {pdu.hex()}"

    def lose(self):
        lost = sum(accepted for _, accepted in self.buffer)
        self.buffer = []
        self.phase = "unbound"
        self.count["discarded"] += self.count["pending"]
        self.count["pending"] = 0
        return lost

    def invoke(self, octets):
        if self.phase == "closed":
            return "refused 4"
        try:
            request = read_invocation(octets)
        except Fault as fault:
            lost = 0 if self.phase == "unbound" else self.lose()
            return f"refused 20 {fault.args[0]} {fault.args[1]} lost {lost}"
        operation = request[0]
        if self.phase == "unbound":
            if operation != "bind":
                return "refused 26"
            if request[3] != self.name:
                return "refused 22"
            if request[2] < self.version:
                return "refused 23"
            self.phase = "ready"
            return f"bound {request[1]} version {self.version}"
        if operation == "abort":
            return f"aborted lost {self.lose()}"
        if self.phase == "ready" and operation == "start":
            if self.status == 2:
                return "refused 25"
            if request[3] is not None and request[4] is not None and request[4] <= request[3]:
                return "refused 24"
            self.selection, self.mark, self.phase = request[2:], False, "active"
            return f"started {request[1]}"
        if self.phase == "ready" and operation == "unbind":
            self.phase = "closed" if request[2] == 0 else "unbound"
            return f"unbound {request[1]}"
        if self.phase == "active" and operation == "stop":
            self.phase = "ready"
            return f"stopped {request[1]}"
        return f"refused 21 lost {self.lose()}"


def take_queue(words):
    kind = words.pop(0)
    if kind == "slot":
        return Slot(int(words.pop(0)), int(words.pop(0)), int(words.pop(0)))
    if kind == "packed":
        return Packed(int(words.pop(0)))
    if kind == "quota":
        limit = int(words.pop(0))
        return Quota(limit, take_queue(words))
    near = take_queue(words)
    return Tandem(near, take_queue(words))


def octets(word):
    return b"" if word == "-" else bytes.fromhex(word)


class Pass:
    """A script, played line by line."""

    def __init__(self):
        self.provider = None

    def play_line(self, line, out):
        words = line.split()
        if not words or words[0].startswith("#"):
            return
        call, words = words[0], words[1:]
        p = self.provider
        if call == "open":
            frames = take_queue(words)
            transport = take_queue(words)
            p = self.provider = Provider(frames, transport, int(words[0]), int(words[1]), int(words[2]), octets(words[3]))
            answer = f"refused {p.opening}" if p.opening else "opened"
        elif call == "acquire":
            answer = p.acquire(int(words[0]), tuple(map(int, words[1:4])), octets(words[4]))
        elif call == "note":
            answer = p.note(int(words[0]), tuple(map(int, words[1:4])), int(words[4]))
        elif call == "move":
            answer = p.move()
        elif call == "tick":
            answer = p.tick()
        elif call == "collect":
            answer = p.collect(int(words[0]))
        else:
            answer = p.invoke(octets(words[0]))
        out.append(answer)

    def account(self):
        c = self.provider.count
        return [
            f"accepted {c['accepted']}, handed over {c['handed']}, pending {c['pending']}, untaken {c['untaken']},"
            f" passed over {c['passed']}, discarded {c['discarded']}",
            f"PDUs sent {c['sent']}, collected {c['collected']}, waiting {c['sent'] - c['collected']}",
        ]


if __name__ == "__main__":
    played, answers = Pass(), []
    for text in sys.stdin:
        played.play_line(text, answers)
    print("\n".join(answers + played.account()))
