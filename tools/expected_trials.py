#!/usr/bin/env python3
"""What `trials` must print for a table of cases: a model of the rules that shares no code with the crates.

    tools/expected_trials.py < crates/trials/stdin > crates/trials/stdout

A carrier is its meaning: bytes, ending, and how many bytes of the lowest carrier are used once it gave n and told its ending
or not. An ending is None where it is clean, else (cause, place, depth). A layer makes such a triple of another. In how many
pieces bytes come has no meaning, so every cut gives the same.
"""
import sys

# --- the words of a case ---


def four(number):
    return number.to_bytes(4, "little")


def payload_bytes(first, count):
    return bytes((first + i) % 256 for i in range(1, count + 1))


def packet(letter, numbers):
    if letter in "CE":
        rest = four(numbers[0])
    elif letter == "P":
        rest = payload_bytes(0, numbers[0])
    else:
        location, incarnation, flags, payload = numbers
        size = (8 + payload).to_bytes(2, "little")
        rest = four(location) + bytes([incarnation, flags]) + size + payload_bytes(location, payload)
    return b"$" + letter.encode() + len(rest).to_bytes(2, "little") + rest


GROUP = packet("C", [0]) + packet("H", [0, 5, 12, 0]) + packet("E", [1])


def chunked(body, size):
    parts = [body[i : i + size] for i in range(0, len(body), size)]
    return b"".join(b"%x\r\n%b\r\n" % (len(part), part) for part in parts) + b"0\r\n\r\n"


def given_by(words):
    loaded, done = b"", b""
    for word in words:
        name, _, fields = word.partition(".")
        if name == "x":
            done += bytes.fromhex(fields)
        elif name == "t":
            done += fields.encode()
        elif name == "r":
            done += b"\r\n"
        elif name == "loaded":
            loaded, done = done, b""
        else:
            numbers = [int(field) for field in fields.split(".")]
            if name == "groups":
                done += GROUP * numbers[0]
            elif name == "fill":
                done += bytes([numbers[1]]) * numbers[0]
            elif name == "cut":
                done = done[: numbers[0]]
            elif name == "chunked":
                done = chunked(done, numbers[0])
            else:
                done += packet(name, numbers)
    return loaded, done


# --- layers ---


def lowest(data, ending):
    return data, ending, lambda n, told: n


def passed_on(ending):
    return ending and (ending[0], ending[1], min(ending[2] + 1, 255))


def leftover(carrier, loaded=b""):
    data, ending, used = carrier
    return loaded + data, passed_on(ending), lambda n, told: used(max(n - len(loaded), 0), told)


def length(carrier, count):
    data, ending, used = carrier
    if len(data) >= count:
        return data[:count], None, lambda n, told: used(n, False)
    return data, passed_on(ending) or (6, len(data), 0), used


class Stop(Exception):
    """The bytes beneath are found to end here, or to be no chunked body."""


def chunk(carrier):
    data, ending, used = carrier
    at, out = 0, bytearray()
    behind = [0]  # how many bytes are drawn behind each data byte
    ran_out = False

    def fault(cause):
        raise Stop((cause, at, 0))

    def take():
        nonlocal at, ran_out
        if at == len(data):
            ran_out = True
            raise Stop(passed_on(ending) or (6, at, 0))
        at += 1
        return data[at - 1 : at]

    def size_line():
        digits = b""
        while (byte := take()) in b"0123456789abcdefABCDEF":
            digits += byte
            if len(digits) == 9:
                fault(2)
        if not digits:
            fault(1)
        if byte == b";":
            count = 1
            while (byte := take()) not in b"\r\n":
                count += 1
                if count > 256:
                    fault(3)
        if byte != b"\r" or take() != b"\n":
            fault(1)
        return int(digits, 16)

    def trailer():
        seen = b""
        while seen != b"\r\n" and not seen.endswith(b"\r\n\r\n"):
            if len(seen) == 1024:
                fault(5)
            seen += take()

    found = None
    try:
        while (size := size_line()) > 0:
            for _ in range(size):
                out += take()
                behind.append(at)
            if take() != b"\r" or take() != b"\n":
                fault(4)
        trailer()
    except Stop as stop:
        found = stop.args[0]
    return bytes(out), found, lambda n, told: used(at, ran_out) if told else used(behind[n], False)


def stacked(stack, count, above, loaded, carrier):
    for name in reversed(stack.split("/")):
        if name == "chunk":
            carrier = chunk(carrier)
        elif name == "length":
            carrier = length(carrier, count)
        elif name == "leftover":
            carrier = leftover(carrier, loaded)
    for _ in range(above):
        carrier = leftover(carrier)
    return carrier


# --- the receiver ---

# position: what a $H must do there, whether a $M may stand, which others, whether the body may end
POSITIONS = {
    "Preface": ("opens", True, "P", False),
    "PrefaceOf": ("opens", True, "P", False),
    "DescribeRun": ("goes on", False, "", False),
    "Described": (None, False, "", True),
    "HeaderDue": ("opens", True, "", False),
    "MetadataOf": ("opens", True, "", False),
    "HeaderRun": ("goes on", False, "", False),
    "InForce": (None, False, "DE", False),
    "EntryOver": (None, False, "C", True),
    "BodyOver": (None, False, "", True),
    "Resuming": ("opens", True, "C", True),
    "ResumingUnder": ("opens", True, "CDE", True),
}
BINDING = {"PrefaceOf", "DescribeRun", "MetadataOf", "HeaderRun"}  # $M and $H must have its Incarnation
DESCRIBING = {"Preface", "PrefaceOf", "DescribeRun"}
IN_FORCE = {"Described", "InForce", "ResumingUnder"}
FIXED = {"C": 4, "D": 8, "E": 4, "H": 8, "M": 8, "P": 0}


def number(data):
    return int.from_bytes(data, "little")


class Receiver:
    def __init__(self, carrier, body, before):
        self.data, self.ending, self.used_of_lowest = carrier
        self.place = self.entry = 0
        self.drawn, self.told = 0, False  # how much of the carrier is used
        self.last = None  # the end or fault that was answered
        self.failed = False
        self.work = bytes(65535)
        self.held = before  # the Incarnation that the position holds
        if body == "describe":
            self.at = "Preface"
        elif body == "play":
            self.at = "HeaderDue"
        else:
            self.at = "Resuming" if before is None else "ResumingUnder"

    def step(self):
        if self.last is None:
            answer = self.read()
            if answer[0] in ".!":
                self.last = answer
                self.failed = answer[0] == "!"
            return answer
        return self.last

    def pass_over(self):
        counts = {"D": 0, "S": 0}
        while (answer := self.step())[0] in counts:
            counts[answer[0]] += 1
        return "%d D %d S %s" % (counts["D"], counts["S"], answer)

    def has_header(self):
        return not self.failed and self.at in IN_FORCE

    def used(self):
        return self.used_of_lowest(self.drawn, self.told)

    def cut_short(self):
        self.drawn, self.told = len(self.data), True
        if self.ending:
            return "! 29 %d %d %d %d" % (len(self.data), *self.ending)
        if self.place == len(self.data) and POSITIONS[self.at][3]:
            return ". %d" % self.place
        return "! 28 %d" % len(self.data)

    def read(self):
        head = self.data[self.place : self.place + 4]
        if len(head) < 4:
            return self.cut_short()
        self.drawn = self.place + 4
        kind, count = chr(head[1]), number(head[2:])
        if head[0] != 0x24:
            return "! 21 %d" % self.place
        if kind not in FIXED:
            return "! 22 %d" % self.place
        if kind in "CE" and count != 4 or kind in "DHM" and count < 8:
            return "! 23 %d" % self.place
        rest = self.data[self.place + 4 : self.place + 4 + count]
        front = rest[FIXED[kind] :]
        self.work = front + self.work[len(front) :]
        if len(rest) < count:
            return self.cut_short()
        self.drawn = self.place + 4 + count
        return self.judge(kind, count, rest)

    def judge(self, kind, count, rest):
        location = incarnation = flags = reason = 0
        if kind in "DHM":
            location, incarnation, flags = number(rest[:4]), rest[4], rest[5]
            if number(rest[6:8]) != count:
                return "! 24 %d" % self.place
        elif kind in "CE":
            reason = number(rest)
        fault = self.wrong(kind, incarnation, flags)
        if fault:
            return "! %d %d" % (fault, self.place)
        letter = "S" if kind == "D" and incarnation != self.held else kind
        self.move_on(kind, incarnation, flags, reason)
        payload = count - FIXED[kind]
        line = (letter, self.place, self.entry, location, incarnation, payload, reason)
        self.place += 4 + count
        return " ".join(map(str, line))

    def wrong(self, kind, incarnation, flags):
        header, metadata, others, _ = POSITIONS[self.at]
        if not (kind in others or kind == "H" and header or kind == "M" and metadata):
            return 26
        if kind == "H" and flags not in ((0x04, 0x0C) if header == "opens" else (0x00, 0x08)):
            return 25
        if kind in "HM" and self.at in BINDING and incarnation != self.held:
            return 27
        if kind == "H" and flags & 0x08 and self.entry == 255:
            return 30
        return None

    def move_on(self, kind, incarnation, flags, reason):
        describing = self.at in DESCRIBING
        if kind in "HM":
            self.held = incarnation
        if kind == "M":
            self.at = "PrefaceOf" if describing else "MetadataOf"
        elif kind == "H" and flags & 0x08:
            self.entry += 1
            self.at = "Described" if describing else "InForce"
        elif kind == "H":
            self.at = "DescribeRun" if describing else "HeaderRun"
        elif kind == "D":
            self.at = "InForce"
        elif kind == "E":
            self.at = "EntryOver" if reason == 1 else "BodyOver"
        elif kind == "C":
            self.at = "HeaderDue"


def listing(receiver):
    lines = [receiver.step()]
    while lines[-1][0] not in ".!":
        lines.append(receiver.step())
    return lines


def answers_to(receiver, calls):
    for call in calls.strip("-"):
        if call in "SP":
            yield "? 11"
        elif call == "s":
            yield receiver.step()
        elif call == "w":
            yield "work %s" % list(receiver.work[:6])
        elif receiver.has_header():
            yield receiver.pass_over()
        else:
            yield "? 12"
    ended = receiver.last is not None and not receiver.failed
    yield "reusable" if ended else "not reusable"


# --- captures and loading ---


def captured(data):
    """The carrier that a capture is, or the number of its refusal."""
    if len(data) > 65536 or len(data) < 4:
        return 62
    pieces = number(data[:4])
    if pieces > 4096:
        return 61
    sections, at = [], 0
    for size in (4, 1, 1):
        count = number(data[at : at + 4])
        section = data[at + 4 : at + 4 + size * count]
        if len(data) < at + 4 or len(section) < size * count:
            return 62
        sections.append(section)
        at += 4 + size * count
    if at < len(data):
        return 62
    lengths, body, endings = sections
    lengths = [number(lengths[i : i + 4]) for i in range(0, len(lengths), 4)]
    if 0 in lengths or sum(lengths) != len(body):
        return 63
    if endings not in (b"\0", b"\1"):
        return 64
    return lowest(body, (7, len(body), 0) if endings == b"\1" else None)


def capture_record(words):
    carrier = captured(given_by(words)[1])
    if isinstance(carrier, int):
        return ["? %d" % carrier]
    return listing(Receiver(carrier, "play", None))


def load_record(words):
    held = 0
    for word in words:
        if word == "take":
            held = max(held - 1, 0)
        elif int(word) > 4096:
            yield "? 71"
        elif held > 0:
            yield "? 72"
        else:
            held = int(word)
            yield "loaded %d" % held


# --- the table ---


def opened(reading, loaded, beneath):
    _, body, before, stack, count, above = reading
    carrier = stacked(stack, int(count), int(above), loaded, beneath)
    return Receiver(carrier, body, None if before == "-" else int(before))


def bodies(readings, loaded, data, ending):
    """The answers of bodies one behind the other, and what is left of the lowest carrier."""
    for reading in readings:
        receiver = opened(reading, loaded, lowest(data, ending))
        yield from answers_to(receiver, reading[0])
        data = data[receiver.used() :]
    yield "beneath x.%s %s" % (data.hex(), "broken %d %d %d" % ending if ending else "clean")
    yield "= all cuts"


def record(line):
    line, *behind = line.split(" | ")
    words = line.split()
    if not words or line.startswith("#"):
        return []
    if words[0] == "capture":
        return capture_record(words[1:])
    if words[0] == "load":
        return load_record(words[1:])
    if words[0] == "tickets":
        return ["reusable" if words[1] == words[2] else "not reusable"] * 2
    first, wanted = words[:6], words[0]
    loaded, data = given_by(words[7:])
    ending = (7, len(data), 0) if words[6] == "broken" else None
    if wanted not in ("every", "once", "tail"):
        return bodies([first] + [reading.split() for reading in behind], loaded, data, ending)
    lines = listing(opened(first, loaded, lowest(data, ending)))
    if wanted == "every":
        return lines + ["= all cuts"]
    if wanted == "tail":
        return ["%d lines, the last %s" % (len(lines), lines[-1])]
    return lines


for line in sys.stdin.read().splitlines():
    print(line)
    for answer in record(line):
        print(answer)
