"""A simulated sensor, a cable and an adversary, written from docs/SENSOR.md alone, for the cases of the links."""

WINDOW = {"tmf8x0x": 16384, "tmf882x": 32768}
APP = {"tmf8x0x": 0xC0, "tmf882x": 0x03}
ASLEEP = {"tmf8x0x": 0x00, "tmf882x": 0x02}
STARTING = 0x01
READY = 0x41


def csum(data):
    return 255 - sum(data) % 256


def well_formed(frame):
    """The code and the data bytes, or None."""
    if len(frame) < 3 or len(frame) != frame[1] + 3 or frame[-1] != csum(frame[:-1]):
        return None
    code, body = frame[0], frame[2:-1]
    if code in (0x11, 0x12) and not body or code == 0x14 and body == b"\x29" or code == 0x41 and len(body) <= 128 \
            or code == 0x43 and len(body) == 2:
        return code, body
    return None


def status_reply(status):
    return bytes([status, 0, 255 - status])


class Simulated:
    def __init__(self, kind, ram, script):
        self.kind, self.ram, self.script, self.used = kind, bytearray(ram), script, 0
        self.remapped = False
        self.reset("asleep")
        self.busy, self.left = 0, 0

    def reset(self, stage):
        self.stage, self.pointer, self.status, self.opened, self.working = stage, 0, 0, False, False

    def shown(self):
        marks = "".join(c if on else "-" for c, on in zip("row", (self.remapped, self.opened, self.working)))
        return "%s.%d.%d.%s" % (self.stage, self.pointer, self.status, marks)

    def next_byte(self):
        if self.used == len(self.script):
            return 0
        self.used += 1
        return self.script[self.used - 1]

    # A write: True where acknowledged.
    def write(self, register, data):
        if not 1 <= len(data) <= 131:
            return False
        byte = self.next_byte()
        counts = register == 8 and self.stage == "loader" and not self.working
        if byte == 1 or byte == 3 and register != 8 or byte == 4 and not counts:
            return False
        if byte == 3:
            data = data[:-1] + bytes([data[-1] ^ 1])
        if counts:
            self.take(data, byte)
        elif register == 0xE0 and len(data) == 1:
            self.enable(data[0])
        return byte != 2

    def enable(self, byte):
        free = 0x30 if self.kind == "tmf882x" else 0
        if byte & ~free == 0x01 and self.stage == "asleep":
            self.reset("starting")
        elif byte & ~free == 0x00:
            self.reset("asleep")

    # A frame that counts, as it arrived.
    def take(self, frame, byte):
        said = well_formed(frame)
        if byte == 4:
            self.status = 15
        elif said is None:
            self.status = 14
        elif not self.carry_out(*said):
            self.status = 13
        if byte >= 16 and self.stage == "loader":
            self.working, self.busy, self.left = True, byte, byte % 16

    def carry_out(self, code, body):
        if code in (0x11, 0x12):
            self.remapped = code == 0x11
            self.reset("starting")
            return True
        if code == 0x43:
            address = body[0] + 256 * body[1]
            if address >= WINDOW[self.kind]:
                return False
            self.pointer = address
        elif code == 0x41:
            end = self.pointer + len(body)
            if not self.opened or end > WINDOW[self.kind]:
                return False
            self.ram[self.pointer:end] = body
            self.pointer = end
        else:
            self.opened = True
        self.status = 0
        return True

    # A read: the bytes, or None where it is missed.
    def read(self, register, count):
        if not 1 <= count <= 4:
            return None
        byte = self.next_byte()
        if byte == 1 or byte == 4 or byte == 3 and register != 8:
            return None
        got = self.show(register, count)
        if byte == 2:
            return None
        return got[:-1] + bytes([got[-1] ^ 1]) if byte == 3 else got

    def show(self, register, count):
        if (register, count) == (0xE0, 1):
            value = {"asleep": ASLEEP[self.kind], "starting": STARTING}.get(self.stage, READY)
            if self.stage == "starting":
                self.stage = "application" if self.remapped else "loader"
            return bytes([value])
        if (register, count) == (0x00, 1):
            return bytes([{"loader": 0x80, "application": APP[self.kind]}.get(self.stage, 0)])
        if (register, count) == (0x08, 3) and self.stage == "loader":
            if self.working and self.left > 0:
                self.left -= 1
                return status_reply(self.busy)
            self.working = False
            return status_reply(self.status)
        return bytes(count)


class Cable:
    """64 entries of 0 (clean), 1 (lost) and 2 (arrives but is missed) over a sensor."""

    def __init__(self, below, entries):
        self.below, self.entries, self.at = below, (list(entries) + 64 * [0])[:64], 0

    def shown(self):
        return self.below.shown()

    def entry(self):
        if self.at == 64:
            return 0
        self.at += 1
        return self.entries[self.at - 1]

    def write(self, register, data):
        if not 1 <= len(data) <= 131:
            return False
        entry = self.entry()
        return entry != 1 and self.below.write(register, data) and entry == 0

    def read(self, register, count):
        if not 1 <= count <= 4:
            return None
        entry = self.entry()
        got = None if entry == 1 else self.below.read(register, count)
        return got if entry == 0 else None


def choice_of(word):
    """A choice: . nothing special, b/a starts before/after, u unheard, x refuses, w works on, k keeps working, l lost,
    sHH status, nHH busy number, tHH cut at, cHHHH changed at and to, vHH what a read shows."""
    c = dict(before=False, after=False, heard=True, arrival=None, obeys=True, status=15, working=False, rests=True, busy=0, shown=0)
    i = 0
    while i < len(word):
        letter = word[i]
        i += 1
        if letter in "bauxwkl":
            c.update({"b": {"before": True}, "a": {"after": True}, "u": {"heard": False}, "x": {"obeys": False}, "w": {"working": True},
                      "k": {"rests": False}, "l": {"arrival": ("lost",)}}[letter])
        elif letter in "sntv":
            byte = int(word[i:i + 2], 16)
            i += 2
            c.update({"s": {"status": byte}, "n": {"busy": byte}, "t": {"arrival": ("cut", byte)}, "v": {"shown": byte}}[letter])
        elif letter == "c":
            c["arrival"] = "changed", int(word[i:i + 2], 16), int(word[i + 2:i + 4], 16)
            i += 4
        else:
            assert letter == "."
    return c


def with_change(arrival, data):
    if arrival and arrival[0] == "changed" and arrival[1] < len(data):
        return data[:arrival[1]] + bytes([arrival[2]]) + data[arrival[1] + 1:]
    return data


class Adversary(Simulated):
    """A sensor that follows a choice at each exchange; after the last one nothing goes wrong."""

    def __init__(self, kind, ram, choices):
        super().__init__(kind, ram, b"")
        self.choices = choices

    def next_choice(self):
        if self.used == len(self.choices):
            c = choice_of("b")
        else:
            self.used += 1
            c = self.choices[self.used - 1]
        self.start(c["before"])
        return c

    def start(self, chosen):
        if chosen and self.stage == "starting":
            self.stage = "application" if self.remapped else "loader"

    def write(self, register, data):
        if not 1 <= len(data) <= 131:
            return False
        c = self.next_choice()
        heard = self.arrive(c, register, data) and c["heard"]
        self.start(c["after"])
        return heard

    # Whether the bytes arrived to their end.
    def arrive(self, c, register, data):
        kind = c["arrival"][0] if c["arrival"] else "whole"
        if register == 8:
            if kind != "lost" and self.stage == "loader" and not self.working:
                self.judge(c, data[:c["arrival"][1]] if kind == "cut" else with_change(c["arrival"], data))
        elif kind in ("whole", "changed") and register == 0xE0 and len(data) == 1:
            self.enable(data[0])
        return kind in ("whole", "changed")

    def judge(self, c, frame):
        said = well_formed(frame)
        if not (c["obeys"] and said and self.carry_out(*said)):
            self.status = c["status"] if 1 <= c["status"] <= 15 else 15
        if self.stage == "loader":
            self.working = c["working"]

    def read(self, register, count):
        if not 1 <= count <= 4:
            return None
        c = self.next_choice()
        if c["heard"]:
            got = self.filled(c, register, count)
        else:
            got = None
            self.working = self.working and not c["rests"]
        self.start(c["after"])
        return got

    def filled(self, c, register, count):
        anything = bytes([c["shown"]] * count)
        if (register, count) == (0xE0, 1):
            least = {"asleep": ASLEEP[self.kind], "starting": STARTING}.get(self.stage, READY)
            free = 0x30 if self.kind == "tmf882x" else 0
            return anything if c["shown"] & ~free == least else bytes([least])
        if (register, count) == (0x00, 1):
            return {"loader": b"\x80", "application": bytes([APP[self.kind]])}.get(self.stage, anything)
        if (register, count) == (0x08, 3) and self.stage == "loader":
            if self.working and c["busy"] >= 16 and not c["rests"]:
                return with_change(c["arrival"], status_reply(c["busy"]))
            self.working = False
            return with_change(c["arrival"], status_reply(self.status))
        return anything


def play(link, tokens):
    """What each token comes to: W08:1100EE writes, R08:3 reads, S shows the sensor's state."""
    said = []
    for token in tokens:
        if token == "S":
            said.append(link.shown())
        elif token[0] == "W":
            register, data = token[1:].split(":")
            said.append("ack" if link.write(int(register, 16), bytes.fromhex(data)) else "missed")
        else:
            register, count = token[1:].split(":")
            got = link.read(int(register, 16), int(count))
            said.append("missed" if got is None else "=" + got.hex().upper())
    return said
