#!/usr/bin/env python3
"""Writes the table of vectors that the program `vectors` reads, and what it must print.

    python3 tools/make_vectors.py          writes crates/vectors/stdin and crates/vectors/stdout
    python3 tools/make_vectors.py --check  only says whether the two files are what it would write
    python3 tools/make_vectors.py --plays  prints the cases of the links, which no program runs yet

The expected values come from docs/TEXT.md, docs/FRAMES.md, docs/LISTING.md, docs/REFUSALS.md and docs/SENSOR.md: this file
has a small reader, framer and lister of its own, and simulated.py a sensor, written from those pages and sharing nothing with
the crates. Where a page states a result, or where a rule is easy to misread, the result stands here by hand too (`hand=`),
and the two must agree.

A line of the table:

    GROUP | NAME | ROOM | INPUT | ANSWER | AFTER

ROOM is how many bytes the row or buffer has that the call is lent, each 0xA5 before it; 0 where it is lent none. AFTER is
what comes out besides the answer, in digit pairs: the row, the buffer, or the data bytes. In a field `\\n`, `\\r`, `\\s`,
`\\\\` and `\\xHH` stand for LF, CR, a space, a backslash and any byte, and `\\*N{..}` for N times what is in the braces.
"""

import re
import sys
from pathlib import Path

from simulated import APP, WINDOW, Adversary, Cable, Simulated, choice_of, play

ROOT = Path(__file__).resolve().parent.parent
CRATE = ROOT / "crates" / "vectors"
JUNK = 0xA5


# The table's notation.

def expand(field):
    """The bytes that a field stands for."""
    def plain(part):
        out = bytearray()
        i = 0
        while i < len(part):
            if part[i] != "\\":
                out.append(ord(part[i]))
                i += 1
            elif part[i + 1] == "x":
                out.append(int(part[i + 2:i + 4], 16))
                i += 4
            else:
                out += {"n": b"\n", "r": b"\r", "s": b" ", "\\": b"\\"}[part[i + 1]]
                i += 2
        return bytes(out)

    out = b""
    while True:
        found = re.search(r"\\\*(\d+)\{([^{}]*)\}", field)
        if not found:
            return out + plain(field)
        out += plain(field[:found.start()]) + int(found[1]) * plain(found[2])
        field = field[found.end():]


def escape(data):
    """A field for these bytes."""
    out = ""
    for b in data:
        c = chr(b)
        if c == "\n":
            out += "\\n"
        elif c == "\r":
            out += "\\r"
        elif c == "\\":
            out += "\\\\"
        elif c in "|{}#" or not 32 <= b < 127:
            out += "\\x%02X" % b
        else:
            out += c
    if out.startswith(" "):
        out = "\\s" + out[1:]
    if out.endswith(" "):
        out = out[:-1] + "\\s"
    return out


def pairs(data):
    """A field of digit pairs for these bytes; a long run of one byte is written as a repetition."""
    parts = []
    i = 0
    while i < len(data):
        j = i
        while j < len(data) and data[j] == data[i]:
            j += 1
        if j - i >= 5:
            parts.append("\\*%d{%02X}" % (j - i, data[i]))
        else:
            parts += ["%02X" % data[i]] * (j - i)
        i = j
    return " ".join(parts)


# The text: docs/TEXT.md.

DIGITS = "0123456789ABCDEFabcdef"


def lines_of(text):
    """The lines: number from 1, place of the first byte, characters without the line's end."""
    number, place = 1, 0
    while place < len(text):
        feed = text.find(b"\n", place)
        if feed < 0:
            yield number, place, text[place:]
            return
        chars = text[place:feed]
        if chars.endswith(b"\r"):
            chars = chars[:-1]
        yield number, place, chars
        number, place = number + 1, feed + 1


class Record:
    """The parts of a line, as far as it has them; a character that is no digit counts as 0."""

    def __init__(self, chars):
        digits = [c if c in DIGITS else "0" for c in chars[1:].decode("latin-1")]
        self.digits = len(digits)
        self.bytes = [int(a + b, 16) for a, b in zip(digits[0::2], digits[1::2])]
        get = lambda k: self.bytes[k] if k < len(self.bytes) else 0
        self.count = get(0)
        self.address = 256 * get(1) + get(2)
        self.type = get(3)
        self.data = bytes(self.bytes[4:4 + self.count])
        self.data_digits = chars[9:9 + 2 * self.count].decode("latin-1")


def line_faults(chars):
    """Every number from 11 to 16 that the line has, with its place in the line."""
    faults = {}
    text = chars.decode("latin-1")
    if not text.startswith(":"):
        faults[11] = 0
    strays = [i for i, c in enumerate(text) if i > 0 and c not in DIGITS]
    if strays:
        faults[12] = strays[0]
    r = Record(chars)
    if r.digits < 2 or r.digits != 10 + 2 * r.count:
        faults[13] = 0
    if sum(r.bytes) % 256 != 0:
        faults[14] = 0
    if r.type not in (0, 1, 4, 5):
        faults[15] = 0
    shapes = {1: 0, 4: 2, 5: 4}
    if r.type in shapes and (r.count != shapes[r.type] or r.address != 0):
        faults[16] = 0
    return faults


def text_faults(chars, upper, last_end):
    """Every number from 11 to 19 that the line has beside what was said before it."""
    faults = line_faults(chars)
    r = Record(chars)
    if r.type == 0:
        if upper != 0x2000:
            faults[17] = 0
        if r.address < last_end:
            faults[18] = 0
        if r.address + r.count > 65536:
            faults[19] = 0
    return faults


def read_text(text, seen=None):
    """None for a good text, else number, line and place. `seen` gets the faults of each line that is read."""
    if len(text) > 131072:
        return 10, 0, 0
    upper, last_end, named, end = 0, 0, False, None
    count = 0
    for number, place, chars in lines_of(text):
        count = number
        if end:
            return 21, number, place
        faults = text_faults(chars, upper, last_end)
        if seen is not None:
            seen.append(sorted(faults))
        if faults:
            lowest = min(faults)
            return lowest, number, place + faults[lowest]
        r = Record(chars)
        if r.type == 0:
            last_end = r.address + r.count
            named = named or r.count > 0
        elif r.type == 1:
            end = number, place
        elif r.type == 4:
            upper = 256 * r.data[0] + r.data[1]
    if not end:
        return 20, count + 1, len(text)
    if not named:
        return (22, *end)
    return None


def data_frames(text):
    """The data frames of a good text: number, start, bytes, line."""
    frames = []
    for number, _, chars in lines_of(text):
        r = Record(chars)
        if r.type == 0:
            for at in range(0, r.count, 128):
                frames.append((len(frames), r.address + at, r.data[at:at + 128], number))
    return frames


# Frames, replies and strings: docs/FRAMES.md and docs/LISTING.md.

CODES = {"RAMREMAP_RESET": 0x11, "ROMREMAP_RESET": 0x12, "DOWNLOAD_INIT": 0x14, "W_RAM": 0x41, "ADDR_RAM": 0x43}


def csum(data):
    return 255 - sum(data) % 256


def payload(command):
    name, data = command
    if name == "DOWNLOAD_INIT":
        return b"\x29"
    if name == "ADDR_RAM":
        return bytes([data[1], data[0]])
    return data


def frame(command):
    body = payload(command)
    head = bytes([CODES[command[0]], len(body) % 256]) + body
    return head + bytes([csum(head)])


def encode(command, room):
    """The frame, or a number."""
    size = len(payload(command))
    if size > 128:
        return 24
    if room < size + 3:
        return 25
    return frame(command)


def decode(data):
    """The command, or a number."""
    if len(data) < 3 or len(data) != data[1] + 3:
        return 26
    if data[-1] != csum(data[:-1]):
        return 27
    code, size, body = data[0], data[1], data[2:-1]
    if code in (0x11, 0x12) and size == 0:
        return ("RAMREMAP_RESET" if code == 0x11 else "ROMREMAP_RESET"), b""
    if code == 0x14 and body == b"\x29":
        return "DOWNLOAD_INIT", b""
    if code == 0x41 and size <= 128:
        return "W_RAM", body
    if code == 0x43 and size == 2:
        return "ADDR_RAM", bytes([body[1], body[0]])
    return 28


def reply(data):
    if len(data) != 3 or data[1] != 0 or data[2] != 255 - data[0]:
        return "spoiled"
    if data[0] == 0:
        return "ready"
    return "%s %d" % ("refused" if data[0] < 16 else "busy", data[0])


def string(command):
    return b"S 41 W 08 " + b"".join(b"%02X " % b for b in frame(command)) + b"P\n"


def write_string(command, room):
    """The string, or a number."""
    if room < 405:
        return 30
    if len(payload(command)) > 128:
        return 24
    return string(command)


def listing(text):
    """What is printed, and the exit status."""
    fault = (10, 0, 0) if len(text) > 65536 else read_text(text)
    frames = [] if fault else data_frames(text)
    if any(start + len(data) > 16384 for _, start, data, _ in frames):
        fault = 23, 0, 0
    if fault:
        return b"fault %d %d %d\n" % fault, 1
    out = string(("DOWNLOAD_INIT", b""))
    pointer = None
    for _, start, data, _ in frames:
        if pointer != start:
            out += string(("ADDR_RAM", start.to_bytes(2, "big")))
        out += string(("W_RAM", data))
        pointer = start + len(data)
    return out + string(("RAMREMAP_RESET", b"")), 0


# The cases.

GROUPS = ["lines", "texts", "patches", "encode", "decode", "replies", "strings", "listings"]
# Cases of the links, which no program of the repository runs yet.
PLAYED = ["plays", "choices"]
TABLE = {group: [] for group in GROUPS + PLAYED}
SEEN = {}


def add(group, name, room, field, answer, after):
    assert "|" not in name + field and name == name.strip() and field == field.strip(), (name, field)
    assert all(name != row[0] for row in TABLE[group]), "twice: " + group + ": " + name
    TABLE[group].append((name, "%s | %s | %d | %s | %s | %s" % (group, name, room, field, answer, after)))


def agrees(name, got, hand):
    assert hand is None or got == hand, "%s: by the rules %r, by hand %r" % (name, got, hand)


def fault_words(fault):
    return "fault %d %d %d" % fault


def line(name, field, hand=None, room=255, has=()):
    """A single line. `hand`: number and place, or the case's words."""
    chars = expand(field)
    faults = line_faults(chars)
    assert set(has) <= set(faults), (name, sorted(faults))
    r = Record(chars)
    row = bytes(255)
    if room != 255:
        answer, row = fault_words((31, 0, 0)), bytes([JUNK]) * room
        short = 31, 0
    elif faults:
        short = min(faults), faults[min(faults)]
        answer = fault_words((short[0], 1, short[1]))
    else:
        words = {0: "data %d" % r.address, 1: "end", 4: "base", 5: "start"}[r.type]
        if r.type == 4:
            words += " %d" % (256 * r.data[0] + r.data[1])
        answer = short = "%s [%s] line 1 place 0" % (words, r.data_digits)
        row = r.data + bytes(255 - r.count)
    agrees(name, short, hand)
    add("lines", name, room, field, squeezed(answer), pairs(row))


def squeezed(answer):
    """A long run of equal digits in an answer, as a repetition."""
    return re.sub(r"(..)\1{7,}", lambda m: "\\*%d{%s}" % (len(m[0]) // 2, m[1]), answer)


def text(name, field, hand=None, room=255, has=()):
    """A whole text. `hand`: 'good', or number, line and place. `has`: what its last line that is read has."""
    data = expand(field)
    seen = []
    fault = (31, 0, 0) if room != 255 else read_text(data, seen)
    assert not has or set(has) <= set(seen[-1]), (name, seen)
    if has:
        for a in has:
            for b in has:
                if a < b:
                    SEEN[a, b] = name
    agrees(name, fault or "good", hand)
    row = bytes([JUNK]) * room if room != 255 else bytes(255)
    add("texts", name, room, field, fault_words(fault) if fault else "accepted", pairs(row))


def patch(name, field, hand=None):
    """The example's patch, and then this text: what is held, as its data frames: number, start, length, line."""
    data = expand(field)
    fault = read_text(data)
    frames = data_frames(EXAMPLE if fault else data)
    words = ["%d %d %d %d" % (n, start, len(b), ln) for n, start, b, ln in frames]
    agrees(name, words, hand)
    answer = "%s, %d frames: %s" % (fault_words(fault) if fault else "accepted", len(frames), "; ".join(words))
    add("patches", name, 255, field, answer, pairs(b"".join(b for _, _, b, _ in frames)))


def command_of(field):
    name, _, rest = expand(field).decode().partition(" ")
    return name, bytes.fromhex(rest)


def encoding(name, field, room, hand=None):
    got = encode(command_of(field), room)
    buf = bytes([JUNK]) * room
    if isinstance(got, int):
        answer = "fault %d" % got
    else:
        answer, buf = "%d bytes" % len(got), got + buf[len(got):]
    agrees(name, got if isinstance(got, int) else got.hex(" ").upper(), hand)
    add("encode", name, room, field, answer, pairs(buf))


def decoding(name, field, hand=None):
    got = decode(bytes.fromhex(expand(field).decode()))
    if isinstance(got, int):
        answer, after = "fault %d" % got, b""
    elif got[0] == "ADDR_RAM":
        answer, after = "ADDR_RAM %d" % (256 * got[1][0] + got[1][1]), b""
    else:
        answer, after = got
    agrees(name, got if isinstance(got, int) else answer, hand)
    add("decode", name, 0, field, answer, pairs(after))


def replying(name, field, hand=None):
    got = reply(bytes.fromhex(field))
    agrees(name, got, hand)
    add("replies", name, 0, field, got, "")


def stringing(name, field, room=405, hand=None):
    got = write_string(command_of(field), room)
    buf = bytes([JUNK]) * room
    if isinstance(got, int):
        answer, rest = "fault %d" % got, buf
    else:
        answer, rest = escape(got), buf[len(got):]
    agrees(name, got if isinstance(got, int) else got.decode(), hand)
    add("strings", name, room, field, answer, pairs(rest))


def listed(name, field, hand=None):
    printed, status = listing(expand(field))
    agrees(name, printed.decode(), hand)
    add("listings", name, 0, field, "status %d\\n" % status + escape(printed), "")


def plays(name, kind, script, tokens, hand=None, cable="-", room=None, ram=None):
    """A script played on a simulated sensor, perhaps over a cable. `hand`: what each exchange and each S comes to."""
    room = WINDOW[kind] if room is None else room
    found = bytes([JUNK]) * room
    if room != WINDOW[kind]:
        said, after = ["fault 29"], found
    else:
        sensor = Simulated(kind, found, bytes.fromhex("" if script == "-" else script))
        link = sensor if cable == "-" else Cable(sensor, [int(c) for c in cable])
        said, after = play(link, tokens.split()), bytes(sensor.ram)
    agrees(name, " ".join(said), hand)
    agrees(name, after, laid(found, ram))
    add("plays", name, room, "%s %s %s %s" % (kind, script, cable, tokens), " ".join(said), pairs(after))


def laid(found, ram):
    """RAM with digit pairs laid over it from a place on."""
    if ram is None:
        return found
    start, data = ram
    return found[:start] + bytes.fromhex(data) + found[start + len(data) // 2:]


def chosen(name, kind, choices, tokens, hand, ram=None, room=None):
    """Choices played on the adversary."""
    room = WINDOW[kind] if room is None else room
    found = bytes([JUNK]) * room
    if room != WINDOW[kind]:
        said, after = ["fault 29"], found
    else:
        sensor = Adversary(kind, found, [] if choices == "-" else [choice_of(c) for c in choices.split(",")])
        said, after = play(sensor, tokens.split()), bytes(sensor.ram)
    agrees(name, " ".join(said), hand)
    agrees(name, after, laid(found, ram))
    add("choices", name, room, "%s %s %s" % (kind, choices, tokens), " ".join(said), pairs(after))


def rec(count, address, kind, data="", off=0):
    """A line's characters with the check byte that fits; `off` is added to it. The count need not fit the data."""
    body = bytes([count, address // 256, address % 256, kind]) + bytes.fromhex(data)
    return ":" + body.hex().upper() + "%02X" % ((-sum(body) + off) % 256)


def data_line(address, data, off=0):
    return rec(len(bytes.fromhex(data)), address, 0, data, off)


def long_line(address, count, byte="00"):
    """A data line of one byte over and over, as a field."""
    head = bytes([count, address // 256, address % 256, 0])
    return ":%s\\*%d{%s}%02X" % (head.hex().upper(), count, byte, -(sum(head) + count * int(byte, 16)) % 256)


BASE = ":020000042000DA"
FOUR = ":0400000001020304F2"
START = ":0400000500000000F7"
END = ":00000001FF"
EXAMPLE = expand(BASE + "\\n" + FOUR + "\\n" + END + "\\n")


def lf(*lines):
    return "".join(l + "\\n" for l in lines)


# Bad lines, each of which has one fault beside the lines BASE and FOUR, or in 17 beside another upper half.

OTHER = ":020000042001D9"
SOLE = {
    11: ";0100040000FB",
    12: ":010004000GFB",
    13: ":010004000000FB",
    14: ":0100040000FC",
    15: rec(1, 4, 3, "00"),
    16: rec(1, 0, 1, "00"),
    17: data_line(4, "00"),
    18: data_line(3, "00"),
    19: data_line(0xFFFF, "0000"),
}


def before(number):
    return lf(BASE, FOUR, OTHER) if number == 17 else lf(BASE, FOUR)


def also(low, number):
    """The line that has only `number`, made to have `low` too."""
    chars = SOLE[number]
    if low == 11:
        return ";" + chars[1:]
    if low == 12:
        # in place of the data's first digit, a 0
        return chars[:9] + "G" + chars[10:]
    if low == 13:
        return chars + "00"
    return chars[:-2] + "%02X" % ((int(chars[-2:], 16) + 1) % 256)


def line_cases():
    line("the end line", END, "end [] line 1 place 0")
    line("the upper half 2000", BASE, "base 8192 [2000] line 1 place 0")
    line("the upper half 1234", rec(2, 0, 4, "1234"), "base 4660 [1234] line 1 place 0")
    line("the upper half FFFF", rec(2, 0, 4, "FFFF"))
    line("a start address", ":04000005200000696E", "start [20000069] line 1 place 0")
    line("four bytes", FOUR, "data 0 [01020304] line 1 place 0")
    line("the maker's line 2", ":100000006DC941853D15AA51F4D29EA8A7AC77E9E8", "data 0 [6DC941853D15AA51F4D29EA8A7AC77E9] line 1 place 0")
    line("the maker's line 3", ":10001000F9EC202463B8F1A50BA765B432B818D762")
    line("the maker's line 4", ":101C1000FF8000D6EAF77C36807C00FF5D488E5D51", "data 7184 [FF8000D6EAF77C36807C00FF5D488E5D] line 1 place 0")
    line("lower case", ":101c1000ff8000d6eaf77c36807c00ff5d488e5d51", "data 7184 [ff8000d6eaf77c36807c00ff5d488e5d] line 1 place 0")
    line("mixed case", ":04000000aBcDEfFa9b", "data 0 [aBcDEfFa] line 1 place 0")
    line("the high byte of an address comes first", data_line(0x1234, "56"), "data 4660 [56] line 1 place 0")
    line("data with count 0", rec(0, 0x1234, 0), "data 4660 [] line 1 place 0")
    line("one byte", data_line(0xFFFF, "80"))
    line("data past the top, alone", data_line(0xFFFF, "0102"), "data 65535 [0102] line 1 place 0")
    line("128 bytes", long_line(0, 128, "11"))
    line("254 bytes", long_line(0, 254, "5A"))
    line("255 bytes", long_line(0xFF01, 255, "C3"))
    line("255 bytes FF", long_line(0, 255, "FF"))

    line("an empty line", "", (11, 0))
    line("a space before the colon", "\\s" + END, (11, 0))
    line("no colon", END[1:], (11, 0))
    line("another mark", ";00000001FF", (11, 0))
    line("a digit only", "0", (11, 0))
    line("a CR only", "\\r", (11, 0))
    line("a LF only", "\\n", (11, 0))
    line("a byte FF only", "\\xFF", (11, 0))
    for place, c, word in [(1, "/", "before 0"), (2, ":", "after 9"), (3, "@", "before A"), (4, "G", "after F"), (8, "`", "before a"), (11, "g", "after f")]:
        chars = list(":00000001FF0")
        chars[place] = c
        line("the character %s" % word, "".join(chars), (12, place))
    line("two colons", ":" + END, (12, 1))
    line("a CR at the end", END + "\\r", (12, 11))
    line("a LF at the end", END + "\\n", (12, 11))
    line("a space at the end", END + "\\s", (12, 11))
    line("a byte 80 in the data", ":0100000\\x80", (12, 8))
    line("the first of two strays", ":00g000x1FF", (12, 3))
    line("only the colon", ":", (13, 0))
    line("one digit", ":0", (13, 0))
    line("two digits", ":00", (13, 0))
    line("nine digits", ":00000001F", (13, 0))
    line("eleven digits", ":00000001FF0", (13, 0))
    line("twelve digits", ":00000001FF00", (13, 0))
    line("a count that is too large", ":0500000001020304F1", (13, 0))
    line("a count that is too small", ":0300000001020304F3", (13, 0))
    line("a count of 255 with no data", ":FF00000001", (13, 0))
    line("255 bytes, cut by one digit", long_line(0, 255)[:-1], (13, 0))
    line("255 bytes and one digit more", long_line(0, 255) + "0", (13, 0))
    line("the sum is 1", ":0400000001020304F3", (14, 0))
    line("the sum is 255, as in a frame", ":0400000001020304F1", (14, 0))
    line("255 bytes with a wrong sum", long_line(0, 255)[:-1] + "0", (14, 0))
    for kind in (2, 3, 6, 7, 0x10, 0x40, 0xFF):
        line("the type %02X" % kind, rec(0, 0, kind), (15, 0))
    line("an end line with count 1", rec(1, 0, 1, "00"), (16, 0))
    line("an end line with the address 1", rec(0, 1, 1), (16, 0))
    line("an end line with the address 256", rec(0, 256, 1), (16, 0))
    line("a base line with count 0", rec(0, 0, 4), (16, 0))
    line("a base line with count 1", rec(1, 0, 4, "20"), (16, 0))
    line("a base line with count 3", rec(3, 0, 4, "200000"), (16, 0))
    line("a base line with an address", rec(2, 0x2000, 4, "2000"), (16, 0))
    line("a start line with count 2", rec(2, 0, 5, "2000"), (16, 0))
    line("a start line with count 5", rec(5, 0, 5, "2000006900"), (16, 0))
    line("a start line with an address", rec(4, 1, 5, "20000069"), (16, 0))
    for low in (11, 12, 13, 14):
        for number in range(low + 1, 17):
            line("%d and %d" % (low, number), also(low, number), (low, 9 if low == 12 else 0), has=(low, number))
    for room in (0, 1, 254, 256, 300):
        line("a row of %d bytes" % room, FOUR, (31, 0), room=room)
    line("a row of 254 bytes and an empty line", "", (31, 0), room=254)
    line("a row of 256 bytes and a bad line", ":0", (31, 0), room=256)


MAKER = lf(BASE, ":100000006DC941853D15AA51F4D29EA8A7AC77E9E8", ":10001000F9EC202463B8F1A50BA765B432B818D762",
           ":101C1000FF8000D6EAF77C36807C00FF5D488E5D51", ":04000005200000696E", END)
GOOD = lf(BASE, FOUR, END)


def good_texts():
    text("the example", GOOD, "good")
    text("the maker's example", MAKER, "good")
    text("without the last LF", GOOD[:-2], "good")
    text("CR LF throughout", GOOD.replace("\\n", "\\r\\n"), "good")
    text("CR LF on one line", BASE + "\\r\\n" + FOUR + "\\n" + END + "\\n", "good")
    text("CR LF but no end to the last line", BASE + "\\r\\n" + FOUR + "\\r\\n" + END, "good")
    text("lower case", lf(BASE.lower(), data_line(0, "ABCDEF").lower(), END.lower()), "good")
    text("mixed case", lf(":020000042000dA", data_line(0, "ABCDEF").replace("ABCDEF", "aBcDeF"), ":00000001fF"), "good")
    text("a start line first", lf(START, BASE, FOUR, END), "good")
    text("a start line under the upper half 0", lf(START, START, BASE, FOUR, START, END), "good")
    text("a start line between data", lf(BASE, FOUR, START, data_line(4, "05"), END), "good")
    text("a start line before the end", lf(BASE, FOUR, ":04000005200000696E", END), "good")
    text("a base line before the end", lf(BASE, FOUR, OTHER, END), "good")
    text("another base line first", lf(OTHER, rec(2, 0, 4, "0000"), BASE, FOUR, END), "good")
    text("away and back between data", lf(BASE, FOUR, OTHER, BASE, data_line(4, "05"), END), "good")
    text("the same base line twice", lf(BASE, BASE, FOUR, BASE, data_line(4, "05"), END), "good")
    text("data that start at the last end", lf(BASE, FOUR, data_line(4, "05"), data_line(5, "06"), END), "good")
    text("data after a gap", lf(BASE, FOUR, data_line(0x8000, "05"), END), "good")
    text("the last address", lf(BASE, data_line(0xFFFF, "05"), END), "good")
    text("address and count make 65,536", lf(BASE, long_line(0xFF01, 255), END), "good")
    text("65,536 reached in two steps", lf(BASE, data_line(0xFFF0, "00" * 15), data_line(0xFFFF, "01"), END), "good")
    text("255 bytes from 0", lf(BASE, long_line(0, 255, "7E"), END), "good")
    text("three lines of 255 bytes, one after the other", lf(BASE) + "".join(lf(long_line(255 * k, 255)) for k in range(3)) + lf(END), "good")
    text("count 0 before data", lf(BASE, rec(0, 0, 0), FOUR, END), "good")
    text("count 0 at the last end", lf(BASE, FOUR, rec(0, 4, 0), END), "good")
    text("count 0 in a gap", lf(BASE, FOUR, rec(0, 16, 0), data_line(16, "05"), END), "good")
    text("count 0 twice at one address", lf(BASE, FOUR, rec(0, 9, 0), rec(0, 9, 0), data_line(9, "05"), END), "good")
    text("count 0 at the last address", lf(BASE, FOUR, rec(0, 0xFFFF, 0), data_line(0xFFFF, "05"), END), "good")
    text("two changes that keep the sum", lf(BASE, ":0400000002010304F2", END), "good")
    text("a byte 3A in the data", lf(BASE, data_line(0, "3A0A0D"), END), "good")


def first_texts():
    """11 to 16."""
    text("an empty first line", "\\n" + GOOD, (11, 1, 0))
    text("only a LF", "\\n", (11, 1, 0))
    text("only CR LF", "\\r\\n", (11, 1, 0))
    text("only a CR", "\\r", (11, 1, 0))
    text("only CR CR LF", "\\r\\r\\n", (11, 1, 0))
    text("only a space", "\\s", (11, 1, 0))
    text("only a digit", "0", (11, 1, 0))
    text("an empty line between", lf(BASE, "", FOUR, END), (11, 2, 16))
    text("an empty line of CR LF between", lf(BASE) + "\\r\\n" + lf(FOUR, END), (11, 2, 16))
    text("an empty line before the end", lf(BASE, FOUR, "", END), (11, 3, 36))
    text("two empty lines", lf(BASE, "", "", FOUR, END), (11, 2, 16))
    text("a line without its colon", lf(BASE, FOUR[1:], END), (11, 2, 16))
    text("a space before a colon", lf(BASE, " " + FOUR, END), (11, 2, 16))
    text("a tab before a colon", lf(BASE, "\\x09" + FOUR, END), (11, 2, 16))
    text("a byte order mark", "\\xEF\\xBB\\xBF" + GOOD, (11, 1, 0))
    text("a byte 0", lf(BASE) + "\\x00\\n" + lf(FOUR, END), (11, 2, 16))
    text("a comment", lf("; a patch", BASE, FOUR, END), (11, 1, 0))
    text("LF CR for CR LF", BASE + "\\n\\r" + FOUR + "\\n\\r" + END + "\\n\\r", (11, 2, 16))

    for c, word in [("/", "before 0"), (":", "after 9"), ("@", "before A"), ("G", "after F"), ("`", "before a"), ("g", "after f")]:
        text("the character %s" % word, lf(BASE, FOUR.replace("304", "3%s4" % c), END), (12, 2, 31))
    text("a stray after the colon", lf(":G20000042000DA", FOUR, END), (12, 1, 1))
    text("a stray in the check byte", lf(BASE, FOUR[:-1] + "x", END), (12, 2, 34))
    text("the first of two strays on a line", lf(BASE, ":04z0000001?20304F2", END), (12, 2, 19))
    text("a space at a line's end", lf(BASE, FOUR + " ", END), (12, 2, 35))
    text("two colons", lf(BASE, ":" + FOUR, END), (12, 2, 17))
    text("two lines in one", lf(BASE + FOUR, END), (12, 1, 15))
    text("CR CR LF", BASE + "\\r\\r\\n" + lf(FOUR, END), (12, 1, 15))
    text("CR CR CR LF", BASE + "\\r\\r\\r\\n" + lf(FOUR, END), (12, 1, 15))
    text("a CR in the middle", lf(BASE, FOUR[:9] + "\\r" + FOUR[9:], END), (12, 2, 25))
    text("CR alone between lines", BASE + "\\r" + FOUR + "\\r" + END + "\\r", (12, 1, 15))
    text("a CR at the text's end", BASE + "\\n" + FOUR + "\\n" + END + "\\r", (12, 3, 47))
    text("CR CR LF after CR LF", BASE + "\\r\\n" + FOUR + "\\r\\r\\n" + END + "\\r\\n", (12, 2, 36))
    text("places count the CRs", BASE + "\\r\\n" + FOUR + "\\r\\n" + ":0000000\\s1FF\\r\\n", (12, 3, 46))
    text("a byte FF", lf(BASE, FOUR[:10] + "\\xFF" + FOUR[11:], END), (12, 2, 26))
    text("a byte 0 in a line", lf(BASE, FOUR[:10] + "\\x00" + FOUR[11:], END), (12, 2, 26))
    text("0x in a line", lf(BASE, ":0x" + FOUR[3:], END), (12, 2, 18))

    text("only a colon", ":", (13, 1, 0))
    text("a colon and a LF", ":\\n", (13, 1, 0))
    text("a colon and CR LF", ":\\r\\n", (13, 1, 0))
    text("one digit", lf(BASE, ":0", END), (13, 2, 16))
    text("two digits", lf(BASE, ":00", END), (13, 2, 16))
    text("one digit short", lf(BASE, FOUR[:-1], END), (13, 2, 16))
    text("two digits short", lf(BASE, FOUR[:-2], END), (13, 2, 16))
    text("one digit over", lf(BASE, FOUR + "0", END), (13, 2, 16))
    text("two digits over", lf(BASE, FOUR + "00", END), (13, 2, 16))
    text("a count of one too many", lf(BASE, ":0500000001020304F1", END), (13, 2, 16))
    text("a count of one too few", lf(BASE, ":0300000001020304F3", END), (13, 2, 16))
    text("the last line is cut", lf(BASE, FOUR) + END[:-1], (13, 3, 36))
    text("the last line is cut to its colon", lf(BASE, FOUR) + ":", (13, 3, 36))
    text("256 bytes on a line", lf(BASE, ":00000000" + "00" * 256 + "00", END), (13, 2, 16))

    text("F3 in place of F2", lf(BASE, FOUR[:-2] + "F3", END), (14, 2, 16))
    text("the check byte of a frame", lf(BASE, FOUR[:-2] + "F1", END), (14, 2, 16))
    text("a digit changed", lf(BASE, FOUR.replace("0304", "0314"), END), (14, 2, 16))
    text("the first line's sum", lf(":020000042000DB", FOUR, END), (14, 1, 0))
    text("the end line's sum", lf(BASE, FOUR, ":00000001FE"), (14, 3, 36))
    text("a start line's sum", lf(BASE, ":0400000500000000F6", FOUR, END), (14, 2, 16))
    text("the sum of 255 bytes", lf(BASE, long_line(0, 255, "01")[:-2] + "00", END), (14, 2, 16))

    for kind in (2, 3, 6, 0x0A, 0x11, 0x80, 0xFF):
        text("the type %02X" % kind, lf(BASE, FOUR, rec(0, 0, kind), END), (15, 3, 36))
    text("an unknown type under the upper half 0", lf(rec(1, 0, 3, "00"), BASE, FOUR, END), (15, 1, 0))
    text("an unknown type before the last end", lf(BASE, FOUR, rec(1, 0, 2, "00"), END), (15, 3, 36))
    text("an unknown type past the top", lf(BASE, FOUR, rec(2, 0xFFFF, 6, "0000"), END), (15, 3, 36))

    text("an end line with count 1", lf(BASE, FOUR, rec(1, 0, 1, "00")), (16, 3, 36))
    text("an end line with a low address", lf(BASE, FOUR, rec(0, 1, 1)), (16, 3, 36))
    text("an end line with a high address", lf(BASE, FOUR, rec(0, 0x0100, 1)), (16, 3, 36))
    text("a base line with count 0", lf(rec(0, 0, 4), BASE, FOUR, END), (16, 1, 0))
    text("a base line with count 1", lf(rec(1, 0, 4, "20"), FOUR, END), (16, 1, 0))
    text("a base line with count 3", lf(rec(3, 0, 4, "200000"), FOUR, END), (16, 1, 0))
    text("a base line with count 4", lf(rec(4, 0, 4, "00002000"), FOUR, END), (16, 1, 0))
    text("a base line with an address", lf(rec(2, 0x2000, 4, "2000"), FOUR, END), (16, 1, 0))
    text("a start line with count 0", lf(BASE, rec(0, 0, 5), FOUR, END), (16, 2, 16))
    text("a start line with count 2", lf(BASE, rec(2, 0, 5, "2000"), FOUR, END), (16, 2, 16))
    text("a start line with count 5", lf(BASE, rec(5, 0, 5, "2000006900"), FOUR, END), (16, 2, 16))
    text("a start line with an address", lf(BASE, rec(4, 4, 5, "20000069"), FOUR, END), (16, 2, 16))


def later_texts():
    """17 to 22, 10 and 31."""
    text("data before any base line", lf(FOUR, BASE, END), (17, 1, 0))
    text("data and no base line", lf(FOUR, END), (17, 1, 0))
    for upper in (0x0000, 0x0020, 0x1FFF, 0x2001, 0xA000, 0xFFFF):
        text("data under %04X" % upper, lf(rec(2, 0, 4, "%04X" % upper), FOUR, END), (17, 2, 16))
    text("count 0 before any base line", lf(rec(0, 0, 0), BASE, FOUR, END), (17, 1, 0))
    text("count 0 under another upper half", lf(BASE, FOUR, OTHER, rec(0, 4, 0), END), (17, 4, 52))
    text("data after the upper half moved on", lf(BASE, FOUR, OTHER, data_line(0, "05"), END), (17, 4, 52))
    text("a start line does not set the upper half", lf(rec(4, 0, 5, "20000000"), FOUR, END), (17, 2, 20))

    text("the same line twice", lf(BASE, FOUR, FOUR, END), (18, 3, 36))
    text("data one before the last end", lf(BASE, FOUR, data_line(3, "05"), END), (18, 3, 36))
    text("data before the first", lf(BASE, data_line(16, "05"), data_line(0, "06"), END), (18, 3, 30))
    text("order holds over a start line", lf(BASE, FOUR, START, data_line(3, "05"), END), (18, 4, 56))
    text("order holds over a base line", lf(BASE, FOUR, BASE, data_line(0, "05"), END), (18, 4, 52))
    text("order holds over another upper half", lf(BASE, FOUR, OTHER, BASE, data_line(0, "05"), END), (18, 5, 68))
    text("count 0 before the last end", lf(BASE, FOUR, rec(0, 3, 0), END), (18, 3, 36))
    text("data before a line of count 0", lf(BASE, FOUR, rec(0, 16, 0), data_line(15, "05"), END), (18, 4, 48))
    text("data before a first line of count 0", lf(BASE, rec(0, 1, 0), FOUR, END), (18, 3, 28))
    text("count 0 before a line of count 0", lf(BASE, FOUR, rec(0, 16, 0), rec(0, 15, 0), END), (18, 4, 48))
    text("count 0 is the last data line, not the longest", lf(BASE, data_line(0, "0102"), rec(0, 8, 0), data_line(4, "05"), END), (18, 4, 44))
    text("data after the top was reached", lf(BASE, data_line(0xFFFF, "05"), data_line(0, "06"), END), (18, 3, 30))
    text("count 0 after the top was reached", lf(BASE, data_line(0xFFFF, "05"), rec(0, 0xFFFF, 0), END), (18, 3, 30))

    text("address and count make 65,537", lf(BASE, data_line(0xFFFF, "0506"), END), (19, 2, 16))
    text("255 bytes to 65,537", lf(BASE, long_line(0xFF02, 255), END), (19, 2, 16))
    text("255 bytes from the last address", lf(BASE, long_line(0xFFFF, 255), END), (19, 2, 16))
    text("past the top after good data", lf(BASE, FOUR, data_line(0xFFFE, "050607"), END), (19, 3, 36))

    text("the empty text", "", (20, 1, 0))
    text("no end line", lf(BASE, FOUR), (20, 3, 36))
    text("no end line and no last LF", BASE + "\\n" + FOUR, (20, 3, 35))
    text("no end line, CR LF", BASE + "\\r\\n" + FOUR + "\\r\\n", (20, 3, 38))
    text("only a base line", lf(BASE), (20, 2, 16))
    text("only a start line without LF", START, (20, 2, 19))
    text("no end line and count 0 only", lf(BASE, rec(0, 0, 0)), (20, 3, 28))
    text("no end line in the maker's example", MAKER[:-len(lf(END))], (20, 6, 168))

    text("an empty line after the end", GOOD + "\\n", (21, 4, 48))
    text("an empty line of CR LF after the end", GOOD + "\\r\\n", (21, 4, 48))
    text("a CR after the end", GOOD + "\\r", (21, 4, 48))
    text("a space after the end", GOOD + "\\s", (21, 4, 48))
    text("a second end line", GOOD + END, (21, 4, 48))
    text("the whole text twice", GOOD + GOOD, (21, 4, 48))
    text("two lines after the end", GOOD + lf(START, START), (21, 4, 48))
    text("after an end line of CR LF", GOOD.replace("\\n", "\\r\\n") + "x", (21, 4, 51))
    text("the end line first", lf(END, BASE, FOUR), (21, 2, 12))
    text("an end line and an empty line", END + "\\n\\n", (21, 2, 12))
    text("21 before 22", lf(BASE, END) + "x", (21, 3, 28))
    for number, chars in SOLE.items():
        text("21 and %d" % number, GOOD + lf(chars), (21, 4, 48))
    text("21 and a text without LF", GOOD + ":", (21, 4, 48))

    text("an end line alone", lf(END), (22, 1, 0))
    text("an end line without LF", END, (22, 1, 0))
    text("an end line with CR LF", END + "\\r\\n", (22, 1, 0))
    text("a base line and an end line", lf(BASE, END), (22, 2, 16))
    text("a start line and an end line", lf(START, END), (22, 2, 20))
    text("count 0 only", lf(BASE, rec(0, 0, 0), END), (22, 3, 28))
    text("count 0 at the last address only", lf(BASE, rec(0, 0xFFFF, 0), END), (22, 3, 28))
    text("22 after CR LF", BASE + "\\r\\n" + START + "\\r\\n" + END, (22, 3, 38))

    # 131,072 bytes: 48 of the example, 20 for each start line, and a CR on four lines
    full = BASE + "\\r\\n" + "\\*6550{" + START + "\\n}" + START + "\\r\\n" + FOUR + "\\r\\n" + END + "\\r\\n"
    assert len(expand(full)) == 131072
    text("131,072 bytes", full, "good")
    text("131,073 bytes", full.replace("DA\\r\\n", "DA\\r\\r\\n"), (10, 0, 0))
    text("131,073 bytes, an empty line more", full + "\\n", (10, 0, 0))
    text("131,072 bytes, the last line bad", full[:-6] + "FE\\r\\n", (14, 6554, 131059))
    text("131,072 bytes, the last line cut", "\\*6553{" + START + "\\n}" + BASE[:-4] + "\\n", (13, 6554, 131060))
    text("131,072 bytes of start lines", "\\*6541{" + START + "\\n}\\*12{" + START + "\\r\\n}", (20, 6554, 131072))
    text("131,072 letters", "\\*131072{A}", (11, 1, 0))
    text("131,073 letters", "\\*131073{A}", (10, 0, 0))
    text("131,072 LFs", "\\*131072{\\n}", (11, 1, 0))
    text("131,073 LFs", "\\*131073{\\n}", (10, 0, 0))
    text("131,072 digits on one line", ":\\*131071{0}", (13, 1, 0))
    text("200,000 bytes", "\\*10000{" + START + "\\n}", (10, 0, 0))

    for room in (0, 1, 254, 256):
        text("a row of %d bytes" % room, GOOD, (31, 0, 0), room=room)
    text("31 and 10", "\\*131073{A}", (31, 0, 0), room=254)
    text("31 and 11", "\\n", (31, 0, 0), room=256)
    text("31 and 20", "", (31, 0, 0), room=0)


def pair_texts():
    """The lowest number of a line decides, and the first bad line of a text."""
    for low in (11, 12, 13, 14):
        for number in range(low + 1, 20):
            chars = also(low, number)
            start = before(number)
            place = len(expand(start)) + (9 if low == 12 else 0)
            text("%d and %d" % (low, number), start + lf(chars, END), (low, 4 if number == 17 else 3, place), has=(low, number))
    text("17 and 18", lf(BASE, FOUR, OTHER, data_line(3, "05"), END), (17, 4, 52), has=(17, 18))
    text("17 and 19", lf(OTHER, data_line(0xFFFF, "0506"), END), (17, 2, 16), has=(17, 19))
    text("18 and 19", lf(BASE, data_line(0xFFFF, "05"), data_line(0xFFFF, "0607"), END), (18, 3, 30), has=(18, 19))
    text("17, 18 and 19", lf(BASE, data_line(0xFFFF, "05"), OTHER, data_line(0xFFFF, "0607"), END), (17, 4, 46), has=(17, 18, 19))
    text("11 to 15", lf(BASE, FOUR, ";0G000003", END), (11, 3, 36), has=(11, 12, 13, 14, 15))
    text("12 to 15", lf(BASE, FOUR, ":0G000003", END), (12, 3, 38), has=(12, 13, 14, 15))
    text("13 to 15", lf(BASE, FOUR, ":01000003", END), (13, 3, 36), has=(13, 14, 15))
    text("13, 14 and 16", lf(BASE, FOUR, ":01000001", END), (13, 3, 36), has=(13, 14, 16))
    text("14, 17, 18 and 19", lf(BASE, data_line(0xFFFF, "05"), OTHER, data_line(0xFFFF, "0607", 1), END), (14, 4, 46), has=(14, 17, 18, 19))
    possible = {(a, b) for a in (11, 12, 13, 14) for b in range(a + 1, 20)} | {(17, 18), (17, 19), (18, 19)}
    assert possible <= set(SEEN), possible - set(SEEN)

    bad = list(SOLE)
    for i, number in enumerate(bad):
        other = bad[(i + 4) % len(bad)]
        start = before(number)
        place = len(expand(start)) + (10 if number == 12 else 0)
        text("a line with %d, then one with %d" % (number, other), start + lf(SOLE[number], SOLE[other], END), (number, 4 if number == 17 else 3, place))
    text("a bad line and no end line", lf(BASE, SOLE[19]), (19, 2, 16))
    text("a bad line and nothing named", lf(BASE, SOLE[14], END), (14, 2, 16))
    text("a bad line, then a line after the end", lf(BASE, FOUR, SOLE[18], END, END), (18, 3, 36))
    text("every line is bad", lf(FOUR, "", ":", ";"), (17, 1, 0))


def patch_cases():
    patch("the example", GOOD, ["0 0 4 2"])
    patch("the maker's example", MAKER, ["0 0 16 2", "1 16 16 3", "2 7184 16 4"])
    patch("one byte", lf(BASE, data_line(9, "05"), END), ["0 9 1 2"])
    patch("127 bytes", lf(BASE, long_line(0, 127, "11"), END), ["0 0 127 2"])
    patch("128 bytes", lf(BASE, long_line(0, 128, "12"), END), ["0 0 128 2"])
    patch("129 bytes", lf(BASE, long_line(0, 129, "13"), END), ["0 0 128 2", "1 128 1 2"])
    patch("255 bytes", lf(BASE, long_line(5, 255, "14"), END), ["0 5 128 2", "1 133 127 2"])
    patch("count 0 makes no frame", lf(BASE, rec(0, 0, 0), FOUR, rec(0, 4, 0), data_line(4, "05"), END), ["0 0 4 3", "1 4 1 5"])
    patch("lines share no frame", lf(BASE, data_line(0, "01"), data_line(1, "02"), data_line(2, "03"), END), ["0 0 1 2", "1 1 1 3", "2 2 1 4"])
    patch("numbers go through the lines", lf(BASE, long_line(0, 200, "15"), START, long_line(200, 130, "16"), END), ["0 0 128 2", "1 128 72 2", "2 200 128 4", "3 328 2 4"])
    patch("up to 65,536", lf(BASE, long_line(0xFF01, 255, "17"), END), ["0 65281 128 2", "1 65409 127 2"])
    patch("lower case and CR LF", BASE + "\\r\\n" + data_line(0, "ABCDEF").lower() + "\\r\\n" + END, ["0 0 3 2"])
    patch("a refused text leaves the example", lf(BASE, data_line(8, "0506", 1), END), ["0 0 4 2"])
    patch("the empty text leaves the example", "", ["0 0 4 2"])
    patch("nothing named leaves the example", lf(BASE, rec(0, 0, 0), END), ["0 0 4 2"])
    patch("good data, but no end line", lf(BASE, data_line(0, "0506")), ["0 0 4 2"])


def frame_cases():
    encoding("RAMREMAP_RESET", "RAMREMAP_RESET", 131, "11 00 EE")
    encoding("ROMREMAP_RESET", "ROMREMAP_RESET", 131, "12 00 ED")
    encoding("DOWNLOAD_INIT", "DOWNLOAD_INIT", 131, "14 01 29 C1")
    encoding("ADDR_RAM of 0", "ADDR_RAM 00 00", 131, "43 02 00 00 BA")
    encoding("ADDR_RAM of 0x1C10", "ADDR_RAM 1C 10", 131, "43 02 10 1C 8E")
    encoding("ADDR_RAM of 0xFFFF", "ADDR_RAM FF FF", 131, "43 02 FF FF BC")
    encoding("ADDR_RAM of 1", "ADDR_RAM 00 01", 131, "43 02 01 00 B9")
    encoding("ADDR_RAM of 256", "ADDR_RAM 01 00", 131, "43 02 00 01 B9")
    encoding("W_RAM of four bytes", "W_RAM 01 02 03 04", 131, "41 04 01 02 03 04 B0")
    encoding("the maker's first W_RAM", "W_RAM 6DC941853D15AA51F4D29EA8A7AC77E9", 131, "41 10 6D C9 41 85 3D 15 AA 51 F4 D2 9E A8 A7 AC 77 E9 A6")
    encoding("the maker's second W_RAM", "W_RAM F9EC202463B8F1A50BA765B432B818D7", 131, "41 10 F9 EC 20 24 63 B8 F1 A5 0B A7 65 B4 32 B8 18 D7 30")
    encoding("the maker's third W_RAM", "W_RAM FF8000D6EAF77C36807C00FF5D488E5D", 131, "41 10 FF 80 00 D6 EA F7 7C 36 80 7C 00 FF 5D 48 8E 5D 3B")
    encoding("W_RAM of no byte", "W_RAM", 131, "41 00 BE")
    encoding("W_RAM of one byte", "W_RAM BD", 131, "41 01 BD 00")
    encoding("a sum of 256", "W_RAM BE", 131, "41 01 BE FF")
    encoding("W_RAM of 127 bytes", "W_RAM \\*127{FF}", 131)
    encoding("W_RAM of 128 bytes", "W_RAM \\*128{FF}", 131)
    encoding("W_RAM of 129 bytes", "W_RAM \\*129{00}", 131, 24)
    encoding("W_RAM of 129 bytes, room for 132", "W_RAM \\*129{00}", 132, 24)
    encoding("W_RAM of 255 bytes", "W_RAM \\*255{00}", 300, 24)
    encoding("W_RAM of 256 bytes", "W_RAM \\*256{00}", 300, 24)
    encoding("24 and 25", "W_RAM \\*129{00}", 0, 24)
    for name, size in [("RAMREMAP_RESET", 0), ("ROMREMAP_RESET", 0), ("DOWNLOAD_INIT", 1), ("ADDR_RAM 1C 10", 2), ("W_RAM", 0), ("W_RAM 01 02 03 04", 4), ("W_RAM \\*128{07}", 128)]:
        short = re.sub(r" \\\*128\{07\}", " of 128", name)
        encoding("%s, a buffer that is just long enough" % short, name, size + 3)
        encoding("%s, a buffer one short" % short, name, size + 2, 25)
    encoding("no buffer", "DOWNLOAD_INIT", 0, 25)
    encoding("the buffer's rest stays", "DOWNLOAD_INIT", 6, "14 01 29 C1")

    decoding("RAMREMAP_RESET", "11 00 EE", "RAMREMAP_RESET")
    decoding("ROMREMAP_RESET", "12 00 ED", "ROMREMAP_RESET")
    decoding("DOWNLOAD_INIT", "14 01 29 C1", "DOWNLOAD_INIT")
    decoding("ADDR_RAM of 0", "43 02 00 00 BA", "ADDR_RAM 0")
    decoding("ADDR_RAM of 0x1C10", "43 02 10 1C 8E", "ADDR_RAM 7184")
    decoding("ADDR_RAM of 0xFFFF", "43 02 FF FF BC", "ADDR_RAM 65535")
    decoding("W_RAM of four bytes", "41 04 01 02 03 04 B0", "W_RAM")
    decoding("the maker's first W_RAM", "41 10 6D C9 41 85 3D 15 AA 51 F4 D2 9E A8 A7 AC 77 E9 A6", "W_RAM")
    decoding("the maker's second W_RAM", "41 10 F9 EC 20 24 63 B8 F1 A5 0B A7 65 B4 32 B8 18 D7 30", "W_RAM")
    decoding("the maker's third W_RAM", "41 10 FF 80 00 D6 EA F7 7C 36 80 7C 00 FF 5D 48 8E 5D 3B", "W_RAM")
    decoding("W_RAM of no byte", "41 00 BE", "W_RAM")
    decoding("W_RAM of 128 bytes", "41 80 \\*128{00} 3E", "W_RAM")
    decoding("W_RAM of 129 bytes", "41 81 \\*129{00} 3D", 28)
    decoding("W_RAM of 255 bytes", "41 FF \\*255{00} BF", 28)
    decoding("the maker's RESET", "10 00 EF", 28)
    decoding("no byte", "", 26)
    decoding("one byte", "11", 26)
    decoding("two bytes", "11 00", 26)
    decoding("SIZE one too small", "14 00 29 C2", 26)
    decoding("SIZE one too large", "14 02 29 C0", 26)
    decoding("a byte too many", "11 00 EE 00", 26)
    decoding("CSUM one too small", "11 00 ED", 27)
    decoding("CSUM one too large", "11 00 EF", 27)
    decoding("the check byte of a text", "14 01 29 C2", 27)
    decoding("a data byte changed", "41 04 01 02 03 05 B0", 27)
    decoding("the command changed", "42 04 01 02 03 04 B0", 27)
    decoding("all zero", "00 00 00", 27)
    decoding("the command 0", "00 00 FF", 28)
    decoding("an unknown command", "13 00 EC", 28)
    decoding("RAMREMAP_RESET with a byte", "11 01 00 ED", 28)
    decoding("ROMREMAP_RESET with a byte", "12 01 00 EC", 28)
    decoding("DOWNLOAD_INIT without its seed", "14 00 EB", 28)
    decoding("another seed", "14 01 28 C2", 28)
    decoding("two seeds", "14 02 29 29 97", 28)
    decoding("ADDR_RAM of no byte", "43 00 BC", 28)
    decoding("ADDR_RAM of one byte", "43 01 00 BB", 28)
    decoding("ADDR_RAM of three bytes", "43 03 00 00 00 B9", 28)
    decoding("26 and 27", "11 00 EE EE", 26)
    decoding("26 and 28", "13 01 EC", 26)
    decoding("27 and 28", "13 00 ED", 27)
    decoding("26, 27 and 28", "00", 26)
    for kept in ("14 01 29 C1", "43 02 10 1C 8E"):
        data = bytes.fromhex(kept)
        for i in range(len(data)):
            for bit in (0x01, 0x80):
                changed = bytes(b ^ bit if j == i else b for j, b in enumerate(data))
                decoding("%s, byte %d changed by %02X" % (kept, i, bit), changed.hex(" ").upper(), 26 if i == 1 else 27)
            decoding("%s, cut to %d bytes" % (kept, i), data[:i].hex(" ").upper(), 26)


def reply_cases():
    replying("ready", "00 00 FF", "ready")
    replying("spoiled in the middle", "00 01 FF", "spoiled")
    replying("busy, the lowest", "10 00 EF", "busy 16")
    replying("refused, the highest", "0F 00 F0", "refused 15")
    replying("refused, the lowest", "01 00 FE", "refused 1")
    replying("refused 13", "0D 00 F2", "refused 13")
    replying("busy 17", "11 00 EE", "busy 17")
    replying("busy 127", "7F 00 80", "busy 127")
    replying("busy 128", "80 00 7F", "busy 128")
    replying("busy, the highest", "FF 00 00", "busy 255")
    replying("ready with its last byte changed", "00 00 FE", "spoiled")
    replying("ready with its first byte changed", "01 00 FF", "spoiled")
    replying("busy with its middle byte changed", "10 80 EF", "spoiled")
    replying("busy with its last byte changed", "10 00 EE", "spoiled")
    replying("refused with its first byte changed", "0E 00 F0", "spoiled")
    replying("three zeros", "00 00 00", "spoiled")
    replying("three times FF", "FF FF FF", "spoiled")
    replying("the sum is 255, but the middle is not 0", "00 FF 00", "spoiled")
    replying("no byte", "", "spoiled")
    replying("one byte", "00", "spoiled")
    replying("two bytes", "00 00", "spoiled")
    replying("four bytes", "00 00 FF 00", "spoiled")


def string_cases():
    stringing("DOWNLOAD_INIT", "DOWNLOAD_INIT", hand="S 41 W 08 14 01 29 C1 P\n")
    stringing("RAMREMAP_RESET", "RAMREMAP_RESET", hand="S 41 W 08 11 00 EE P\n")
    stringing("ROMREMAP_RESET", "ROMREMAP_RESET", hand="S 41 W 08 12 00 ED P\n")
    stringing("ADDR_RAM of 0", "ADDR_RAM 00 00", hand="S 41 W 08 43 02 00 00 BA P\n")
    stringing("ADDR_RAM of 0x1C10", "ADDR_RAM 1C 10", hand="S 41 W 08 43 02 10 1C 8E P\n")
    stringing("W_RAM of four bytes", "W_RAM 01 02 03 04", hand="S 41 W 08 41 04 01 02 03 04 B0 P\n")
    stringing("capital digits", "W_RAM AB CD EF", hand="S 41 W 08 41 03 AB CD EF 54 P\n")
    stringing("W_RAM of no byte", "W_RAM", hand="S 41 W 08 41 00 BE P\n")
    stringing("the longest string", "W_RAM \\*128{9F}")
    stringing("a buffer of 406 bytes", "W_RAM \\*128{9F}", room=406)
    stringing("a buffer of 500 bytes", "DOWNLOAD_INIT", room=500)
    stringing("a buffer of 404 bytes", "DOWNLOAD_INIT", room=404, hand=30)
    stringing("no buffer", "RAMREMAP_RESET", room=0, hand=30)
    stringing("W_RAM of 129 bytes", "W_RAM \\*129{00}", hand=24)
    stringing("W_RAM of 255 bytes", "W_RAM \\*255{00}", room=1000, hand=24)
    stringing("30 and 24", "W_RAM \\*129{00}", room=404, hand=30)


def listing_cases():
    init, reset = "S 41 W 08 14 01 29 C1 P\n", "S 41 W 08 11 00 EE P\n"
    at_0, four = "S 41 W 08 43 02 00 00 BA P\n", "S 41 W 08 41 04 01 02 03 04 B0 P\n"
    example = init + at_0 + four + reset
    listed("the example", GOOD, example)
    listed("the maker's example", MAKER, init + at_0
           + "S 41 W 08 41 10 6D C9 41 85 3D 15 AA 51 F4 D2 9E A8 A7 AC 77 E9 A6 P\n"
           + "S 41 W 08 41 10 F9 EC 20 24 63 B8 F1 A5 0B A7 65 B4 32 B8 18 D7 30 P\n"
           + "S 41 W 08 43 02 10 1C 8E P\n"
           + "S 41 W 08 41 10 FF 80 00 D6 EA F7 7C 36 80 7C 00 FF 5D 48 8E 5D 3B P\n" + reset)
    listed("without the last LF", GOOD[:-2], example)
    listed("CR LF and lower case", GOOD.replace("\\n", "\\r\\n").lower().replace(":0400000001020304f2", FOUR), example)
    five = "S 41 W 08 41 01 05 B8 P\n"
    listed("no address where lines follow each other", lf(BASE, FOUR, data_line(4, "05"), END), init + at_0 + four + five + reset)
    listed("no address over a start line", lf(BASE, FOUR, START, data_line(4, "05"), END), init + at_0 + four + five + reset)
    listed("no address over a base line", lf(BASE, FOUR, BASE, data_line(4, "05"), END), init + at_0 + four + five + reset)
    listed("an address after a gap of one", lf(BASE, FOUR, data_line(5, "05"), END), init + at_0 + four + "S 41 W 08 43 02 05 00 B5 P\n" + five + reset)
    listed("an address after each gap", lf(BASE, data_line(16, "05"), data_line(32, "05"), data_line(33, "05"), data_line(48, "05"), END),
           init + "S 41 W 08 43 02 10 00 AA P\n" + five + "S 41 W 08 43 02 20 00 9A P\n" + five + five + "S 41 W 08 43 02 30 00 8A P\n" + five + reset)
    listed("the first address is not 0", lf(BASE, data_line(0x1234, "05"), END), init + "S 41 W 08 43 02 34 12 74 P\n" + five + reset)
    listed("count 0 between lines that follow", lf(BASE, FOUR, rec(0, 4, 0), data_line(4, "05"), END), init + at_0 + four + five + reset)
    listed("count 0 in a gap", lf(BASE, FOUR, rec(0, 5, 0), data_line(5, "05"), END), init + at_0 + four + "S 41 W 08 43 02 05 00 B5 P\n" + five + reset)
    listed("count 0 first", lf(BASE, rec(0, 0, 0), FOUR, END), example)
    listed("count 0 last", lf(BASE, FOUR, rec(0, 0x100, 0), END), example)
    listed("count 0 above the window", lf(BASE, FOUR, rec(0, 0x8000, 0), END), example)
    zeros = lambda n: "S 41 W 08 41 %02X " % n + "00 " * n + "%02X P\n" % (255 - (0x41 + n) % 256)
    listed("128 bytes", lf(BASE, long_line(0, 128), END), init + at_0 + zeros(128) + reset)
    listed("129 bytes", lf(BASE, long_line(0, 129), END), init + at_0 + zeros(128) + zeros(1) + reset)
    listed("255 bytes", lf(BASE, long_line(0, 255), END), init + at_0 + zeros(128) + zeros(127) + reset)
    listed("128 bytes and the next line", lf(BASE, long_line(0, 128), long_line(128, 4), END), init + at_0 + zeros(128) + zeros(4) + reset)
    listed("129 bytes and the next line", lf(BASE, long_line(0, 129), long_line(129, 4), END), init + at_0 + zeros(128) + zeros(1) + zeros(4) + reset)
    listed("255 bytes twice", lf(BASE, long_line(0, 255), long_line(255, 255), END), init + at_0 + zeros(128) + zeros(127) + zeros(128) + zeros(127) + reset)

    listed("a byte at 16,383", lf(BASE, data_line(0x3FFF, "05"), END), init + "S 41 W 08 43 02 FF 3F 7C P\n" + five + reset)
    listed("a byte at 16,384", lf(BASE, data_line(0x4000, "05"), END), "fault 23 0 0\n")
    listed("the last of two bytes at 16,384", lf(BASE, data_line(0x3FFF, "0506"), END), "fault 23 0 0\n")
    listed("data up to 16,384", lf(BASE, long_line(0x3F01, 255), END))
    listed("data up to 16,385", lf(BASE, long_line(0x3F02, 255), END), "fault 23 0 0\n")
    listed("good data first, then a byte at 16,384", lf(BASE, FOUR, data_line(0x4000, "05"), END), "fault 23 0 0\n")
    listed("a byte at 65,535", lf(BASE, data_line(0xFFFF, "05"), END), "fault 23 0 0\n")
    listed("a text fault before 23", lf(BASE, data_line(0x4000, "05")), "fault 20 3 30\n")

    listed("nothing at all", "", "fault 20 1 0\n")
    listed("the end line alone", lf(END), "fault 22 1 0\n")
    listed("F3 in place of F2", lf(BASE, FOUR[:-2] + "F3", END), "fault 14 2 16\n")
    listed("an empty line", lf(BASE, "", FOUR, END), "fault 11 2 16\n")
    listed("a stray", lf(BASE, FOUR[:12] + "?" + FOUR[13:], END), "fault 12 2 28\n")
    listed("a short line", lf(BASE, FOUR[:-1], END), "fault 13 2 16\n")
    listed("an unknown type", lf(BASE, FOUR, rec(0, 0, 2), END), "fault 15 3 36\n")
    listed("a wrong shape", lf(rec(1, 0, 4, "20"), FOUR, END), "fault 16 1 0\n")
    listed("no base line", lf(FOUR, END), "fault 17 1 0\n")
    listed("backward", lf(BASE, FOUR, FOUR, END), "fault 18 3 36\n")
    listed("past the top", lf(BASE, data_line(0xFFFF, "0506"), END), "fault 19 2 16\n")
    listed("no end line", lf(BASE, FOUR), "fault 20 3 36\n")
    listed("a line after the end", GOOD + "\\n", "fault 21 4 48\n")

    # 65,536 bytes: 48 of the example, 20 for each start line, and a CR on eight lines
    full = BASE + "\\r\\n\\*5{" + START + "\\r\\n}\\*3269{" + START + "\\n}" + FOUR + "\\r\\n" + END + "\\r\\n"
    assert len(expand(full)) == 65536
    listed("65,536 bytes", full, example)
    listed("65,537 bytes", full.replace("\\*5{", "\\*6{").replace("3269", "3268"), "fault 10 0 0\n")
    listed("65,536 bytes, the last line bad", full[:-6] + "FE\\r\\n", "fault 14 3277 65523\n")
    listed("65,536 letters", "\\*65536{A}", "fault 11 1 0\n")
    listed("65,537 letters", "\\*65537{A}", "fault 10 0 0\n")
    listed("131,073 letters", "\\*131073{A}", "fault 10 0 0\n")


# Frames as they are written to 0x08.
INIT = "W08:140129C1"
REMAP = "W08:1100EE"
UNMAP = "W08:1200ED"
UP = "WE0:01 RE0:1"  # wake, and one look: the loader


def at(address):
    """An ADDR_RAM frame."""
    return "W08:" + frame(("ADDR_RAM", address.to_bytes(2, "big"))).hex().upper()


def store(data):
    """A W_RAM frame."""
    return "W08:" + frame(("W_RAM", bytes.fromhex(data))).hex().upper()


def waking_plays(kind):
    asleep, app = ("00", "C0") if kind == "tmf8x0x" else ("02", "03")
    plays(kind + ": just switched on", kind, "-", "S RE0:1 S R00:1 R08:3", "asleep.0.0.--- =%s asleep.0.0.--- =00 =000000" % asleep)
    plays(kind + ": woken, starting is seen once", kind, "-", "WE0:01 S R00:1 R08:3 S RE0:1 S RE0:1 R00:1 R08:3",
          "ack starting.0.0.--- =00 =000000 starting.0.0.--- =01 loader.0.0.--- =41 =80 =0000FF")
    plays(kind + ": the wake byte only wakes", kind, "-", UP + " WE0:01 S", "ack =01 ack loader.0.0.---")
    plays(kind + ": a lost wake", kind, "01", "WE0:01 S RE0:1", "missed asleep.0.0.--- =%s" % asleep)
    plays(kind + ": an unheard wake", kind, "02", "WE0:01 S RE0:1 S", "missed starting.0.0.--- =01 loader.0.0.---")
    plays(kind + ": 3 and 4 at ENABLE are lost", kind, "0304000304", "WE0:01 WE0:01 S WE0:01 RE0:1 RE0:1 S RE0:1",
          "missed missed asleep.0.0.--- ack missed missed starting.0.0.--- =01")
    plays(kind + ": an unheard look ends the start", kind, "0002", "WE0:01 RE0:1 S RE0:1", "ack missed loader.0.0.--- =41")
    plays(kind + ": a lost look does not", kind, "0001", "WE0:01 RE0:1 S RE0:1", "ack missed starting.0.0.--- =01")
    plays(kind + ": two bytes at ENABLE neither wake nor look", kind, "-", "WE0:0101 S WE0:01 RE0:2 S", "ack asleep.0.0.--- ack =0000 starting.0.0.---")
    plays(kind + ": other registers", kind, "-", UP + " W10:00 WE1:00 S R10:4 R08:1 R08:4 RE0:4 R00:2",
          "ack =01 ack ack loader.0.0.--- =00000000 =00 =00000000 =00000000 =0000")
    plays(kind + ": bytes 5 to 16 are clean at a read", kind, "05060F1011", "WE0:01 RE0:1 RE0:1 R00:1 R08:3 S",
          "ack =01 =41 =80 =0000FF loader.0.0.---")
    plays(kind + ": sleep when asleep", kind, "-", "WE0:00 S", "ack asleep.0.0.---")
    plays(kind + ": sleep when starting", kind, "-", "WE0:01 WE0:00 S", "ack ack asleep.0.0.---")
    plays(kind + ": sleep in the loader, open and pointed", kind, "-", " ".join([UP, INIT, at(0x102), "S", "WE0:00", "S"]),
          "ack =01 ack ack loader.258.0.-o- ack asleep.0.0.---")
    plays(kind + ": sleep while working", kind, "000021", " ".join([UP, INIT, "S", "WE0:00", "S"]),
          "ack =01 ack loader.0.0.-ow ack asleep.0.0.---")
    plays(kind + ": sleep after a refusal", kind, "000004", " ".join([UP, INIT, "S", "WE0:00", "S"]),
          "ack =01 ack loader.0.15.--- ack asleep.0.0.---")
    plays(kind + ": sleep in the application keeps remapped", kind, "-", " ".join([UP, REMAP, "RE0:1", "S", "R00:1", "WE0:00", "S", UP, "S"]),
          "ack =01 ack =01 application.0.0.r-- =%s ack asleep.0.0.r-- ack =01 application.0.0.r--" % app)
    plays(kind + ": a lost and an unheard sleep", kind, "00000102", UP + " WE0:00 S WE0:00 S", "ack =01 missed loader.0.0.--- missed asleep.0.0.---")


def order_plays():
    for last in ("01", "11", "21", "31"):
        woken = "ack starting.0.0.---" if last == "01" else "ack asleep.0.0.---"
        plays("tmf8x0x: %s at ENABLE, asleep" % last, "tmf8x0x", "-", "WE0:%s S" % last, woken)
        plays("tmf882x: %s at ENABLE wakes" % last, "tmf882x", "-", "WE0:%s S" % last, "ack starting.0.0.---")
    for last in ("00", "10", "20", "30"):
        put = "asleep" if last == "00" else "loader"
        plays("tmf8x0x: %s at ENABLE, in the loader" % last, "tmf8x0x", "-", UP + " WE0:%s S" % last, "ack =01 ack %s.0.0.---" % put)
        plays("tmf882x: %s at ENABLE puts asleep" % last, "tmf882x", "-", UP + " WE0:%s S" % last, "ack =01 ack asleep.0.0.---")
    for byte in ("02", "41", "40", "80", "FF", "03"):
        plays("tmf882x: %s at ENABLE does nothing" % byte, "tmf882x", "-", UP + " WE0:%s S" % byte, "ack =01 ack loader.0.0.---")


def frame_plays(kind):
    window = WINDOW[kind]
    last = window - 1
    up = UP + " "
    plays(kind + ": open, point, write", kind, "-", up + " ".join([INIT, "S", at(0x10), "S", store("0102"), "S", store("03"), "S"]),
          "ack =01 ack loader.0.0.-o- ack loader.16.0.-o- ack loader.18.0.-o- ack loader.19.0.-o-", ram=(16, "010203"))
    plays(kind + ": a write that is not open", kind, "-", up + store("0102") + " S R08:3", "ack =01 ack loader.0.13.--- =0D00F2")
    plays(kind + ": the last byte", kind, "-", up + " ".join([INIT, at(last), store("5A"), "S"]), "ack =01 ack ack ack loader.%d.0.-o-" % window, ram=(last, "5A"))
    plays(kind + ": one byte past the window", kind, "-", up + " ".join([INIT, at(last), store("5A5B"), "S"]), "ack =01 ack ack ack loader.%d.13.-o-" % last)
    plays(kind + ": a pointer at the window's end", kind, "-", up + " ".join([INIT, at(window), "S"]), "ack =01 ack ack loader.0.13.-o-")
    plays(kind + ": no byte at the window's end", kind, "-", up + " ".join([INIT, at(last), store("5A"), store(""), "S", store("5B"), "S"]),
          "ack =01 ack ack ack ack loader.%d.0.-o- ack loader.%d.13.-o-" % (window, window), ram=(last, "5A"))
    plays(kind + ": 128 bytes up to the window's end", kind, "-", up + " ".join([INIT, at(window - 128), store(128 * "77"), "S"]),
          "ack =01 ack ack ack loader.%d.0.-o-" % window, ram=(window - 128, 128 * "77"))
    plays(kind + ": 128 bytes one too far", kind, "-", up + " ".join([INIT, at(window - 127), store(128 * "77"), "S"]),
          "ack =01 ack ack ack loader.%d.13.-o-" % (window - 127))
    plays(kind + ": ill-formed frames", kind, "-", up + "W08:140129C0 S W08:14 S W08:1000EF S W08:140128C2 S", "ack =01 ack loader.0.14.--- ack loader.0.14.--- ack loader.0.14.--- ack loader.0.14.---")
    plays(kind + ": refused by script", kind, "000004", up + INIT + " S R08:3 " + INIT + " S", "ack =01 ack loader.0.15.--- =0F00F0 ack loader.0.0.-o-")
    plays(kind + ": ill formed and refused by script", kind, "000004", up + "W08:140129C0 S", "ack =01 ack loader.0.15.---")
    plays(kind + ": a flipped frame", kind, "000003", up + INIT + " S R08:3", "ack =01 ack loader.0.14.--- =0E00F1")
    plays(kind + ": a frame that a flip mends", kind, "000003", up + "W08:140129C0 S", "ack =01 ack loader.0.0.-o-")
    plays(kind + ": a lost frame", kind, "000001", up + INIT + " S", "ack =01 missed loader.0.0.---")
    plays(kind + ": an unheard frame", kind, "000002", up + INIT + " S", "ack =01 missed loader.0.0.-o-")
    plays(kind + ": a flipped reply", kind, "000003", up + "R08:3 R08:3", "ack =01 =0000FE =0000FF")
    plays(kind + ": flipped reads of 1 and 4 bytes at 0x08", kind, "00000303", up + "R08:1 R08:4", "ack =01 =01 =00000001")
    plays(kind + ": a flipped read when asleep", kind, "03", "R08:3 S", "=000001 asleep.0.0.---")
    plays(kind + ": lost and unheard reads", kind, "00000102040000", up + "R08:3 R08:3 R08:3 R08:3", "ack =01 missed missed missed =0000FF")
    plays(kind + ": 3 and 4 at APPID are lost", kind, "00000304", up + "R00:1 R00:1 R00:1", "ack =01 missed missed =80")
    plays(kind + ": frames that do not count", kind, "00030402011100", " ".join([INIT, "S", INIT, INIT, INIT, INIT, INIT, "S"]),
          "ack asleep.0.0.--- ack missed missed missed ack asleep.0.0.---")
    plays(kind + ": a frame while starting", kind, "-", "WE0:01 " + INIT + " S", "ack ack starting.0.0.---")
    plays(kind + ": remap, start from RAM, and take it back", kind, "-", " ".join([UP, INIT, store("09"), REMAP, "S", "RE0:1", "S", "R00:1", INIT, "S"]),
          "ack =01 ack ack ack starting.0.0.r-- =01 application.0.0.r-- =%02X ack application.0.0.r--" % APP[kind], ram=(0, "09"))
    plays(kind + ": remapping taken back", kind, "-", " ".join([UP, REMAP, "WE0:00", UP, "R00:1", "S"]) , "ack =01 ack ack ack =01 =%02X application.0.0.r--" % APP[kind])
    plays(kind + ": ROMREMAP_RESET resets", kind, "-", " ".join([UP, INIT, at(7), UNMAP, "S", "RE0:1", "R00:1", "S"]), "ack =01 ack ack ack starting.0.0.--- =01 =80 loader.0.0.---")


def busy_plays(kind):
    up = UP + " "
    plays(kind + ": byte 16 works without a busy reply", kind, "000010", up + INIT + " S R08:3 S", "ack =01 ack loader.0.0.-ow =0000FF loader.0.0.-o-")
    plays(kind + ": byte 17 is busy once", kind, "000011", up + INIT + " R08:3 S R08:3 S", "ack =01 ack =1100EE loader.0.0.-ow =0000FF loader.0.0.-o-")
    for byte in (31, 255):
        shown = "=%02X00%02X " % (byte, 255 - byte)
        plays("%s: byte %d is busy 15 times" % (kind, byte), kind, "0000%02X" % byte, up + INIT + 16 * " R08:3" + " S", "ack =01 ack " + 15 * shown + "=0000FF loader.0.0.-o-")
    plays(kind + ": a frame while working does not count", kind, "000012", " ".join([UP, INIT, at(5), "S", REMAP, "S"]), "ack =01 ack ack loader.0.0.-ow ack loader.0.0.-ow")
    plays(kind + ": busy after a refusal", kind, "000011", up + store("01") + " S R08:3 R08:3 S", "ack =01 ack loader.0.13.--w =1100EE =0D00F2 loader.0.13.---")
    plays(kind + ": busy after an ill-formed frame", kind, "000021", up + "W08:140129C0 S R08:3 R08:3 S", "ack =01 ack loader.0.14.--w =2100DE =0E00F1 loader.0.14.---")
    plays(kind + ": a reset leaves no work", kind, "0000FF", up + REMAP + " S", "ack =01 ack starting.0.0.r--")
    plays(kind + ": a lost read uses no busy reply", kind, "0000110100", up + INIT + " R08:3 R08:3 R08:3", "ack =01 ack missed =1100EE =0000FF")
    plays(kind + ": an unheard read does", kind, "0000110200", up + INIT + " R08:3 S R08:3 S", "ack =01 ack missed loader.0.0.-ow =0000FF loader.0.0.-o-")
    plays(kind + ": an unheard read ends the work", kind, "00001002", up + INIT + " R08:3 S", "ack =01 ack missed loader.0.0.-o-")
    plays(kind + ": a flipped busy reply", kind, "00001103", up + INIT + " R08:3 R08:3", "ack =01 ack =1100EF =0000FF")
    plays(kind + ": other reads leave the work", kind, "000011", up + INIT + " RE0:1 R00:1 R08:1 R08:4 S R08:3 R08:3", "ack =01 ack =41 =80 =00 =00000000 loader.0.0.-ow =1100EE =0000FF")
    plays(kind + ": a late script byte at a read is clean", kind, "0000001F", up + INIT + " R08:3 S", "ack =01 ack =0000FF loader.0.0.-o-")


def size_plays(kind):
    long = 131 * "00"
    plays(kind + ": sizes that a link has not", kind, "01", "W08: WE0: R08:0 R08:5 RE0:0 RE0:9 W08:%s S WE0:01 S" % (132 * "00"),
          "missed missed missed missed missed missed missed asleep.0.0.--- missed asleep.0.0.---")
    plays(kind + ": 131 bytes elsewhere and at 0x08", kind, "-", UP + " W10:%s W08:%s S" % (long, long), "ack =01 ack ack loader.0.14.---")
    for room in (0, WINDOW[kind] - 1, WINDOW[kind] + 1, 49152 - WINDOW[kind]):
        plays("%s: lent %d bytes" % (kind, room), kind, "-", "S", "fault 29", room=room)


def cable_plays(kind):
    plays(kind + ": a cable that loses a wake", kind, "-", "WE0:01 S WE0:01 S RE0:1 S", "missed asleep.0.0.--- ack starting.0.0.--- =01 loader.0.0.---", cable="1")
    plays(kind + ": a cable that loses its answer", kind, "-", "WE0:01 S RE0:1 S RE0:1", "missed starting.0.0.--- missed loader.0.0.--- =41", cable="22")
    plays(kind + ": a lost exchange takes no script byte", kind, "0200", "WE0:01 S WE0:01 S RE0:1", "missed asleep.0.0.--- missed starting.0.0.--- =01", cable="1")
    plays(kind + ": an off-size exchange takes no entry", kind, "-", "W08: RE0:5 WE0:01 S", "missed missed missed asleep.0.0.---", cable="1")
    plays(kind + ": the 64th entry and the one after", kind, "-", 63 * "RE0:1 " + "WE0:01 S WE0:01 S", 63 * ("=%s " % ("00" if kind == "tmf8x0x" else "02")) + "missed asleep.0.0.--- ack starting.0.0.---",
          cable=63 * "0" + "1")
    plays(kind + ": frames over a cable", kind, "000000000000000000", " ".join([UP, INIT, "S", INIT, "S", store("0A"), "S", "R08:3"]),
          "ack =01 missed loader.0.0.--- ack loader.0.0.-o- missed loader.1.0.-o- =0000FF", cable="00102", ram=(0, "0A"))


def choice_plays(kind):
    asleep, app = ("00", "C0") if kind == "tmf8x0x" else ("02", "03")
    up = UP + " "
    chosen(kind + ": no choices", kind, "-", "S " + up + "S " + INIT + " S", "asleep.0.0.--- ack =41 loader.0.0.--- ack loader.0.0.-o-")
    chosen(kind + ": lent one byte less", kind, "-", "S", "fault 29", room=WINDOW[kind] - 1)
    chosen(kind + ": starting goes on", kind, ".,.,.", "WE0:01 S RE0:1 S RE0:1 S RE0:1 S", "ack starting.0.0.--- =01 starting.0.0.--- =01 starting.0.0.--- =41 loader.0.0.---")
    chosen(kind + ": a start after the wake's effect", kind, "a", "WE0:01 S", "ack loader.0.0.---")
    chosen(kind + ": a start before and one after a look", kind, ".,b,.", up + "S", "ack =41 loader.0.0.---")
    chosen(kind + ": a look shows starting, and then it has started", kind, ".,a", up + "S", "ack =01 loader.0.0.---")
    chosen(kind + ": a start at a lost frame", kind, ".,bl", "WE0:01 " + INIT + " S", "ack missed loader.0.0.---")
    chosen(kind + ": a start before a frame lets it count", kind, ".,b", "WE0:01 " + INIT + " S", "ack ack loader.0.0.-o-")
    chosen(kind + ": a start after a frame does not", kind, ".,a", "WE0:01 " + INIT + " S", "ack ack loader.0.0.---")
    chosen(kind + ": a start that an unheard read ended", kind, ".,ua", up + "S", "ack missed loader.0.0.---")
    chosen(kind + ": a remap that starts at once", kind, ".,b,a", up + REMAP + " S R00:1", "ack =41 ack application.0.0.r-- =" + app)
    for place, to in ((0, "00"), (1, "02"), (2, "28"), (3, "C0")):
        chosen("%s: byte %d of a frame changed" % (kind, place), kind, ".,b,c%02X%ss01" % (place, to), up + INIT + " S", "ack =41 ack loader.0.1.---")
    chosen(kind + ": a byte changed to itself", kind, ".,b,c0014", up + INIT + " S", "ack =41 ack loader.0.0.-o-")
    chosen(kind + ": a byte past the end changed", kind, ".,b,c0400", up + INIT + " S", "ack =41 ack loader.0.0.-o-")
    chosen(kind + ": a changed frame unheard", kind, ".,b,uc0000s07w", up + INIT + " S", "ack =41 missed loader.0.7.--w")
    for place in range(4):
        chosen("%s: a frame cut to %d bytes" % (kind, place), kind, ".,b,t%02Xs02" % place, up + INIT + " S", "ack =41 missed loader.0.2.---")
    chosen(kind + ": a cut past the end, which arrives", kind, ".,b,t04", up + INIT + " S", "ack =41 missed loader.0.0.-o-")
    chosen(kind + ": a lost frame", kind, ".,b,l", up + INIT + " S", "ack =41 missed loader.0.0.---")
    chosen(kind + ": an unheard frame", kind, ".,b,u", up + INIT + " S", "ack =41 missed loader.0.0.-o-")
    for status, came in ((1, 1), (15, 15), (0, 15), (16, 15), (255, 15)):
        chosen("%s: refused with status %d" % (kind, status), kind, ".,b,xs%02X" % status, up + INIT + " S R08:3", "ack =41 ack loader.0.%d.--- =%02X00%02X" % (came, came, 255 - came))
    chosen(kind + ": refused and at work", kind, ".,b,xs03w,kn10,kn0F", up + INIT + " S R08:3 S R08:3 S", "ack =41 ack loader.0.3.--w =1000EF loader.0.3.--w =0300FC loader.0.3.---")
    chosen(kind + ": carried out and at work for long", kind, ".,b,w,knFF,kn10,knFE,.", up + INIT + 4 * " R08:3" + " S", "ack =41 ack =FF0000 =1000EF =FE0001 =0000FF loader.0.0.-o-")
    chosen(kind + ": no work after a reset", kind, ".,b,w", up + REMAP + " S", "ack =41 ack starting.0.0.r--")
    chosen(kind + ": a changed reply", kind, ".,b,c0001,c0101,c0200", up + 3 * "R08:3 " + "R08:3", "ack =41 =0100FF =0001FF =000000 =0000FF")
    chosen(kind + ": a changed busy reply", kind, ".,b,w,kn11c0211", up + INIT + " R08:3 S", "ack =41 ack =110011 loader.0.0.-ow")
    chosen(kind + ": a missed read that ends the work, and one that does not", kind, ".,b,w,uk,u", up + INIT + " R08:3 S R08:3 S", "ack =41 ack missed loader.0.0.-ow missed loader.0.0.-o-")
    chosen(kind + ": a missed look that ends the work", kind, ".,b,w,u", up + INIT + " RE0:1 S", "ack =41 ack missed loader.0.0.-o-")
    chosen(kind + ": anything where nothing is defined", kind, "v11,v22,v33,v44", "R00:1 R08:3 R10:4 RE0:2", "=11 =222222 =33333333 =4444")
    chosen(kind + ": nothing but what is right elsewhere", kind, "v41,.,v00,v55,v66", "RE0:1 WE0:01 RE0:1 RE0:1 R00:1", "=%s ack =01 =01 =66" % asleep)
    chosen(kind + ": APPID is right in loader and application", kind, ".,b,v11,.,bv22", up + "R00:1 " + REMAP + " R00:1", "ack =41 =80 ack =" + app)
    chosen(kind + ": bits 5 and 4 of ENABLE", kind, "v32,.,v31,bv71", "RE0:1 WE0:01 RE0:1 RE0:1", "=%s ack =%s =%s" % (("00", "01", "41") if kind == "tmf8x0x" else ("32", "31", "71")))
    chosen(kind + ": an unheard and a lost sleep", kind, ".,b,u,.,b,l,t00", up + "WE0:00 S " + up + "WE0:00 S WE0:00 S", "ack =41 missed asleep.0.0.--- ack =41 missed loader.0.0.--- missed loader.0.0.---")
    chosen(kind + ": sizes that a link has not take no choice", kind, "u", "W08: RE0:5 R08:0 WE0:01 S", "missed missed missed missed starting.0.0.---")
    last = WINDOW[kind] - 1
    chosen(kind + ": a write up to the window's end", kind, ".,b", up + " ".join([INIT, at(last), store("5A"), "S", store("5B"), "S"]),
           "ack =41 ack ack ack loader.%d.0.-o- ack loader.%d.15.-o-" % (last + 1, last + 1), ram=(last, "5A"))


def sensor_plays():
    for kind in ("tmf8x0x", "tmf882x"):
        waking_plays(kind)
        frame_plays(kind)
        busy_plays(kind)
        size_plays(kind)
        cable_plays(kind)
        choice_plays(kind)
    order_plays()


def table_of(groups):
    table = "".join(row + "\n" for group in groups for _, row in TABLE[group])
    return "\n".join(line.rstrip() for line in table.splitlines()) + "\n"


def main():
    line_cases()
    good_texts()
    first_texts()
    later_texts()
    pair_texts()
    patch_cases()
    frame_cases()
    reply_cases()
    string_cases()
    listing_cases()
    sensor_plays()
    if "--plays" in sys.argv[1:]:
        print(table_of(PLAYED), end="")
        return 0
    table = table_of(GROUPS)
    said = "".join("%s %d of %d\n" % (group, len(TABLE[group]), len(TABLE[group])) for group in GROUPS)
    said += "all %d vectors pass\n" % sum(len(TABLE[group]) for group in GROUPS)
    files = {CRATE / "stdin": table, CRATE / "stdout": said}
    if "--check" in sys.argv[1:]:
        stale = [path.name for path, what in files.items() if not path.exists() or path.read_text() != what]
        print("not up to date: " + ", ".join(stale) if stale else "up to date")
        return 1 if stale else 0
    for path, what in files.items():
        path.write_text(what)
    print(said, end="")
    return 0


if __name__ == "__main__":
    sys.exit(main())
