#!/usr/bin/env python3
"""The input of the program table_vectors, and what it must print, from Python's UTF-8 decoder, regular expressions and lists.

  table_vectors.py stdin    document 01's V9 to V11, good and damaged texts and tables, and document 02's edits of tables and
                            lists of line starts
  table_vectors.py stdout   what the key table's functions say of them
"""
import re
import sys

from calls import field, literal, number, series, shown

EDITS = {"add": 4, "replace": 5, "retire": 6}
FREE = 0xEEEEEEEE  # what stands in a list's memory behind the list
IDENTITY = re.compile(rb"[^\x00-\x1f\x7f:]{1,128}")
LINE = re.compile(rb"(" + IDENTITY.pattern + rb"):((?:[0-9A-Fa-f]{2}){1,64})\n")


def utf8(text):
    try:
        text.decode("utf-8", "strict")
        return True
    except UnicodeDecodeError:
        return False


def well_formed(table):
    if len(table) > 65536:
        return False
    identities = []
    at = 0
    while at < len(table):
        line = LINE.match(table, at)
        if line is None or not utf8(line.group(1)):
            return False
        identities.append(line.group(1))
        at = line.end()
    return len(identities) <= 256 and len(set(identities)) == len(identities)


def starts_of(table):
    """Where lines start: at the front, and behind each 0A that is not the last byte."""
    return [at for at in range(len(table)) if at == 0 or table[at - 1] == 10]


def matches(table, starts, count):
    return count <= len(starts) and starts[:count] == starts_of(table)


def made(table, starts):
    """The refusal or the line count, and the list's memory afterwards."""
    if not well_formed(table):
        return "R2", starts
    own = starts_of(table)
    if len(own) > len(starts):
        return "R1", starts
    return str(len(own)), own + starts[len(own) :]


def judged(table, starts, count):
    if not well_formed(table):
        return "R2"
    return "its list" if matches(table, starts, count) else "R10"


def key_by(table, starts, identity):
    for line in [table[at:].partition(b"\n")[0] for at in starts]:
        if line.startswith(identity + b":"):
            text = line[len(identity) + 1 :]
            if re.fullmatch(rb"(?:[0-9A-Fa-f]{2}){1,64}", text):
                return bytes.fromhex(text.decode("ascii"))
            return None
    return None


def edited(name, memory, length, starts, count, identity, key):
    """The refusal or the table's new length, and the memory, the list's memory and the count afterwards, from the table's lines as a list."""
    table = memory[:length]

    def refused(said):
        return said, memory, starts, count

    if length > len(memory) or not well_formed(table):
        return refused("R2")
    if not matches(table, starts, count):
        return refused("R10")
    if not IDENTITY.fullmatch(identity) or not utf8(identity) or name != "retire" and not 1 <= len(key) <= 64:
        return refused("R5")
    before = [line.split(b":") for line in table.split(b"\n")[:-1]]
    listed = identity in [line[0] for line in before]
    if listed == (name == "add"):
        return refused("R6" if listed else "R7")
    line = [identity, key.hex().encode("ascii")]
    if name == "add":
        after = before + [line]
    elif name == "replace":
        after = [line if other[0] == identity else other for other in before]
    else:
        after = [other for other in before if other[0] != identity]
    text = b"".join(b":".join(line) + b"\n" for line in after)
    if len(after) > 256 or len(text) > 65536:
        return refused("R8")
    if len(text) > len(memory) or len(after) > len(starts):
        return refused("R1")
    return str(len(text)), text + memory[len(text) :], starts_of(text) + starts[len(after) :], len(after)


def call(kind, room, first, second=b"", starts=(), count=0):
    global calls
    calls += bytes((kind, room)) + field(first) + field(second)
    calls += number(len(starts), 2) + b"".join(number(n, 4) for n in starts) + number(count)


def numbers(starts):
    return ":" + "".join(" %d" % n for n in starts)


def print_text(text):
    call(1, 0, literal(text))
    lines.append(text.hex() + (" UTF-8" if utf8(text) else " bad"))


def print_table(name, table):
    """The table is given in pieces."""
    call(2, 0, literal(name.encode("ascii")), table)
    lines.append(name + (": well formed" if well_formed(shown(table)) else ": R2"))


def print_made(name, table, room):
    """The table is given in pieces, and the list has room for so many numbers."""
    free = [FREE] * room
    call(7, 0, literal(name.encode("ascii")), table, free)
    said, left = made(shown(table), free)
    lines.append(name + ": list " + said + numbers(left))


def print_judged(name, table, starts, count):
    """The table is given in pieces."""
    call(8, 0, literal(name.encode("ascii")), table, starts, count)
    lines.append(name + ": " + judged(shown(table), starts, count))


def print_listed(table, starts, count, identity, room=64):
    """A lookup by any list."""
    call(3, room, literal(identity), literal(table), starts, count)
    found = key_by(table, starts[:count], identity)
    if count > len(starts):
        said = "R10"
    elif found is None:
        said = "115"
    elif len(found) > room:
        said = "R1"
    else:
        said = found.hex()
    lines.append(identity.hex() + " " + said)


def print_room(table, identity, room):
    """A lookup by the table's own list, or by where lines start in bytes that are not a table."""
    own = starts_of(table)
    print_listed(table, own, len(own), identity, room)


def print_key(table, identity):
    print_room(table, identity, 64)


def print_edit(name, table, identity, key, room, length=None, free=1, starts=None, count=None):
    """The table is given in pieces, and so many bytes EE follow it. Its own length is told, or another one. The list is its own, with room for
    so many numbers more, or another one, with its count."""
    global calls
    memory = table + series(0xEE, 0, room)
    if length is None:
        length = len(shown(table))
    if starts is None:
        own = starts_of(shown(memory)[:length])
        starts = own + [FREE] * free
        count = len(own)
    call(EDITS[name], 0, literal(identity), memory, starts, count)
    calls += field(literal(key)) + number(length)
    said, left, starts, count = edited(name, shown(memory), length, starts, count, identity, key)
    line = name + " " + identity.hex() + " " + said + (" [" + left.hex() + "]" if len(left) <= 512 else "")
    lines.append(line + " %d" % count + numbers(starts))


def sized(n, identity, digits):
    """A line in pieces, with an identity and a key of these sizes."""
    return literal(b"%03d" % n) + series(ord("x"), 0, identity - 3) + literal(b":") + series(ord("a"), 0, digits) + literal(b"\n")


def of_sizes(count, identity, digits, last, last_identity, last_digits):
    """A table in pieces: so many lines and a last one."""
    return b"".join(sized(n, identity, digits) for n in range(count)) + sized(last, last_identity, last_digits)


def print_sizes(name, *sizes):
    print_table(name, of_sizes(*sizes))


TEXTS = [
    # V11
    "C080", "EDA080", "F4908080", "F48FBFBF",
    # good
    "", "007F", "C280DFBF", "E0A080ED9FBF", "EE8080EFBFBF", "F0908080F1808080",
    # bad
    "80", "BF", "C1BF", "E09FBF", "EDBFBF", "F08FBFBF", "F5808080", "F888808080", "FE", "FF",
    # cut off
    "C3", "61E282", "F09F98", "C361", "E28261", "F09F9861", "C3A9A9",
]

TABLES = [
    # V9 and V10
    ("gate7:abcd", b"gate7:abcd\n"),
    ("without 0A", b"gate7:abcd"),
    ("with abc", b"gate7:abc\n"),
    # lines
    ("no bytes", b""),
    ("CR LF", b"gate7:abcd\r\n"),
    ("an empty line", b"\n"),
    ("an empty line at the end", b"gate7:abcd\n\n"),
    ("an empty line between", b"a:00\n\nb:00\n"),
    ("the second without 0A", b"a:00\nb:00"),
    ("no colon", b"gate7\n"),
    # keys
    ("upper case", b"gate7:ABCDEF\n"),
    ("mixed case", b"gate7:aBcDeF0189\n"),
    ("no key", b"gate7:\n"),
    ("one digit", b"gate7:a\n"),
    ("five digits", b"gate7:abcde\n"),
    ("a space before the key", b"gate7: abcd\n"),
    ("2F in the key", b"a:0/\n"),
    ("40 in the key", b"a:0@\n"),
    ("47 in the key", b"a:0G\n"),
    ("60 in the key", b"a:0`\n"),
    ("67 in the key", b"a:0g\n"),
    ("a colon in the key", b"a:0:\n"),
    ("two share a key", b"a:00\nb:00\n"),
    # identities
    ("no identity", b":abcd\n"),
    ("a colon in the identity", b"gate:7:abcd\n"),
    ("a space", b" :00\n"),
    ("1F", b"a\x1f:00\n"),
    ("00", b"\x00a:00\n"),
    ("7E", b"~:00\n"),
    ("7F", b"\x7f:00\n"),
    ("C2 80", b"\xc2\x80:00\n"),
    ("two, three and four bytes", "\u00e9\u20ac\U0001f600:00\n".encode("utf-8")),
    ("80", b"a\x80:00\n"),
    ("C0 80", b"\xc0\x80:00\n"),
    ("ED A0 80", b"\xed\xa0\x80:00\n"),
    ("F4 90 80 80", b"\xf4\x90\x80\x80:00\n"),
    ("C3 before the colon", b"\xc3:00\n"),
    ("FF", b"\xff:00\n"),
    # duplicates
    ("twice in a row", b"a:00\na:01\n"),
    ("twice, one between", b"a:00\nb:00\na:00\n"),
    ("twice at the end", b"b:00\na:00\na:00\n"),
    ("case differs", b"a:00\nA:00\n"),
    ("prefixes", b"gate:00\ngate7:01\ngate71:02\n"),
    ("the same backwards", b"ab:00\nba:00\n"),
    # three identities that a sum of their bytes, each time 33 times what it was and the next byte, does not tell apart
    ("one sum", b"ab:00\nbA:00\nc :00\n"),
    ("one sum, the first twice", b"ab:00\nbA:00\nc :00\nab:00\n"),
    ("one sum, the second twice", b"ab:00\nbA:00\nc :00\nbA:00\n"),
    ("one sum, the third twice", b"ab:00\nbA:00\nc :00\nc :00\n"),
]

SIZES = [
    ("an identity of 128 bytes", 0, 3, 2, 0, 128, 2),
    ("an identity of 129 bytes", 0, 3, 2, 0, 129, 2),
    ("a key of 64 bytes", 0, 3, 2, 0, 3, 128),
    ("a key of 65 bytes", 0, 3, 2, 0, 3, 130),
    ("256 lines", 255, 3, 2, 255, 3, 2),
    ("257 lines", 256, 3, 2, 256, 3, 2),
    ("65,536 bytes", 255, 128, 126, 255, 128, 126),
    ("65,537 bytes", 255, 128, 126, 255, 127, 128),
    ("the last as the first", 255, 128, 126, 0, 128, 126),
    ("the last as another", 255, 128, 126, 254, 128, 126),
]

V9 = b"gate7:abcd\n"
THREE = b"gate:00\ngate7:aBCd\ngate71:02\n"
OPEN = b"gate7:abcd"

# the edit, the table, the identity, the key, the room behind the table, and the length that is told where it is not the table's
CHANGES = [
    # V9's table
    ("add", V9, b"gate8", "00ff", 12),
    ("replace", V9, b"gate7", "1234", 2),
    ("retire", V9, b"gate7", "", 2),
    ("add", V9, b"gate7", "1234", 12),
    ("replace", V9, b"gate71", "1234", 2),
    ("retire", V9, b"gate", "", 2),
    # the first line, the one between and the last; keys as long, shorter and longer; the same key in lower case
    ("replace", THREE, b"gate", "ff", 0),
    ("replace", THREE, b"gate7", "ef", 3),
    ("replace", THREE, b"gate71", "c0ffee", 5),
    ("replace", THREE, b"gate", "0123456789abcdef", 15),
    ("replace", THREE, b"gate7", "abcd", 1),
    ("retire", THREE, b"gate", "", 1),
    ("retire", THREE, b"gate7", "", 1),
    ("retire", THREE, b"gate71", "", 1),
    ("add", THREE, "\u00e9\u20ac\U0001f600 ~".encode("utf-8"), "9a", 20),
    # keys of 0, 1, 64 and 65 bytes, R5 before R6 and R7
    ("add", V9, b"gate7", "", 20),
    ("add", V9, b"a", "c5" * 64, 140),
    ("add", V9, b"gate7", "c5" * 65, 140),
    ("replace", V9, b"gate8", "", 20),
    ("replace", V9, b"gate7", "00", 20),
    ("replace", V9, b"gate7", "c5" * 64, 130),
    ("replace", V9, b"gate8", "c5" * 65, 130),
    # an identity of 128 bytes
    ("add", V9, b"x" * 128, "00", 132),
    # as much room as it takes, and one byte less
    ("add", V9, b"gate8", "00ff", 11),
    ("add", V9, b"gate8", "00ff", 10),
    ("replace", V9, b"gate7", "123456", 2),
    ("replace", V9, b"gate7", "123456", 1),
    # no bytes
    ("add", b"", b"a", "00", 5),
    ("add", b"", b"a", "00", 0),
    ("retire", b"", b"a", "", 0),
    # not well formed: R2 before R5, R6, R7 and R1
    ("add", OPEN, b"gate7", "00", 20),
    ("replace", OPEN, b"gate8", "", 20),
    ("retire", OPEN, b"gate:7", "", 20),
    ("retire", b"a:00\na:01\n", b"a", "", 0),
    # a length past the memory, past the table, and shorter: the first line alone, a part of it, no bytes
    ("add", V9, b"gate8", "00", 12, 24),
    ("replace", V9, b"", "12", 0, 12),
    ("retire", V9, b"gate7", "", 2, 12),
    ("add", THREE, b"gate71", "03", 1, 8),
    ("retire", THREE, b"gate", "", 1, 7),
    ("add", THREE, b"a", "00", 1, 0),
]

# lists that are tried on THREE: the list's memory, and the count that is told
GATE, GATE7, GATE71 = starts_of(THREE)
OWN = [GATE, GATE7, GATE71]
MORE = OWN + [len(THREE), FREE]
LISTS = [
    ("its list", OWN, 3),
    ("its list, more behind it", MORE, 3),
    ("one number fewer", OWN, 2),
    ("no numbers", OWN, 0),
    ("no memory", [], 0),
    ("one number more, the table's length", MORE, 4),
    ("all of the memory", MORE, 5),
    ("a count past the memory", OWN, 4),
    ("a count past a longer memory", MORE, 6),
    ("a count far past the memory", OWN, 0xFFFFFF),
    ("a count past no memory", [], 1),
    ("two numbers exchanged", [GATE7, GATE, GATE71], 3),
    ("the last two exchanged", [GATE, GATE71, GATE7], 3),
    ("backwards", OWN[::-1], 3),
    ("the first number 1", [1, GATE7, GATE71], 3),
    ("the second inside its line", [GATE, GATE7 + 1, GATE71], 3),
    ("the second at the 0A before", [GATE, GATE7 - 1, GATE71], 3),
    ("the last one past its line", [GATE, GATE7, len(THREE)], 3),
    ("the last one past the table", [GATE, GATE7, len(THREE) + 1], 3),
    ("the last one with 2^8 more", [GATE, GATE7, GATE71 + 0x100], 3),
    ("the last one with 2^16 more", [GATE, GATE7, GATE71 + 0x10000], 3),
    ("the last one with 2^24 more", [GATE, GATE7, GATE71 + 0x1000000], 3),
    ("the last one with 2^31 more", [GATE, GATE7, GATE71 + 0x80000000], 3),
    ("the first one 2^32 - 1", [0xFFFFFFFF, GATE7, GATE71], 3),
    ("a number twice", [GATE, GATE7, GATE7], 3),
    ("the first line left out", [GATE7, GATE71, FREE], 2),
    ("the line between left out", [GATE, GATE71, FREE], 2),
    ("numbers of a memory not written yet", [FREE] * 3, 3),
]

# the edit, the identity, the key, the room behind THREE, and the length that is told where it is not the table's; the first three are right
TRIED = [
    ("add", b"gate8", "00ff", 12),
    ("replace", b"gate7", "1234", 2),
    ("retire", b"gate7", "", 2),
    ("add", b"gate:7", "00ff", 12),
    ("add", b"gate8", "", 12),
    ("add", b"gate7", "00ff", 12),
    ("replace", b"gate8", "1234", 2),
    ("retire", b"", "", 2),
    ("retire", b"gate72", "", 2),
    ("add", b"gate8", "00ff", 0),
    ("replace", b"gate7", "123456", 1),
    ("add", b"gate8", "00ff", 12, len(THREE) - 1),
    ("replace", b"gate7", "1234", 2, len(THREE) + 3),
    ("retire", b"gate7", "", 2, len(THREE) + 1),
]
WRONG = [(OWN, 2), (OWN, 4), ([GATE, GATE71, GATE7, FREE], 3), ([GATE, GATE7, GATE71 + 0x10000], 3), ([], 0)]

BAD = [b"", b"x" * 129, b"gate:7", b"gate\x1f", b"gate\x7f", b"gate\xc3"]

calls, lines = b"", []
for text in TEXTS:
    print_text(bytes.fromhex(text))
for name, table in TABLES:
    print_table(name, literal(table))
for sizes in SIZES:
    print_sizes(*sizes)

# making a list: every table above, with room for three lines
for name, table in TABLES:
    print_made(name, literal(table), 3)
# as much room as it takes, one number less, none, and more; R2 before R1
for name, table in [("V9", V9), ("three", THREE), ("no bytes", b""), ("open", OPEN), ("twice", b"a:00\na:01\n")]:
    for room in sorted({0, len(starts_of(table)) - 1, len(starts_of(table)), len(starts_of(table)) + 2} - {-1}):
        print_made("%s, room %d" % (name, room), literal(table), room)
for name, *sizes in SIZES:
    table = of_sizes(*sizes)
    own = len(starts_of(shown(table)))
    for room in (own - 1, own, own + 1) if well_formed(shown(table)) else (2,):
        print_made("%s, room %d" % (name, room), table, room)

# whether a list is the table's; R2 before R10
for name, starts, count in LISTS:
    print_judged(name, literal(THREE), starts, count)
    print_judged(name + ", for V9", literal(V9), starts, count)
    print_judged(name + ", table not well formed", literal(THREE[:-1]), starts, count)
for starts, count in [([], 0), ([FREE], 0), ([], 1), ([0], 1), ([0], 0)]:
    print_judged("no bytes, %d of %d" % (count, len(starts)), b"", starts, count)
for name, *sizes in SIZES[4:8]:  # 256 and 257 lines, 65,536 and 65,537 bytes
    table = of_sizes(*sizes)
    own = starts_of(shown(table))
    print_judged(name, table, own, len(own))
    if well_formed(shown(table)):
        print_judged(name + ", one number fewer", table, own, len(own) - 1)
        print_judged(name + ", the last one less", table, own[:-1] + [own[-1] - 1], len(own))

# lookups by any list of THREE
for _, starts, count in LISTS:
    for identity in [b"gate", b"gate7", b"gate71", b"nobody"]:
        print_listed(THREE, starts, count, identity)
# R10 before R1, R1 by a list in another order
for starts, count, room in [(OWN, 4, 0), (OWN, 3, 0), (OWN[::-1], 3, 1), (OWN[::-1], 3, 2), (OWN, 1, 0)]:
    print_listed(THREE, starts, count, b"gate7", room)
# numbers inside lines: every place of the table and two behind it
for at in range(len(THREE) + 2):
    for identity in [b"", b"7", b"gate7", b"e71"]:
        print_listed(THREE, [at], 1, identity)
# the first line that the list names counts, whether its key is one or not
for table, starts, identity in [
    (b"a:00\na:01\n", [5, 0], b"a"),
    (b"a:00\na:01\n", [0, 5], b"a"),
    (b"a:0\na:01\n", [4, 0], b"a"),
    (b"a:0\na:01\n", [0, 4], b"a"),
    (b"a:01\n", [9, 0xFFFFFFFF, 5, 0], b"a"),
    (b"a:01\n", [0, 0, 0], b"a"),
    (b"a:01", [0], b"a"),
    (b"a:", [0], b"a"),
    (b"a", [0], b"a"),
    (b"a\nb:00\n", [0, 2], b"a\nb"),
    (b"a\nb:00\n", [0, 2], b"b"),
    (b"a\nb:00\n", [1, 2], b"\nb"),
    (b"", [0], b""),
    (b"", [], b""),
]:
    print_listed(table, starts, len(starts), identity)

# V9, and the room
for identity in [b"gate7", b"gate", b"gate71"]:
    print_key(b"gate7:abcd\n", identity)
for identity, room in [(b"gate7", 2), (b"gate7", 1), (b"gate", 1)]:
    print_room(b"gate7:abcd\n", identity, room)
for identity in [b"gate", b"gate7", b"gate71", b"gat", b"gate72", b"", b"gate7:", b"gate7:aBCd"]:
    print_key(b"gate:00\ngate7:aBCd\ngate71:02\n", identity)
for table, identity in [
    (b"gate7:abcd", b"gate7"),
    (b"a:00\na:01\n", b"a"),
    (b"a:0\na:01\n", b"a"),
    (b"a:\n", b"a"),
    (b"a\nb:00\n", b"a\nb"),
    (b":00\n", b""),
    (b"a:b:00\n", b"a:b"),
    (b"", b"a"),
]:
    print_key(table, identity)

for name, table, identity, key, *rest in CHANGES:
    print_edit(name, literal(table), identity, bytes.fromhex(key), *rest)
# R10 stands between R2 and R5, and before R6, R7 and R1
for starts, count in WRONG:
    for name, identity, key, *rest in TRIED:
        print_edit(name, literal(THREE), identity, bytes.fromhex(key), *rest, starts=starts, count=count)
# room in the list: none behind it, one number, more; all its memory stays behind the new count
for free in (0, 1, 4):
    for name, identity, key, *rest in TRIED:
        print_edit(name, literal(THREE), identity, bytes.fromhex(key), *rest, free=free)
    for name, table, identity, key in [
        ("add", b"", b"a", "00"),
        ("retire", V9, b"gate7", ""),
        ("retire", THREE, b"gate", ""),
        ("retire", THREE, b"gate71", ""),
        ("replace", THREE, b"gate", "0123456789abcdef"),
        ("replace", THREE, b"gate71", "c0ffee"),
    ]:
        print_edit(name, literal(table), identity, bytes.fromhex(key), 20, free=free)
# numbers behind the list that look like starts stay too
for name, identity, key, *rest in TRIED[:3]:
    print_edit(name, literal(THREE), identity, bytes.fromhex(key), *rest, starts=OWN + [len(THREE), 0, 1, 0xFFFFFFFF], count=3)
# identities that no table may have: R5 before R7 and R1
for identity in BAD:
    for name in EDITS:
        print_edit(name, literal(V9), identity, b"\x12\x34", 2)

# 255, 256 and 257 lines: R5 and R6 before R8, R8 before R1
LINES = [b"%03d:aa\n" % n for n in range(257)]
for count, name, identity, key, room in [
    (255, "add", b"256", "aa", 7),
    (256, "add", b"256", "aa", 7),
    (256, "add", b"256", "aa", 0),
    (256, "add", b"255", "aa", 0),
    (256, "retire", b"000", "", 0),
    (256, "retire", b"255", "", 0),
    (256, "add", b"", "aa", 0),
    (256, "replace", b"128", "bbbb", 2),
    (257, "retire", b"128", "", 0),
]:
    print_edit(name, literal(b"".join(LINES[:count])), identity, bytes.fromhex(key), room)
# a full table with a list that is not its own, or with no room for another number: R10 before R8, R8 before R1; one line fewer: R1
FULL = literal(b"".join(LINES[:256]))
print_edit("add", FULL, b"256", b"\xaa", 7, starts=[7 * n for n in range(257)], count=257)
print_edit("add", FULL, b"256", b"\xaa", 7, free=0)
print_edit("add", literal(b"".join(LINES[:255])), b"256", b"\xaa", 7, free=0)

# 65,536 bytes, and one or two more, by a line and by a key: R8 before R1
LONG = of_sizes(253, 128, 128, 253, 127, 2)
LAST = literal(b"end:" + b"aa" * 63 + b"\n")
for identity, room in [(b"new", 131), (b"new", 130), (b"news", 132), (b"news", 0)]:
    print_edit("add", LONG, identity, b"\xaa" * 63, room)
for size, room in [(63, 0), (64, 2), (64, 0)]:
    print_edit("replace", LONG + LAST, b"end", b"\xbb" * size, room)

if sys.argv[1] == "stdin":
    sys.stdout.buffer.write(calls)
else:
    print("\n".join(lines))
