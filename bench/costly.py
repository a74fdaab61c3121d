"""Master files and transfers that are made to cost much, and files that say little at great length.

`bench/run` measures them, and `tools/trials/hostile --limits` holds the latter to a limit of memory."""
import random
import struct

SOA = b"@ 60 SOA . . 1 2 3 4 5\n$TTL 60\n"
DEEP = b"a." * 118 + b"test."  # 119 labels
FEW = (b"a" * 63 + b".") * 3 + b"a" * 50 + b".test."
MIDDLE = b"a." * 58
# An origin of 248 octets, most of which print as four.
RAW = (b"\1" * 63 + b".") * 3 + b"\1" * 49 + b".test."
OTHER_TTL = b" 61 A 2.2.2.2\n"
COMMENT = b"; a comment of some length in a file: fine\n"


def each(line, n):
    """A line for each number below n, in an order that is drawn, the same each time."""
    return b"".join(map(line, random.Random(5).sample(range(n), n)))


def address(k):
    return b" A 10.%d.%d.%d\n" % (k >> 16, k >> 8 & 255, k & 255)


def one_set(owner, lines):
    """An address of an owner, and these lines of the same owner."""
    return SOA + owner + b" A 1.1.1.1\n" + lines


def below(origin, lines):
    return SOA + b"$ORIGIN " + origin + b"\n" + lines


def message(body, answers):
    made = struct.pack(">6H", 1, 0x8400, 0, answers, 0, 0) + body
    return struct.pack(">H", len(made)) + made


APEX = b"\1x\0"
OPENING = APEX + struct.pack(">HHIH", 6, 1, 60, 22) + b"\0\0" + struct.pack(">5I", 1, 2, 3, 4, 5)


def chains(label, links, n):
    """A transfer of NS records whose owner and host are each a pointer to the end of a chain, which stands in opaque data:
    each of its links is this label, or none, and a pointer to the link before."""
    body, answers, made = OPENING, 1, []
    while n > 0:
        start = 12 + len(body) + len(APEX) + 10
        chain, last = APEX, start
        for _ in range(links):
            here = start + len(chain)
            chain += label + struct.pack(">H", 0xC000 | last)
            last = here
        body += APEX + struct.pack(">HHIH", 999, 1, 60, len(chain)) + chain
        end = struct.pack(">H", 0xC000 | last)
        count = min(n, (65_000 - len(body)) // 14)
        body += (end + struct.pack(">HHIH", 2, 1, 60, 2) + end) * count
        made.append(message(body, answers + 1 + count))
        body, answers, n = b"", 0, n - count
    return b"".join(made) + message(OPENING, 1)


def addresses(owner, n, last=b""):
    return one_set(owner, each(address, n) + last)


def names(n, letters=3):
    """So many names of as many letters or digits, in an order that is drawn."""
    digits = b"abcdefghijklmnopqrstuvwxyz0123456789"
    return each(lambda k: b" NS " + bytes(digits[k // 36**place % 36] for place in range(letters)) + b"\n", n)


def leavers(label, lines):
    """A set under as many of these labels as a name has room for, and a record that leaves it at each of them. A key of as many
    digits as a label has octets and its end, or a multiple of that, parts one record from all others."""
    depth = 240 // (len(label) + 1)
    at = [label + b"."] * depth
    left = b"".join(label[:-1] + b"b." + b"".join(at[:k]) + b"test. NS .\n" for k in range(depth))
    return SOA + b"".join(at) + b"test. NS .\n" + lines + left


def leaving(octets):
    """Those of labels of so many octets, whose set has the addresses of n numbers."""
    return lambda n: leavers(b"a" * octets, each(address, n))


def shuffled_repeats(n, times):
    """Lines of a set, each so many times, in an order that is drawn."""
    lines = names(n // times).splitlines(keepends=True) * times
    random.Random(5).shuffle(lines)
    return b"".join(lines)


def again(n):
    """Hosts that are distinct until repeats are looked for, and then come again, of which one in seven is distinct."""
    lines = names(n // 7).splitlines(keepends=True)
    return b"".join(lines + random.Random(5).choices(lines, k=n - len(lines)))


def suffixes(n):
    """Owners that share five labels with others, and hosts below those."""
    rng = random.Random(5)
    parts = [b"ec2", b"rds", b"web", b"db", b"eu", b"us", b"prod", b"test"]
    lines = []
    for k in range(n):
        a, b, c = (rng.choice(parts) for _ in range(3))
        lines.append(b"ip-10-%d-%d-%d.%s.%s.compute.internal.%s A 10.%d.%d.%d\n" % (
            k >> 16, k >> 8 & 255, k & 255, a, b, c, k >> 16, k >> 8 & 255, k & 255))
    rng.shuffle(lines)
    return SOA + b"".join(lines)


def texts(n):
    """Texts of 40 octets of two letters, of one owner."""
    rng = random.Random(5)
    return one_set(b"x", b"".join(b" TXT " + bytes(rng.choices(b"ab", k=40)) + b"\n" for _ in range(n)))


def sharing(n):
    """Owners that share their first 15 octets and the end, and differ between."""
    return SOA + each(lambda k: b"abcdefghijklmno%05x A 1.1.1.1\n" % k, n)


def first_label(k):
    return b"%04x A 1.1.1.1\n" % k


def middle_label(k):
    return MIDDLE + b"%05x A 1.1.1.1\n" % k


# Each is read as a file or a transfer by `zonenorm`, or by a command of `zonewords`; then the octets of so many lines or the
# like, and how many are measured.
COSTLY = {
    "one set, its owner of 123 labels": ("file", lambda n: addresses(b"a." * 4 + DEEP, n), 60_000),
    "one set, its owner of 5 long labels": ("file", lambda n: addresses(FEW, n), 60_000),
    "one set, in order but for the last": (
        "file", lambda n: one_set(b"a." * 4 + DEEP, b"".join(map(address, [*range(1, n), 0]))), 60_000),
    "one set, the last of another TTL": ("file", lambda n: addresses(b"a." * 4 + DEEP, n, OTHER_TTL), 60_000),
    "owners of 120 labels, the first differs": ("file", lambda n: below(DEEP, each(first_label, n)), 60_000),
    "these, the last of another TTL": ("file", lambda n: below(DEEP, each(first_label, n) + b"0000" + OTHER_TTL), 60_000),
    "these, outside the zone": (
        "file", lambda n: b"$TTL 60\nz.test. SOA . . 1 2 3 4 5\n$ORIGIN " + DEEP + b"\n" + each(first_label, n), 60_000),
    "owners of 119 labels, the first two differ": (
        "file", lambda n: below(DEEP[4:], each(lambda k: b"%x.%x A 1.1.1.1\n" % (k & 15, k >> 4), n)), 60_000),
    "owners of 118 labels, nine of each beginning": (
        "file", lambda n: below(DEEP[4:], each(lambda k: b"%04x%x A 1.1.1.1\n" % (k // 9, k % 9), n)), 60_000),
    "owners of 118 labels, the middle one differs": ("file", lambda n: below(MIDDLE + b"test.", each(middle_label, n)), 8_000),
    "those, the last of another TTL": (
        "file", lambda n: below(MIDDLE + b"test.", each(middle_label, n) + MIDDLE + b"00000" + OTHER_TTL), 8_000),
    "one set, a record leaves at each label of 2 octets": ("file", leaving(2), 3_000),
    "one set, a record leaves at each label of 3 octets": ("file", leaving(3), 3_000),
    "one set, a record leaves at each label of 7 octets": ("file", leaving(7), 3_000),
    "one set of hosts, a record leaves at each label": ("file", lambda n: leavers(b"aa", names(n)), 3_000),
    "these, 12 times": ("file", lambda n: leavers(b"aa", shuffled_repeats(n, 12)), 12_000),
    "hosts under an origin of 118 labels": ("file", lambda n: below(DEEP[4:], b"a NS a\n" + names(n)), 3_000),
    "hosts under an origin of 5 labels": ("file", lambda n: below(FEW[8:], b"a NS a\n" + names(n)), 3_000),
    "owners under an origin of 5 labels": ("file", lambda n: below(FEW[8:], each(lambda k: b"%x NS .\n" % k, n)), 3_000),
    "hosts under an origin of raw octets": ("file", lambda n: below(RAW, b"a NS a\n" + names(n)), 3_000),
    "owners under an origin of raw octets": ("file", lambda n: below(RAW, each(lambda k: b"%x NS .\n" % k, n)), 3_000),
    "owners and hosts under an origin of raw octets": ("file", lambda n: below(RAW, each(lambda k: b"%x NS a\n" % k, n)), 3_000),
    "hosts of which one in seven is distinct": ("file", lambda n: below(DEEP[4:], b"a NS a\n" + again(n)), 136_000),
    "owners that share five labels": ("file", suffixes, 100_000),
    "texts of 40 octets of two letters": ("file", texts, 10_000),
    "owners that share 15 octets": ("file", sharing, 10_000),
    "owners that begin with \\001": ("file", lambda n: SOA + each(lambda k: b"\\001%05x A 1.1.1.1\n" % k, n), 45_000),
    "a line again and again, under 119 labels": ("file", lambda n: below(DEEP, b"a NS a\n" + b" NS a\n" * n), 160_000),
    "two lines in turn": ("file", lambda n: below(DEEP, b"a NS a\n" + b" NS a\n NS b\n" * n), 80_000),
    "an SOA again and again": (
        "file", lambda n: b"$TTL 60\n$ORIGIN " + DEEP + b"\n@ SOA a a 1 2 3 4 5\n" + b" SOA a a 1 2 3 4 5\n" * n, 50_000),
    "names of 126 labels and as many pointers": ("transfer", lambda n: chains(b"\1a", 125, n), 20_000),
    "names of 126 pointers": ("transfer", lambda n: chains(b"", 126, n), 20_000),
    "a bitmap of one of the last types": ("generic", lambda n: one_set(b"x", b" NSEC . TYPE65534\n" * n), 50_000),
    "such a bitmap, shown": ("words", lambda n: b"x. 60 IN TYPE47 \\# 4 00ff0140\n" * n, 30_000),
    "line feeds": ("file", lambda n: SOA + b"\n" * n, 1_000_000),
    "line feeds in quotes": ("file", lambda n: SOA + b'x TXT "' + b"\n" * n + b'"\n', 1_000_000),
    "comment lines": ("file", lambda n: SOA + COMMENT * n, 20_000),
    "comment lines in parentheses": ("file", lambda n: SOA + b"x A (" + COMMENT * n + b"1.1.1.1)\n", 20_000),
    "one comment": ("file", lambda n: SOA + b";" + b"x" * n + b"\n", 1_000_000),
    "one entry of ` a a a ..`": ("file", lambda n: SOA + b"x TXT" + b" a" * n + b"\n", 500_000),
}
# Files in which lines come again and again: what stands first, the line or lines, and how often these come.
REPEATS = {
    "two lines in turn under a long origin": (below(DEEP, b"a NS a\n"), b" NS a\n NS b\n", 200_000),
    "a line under a long origin": (below(DEEP, b"a NS a\n"), b" NS a\n", 2_000_000),
    "a short line under a long origin": (below(DEEP, b"a A 1.0.0.1\n"), b" A 1.0.0.1\n", 4_000_000),
    "a short line": (SOA, b" A 1.0.0.1\n", 10_000_000),
}
