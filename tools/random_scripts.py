#!/usr/bin/env python3
"""usage: random_scripts.py SEED N FOLDER   writes N random console scripts into FOLDER

The scripts are 0000.txt, 0001.txt and so on. They mix plans that are worth judging with damaged
lines, texts, numbers at their limits, full tables and odd line ends. Equal arguments give equal scripts.
Plans to be judged are small, so that reference.py judges each script within seconds.
"""
import os
import random
import sys

EDGES = [0, 1, 2, 7, 8, 9, 15, 16, 17, 31, 32, 33, 62, 63, 64, 65, 127, 128, 255, 256, 65535,
         65536, 2147483647, 2147483648, 4294967294, 4294967295]
TOO_LARGE = ["4294967296", "4294967297", "9999999999", "18446744073709551615",
             "18446744073709551616", "18446744073709551617", "100000000000000000000000000000"]
NO_NUMBERS = ["", "00", "01", "007", "-1", "+1", "1.0", "1e3", "0x1", "a", "1a", "{0}", "1,2", "٣",
              "½", "#", "1#"]
NAMES = ["new", "senior", "grant", "policy", "constraint", "authorised-roles",
         "held-permissions", "judge", "fields"]
NO_NAMES = ["New", "JUDGE", "judgement", "seniors", "grants", "policies", "constraints",
            "authorised", "authorized-roles", "held", "roles", "held-permission", "quit", "help"]


def join(*words):
    return " ".join(str(w) for w in words)


def some(rng, n, low, high):
    """Between low and high of the numbers below n, in any order, now and then one twice."""
    chosen = rng.sample(range(n), rng.randint(min(low, n), min(high, n)))
    if chosen and rng.random() < 0.1:
        chosen.append(rng.choice(chosen))
    return chosen


def limit(rng, count, largest):
    """A k or t for a set of this size, mostly a right one."""
    if rng.random() < 0.1 or count < 2:
        return rng.choice([0, 1, 2, count, count + 1, 8, 9, rng.choice(EDGES)])
    return rng.randint(2, min(count, largest))


# ---- kinds of script, each a list of lines ----

def small_plan(rng):
    """A plan of few roles, with questions and judgements in between."""
    roles, permissions = rng.randint(2, 9), rng.randint(2, 7)
    shift = rng.choice([0, 0, 0, 64 - max(roles, permissions)])      # at times the last numbers
    lines = ["new"] if rng.random() < 0.8 else []

    def at(numbers):
        return [n + shift for n in numbers]

    for permission in range(permissions):
        if rng.random() < 0.7:
            lines.append(join("grant", *at([rng.randrange(roles), permission])))
    for _ in range(rng.randint(5, 40)):
        kind = rng.random()
        if kind < 0.35:
            lines.append(join("grant", *at([rng.randrange(roles), rng.randrange(permissions)])))
        elif kind < 0.5:
            lines.append(join("senior", *at([rng.randrange(roles), rng.randrange(roles)])))
        elif kind < 0.6:
            chosen = some(rng, permissions, 1, 6)
            lines.append(join("policy", limit(rng, len(set(chosen)), 8), *at(chosen)))
        elif kind < 0.72:
            chosen = some(rng, roles, 1, 5)
            lines.append(join("constraint", limit(rng, len(set(chosen)), 64), *at(chosen)))
        elif kind < 0.82:
            lines.append(join("authorised-roles", *at(some(rng, roles, 0, 4))))
        elif kind < 0.92:
            lines.append(join("held-permissions", *at(some(rng, roles, 0, 4))))
        else:
            lines.append("judge")
    return lines + ["judge"]


def exclusive_plan(rng):
    """Many permissions, one or two roles for each, and strict constraints: many users."""
    permissions = rng.randint(4, 10)
    roles = rng.randint(permissions, 14)
    lines = ["new"]
    for role in range(roles):
        for permission in {role % permissions, rng.randrange(permissions)}:
            if rng.random() < 0.9:
                lines.append(join("grant", role, permission))
    for _ in range(rng.randint(0, 4)):
        lines.append(join("senior", rng.randrange(roles), rng.randrange(roles)))
    for _ in range(rng.randint(1, 3)):
        chosen = some(rng, permissions, 2, permissions)
        k = min(8, len(set(chosen)))
        lines.append(join("policy", rng.choice([k, limit(rng, k, 8)]), *chosen))
    for _ in range(rng.randint(1, 6)):
        chosen = some(rng, roles, 2, roles)
        lines.append(join("constraint", rng.choice([2, 2, 3]), *chosen))
        if rng.random() < 0.4:
            lines.append("judge")
    rest = lines[1:]
    if rng.random() < 0.5:
        rng.shuffle(rest)
    return lines[:1] + rest + ["judge"]


def deep_seniority(rng):
    """Long chains, diamonds and cycles over all roles."""
    roles = rng.choice([3, 5, 64])
    lines = ["new"]
    for _ in range(rng.randint(5, 90)):
        a = rng.randrange(roles)
        b = rng.choice([rng.randrange(roles), min(a + 1, 63), max(a - 1, 0), a])
        lines.append(join("senior", a, b))
        if rng.random() < 0.15:
            lines.append(join("grant", b, rng.randrange(64)))
        if rng.random() < 0.15:
            lines.append(join("authorised-roles", *some(rng, roles, 0, 3)))
        if rng.random() < 0.15:
            lines.append(join("held-permissions", *some(rng, roles, 0, 3)))
    for role in range(roles):
        lines.append(join("authorised-roles", role))
    return lines


def full_tables(rng):
    """About 32 policies and 64 constraints, where 4, 5 and 6 meet."""
    lines = ["new"]
    policies, constraints = rng.choice([0, 31, 32, 33, 36]), rng.choice([0, 63, 64, 65, 70])
    for i in range(policies):
        lines.append(join("policy", 2, *some(rng, 20, 2, 3)) if rng.random() < 0.9 else
                     join("policy", limit(rng, 3, 8), *some(rng, 64, 0, 20)))
    for i in range(constraints):
        lines.append(join("constraint", 2, *some(rng, 16, 2, 4)) if rng.random() < 0.9 else
                     join("constraint", limit(rng, 3, 64), *some(rng, 64, 0, 64)))
    for _ in range(5):
        count = rng.choice([0, 1, 2, 8, 9, 15, 16, 17, 18, 64])
        lines.append(join("policy", rng.choice([0, 1, 2, 8, 9, count, count + 1]),
                          *rng.sample(range(64), count)))
        lines.append(join("constraint", rng.choice([0, 1, 2, count, count + 1, 64, 65]),
                          *rng.sample(range(64), count)))
    for _ in range(rng.randint(0, 25)):
        lines.append(join("grant", rng.randrange(16), rng.randrange(20)))
    if rng.random() < 0.3:
        rest = lines[1:]
        rng.shuffle(rest)
        lines[1:] = rest
    return lines + ["judge"]


def edge_numbers(rng):
    """Every call with numbers at their limits."""
    lines = []
    for _ in range(rng.randint(10, 60)):
        name = rng.choice(NAMES)
        count = {"new": 0, "judge": 0, "fields": 1, "senior": 2, "grant": 2}.get(name, rng.randint(0, 5))
        numbers = [rng.choice(EDGES) if rng.random() < 0.5 else rng.randrange(66)
                   for _ in range(count)]
        if numbers and rng.random() < 0.1:
            numbers[rng.randrange(count)] = rng.choice(TOO_LARGE)
        lines.append(join(name, *numbers))
    return lines + ["judge"]


def rubbish(rng):
    """Lines of words and bytes that are mostly no calls."""
    lines = []
    for _ in range(rng.randint(5, 40)):
        if rng.random() < 0.2:
            lines.append(bytes(rng.choice([b for b in range(256) if b not in (10, 13)])
                               for _ in range(rng.randint(1, 30))))
            continue
        words = [rng.choice(NAMES + NO_NAMES)]
        for _ in range(rng.randint(0, 4)):
            words.append(rng.choice([str(rng.randrange(66)), str(rng.choice(EDGES)),
                                     rng.choice(TOO_LARGE), rng.choice(NO_NUMBERS)]))
        lines.append(join(*words))
    return lines


def typed(rng, text):
    """A text in quotes, each byte as it is or escaped; now and then as it may not be typed."""
    short = {9: "\\t", 10: "\\n", 13: "\\r", 34: '\\"', 92: "\\\\"}
    always = rng.random() < 0.1
    line = ""
    for byte in text:
        if byte in short and rng.random() < 0.95:
            line += short[byte]
        elif byte in short or not 32 <= byte <= 126 or always or rng.random() < 0.02:
            line += "\\x%02x" % byte
        else:
            line += chr(byte)
    if rng.random() < 0.1:
        at = rng.randrange(len(line) + 1)
        line = line[:at] + rng.choice(['"', "\\", "\\x", "\\xg0", "\\x0", "\\xAB", "\\R", "\\a", "\\0", "\t",
                                       "\x7f", "\u00e9", " ", "\\x00", "\\xff"]) + line[at:]
    return '"' + line + '"'


def random_field(rng):
    """The bytes of a field, in quotes or not, mostly a right one."""
    if rng.random() < 0.15:
        return b""
    if rng.random() < 0.4:
        return str(rng.choice([rng.randrange(5000), rng.randrange(70), rng.choice(EDGES)])).encode()
    content = bytes(rng.choice(b"ab 0,,\"\"\r\n\t\\\x00\xff\xc3") for _ in range(rng.randint(0, 6)))
    if rng.random() < 0.9:
        return b'"' + content.replace(b'"', b'""') + b'"'
    return content


def table(rng):
    """A text of records, at times with one byte changed."""
    text = b""
    for i in range(rng.choice([0, 1, 1, 2, 3, 5, 20])):
        text += b",".join(random_field(rng) for _ in range(rng.choice([1, 2, 2, 2, 3, 7])))
        text += rng.choice([b"\r\n"] * 30 + [b"\r", b"\n", b"\n\r", b"\r\n\r\n", b""])
    if rng.random() < 0.4 and text.endswith(b"\r\n"):
        text = text[:rng.choice([-1, -2])]
    if rng.random() < 0.2:
        at = rng.randrange(len(text) + 1)
        text = text[:at] + rng.choice([b'"', b"\r", b"\n", b"x", b",", b""]) + text[at + rng.randrange(2):]
    return text


def texts(rng):
    """Texts, and where their fields stand."""
    lines = []
    for _ in range(rng.randint(5, 60)):
        lines.append("fields " + typed(rng, table(rng)))
        if rng.random() < 0.05:
            lines.append(rng.choice(["fields", "fields ", 'fields "', 'fields ""', 'fields  "a"', 'fields "a" ',
                                     'fields "a" "b"', 'field "a"', 'fields\t"a"', "fields a", 'Fields "a"',
                                     'fields 1 "a"', 'fields "a"b']))
    return lines


def damaged(rng, line):
    """A line with one thing changed."""
    line = bytearray(line)
    kind = rng.randrange(9)
    at = rng.randrange(len(line) + 1)
    if kind == 0:
        line[at:at] = b" "
    elif kind == 1:
        line += b" "
    elif kind == 2:
        line[0:0] = b" "
    elif kind == 3:
        line = line.replace(b" ", b"  ", 1)
    elif kind == 4:
        line = line.replace(b" ", b" 0", 1)              # a leading zero, or a new number
    elif kind == 5:
        line = line.replace(b" ", b"\t", 1)
    elif kind == 6:
        del line[at:at + 1]
    elif kind == 7:
        line[at:at] = bytes([rng.choice([0, 9, 11, 12, 33, 35, 48, 57, 58, 127, 128, 255])])
    else:
        line += b" " + rng.choice([str(rng.choice(EDGES)), rng.choice(TOO_LARGE)] + NO_NUMBERS).encode()
    return bytes(line)


def decorated(rng, lines, damage):
    """Adds comments and empty lines, damages some lines, and chooses the line ends."""
    text = b""
    crlf = rng.choice([0, 0, 0.1, 1])
    for line in lines:
        if isinstance(line, str):
            line = line.encode()
        if rng.random() < 0.05:
            text += rng.choice([b"", b"#", b"# a comment", b"#judge", b"#\t\x00\xff -> accepted", b"\r",
                                b"# two\r\r", b" # no comment", b" "]) + b"\n"
        if rng.random() < damage:
            line = damaged(rng, line)
        end = b"\n"
        if rng.random() < crlf:
            end = b"\r\n"
        elif rng.random() < 0.005:
            end = rng.choice([b"\r\r\n", b"\n\n", b"\r\n\r\n"])
        text += line + end
    if rng.random() < 0.3:
        text = text.rstrip(b"\r\n")          # the last line has no end (a CR there is left out)
    return text


def long_input(rng, more):
    """The largest input and `more` bytes."""
    text = b"grant 0 0\n" * rng.randint(0, 3)
    size = 1048576 + more
    filler = rng.choice([b"# " + b"x" * 997 + b"\n", b"\n" * 1000, b"y" * 5000 + b"\n"])
    text += filler * ((size - len(text) - 20) // len(filler))
    return text + b"#" * (size - len(text) - 6) + b"\njudge"


def script(rng, index):
    if index == 0:
        return b""
    if index % 100 == 99:
        return long_input(rng, [0, 1, -1, 2][index // 100 % 4])
    kind = rng.choice([small_plan, small_plan, exclusive_plan, exclusive_plan, deep_seniority,
                       full_tables, edge_numbers, rubbish, texts, texts])
    lines = kind(rng)
    if rng.random() < 0.2:
        lines += rng.choice([small_plan, exclusive_plan])(rng)
    return decorated(rng, lines, rng.choice([0, 0, 0.03, 0.2]))


def main(arguments):
    if len(arguments) != 3:
        print(__doc__, file=sys.stderr)
        return 2
    rng = random.Random(int(arguments[0]))
    os.makedirs(arguments[2], exist_ok=True)
    for index in range(int(arguments[1])):
        with open(os.path.join(arguments[2], "%04d.txt" % index), "wb") as f:
            f.write(script(rng, index))
    return 0


if __name__ == "__main__":
    sys.exit(main(sys.argv[1:]))
