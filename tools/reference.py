#!/usr/bin/env python3
"""usage: reference.py < SCRIPT                 prints what the console prints for SCRIPT
       reference.py --check OUTPUT < SCRIPT    verifies OUTPUT, a console's answer to SCRIPT

An independent check of the console, written from the definitions and not from the proved code.
It knows comments, empty lines, new, senior, grant, policy, constraint, authorised-roles,
held-permissions, judge, fields and the totals line; any other line is not understood.

The comparison rule of --check: every line must be equal byte for byte, except a judge line that
refuses. Such a line must name the same policy and the same number of users; its role sets are
free, but there must be one for each user, each must satisfy every constraint, counted in
authorised roles, and together they must hold the whole policy. --check prints each difference
and ends with status 1 if there is one.
"""
import sys

LONGEST_INPUT = 1048576
LARGEST_NUMBER = 4294967295
NUMBERS = range(64)            # the roles, and the permissions


# ---- sets as words ----

def members(word):
    """The members of a set, ascending."""
    return [n for n in NUMBERS if word >> n & 1]


def size(word):
    return bin(word).count("1")


def word_of(numbers):
    word = 0
    for n in numbers:
        word |= 1 << n
    return word


def set_text(word):
    return "{" + " ".join(str(n) for n in members(word)) + "}"


# ---- plans ----

class Plan:
    """What was added to a plan, and what it means."""

    def __init__(self):
        self.juniors = [1 << r for r in NUMBERS]   # a role and every role it is senior to
        self.grants = [0] * 64                     # the permissions granted to a role directly
        self.policies = []                         # (permissions, k)
        self.constraints = []                      # (roles, t)

    # Each addition answers 0 if accepted, or the number of the first refusal that applies.

    def add_senior(self, senior, junior):
        if senior > 63 or junior > 63:
            return 1
        if senior != junior and self.juniors[junior] >> senior & 1:
            return 3
        for role in NUMBERS:
            if self.juniors[role] >> senior & 1:
                self.juniors[role] |= self.juniors[junior]
        return 0

    def add_grant(self, role, permission):
        if role > 63:
            return 1
        if permission > 63:
            return 2
        self.grants[role] |= 1 << permission
        return 0

    def add_policy(self, k, permissions):
        if k < 2 or k > size(permissions) or k > 8:
            return 4
        if size(permissions) > 16:
            return 5
        if len(self.policies) == 32:
            return 6
        self.policies.append((permissions, k))
        return 0

    def add_constraint(self, t, roles):
        if t < 2 or t > size(roles):
            return 4
        if len(self.constraints) == 64:
            return 6
        self.constraints.append((roles, t))
        return 0

    def authorised(self, roles):
        """The roles that a user with these assigned roles is authorised for."""
        word = 0
        for role in members(roles):
            word |= self.juniors[role]
        return word

    def held(self, roles):
        """The permissions that a user with these assigned roles holds."""
        word = 0
        for role in members(self.authorised(roles)):
            word |= self.grants[role]
        return word

    def satisfies(self, roles):
        """Does a user with these assigned roles keep within every constraint?"""
        authorised = self.authorised(roles)
        return all(size(authorised & r) < t for r, t in self.constraints)


# ---- judging ----

class Search:
    """A plain exact search for the fewest users that hold a set of permissions.

    It suffices to try roles that are granted a wanted permission directly: a user keeps within
    the constraints if he gives up roles, and keeps a permission with any one role that has it.
    """

    def __init__(self, plan):
        self.plan = plan
        self.one = {}             # permissions -> roles of one user that holds them, or None
        self.too_few = set()      # (n, permissions) that n users cannot hold
        self.granted_to = [[r for r in NUMBERS if plan.grants[r] >> p & 1] for p in NUMBERS]

    def one_user(self, wanted):
        """Roles of a user that satisfies the constraints and holds all of wanted, or None."""
        if wanted not in self.one:
            self.one[wanted] = self.extend(0, wanted)
        return self.one[wanted]

    def extend(self, roles, wanted):
        missing = wanted & ~self.plan.held(roles)
        if not missing:
            return roles
        choices = None            # of the missing permission with the fewest ways to get it
        for permission in members(missing):
            ways = [r for r in self.granted_to[permission]
                    if self.plan.satisfies(roles | 1 << r)]
            if choices is None or len(ways) < len(choices):
                choices = ways
            if not choices:
                return None
        for role in choices:
            found = self.extend(roles | 1 << role, wanted)
            if found is not None:
                return found
        return None

    def users(self, n, wanted):
        """Role sets of at most n users that together hold all of wanted, or None."""
        if not wanted:
            return []
        if n == 0 or (n, wanted) in self.too_few:
            return None
        lowest = wanted & -wanted
        found = self.deal(n, lowest, 0, wanted & ~lowest)
        if found is None:
            self.too_few.add((n, wanted))
        return found

    def deal(self, n, mine, others, undecided):
        """The same, where one user holds mine, the others hold others, and the rest is open."""
        roles = self.one_user(mine)
        if roles is None:
            return None
        if not undecided:
            rest = self.users(n - 1, others)
            return None if rest is None else [roles] + rest
        lowest = undecided & -undecided
        found = self.deal(n, mine | lowest, others, undecided & ~lowest)
        if found is None and n > 1:
            found = self.deal(n, mine, others | lowest, undecided & ~lowest)
        return found

    def fewest(self, wanted, below):
        """The fewest users, if they are fewer than below: their role sets, or None."""
        if any(self.one_user(1 << p) is None for p in members(wanted)):
            return None
        for n in range(1, below):
            found = self.users(n, wanted)
            if found is not None:
                return found
        return None


def judged(plan):
    """None if the plan is accepted, or (policy number, role sets of the fewest users)."""
    search = Search(plan)
    for number, (permissions, k) in enumerate(plan.policies):
        users = search.fewest(permissions, k)
        if users is not None:
            return number, users
    return None


# ---- texts ----

class Wrong(Exception):
    """The record with this number is wrong."""


def next_field(text, at):
    """The field that begins at a place: (first byte, after the last, after any closing quote), or None."""
    if text[at:at + 1] == b'"':
        end = at + 1
        while True:
            end = text.find(b'"', end)
            if end < 0:
                return None                              # an open quote
            if text[end + 1:end + 2] != b'"':
                return at + 1, end, end + 1
            end += 2                                     # a quote that is written twice
    end = at
    while end < len(text) and text[end] not in b',"\r\n':
        end += 1
    return at, end, end


def records(text):
    """The records of a text, each the list of its fields' places."""
    found, at = [], 0
    while at < len(text):
        record = []
        while True:
            field = next_field(text, at)
            if field is None:
                raise Wrong(len(found) + 1)
            start, end, at = field
            record.append((start, end))
            if at == len(text):
                break
            if text[at:at + 2] == b"\r\n":
                at += 2
                break
            if text[at:at + 1] != b",":
                raise Wrong(len(found) + 1)              # a bare line end, a stray quote, a byte too many
            at += 1
        found.append(record)
    return found


def fields_text(text):
    try:
        found = records(text)
    except Wrong as wrong:
        return "wrong record %d" % wrong.args[0]
    return "%d records" % len(found) + "".join(
        " (" + " ".join("%d-%d" % place for place in record) + ")" for record in found)


# ---- the console ----

class NotUnderstood(Exception):
    pass


ESCAPES = {b"r": b"\r", b"n": b"\n", b"t": b"\t", b'"': b'"', b"\\": b"\\"}


def text_of(typed):
    """The bytes that a text in quotes stands for."""
    if len(typed) < 2 or typed[:1] != b'"' or typed[-1:] != b'"':
        raise NotUnderstood
    typed, text, i = typed[1:-1], b"", 0
    while i < len(typed):
        byte, after = typed[i:i + 1], typed[i + 1:i + 2]
        if byte == b"\\" and after in ESCAPES:
            text, i = text + ESCAPES[after], i + 2
        elif byte == b"\\":
            digits = typed[i + 2:i + 4]
            if after != b"x" or len(digits) < 2 or any(d not in b"0123456789abcdef" for d in digits):
                raise NotUnderstood
            text, i = text + bytes([int(digits, 16)]), i + 4
        elif byte == b'"' or not 32 <= byte[0] <= 126:
            raise NotUnderstood
        else:
            text, i = text + byte, i + 1
    return text


def number(word):
    if not word or any(b not in b"0123456789" for b in word):
        raise NotUnderstood
    if len(word) > 1 and word[:1] == b"0" or len(word) > 10 or int(word) > LARGEST_NUMBER:
        raise NotUnderstood
    return int(word)


def number_list(words):
    numbers = [number(w) for w in words]
    if any(n > 63 for n in numbers):
        raise NotUnderstood
    return word_of(numbers)


def expect(words, count):
    if len(words) != count:
        raise NotUnderstood


def addition(refusal):
    return "refused %d" % refusal if refusal else "accepted"


class Console:
    def __init__(self):
        self.plan = Plan()

    def call(self, line):
        """The answer to a call."""
        words = line.split(b" ")
        name, rest = words[0], words[1:]
        if name == b"fields":
            return fields_text(text_of(b" ".join(rest)))
        if name == b"new":
            expect(rest, 0)
            self.plan = Plan()
            return "accepted"
        if name == b"senior":
            expect(rest, 2)
            return addition(self.plan.add_senior(number(rest[0]), number(rest[1])))
        if name == b"grant":
            expect(rest, 2)
            return addition(self.plan.add_grant(number(rest[0]), number(rest[1])))
        if name in (b"policy", b"constraint"):
            if not rest:
                raise NotUnderstood
            add = self.plan.add_policy if name == b"policy" else self.plan.add_constraint
            return addition(add(number(rest[0]), number_list(rest[1:])))
        if name == b"authorised-roles":
            return set_text(self.plan.authorised(number_list(rest)))
        if name == b"held-permissions":
            return set_text(self.plan.held(number_list(rest)))
        if name == b"judge":
            expect(rest, 0)
            found = judged(self.plan)
            if found is None:
                return "accepted"
            policy, users = found
            return "refused 7 policy %d users %d roles %s" % (
                policy, len(users), " ".join(set_text(u) for u in users))
        raise NotUnderstood


def script_lines(text):
    """The lines of a script: each without its LF and without one CR before that."""
    lines = text.split(b"\n")
    last = lines.pop()
    lines = [line[:-1] if line.endswith(b"\r") else line for line in lines]
    if last:
        lines.append(last)
    return lines


def perform(text, seen=lambda index, plan: None):
    """The lines that the console prints. `seen` is told the plan after each line."""
    if len(text) > LONGEST_INPUT:
        return [b"input too long"]
    console = Console()
    printed = []
    accepted = refused = unknown = 0
    for index, line in enumerate(script_lines(text)):
        if not line or line.startswith(b"#"):
            printed.append(line)
        else:
            try:
                answer = console.call(line)
                printed.append(line + b" -> " + answer.encode())
                if answer.startswith(("refused", "wrong")):
                    refused += 1
                else:
                    accepted += 1
            except NotUnderstood:
                printed.append(b"line %d: not understood" % (index + 1))
                unknown += 1
        seen(index, console.plan)
    printed.append(b"%d calls: %d accepted, %d refused, %d not understood" % (
        accepted + refused + unknown, accepted, refused, unknown))
    return printed


# ---- checking a console's output ----

def read_set(text):
    """The set that a text of the form {0 3} means, or None if it is none."""
    if not (text.startswith("{") and text.endswith("}")):
        return None
    try:
        numbers = [number(w.encode()) for w in text[1:-1].split(" ")] if text != "{}" else []
    except NotUnderstood:
        return None
    if any(n > 63 for n in numbers) or numbers != sorted(set(numbers)):
        return None
    return word_of(numbers)


def witness_fault(plan, expected, got):
    """What is wrong with a refusal of judge, or None. `expected` is a right answer."""
    try:
        head, sets = got.decode("ascii").split(" roles ")
    except ValueError:
        return "not of the form of a refusal"
    if head != expected.decode().split(" roles ")[0]:
        return "another refusal, policy or number of users"
    words = head.split(" ")
    policy, count = int(words[-3]), int(words[-1])
    users = [read_set(s + "}") for s in sets[:-1].split("} ")] if sets.endswith("}") else [None]
    if None in users:
        return "a role set is not written as a set"
    if len(users) != count:
        return "%d role sets for %d users" % (len(users), count)
    together = 0
    for roles in users:
        if not plan.satisfies(roles):
            return "user %s breaks a constraint" % set_text(roles)
        together |= plan.held(roles)
    missing = plan.policies[policy][0] & ~together
    if missing:
        return "nobody holds %s" % set_text(missing)
    return None


def copy_of(plan):
    other = Plan()
    other.juniors, other.grants = list(plan.juniors), list(plan.grants)
    other.policies, other.constraints = list(plan.policies), list(plan.constraints)
    return other


def differences(script, output):
    """The differences between an output and what the console must print for a script."""
    plans = {}
    judges = {i for i, line in enumerate(script_lines(script)) if line == b"judge"}

    def seen(index, plan):
        if index in judges:
            plans[index] = copy_of(plan)

    expected = perform(script, seen)
    found = []
    if output and not output.endswith(b"\n"):
        found.append("the output does not end in LF")
    got = output.split(b"\n")[:-1] if output.endswith(b"\n") else output.split(b"\n")
    for i in range(max(len(expected), len(got))):
        if i >= len(got):
            found.append("line %d is missing: %s" % (i + 1, shown(expected[i])))
            continue
        if i >= len(expected):
            found.append("line %d is too many: %s" % (i + 1, shown(got[i])))
            continue
        if got[i] == expected[i]:
            continue
        fault = "expected " + shown(expected[i])
        if i in plans and expected[i].startswith(b"judge -> refused 7 "):
            fault = witness_fault(plans[i], expected[i], got[i])
        if fault is not None:
            found.append("line %d: %s: %s" % (i + 1, shown(got[i]), fault))
    return found


def shown(line):
    return line.decode("utf-8", "backslashreplace")


def main(arguments):
    if not arguments:
        for line in perform(sys.stdin.buffer.read()):
            sys.stdout.buffer.write(line + b"\n")
        return 0
    if len(arguments) == 2 and arguments[0] == "--check":
        with open(arguments[1], "rb") as f:
            output = f.read()
        found = differences(sys.stdin.buffer.read(), output)
        for difference in found:
            print(difference)
        return 1 if found else 0
    print(__doc__, file=sys.stderr)
    return 2


if __name__ == "__main__":
    sys.exit(main(sys.argv[1:]))
