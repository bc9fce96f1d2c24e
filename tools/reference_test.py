#!/usr/bin/env python3
"""usage: reference_test.py [COUNT [SEED]]   compares reference.py with the bare definitions

Makes COUNT (2000) random tiny plans and tries every assignment to few users: sets of pairs,
reachability and counting, with none of the search in reference.py. Also damages right judge
lines and sees that --check refuses each. Ends with status 1 at the first difference.
"""
import itertools
import random
import sys

import reference


def script_of(rng):
    """A random tiny plan: its additions as console lines, and as plain lists."""
    roles, permissions = rng.randint(1, 5), rng.randint(2, 5)
    seniors, grants, policies, constraints, lines = [], [], [], [], ["new"]
    for _ in range(rng.randint(0, 4)):
        seniors.append((rng.randrange(roles), rng.randrange(roles)))
        lines.append("senior %d %d" % seniors[-1])
    for _ in range(rng.randint(0, 4 * roles)):
        grants.append((rng.randrange(roles), rng.randrange(permissions)))
        lines.append("grant %d %d" % grants[-1])
    for _ in range(rng.randint(0, 3)):
        some = rng.sample(range(permissions), rng.randint(2, permissions))
        policies.append((rng.choice((len(some), rng.randint(2, len(some)))), some))
    for _ in range(rng.randint(0, 3) if roles > 1 else 0):
        some = rng.sample(range(roles), rng.randint(2, roles))
        constraints.append((rng.choice((2, rng.randint(2, len(some)))), some))
    for name, items in (("policy", policies), ("constraint", constraints)):
        for limit, some in items:
            lines.append(" ".join([name, str(limit)] + [str(n) for n in some]))
    return roles, seniors, grants, policies, constraints, lines


def reaches(pairs, a, b):
    """Is a senior to b: the same role, or by way of the pairs?"""
    known, grew = {a}, True
    while grew:
        new = {y for x, y in pairs if x in known} - known
        grew = bool(new)
        known |= new
    return b in known


def by_definition(roles, seniors, grants, policies, constraints):
    """(refusals of the senior lines, None or (policy, fewest users)), by trying everything."""
    pairs, refusals = [], []
    for a, b in seniors:
        if a != b and reaches(pairs, b, a):
            refusals.append(3)
        else:
            refusals.append(0)
            pairs.append((a, b))
    juniors = {r: {s for s in range(roles) if reaches(pairs, r, s)} for r in range(roles)}
    users = set()                    # what a user that satisfies the constraints may hold
    for n in range(roles + 1):
        for assigned in itertools.combinations(range(roles), n):
            authorised = set().union(*[juniors[r] for r in assigned]) if assigned else set()
            if all(len(authorised & set(some)) < t for t, some in constraints):
                users.add(frozenset(p for r, p in grants if r in authorised))
    for number, (k, some) in enumerate(policies):
        for j in range(1, k):
            for chosen in itertools.combinations_with_replacement(users, j):
                if set(some) <= set().union(*chosen):
                    return refusals, (number, j)
    return refusals, None


def damaged(line, rng):
    """Wrong judge lines made of a right refusal."""
    head, sets = line.split(" roles ")
    words = head.split(" ")
    for at in (-1, -3):
        other = list(words)
        other[at] = str(int(other[at]) + 1)
        yield " ".join(other) + " roles " + sets
    yield "judge -> accepted"
    yield line + " {}"
    yield line + " "
    yield head + " roles " + " ".join(["{}"] * int(words[-1]))
    yield head
    yield head + " roles " + sets[:-1]
    yield head + " roles " + " ".join(["{%s}" % " ".join(str(n) for n in range(64))] * int(words[-1]))


def main(arguments):
    count = int(arguments[0]) if arguments else 2000
    rng = random.Random(int(arguments[1]) if len(arguments) > 1 else 1)
    accepted = refusals3 = damages = 0
    refused = [0] * 8                # by the number of users
    for _ in range(count):
        roles, seniors, grants, policies, constraints, lines = script_of(rng)
        script = "\n".join(lines + ["judge"]).encode()
        printed = [line.decode() for line in reference.perform(script)]
        refusals, verdict = by_definition(roles, seniors, grants, policies, constraints)
        wrong = []
        for i, refusal in enumerate(refusals):
            refusals3 += refusal == 3
            if not printed[1 + i].endswith("refused 3" if refusal else "accepted"):
                wrong.append(printed[1 + i])
        last = printed[-2]
        if verdict is None:
            accepted += 1
            if last != "judge -> accepted":
                wrong.append(last)
        else:
            refused[verdict[1]] += 1
            if not last.startswith("judge -> refused 7 policy %d users %d roles {" % verdict):
                wrong.append(last)
        output = ("\n".join(printed) + "\n").encode()
        wrong += reference.differences(script, output)
        if verdict is not None:
            for bad in damaged(last, rng):
                text = "\n".join(printed[:-2] + [bad, printed[-1]]) + "\n"
                if bad.endswith("}") and "roles {0 1 2" in bad and not constraints:
                    continue          # with no constraint a user may have every role
                damages += 1
                if not reference.differences(script, text.encode()):
                    wrong.append("taken for right: " + bad)
        if wrong:
            print("\n".join(lines + wrong + ["by the definitions: %r" % (verdict,)]))
            return 1
    print("%d plans: %d accepted, %d refused 7 (%s users); %d seniorities refused 3;"
          " %d damaged judge lines found"
          % (count, accepted, sum(refused),
             ", ".join("%d with %d" % (n, j) for j, n in enumerate(refused) if n),
             refusals3, damages))
    return 0


if __name__ == "__main__":
    sys.exit(main(sys.argv[1:]))
