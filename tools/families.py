#!/usr/bin/env python3
"""usage: families.py FOLDER   writes the plans whose judging is timed into FOLDER

Each plan is a console script with one policy and one judge, NAME.txt, and the same question in
DIMACS CNF, NAME.cnf: can at most k - 1 users that satisfy the constraints hold the whole policy?
The formula can be satisfied exactly when judge refuses. table.tsv has a line for each plan:
name, family, k, t, limit in seconds, fewest users where known (else -), canonical (yes or no).
A plan is canonical when every constraint's limit is the size of its set.

The families:
  all-roles     16 permissions, each granted to four of 64 roles, one constraint over all roles
  halves        the same roles, with one constraint for each half of them
  halves-loose  the same behind one loose constraint over all roles with limit 20
  random        8 to 16 permissions, 20 to 64 roles, some seniority, 20 to 64 constraints
  random-whole  the same with every limit the size of its set
  pairs         16 permissions with three roles each and 64 exclusive pairs, k = 2
  dense         16 permissions with two or three of 16 to 24 roles each and 64 exclusive pairs
  cliques       one role for each of 8 to 11 permissions, every two of them exclusive

In the CNF user i and role r are variable 64 * i + r + 1. For each user there is a clause for each
pair of different roles in seniority (not the senior, or the junior), then the clauses of each
constraint: for a canonical one a single clause (not all of its roles), for another a sequential
counter with variables of its own, numbered behind all others. Last comes a clause for each
permission: some user, some role that is granted it directly.
"""
import os
import random
import sys

import reference

ALL = (1 << 64) - 1


def cnf(plan, permissions, users):
    """(number of variables, clauses): can this many users hold the permissions?"""
    variables = 64 * users
    clauses = []
    for user in range(users):
        def has(role):
            return 64 * user + role + 1
        for senior in reference.NUMBERS:
            for junior in reference.members(plan.juniors[senior]):
                if junior != senior:
                    clauses.append([-has(senior), has(junior)])
        for roles, limit in plan.constraints:
            names = [has(r) for r in reference.members(roles)]
            if limit == len(names):
                clauses.append([-x for x in names])
                continue
            most = limit - 1              # counted[i][j]: more than j of the first i + 1 roles
            counted = [[variables + most * i + j + 1 for j in range(most)]
                       for i in range(len(names))]
            variables += most * len(names)
            for i, x in enumerate(names):
                clauses.append([-x, counted[i][0]])
                if i == 0:
                    clauses += [[-y] for y in counted[0][1:]]
                    continue
                for j in range(most):
                    clauses.append([-counted[i - 1][j], counted[i][j]])
                    if j > 0:
                        clauses.append([-x, -counted[i - 1][j - 1], counted[i][j]])
                clauses.append([-x, -counted[i - 1][most - 1]])
    for permission in reference.members(permissions):
        clauses.append([64 * user + role + 1 for user in range(users)
                        for role in reference.NUMBERS if plan.grants[role] >> permission & 1])
    return variables, clauses


def dimacs(plan, permissions, users):
    variables, clauses = cnf(plan, permissions, users)
    lines = ["p cnf %d %d" % (variables, len(clauses))]
    lines += [" ".join(str(x) for x in clause + [0]) for clause in clauses]
    return "\n".join(lines) + "\n"


def canonical(plan):
    return all(limit == reference.size(roles) for roles, limit in plan.constraints)


class Written:
    """A plan together with the lines that make it."""

    def __init__(self):
        self.plan = reference.Plan()
        self.lines = ["new"]

    def senior(self, a, b):
        if self.plan.add_senior(a, b) == 0:
            self.lines.append("senior %d %d" % (a, b))

    def grant(self, role, permission):
        if not self.plan.grants[role] >> permission & 1:
            assert self.plan.add_grant(role, permission) == 0
            self.lines.append("grant %d %d" % (role, permission))

    def policy(self, k, permissions):
        assert self.plan.add_policy(k, permissions) == 0
        self.numbers("policy", k, permissions)

    def constraint(self, t, roles):
        assert self.plan.add_constraint(t, roles) == 0
        self.numbers("constraint", t, roles)

    def numbers(self, name, n, word):
        self.lines.append(" ".join(str(x) for x in [name, n] + reference.members(word)))


def four_roles_each():
    """Role r is granted permission r modulo 16."""
    w = Written()
    for role in range(64):
        w.grant(role, role % 16)
    return w


def some_roles(rng, roles, count):
    return reference.word_of(rng.sample(range(roles), count))


def random_plan(rng, whole):
    w = Written()
    permissions, roles = rng.randint(8, 16), rng.randint(20, 64)
    for role in range(roles):
        for _ in range(rng.randint(1, 3)):
            w.grant(role, rng.randrange(permissions))
    for _ in range(rng.randrange(20)):
        w.senior(rng.randrange(roles), rng.randrange(roles))
    for _ in range(rng.randint(20, 64)):
        count = rng.randint(2, 5)
        w.constraint(count if whole else rng.randint(2, count), some_roles(rng, roles, count))
    w.policy(rng.randint(2, min(8, permissions)), (1 << permissions) - 1)
    return w


def exclusive_pairs(rng, roles, each, k):
    w = Written()
    for permission in range(16):
        for role in rng.sample(range(roles), each):
            w.grant(role, permission)
    pairs = set()
    while len(pairs) < 64:
        pairs.add(some_roles(rng, roles, 2))
    for pair in sorted(pairs):
        w.constraint(2, pair)
    w.policy(k, (1 << 16) - 1)
    return w


def clique(roles, k):
    w = Written()
    for role in range(roles):
        w.grant(role, role)
    for a in range(roles):
        for b in range(a + 1, roles):
            w.constraint(2, 1 << a | 1 << b)
    w.policy(k, (1 << roles) - 1)
    return w


def shares(each):
    """How many users 16 permissions take when a user holds at most so many of them."""
    return -(-16 // each)


def families():
    """(name, family, t, limit in seconds, fewest users or None, plan) for each plan."""
    for t in range(2, 10):
        for k in range(2, 9):
            w = four_roles_each()
            w.constraint(t, ALL)
            w.policy(k, 0xffff)
            yield "all-roles-t%d-k%d" % (t, k), "all-roles", str(t), 0.1, shares(t - 1), w
    for loose in (False, True):
        family = "halves-loose" if loose else "halves"
        for a, b in ((2, 2), (2, 3), (3, 3), (3, 4), (4, 4), (4, 5), (5, 5)):
            for k in range(2, 9):
                w = four_roles_each()
                if loose:
                    w.constraint(20, ALL)
                w.constraint(a, ALL >> 32)
                w.constraint(b, ALL & ~(ALL >> 32))
                w.policy(k, 0xffff)
                yield ("%s-t%d-%d-k%d" % (family, a, b, k), family, "%d,%d" % (a, b), 0.2,
                       shares(a + b - 2), w)
    rng = random.Random(1)
    for i in range(50):
        yield "random-%02d" % i, "random", "-", 0.1, None, random_plan(rng, False)
    for i in range(30):
        yield "random-whole-%02d" % i, "random-whole", "-", 0.1, None, random_plan(rng, True)
    for roles in (24, 32, 40, 48, 64):
        for i in range(6):
            yield ("pairs-%d-%d" % (roles, i), "pairs", "2", 0.01, None,
                   exclusive_pairs(rng, roles, 3, 2))
    for roles in (16, 18, 20, 24):
        for each in (2, 3):
            for k in range(2, 7):
                yield ("dense-%d-%d-k%d" % (roles, each, k), "dense", "2", 0.2, None,
                       exclusive_pairs(rng, roles, each, k))
    for roles in range(8, 12):
        for k in range(2, 9):
            yield ("cliques-%d-k%d" % (roles, k), "cliques", "2", 0.1, roles,
                   clique(roles, k))


def main(arguments):
    if len(arguments) != 1:
        print(__doc__, file=sys.stderr)
        return 2
    folder = arguments[0]
    os.makedirs(folder, exist_ok=True)

    def write(name, text):
        with open(os.path.join(folder, name), "w") as f:
            f.write(text)

    table = ["name\tfamily\tk\tt\tlimit\tfewest\tcanonical"]
    for name, family, t, limit, fewest, w in families():
        permissions, k = w.plan.policies[0]
        write(name + ".txt", "\n".join(w.lines + ["judge"]) + "\n")
        write(name + ".cnf", dimacs(w.plan, permissions, k - 1))
        table.append("\t".join([name, family, str(k), t, str(limit),
                                "-" if fewest is None else str(fewest),
                                "yes" if canonical(w.plan) else "no"]))
    write("table.tsv", "\n".join(table) + "\n")
    return 0


if __name__ == "__main__":
    sys.exit(main(sys.argv[1:]))
