#!/usr/bin/env python3
"""usage: speed.py CONSOLE FOLDER   times CONSOLE on the plans in FOLDER; speed.sh calls it

A refusal is also looked at: its users must satisfy the constraints and hold the whole policy, and
a solver must not find fewer.
"""
import os
import resource
import shutil
import subprocess
import sys
import tempfile
import time

import families
import reference

CONSOLE_LIMIT = 60                 # seconds until a run is given up
SOLVERS = ("minisat", "cadical")
TRIVIAL = "p cnf 1 1\n1 0\n"


def clock():
    """Wall time, or with CLOCK=cpu the processor time of the programs run so far."""
    if os.environ.get("CLOCK", "wall") == "wall":
        return time.perf_counter()
    used = resource.getrusage(resource.RUSAGE_CHILDREN)
    return used.ru_utime + used.ru_stime


def timed(command, limit, text=b""):
    """(seconds, status, output), or (None, None, b"") after `limit` seconds."""
    with tempfile.TemporaryFile() as given:
        given.write(text)
        given.seek(0)
        start = clock()
        try:
            run = subprocess.run(command, stdin=given, stdout=subprocess.PIPE,
                                 stderr=subprocess.DEVNULL, timeout=limit)
        except subprocess.TimeoutExpired:
            return None, None, b""
        return clock() - start, run.returncode, run.stdout


def best(command, limit, text=b""):
    """The fastest of three runs; of one, if that took over a second."""
    results = []
    for _ in range(3):
        result = timed(command, limit, text)
        results.append(result)
        if result[0] is None or result[0] > 1:
            break
    return min(results, key=lambda r: CONSOLE_LIMIT + limit if r[0] is None else r[0])


class Solver:
    def __init__(self, name, limit):
        self.command = [name, "-verb=0" if name == "minisat" else "-q"]
        self.limit = limit
        with tempfile.NamedTemporaryFile("w", suffix=".cnf") as f:
            f.write(TRIVIAL)
            f.flush()
            self.start = best(self.command + [f.name], limit)[0]

    def solve(self, path):
        """(seconds or None, True or False or None): can the formula be satisfied?"""
        seconds, status, _ = best(self.command + [path], self.limit)
        if status not in (10, 20):
            return None, None
        return max(0.0, seconds - self.start), status == 10


def plan_of(script):
    console = reference.Console()
    for line in reference.script_lines(script):
        if line != b"judge":
            console.call(line)
    return console.plan


def fewer_users(plan, users, solver):
    """Does the solver find fewer users than these for policy 0? (None: it took too long)"""
    with tempfile.NamedTemporaryFile("w", suffix=".cnf") as f:
        f.write(families.dimacs(plan, plan.policies[0][0], users - 1))
        f.flush()
        return solver.solve(f.name)[1]


def shown(seconds, limit):
    return "-" if limit is None else "over %g" % limit if seconds is None else "%.4f" % seconds


def main(arguments):
    if len(arguments) != 2:
        print(__doc__, file=sys.stderr)
        return 2
    console, folder = arguments
    if os.sep in console:
        console = os.path.abspath(console)
    which = os.environ.get("SOLVERS", "all")
    limit = float(os.environ.get("SOLVER_LIMIT", "10"))
    only = os.environ.get("ONLY", "")
    solvers = {}
    for name in SOLVERS:
        if which != "none" and shutil.which(name):
            solvers[name] = Solver(name, limit)
        else:
            print("%s: %s" % (name, "left out" if which == "none" else "not installed, left out"))
    empty = best([console], CONSOLE_LIMIT)[0]
    print("empty script: %.4f s" % empty)
    row = "%-22s %2s %4s  %-11s %8s %6s %9s %9s  %s"
    print(row % ("plan", "k", "t", "verdict", "seconds", "limit", "minisat", "cadical", ""))
    faults, slowest, undecided, slower = 0, {}, 0, 0
    with open(os.path.join(folder, "table.tsv")) as f:
        table = [line.rstrip("\n").split("\t") for line in f][1:]
    for name, family, k, t, allowed, fewest, canonical in table:
        if not name.startswith(only):
            continue
        path = os.path.join(folder, name)
        with open(path + ".txt", "rb") as f:
            script = f.read()
        remarks = []
        seconds, status, output = best([console], CONSOLE_LIMIT, script)
        judge = [line for line in output.split(b"\n") if line.startswith(b"judge -> ")]
        verdict, users = "none", None
        if seconds is not None:
            seconds = max(0.0, seconds - empty)
            if status != 0 or len(judge) != 1:
                remarks.append("NO VERDICT")
            elif judge[0] == b"judge -> accepted":
                verdict = "accepted"
            else:
                plan = plan_of(script)
                fault = reference.witness_fault(plan, judge[0], judge[0])
                if fault or not judge[0].startswith(b"judge -> refused 7 policy 0 users "):
                    remarks.append("WRONG WITNESS: %s" % fault)
                else:
                    users = int(judge[0].split(b" ")[7])
                    verdict = "%d users" % users
                    if users >= int(k):
                        remarks.append("WRONG: not fewer than k")
        if seconds is None or seconds > float(allowed):
            remarks.append("OVER ITS LIMIT")
        if fewest != "-" and seconds is not None:
            right = "accepted" if int(fewest) >= int(k) else "%s users" % fewest
            if verdict != right:
                remarks.append("WRONG: %s is right" % right)
        times, known = {}, fewest != "-"
        if which == "all" or canonical == "yes":
            for solver in solvers:
                took, found = solvers[solver].solve(path + ".cnf")
                times[solver] = took
                known = known or found is not None
                if found is not None and verdict != "none" and found != (users is not None):
                    remarks.append("DISAGREES with %s" % solver)
            if users is not None and users > 1 and "cadical" in solvers and fewest == "-":
                if fewer_users(plan, users, solvers["cadical"]):
                    remarks.append("WRONG: fewer users do")
            done = [s for s in times.values() if s is not None]
            if canonical == "yes" and seconds is not None and done and seconds > min(done) + 0.001:
                slower += 1
                remarks.append("slower than a solver")
        undecided += not known
        faults += any(r[:4].isupper() for r in remarks)
        slowest[family] = max(slowest.get(family, 0), CONSOLE_LIMIT if seconds is None else seconds)
        print(row % (name, k, t, verdict, shown(seconds, CONSOLE_LIMIT), allowed,
                     shown(times.get("minisat"), limit if "minisat" in times else None),
                     shown(times.get("cadical"), limit if "cadical" in times else None),
                     ", ".join(remarks)), flush=True)
    for family in slowest:
        print("slowest of %-13s %.4f s" % (family, slowest[family]))
    print("%d canonical plans slower than the better solver by over a millisecond" % slower)
    print("%d verdicts that neither arithmetic nor a solver confirmed" % undecided)
    print("%d plans at fault" % faults)
    return 1 if faults else 0


if __name__ == "__main__":
    sys.exit(main(sys.argv[1:]))
