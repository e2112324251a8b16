"""A day as an answer set program, and what gringo and clasp say of it; bench/clasp_alone checks it.

The program has an atom `at(C,P)` for choice C at place P, 255 for omitted, and nothing else that can differ, so
its answer sets are the day's plans, each once. It is told from the plan check of 01, with no rule of the listing's
engine. Needed: Debian's gringo and clasp.
"""

import json
import subprocess
import sys
from collections import namedtuple
from pathlib import Path

HERE = Path(__file__).resolve().parent

sys.path.insert(0, str(HERE.parent / "oracle"))
sys.dont_write_bytecode = True
from cases.common import parts  # noqa: E402
from listing import OUT  # noqa: E402

OPS = {1: "=", 2: ">", 3: ">=", -1: "!=", -2: "<=", -3: "<"}

# clasp's exit codes: stopped by a limit without and with a plan, stopped after the plans asked; none, all met.
STOPPED, ENDED = (0, 1, 10, 11), (20, 30)

# What clasp said: plans met, whether these are all, seconds of its processor time.
Said = namedtuple("Said", "plans ended seconds")


# The program.


def one_place(day, choice):
    """Each choice has one place; omitted needs optional."""
    places = list(range(day.slots)) + ([OUT] if day.optional[choice] else [])
    if not places:
        return ":- ."
    return "1 { " + "; ".join(f"at({choice},{place})" for place in places) + " } 1."


def sums(day, slot):
    """Each slot: sum of minimums <= H <= sum of maximums."""
    mins, maxs = ("; ".join(f"{size},{choice} : at({choice},{slot})" for choice, size in enumerate(sizes))
                  for sizes in (day.mins, day.maxs))
    yield f":- not #sum {{ {mins} }} <= {day.choosers}."
    yield f":- not #sum {{ {maxs} }} >= {day.choosers}."


def moved(day, one, other, offset):
    """Where the one stands in a slot, the other stands in the slot that the offset leads to."""
    for slot in range(day.slots):
        if 0 <= slot + offset < day.slots:
            yield f":- at({one},{slot}), not at({other},{slot + offset})."
        else:
            yield f":- at({one},{slot})."


def row_lines(day, number):
    """A row, by the plan check's sentences."""
    kind, left, right, extra = parts(number)
    if kind == 1:
        yield f":- not at({left},{right})."
    elif kind == 2:
        yield f":- at({left},{right})."
    elif kind == 3:
        yield from moved(day, left, right, 0)
        yield from moved(day, right, left, 0)
    elif kind == 4:
        yield from (f":- at({left},{slot}), at({right},{slot})." for slot in range(day.slots))
    elif kind == 5:
        yield from moved(day, left, right, extra)
        yield from moved(day, right, left, -extra)
    else:
        inside = "; ".join(f"{choice} : at({choice},{left})" for choice in range(len(day.mins)))
        yield f":- not #count {{ {inside} }} {OPS[extra]} {right}."


def up_to(day, last):
    """Only plans up to this one in dictionary order: the same, or before it at the first choice that differs."""
    yield "same(0)."
    for choice, place in enumerate(last):
        yield f"same({choice + 1}) :- same({choice}), at({choice},{place})."
        before = [slot for slot in range(day.slots) if slot < place]
        yield from (f"kept :- same({choice}), at({choice},{slot})." for slot in before)
    yield f"kept :- same({len(last)})."
    yield ":- not kept."


def program(day, last=None):
    """The day, as oracle/real_days.py hands it over, as an answer set program; up to a last plan if one is given."""
    lines = [one_place(day, choice) for choice in range(len(day.mins))]
    lines += [line for slot in range(day.slots) for line in sums(day, slot)]
    lines += [line for number in day.rows for line in row_lines(day, number)]
    lines += up_to(day, last) if last is not None else []
    return "\n".join(lines + ["#show at/2."]) + "\n"


# gringo and clasp.


def ground(day, last=None):
    """The program without variables, as clasp reads it."""
    text = program(day, last).encode()
    return subprocess.run(["gringo", "-Wnone"], input=text, stdout=subprocess.PIPE, check=True).stdout


def clasp(grounded, *options):
    """What clasp wrote, and whether it says that it met every plan."""
    run = subprocess.run(["clasp", *options], input=grounded, stdout=subprocess.PIPE, stderr=subprocess.DEVNULL)
    assert run.returncode in STOPPED + ENDED, f"clasp failed with {run.returncode}"
    return run.stdout.decode(), run.returncode in ENDED


def asked(grounded, number, limit, *options):
    """Up to so many plans (0: all) within so many seconds, none printed. `ended` says that there is no other."""
    limits = [f"--time-limit={limit}"] if limit else []
    out, ended = clasp(grounded, "-n", str(number), "-q", "--outf=2", *limits, *options)
    told = json.loads(out)
    # Stopped before it began to look, clasp tells of no plans at all, and stopped while it read, of no time.
    return Said(told.get("Models", {"Number": 0})["Number"], ended, told.get("Time", {"CPU": limit})["CPU"])


def all_plans(grounded):
    """Every plan as a tuple of places, in dictionary order."""
    out, ended = clasp(grounded, "-n", "0", "-V1", "--outf=0")
    assert ended
    plans, lines = [], out.splitlines()
    for at, line in enumerate(lines):
        if line.startswith("Answer:"):
            cells = sorted(tuple(map(int, atom[3:-1].split(","))) for atom in lines[at + 1].split())
            plans.append(tuple(place for _, place in cells))
    return sorted(plans)
