"""Figures of a whole run of the gate, crate by crate, as gate/figures.md has them."""
import datetime
import os
import re

HEAD = """# Figures of the gate, crate by crate

`./check --all` writes this part of the file if it passes and no proof was kept from an earlier run on the machine. This was on {day}, with `{kit}`, on {cores} processors. It took {minutes:.0f} minutes by the clock and {spent:.0f} of processor time. All proofs, tests and programs took {proofs:.0f} of these.

The columns of the table:

- processor seconds to prove the crate from nothing and write its library, if the rounds need that
- how many mutations the crate has, and in how many rounds
- processor seconds of these, with those that were tried alone

| Crate | Seconds | Mutations | Rounds | Seconds |
|---|---|---|---|---|
"""
# The heading of the part that people write. It is kept.
BY_HAND = "\n## Measured by hand\n"


def is_from_nothing(lines):
    """Whether `rt ci`, which said this, made every proof itself."""
    done = [at for line in lines if (at := re.search(r"done in this run: (?:all|(\d+) of the (\d+)) ", line))]
    return bool(done) and done[-1][1] == done[-1][2]


def row(name, rounds):
    """A crate's row: what its proof and its wrong bodies took, where there are some."""
    count = sum(body.crate == name for body in rounds.bodies)
    tried = f"{count} | {len(rounds.planned[name][0])} | {rounds.seconds['tries', name]:.0f}" if count else "| |"
    return f"| `{name}` | {rounds.seconds['proof', name]:.0f} | {tried} |\n"


def minutes_spent():
    """The minutes of processor time of all commands that ended."""
    return sum(os.times()[2:4]) / 60


def text_of(rounds, kit, minutes, proofs):
    """The whole file, of a run that took so many minutes by the clock, and of processor time for the proofs."""
    head = HEAD.format(day=datetime.date.today(), kit=kit, cores=len(os.sched_getaffinity(0)), minutes=minutes, spent=minutes_spent(), proofs=proofs)
    return head + "".join(row(name, rounds) for name in rounds.crates if {("proof", name), ("tries", name)} & rounds.seconds.keys())


def by_hand(text):
    """Returns the part of the file that people write, with its heading."""
    return "".join(text.partition(BY_HAND)[1:])
