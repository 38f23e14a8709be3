"""Asks whether a program and the baseline print the same on random scenarios, which use every flag, operation and instruction. Both list
each scenario, and run it. The scenarios are the same on each run, by their numbers.

    python3 agree.py PROGRAM BASELINE [COUNT [FIRST]]

It ends at the first scenario on which they differ, which it leaves as disagreement.cmwq in the current folder. It is no part of the gate."""
import os
import shutil
import subprocess
import sys
import tempfile

from scenarios import FLAGS, Numbers, declared

# How a scenario's numbers are drawn: few of everything, so that much collides, or many.
SIZES = [(1, 1, 1, 2), (1, 2, 2, 4), (2, 3, 3, 8), (1, 64, 2, 40), (3, 2, 6, 30), (16, 5, 32, 256)]

# How the lines begin that give flushes.
FLUSHES = ("flush", "cancel_sync")


class Draw(Numbers):
    def among(self, items):
        return items[self.below(len(items))]

    def chance(self, percent):
        return self.below(100) < percent


def queue_words(draw):
    """What stands behind a queue's name."""
    if draw.chance(12):
        flags, limit = [flag for flag in FLAGS if draw.chance(25)] + ["ordered"], 1
    else:
        flags, limit = [flag for flag in FLAGS if draw.chance(25)], draw.among([1, 1, 2, 3, 5, 512])
    return f"max {limit} {' '.join(flags)}".rstrip()


def operation(draw, cpus, works):
    ticks, work, after = draw.among([1, 1, 2, 3, 5, 9, 40]), draw.among(works), draw.among([0, 0, 1, 2, 5, 20])
    kinds = [*[f"burn {ticks}"] * 4, *[f"sleep {ticks}"] * 3, *[f"queue {work} {draw.below(cpus)}"] * 2]
    return draw.among([*kinds, f"delay {work} {after}", f"mod {work} {after}", f"cancel {work}"])


def body(draw, cpus, works):
    most = draw.among([0, 1, 2, 4, 8, 63])
    return [operation(draw, cpus, works) for _at in range(draw.below(most + 1))]


def awaiting(draw, lines):
    """A line that goes on for something, behind these lines: for a time to which a run has come by then, roughly, for one of the last flushes,
    or for the end."""
    given = sum(line.startswith(FLUSHES) for line in lines)
    time = len(lines) * draw.among([1, 2, 3, 4, 5]) // 2 + draw.below(12)
    flush = draw.among([max(0, given - 1), max(0, given - 2), draw.below(3), draw.below(12)])
    return draw.among([*[f"until {time}"] * 2, *[f"wait {flush}"] * 2, "quiet"])


def instruction(draw, lines, cpus, works, queues):
    """One line of an actor behind these, without how often it stands."""
    work, cpu = draw.among(works), draw.below(cpus + draw.chance(3))
    ticks, pool = draw.among([0, 1, 1, 2, 4, 7, 30]), draw.below(2 * cpus + 2 + draw.chance(3))
    if draw.chance(34):
        return "next"
    if draw.chance(40 if lines and lines[-1].startswith(FLUSHES) else 12):
        return awaiting(draw, lines)
    if draw.chance(40):
        return draw.among([f"queue {work} {cpu}"] * 6 + [f"step {pool}", "tick", "fire"])
    kinds = [*[f"delay {work} {cpu} {ticks}"] * 2, *[f"mod {work} {cpu} {ticks}"] * 3, f"cancel {work}", f"cancel {work}", f"cancel_sync {work}"]
    kinds += [f"flush {work}", f"flush_delayed {work}", f"flush_queue {draw.among(queues)}", *[f"ask {draw.below(12)}"] * 3]
    kinds += [f"set_max {draw.among(queues)} {draw.among([1, 1, 2, 3, 512, draw.among([0, 513])])}", f"disable {work}", *[f"enable {work}"] * 2]
    kinds += ["freeze", "thaw", "busy", "pressure", "relief", *[f"state {work}"] * 5]
    return draw.among(kinds)


def times(draw, line):
    """How often a line stands."""
    is_awaiting = line.startswith(("until", "wait", "quiet"))
    return draw.among([1, 1, 2, 3, 8, 30] if line == "next" else [1, 2, 8, 40, 200] if is_awaiting else [1] * 30 + [2, 5])


def scenario(number):
    """The text of the scenario of this number."""
    draw = Draw(number * 7_919 + 1)
    cpus, workers, queue_count, work_count = draw.among(SIZES)
    queues = [f"q{at}" for at in range(1 + draw.below(queue_count))]
    works = [f"w{at}" for at in range(1 + draw.below(work_count))]
    front = [f"cpus {cpus}", f"workers {workers}", f"steps {draw.among([300, 200_000, 200_000])}", f"flushes {draw.among([0, 3, 200, 200])}"]
    front += declared([(name, queue_words(draw)) for name in queues], [(name, draw.among(queues), body(draw, cpus, works)) for name in works])
    lines = []
    for _turn in range(draw.among([20, 150, 600])):
        line = instruction(draw, lines, cpus, works, queues)
        count = times(draw, line)
        lines.append(line if count == 1 else f"{line} * {count}")
    if draw.chance(2):
        lines += [f"disable {works[0]} * 65535", f"disable {works[0]} * 2", f"enable {works[0]} * 65535", f"enable {works[0]}"]
    return "".join(f"{line}\n" for line in [*front, "actor t", *lines])


def said(program, command, path):
    ran = subprocess.run([program, command, path], capture_output=True, timeout=600)
    return ran.returncode, ran.stdout


def main(program, baseline, count="1000", first="0"):
    with tempfile.TemporaryDirectory(prefix="agree-") as room:
        path = os.path.join(room, "scenario.cmwq")
        for number in range(int(first), int(first) + int(count)):
            text = scenario(number)
            with open(path, "w", encoding="utf-8") as it:
                it.write(text)
            for command in ("run", "list"):
                theirs = said(baseline, command, path)
                if theirs[0] or said(program, command, path) != theirs:
                    shutil.copy(path, "disagreement.cmwq")
                    sys.exit(f"agree: they don't {command} scenario {number} alike: disagreement.cmwq")
    print(f"agree: {count} scenarios, from number {first} on, are run and listed alike")


if __name__ == "__main__":
    if not 3 <= len(sys.argv) <= 5:
        sys.exit(__doc__)
    main(*sys.argv[1:])
