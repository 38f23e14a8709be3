"""Counts what going back costs in the debugger at the end of a long run: processor instructions by valgrind, the same on each run.

    python3 debugging.py PROGRAM [BACKS]

The scenario has a million instructions of mixed kinds. `goto 1000000` is counted alone, with BACKS times `back 1` behind it (1,000, if it
isn't given), and with a way to each of 100 positions at random. It prints what each costs, and is no part of the gate."""
import pathlib
import re
import subprocess
import sys
import tempfile

from scenarios import Numbers, declared, head

LENGTH = 1_000_000


def scenario():
    """Works of two queues that burn, sleep and queue one another, and an actor who asks, delays and flushes between many moves."""
    numbers = Numbers(5)
    bodies = [[f"burn {1 + at % 5}", f"sleep {1 + numbers.below(9)}", f"burn {1 + numbers.below(4)}", f"queue w{(at + 3) % 16} {at % 2}"] for at in range(16)]
    works = [(f"w{at}", f"q{at % 2}", body) for at, body in enumerate(bodies)]
    turn = ["next * 40", "busy", "delay w3 0 7", "state w5", "mod w3 1 9", "cancel w3", "set_max q1 4", "queue w8 1", "next * 13"]
    length = sum(int(line.partition(" * ")[2] or 1) for line in turn)
    times = LENGTH // length // 300
    lines = [line.partition(" * ")[0] + f" * {int(line.partition(' * ')[2] or 1) * times}" for line in turn] * 300
    left = LENGTH - 300 * times * length
    lines += ["next * 65535"] * (left // 65_535) + [f"next * {left % 65_535}"]
    queues = [("q0", "max 3"), ("q1", "max 2 unbound")]
    return "\n".join([*head(2, 4), *declared(queues, works), "actor x", *lines]) + "\n"


def count(program, file, commands, room):
    """How many processor instructions the program takes for the commands."""
    tool = ["valgrind", "--tool=callgrind", f"--callgrind-out-file={room}/callgrind.out"]
    ran = subprocess.run([*tool, program, "debug", file], input="\n".join(commands) + "\n", capture_output=True, text=True)
    found = re.search(r"Collected : (\d+)", ran.stderr)
    if ran.returncode or not found:
        sys.exit(f"debugging: {program} failed: {ran.stderr[-400:]}")
    if "refused" in ran.stdout or len(ran.stdout.splitlines()) != len(commands):
        sys.exit(f"debugging: {program} refuses a command: {ran.stdout[:400]}")
    return int(found[1])


def ways(most):
    """Ways to 100 positions at random."""
    numbers = Numbers(6)
    return [f"goto {numbers.below(most)}" for _way in range(100)]


def main(program, backs):
    end = f"goto {LENGTH}"
    with tempfile.TemporaryDirectory() as room:
        file = pathlib.Path(room) / "long.cmwq"
        file.write_text(scenario(), encoding="utf-8")
        there = count(program, file, [end], room)
        print(f"{end:<24}{there:>16,}")
        back = count(program, file, [end, *["back 1"] * backs], room) - there
        print(f"{'back 1':<24}{back // backs:>16,}   on average of {backs}")
        if backs >= 100:
            random = count(program, file, [end, *ways(LENGTH)], room) - there
            print(f"{'to a position':<24}{random // 100:>16,}   on average of 100 at random")


if __name__ == "__main__":
    if len(sys.argv) not in (2, 3):
        sys.exit(__doc__)
    main(sys.argv[1], int(sys.argv[2]) if len(sys.argv) == 3 else 1_000)
