"""What a search of all orders takes: states, the processor's seconds, and microseconds and bytes a state.

    python3 bench/explore.py FOLDER [PROGRAM]

FOLDER has scenarios, and ANSWERS.txt with a line for each question: `SCENARIO | WORDS | status N | LINE`, where LINE tells what comes out.
First each of these is asked; then, of each scenario, all that can be reached is counted, up to 100,000 states, by asking of a work that
nobody queues. It fails where something else comes out.

PROGRAM is `bench_explore`, which this builds where it isn't there: unproved, and about as fast as a proved one (quick.py)."""
import os
import pathlib
import re
import subprocess
import sys
import tempfile

sys.dont_write_bytecode = True
import programs
import quick

NAME = "bench_explore"
# How many states can be reached, where no question tells it.
SPACES = {"cancel_race": 24757}


def build(program):
    """Builds the program in a folder of its own, beside the crates that it uses."""
    with tempfile.TemporaryDirectory(prefix="explore-") as folder:
        room = programs.use(NAME, folder)
        said = quick.module_of(room)
        if said is not None:
            sys.exit("\n".join(said.splitlines()[-30:]))
        quick.compile_module(room, program)


def asked(program, text, words):
    """What the program printed, the processor's seconds, and the most bytes that it had: as time(1) tells them, since a child of this
    program would count this program's memory too."""
    with open(text, "rb") as it, tempfile.NamedTemporaryFile("r") as used:
        out = subprocess.run(["/usr/bin/time", "-f", "%U %S %M", "-o", used.name, program, *words], stdin=it, stdout=subprocess.PIPE, check=True, text=True).stdout
        user, system, kilobytes = used.read().split()
    return out.strip(), float(user) + float(system), int(kilobytes) * 1024


def wanted(told):
    """The numbers that the program prints for this line, as far as the line tells them."""
    states = re.search(r"in all (\d+) states", told)
    if not states:
        return "found", []
    return "whole", [int(states[1]), *(int(it) for it in re.findall(r" in (\d+)\b", told[states.end() :]))]


def told_of(name, words, answer, seconds, most, base, is_right):
    """The line of one search."""
    kind, *numbers = answer.rsplit(" ", 1 if answer.startswith("found") else 4)
    states = 0 if kind == "found" else int(re.search(r"\d+", answer)[0])
    each = f"{states:9} {seconds:8.2f} {seconds / states * 1e6:8.1f} {(most - base) / states:8.0f}" if states > 1000 else f"{states or kind + ' ' + numbers[0]:>9} {seconds:8.2f}"
    return f"{name:12} {words:70} {each}{'' if is_right else '   WRONG: ' + answer}"


def with_more(text):
    """The scenario with one more work, which nobody queues."""
    lines = text.splitlines()
    queue = next(it.split()[1] for it in lines if it.startswith("queue "))
    lines.insert(max(i for i, it in enumerate(lines) if it.startswith("work ")) + 1, f"work nothing {queue}")
    first = next(i for i, it in enumerate(lines) if it.startswith("actor "))
    return "\n".join([*lines[:first], "body nothing", "finish", *lines[first:], ""])


def main(folder, program):
    folder = pathlib.Path(folder)
    spaces, wrong = dict(SPACES), 0
    base = asked(program, next(folder.glob("*.cmwq")), [])[2]
    print(f"{'scenario':12} {'words':70} {'states':>9} {'seconds':>8} {'us each':>8} {'B each':>8}")
    for line in (folder / "ANSWERS.txt").read_text("utf-8").splitlines():
        name, words, _, told = (it.strip() for it in line.split("|"))
        kind, numbers = wanted(told)
        if numbers and "--before" not in words:
            spaces[name] = numbers[0]
        answer, seconds, most = asked(program, folder / f"{name}.cmwq", words.split())
        is_right = answer.startswith(kind) and [int(it) for it in answer.split()[1 : 1 + len(numbers)]] == numbers
        wrong += not is_right
        print(told_of(name, words, answer, seconds, most, base, is_right))
    for text in sorted(folder.glob("*.cmwq")):
        with tempfile.NamedTemporaryFile("w", suffix=".cmwq") as more:
            more.write(with_more(text.read_text("utf-8")))
            more.flush()
            answer, seconds, most = asked(program, more.name, ["--never", "nothing"])
        is_right = text.stem not in spaces or answer.startswith(f"whole {spaces[text.stem]} ")
        wrong += not is_right
        print(told_of(text.stem, "(all)" + (", given up" if answer.startswith("gave") else ""), answer, seconds, most, base, is_right))
    sys.exit(f"{wrong} came out otherwise" if wrong else 0)


if __name__ == "__main__":
    if len(sys.argv) not in (2, 3):
        sys.exit(__doc__)
    if len(sys.argv) == 3 and os.path.exists(sys.argv[2]):
        main(*sys.argv[1:])
    with tempfile.TemporaryDirectory() as room:
        built = sys.argv[2] if len(sys.argv) == 3 else f"{room}/{NAME}"
        build(built)
        main(sys.argv[1], built)
