"""Compares a program with the baseline: first that both print the same on each scenario of a folder, then how many instructions of the
processor (by valgrind, the same on each run) they take. Prints a table, and writes it to ratios.figures beside this script.

    python3 ratios.py PROGRAM BASELINE FOLDER

FOLDER is what scenarios.py wrote. It is no part of the gate."""
import pathlib
import re
import subprocess
import sys
import tempfile

COLUMNS = "{:<14}{:>14}{:>10}{:>14}{:>14}{:>9}"


def command_of(scenario):
    return "list" if scenario.name.startswith("f_list") else "run"


def printed(program, scenario):
    """What the program prints, and its status."""
    ran = subprocess.run([program, command_of(scenario), scenario], capture_output=True, timeout=3600)
    return ran.returncode, ran.stdout


def differences(program, baseline, scenarios):
    """On which scenarios the two don't print the same, or fail."""
    for scenario in scenarios:
        (status, ours), (other, theirs) = printed(program, scenario), printed(baseline, scenario)
        if (status, other) != (0, 0):
            yield f"{scenario}: the statuses are {status} and {other}"
        elif ours != theirs:
            pairs = zip(ours.splitlines() + [b"(the end)"], theirs.splitlines() + [b"(the end)"])
            at, (one, two) = next((at, pair) for at, pair in enumerate(pairs, 1) if pair[0] != pair[1])
            yield f"{scenario}: line {at} of what is printed is {one.decode()!r} and {two.decode()!r}"


def count(program, scenario, room):
    """How many instructions of the processor the program takes."""
    tool = ["valgrind", "--tool=callgrind", f"--callgrind-out-file={room}/callgrind.out"]
    ran = subprocess.run([*tool, program, command_of(scenario), scenario], stdout=subprocess.DEVNULL, stderr=subprocess.PIPE, text=True)
    found = re.search(r"Collected : (\d+)", ran.stderr)
    if ran.returncode or not found:
        sys.exit(f"ratios: {program} under valgrind failed on {scenario}:\n{ran.stderr[-600:]}")
    return int(found[1])


def units(scenario):
    """How many instructions the actor of a scenario has, each as often as it stands; of a large text, how many bytes it has."""
    if scenario.name.startswith("f_"):
        return scenario.stat().st_size - scenario.with_suffix(".empty").stat().st_size
    actor = scenario.read_text("utf-8").partition("\nactor ")[2].splitlines()[1:]
    return sum(int(line.partition(" * ")[2] or 1) for line in actor)


def nets(program, baseline, scenario, room):
    """What both take for each instruction of the scenario, net of its companion."""
    parts = units(scenario)
    return [(count(it, scenario, room) - count(it, scenario.with_suffix(".empty"), room)) / parts for it in (program, baseline)]


def rows(program, baseline, scenarios, room):
    """The table's lines, as they come."""
    yield COLUMNS.format("scenario", "instructions", "", "program", "baseline", "ratio")
    bases = {}
    for scenario in scenarios:
        net, base = nets(program, baseline, scenario, room)
        kind, _, size = scenario.stem.partition("_")
        growth = ""
        if size.isdecimal():
            first = bases.setdefault(kind, net)
            growth = f"   {net / first:.2f} of {kind}_{min_size(scenarios, kind)}"
        unit = "bytes" if scenario.name.startswith("f_") else ""
        yield COLUMNS.format(scenario.stem, units(scenario), unit, f"{net:.1f}", f"{base:.1f}", f"{net / base:.2f}") + growth


def min_size(scenarios, kind):
    return min(int(it.stem.partition("_")[2]) for it in scenarios if it.stem.startswith(f"{kind}_"))


def order(scenario):
    """The lettered scenarios first, then those that grow, by their sizes."""
    kind, _, size = scenario.stem.partition("_")
    return (len(kind) > 1, kind, int(size) if size.isdecimal() else 0, size)


def main(program, baseline, folder):
    scenarios = sorted(pathlib.Path(folder).glob("*.cmwq"), key=order)
    if not scenarios:
        sys.exit(f"ratios: {folder} has no scenarios: python3 bench/scenarios.py {folder}")
    companions = [it.with_suffix(".empty") for it in scenarios]
    for difference in differences(program, baseline, [*scenarios, *companions]):
        sys.exit(f"ratios: the programs don't agree: {difference}")
    head = "Processor instructions for each instruction of a scenario, net of the scenario with an empty actor, written by bench/ratios.py"
    lines = [head]
    print(head)
    with tempfile.TemporaryDirectory(prefix="ratios-") as room:
        for line in rows(program, baseline, scenarios, room):
            lines.append(line.rstrip())
            print(line, flush=True)
    pathlib.Path(__file__).with_suffix(".figures").write_text("".join(f"{line}\n" for line in lines), "utf-8")


if __name__ == "__main__":
    if len(sys.argv) != 4:
        sys.exit(__doc__)
    main(*sys.argv[1:])
