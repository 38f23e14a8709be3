"""What `times` and `trace` cost beside `run --tell`: the processor's seconds of each, on every lesson of one actor, whose lines are repeated until they give
100,000 instructions. It prints the lessons on which they cost most, and the sums.

    python3 bench/reports.py PROGRAM"""
import glob
import os
import re
import resource
import subprocess
import sys
import tempfile

TOP = os.path.dirname(os.path.dirname(os.path.realpath(__file__)))
FORMS = ["run --tell", "times", "times --json", "times --whom", "trace --json", "trace --lines", "trace --text", "trace --dat /dev/null"]
INSTRUCTIONS, MOST_LINES, MOST_TIMES = 100_000, 4096, 65535


def repeated(text):
    """The scenario with its actor's lines repeated, and `next` behind them."""
    head, _, behind = text.partition("\nactor ")
    name, *lines = [line for line in behind.splitlines() if line.strip() and not line.startswith("#")]
    for word, most in (("steps", 4_294_967_295), ("flushes", 1024)):
        head = re.sub(rf"^{word} \d+", f"{word} {most}", head, flags=re.M)
    count = sum(int(found[1]) if (found := re.search(r"\* (\d+)", line)) else 1 for line in lines)
    turns = min((MOST_LINES - 2) // len(lines), INSTRUCTIONS // count)
    left = INSTRUCTIONS - turns * count
    nexts = [f"next * {min(MOST_TIMES, left - at)}" for at in range(0, left, MOST_TIMES)]
    return "\n".join([head, f"actor {name}", *lines * turns, *nexts, ""])


def seconds(program, form, path):
    """The least of three runs."""
    took = []
    for _turn in range(3):
        before = resource.getrusage(resource.RUSAGE_CHILDREN)
        subprocess.run([program, *form.split(), path], stdout=subprocess.DEVNULL, check=True)
        after = resource.getrusage(resource.RUSAGE_CHILDREN)
        took.append(after.ru_utime + after.ru_stime - before.ru_utime - before.ru_stime)
    return min(took)


def main(program):
    rows = {}
    with tempfile.TemporaryDirectory(prefix="reports-") as room:
        for path in sorted(glob.glob(f"{TOP}/scenarios/**/*.cmwq", recursive=True)):
            with open(path, encoding="utf-8") as it:
                text = it.read()
            if text.count("\nactor ") == 1:
                with open(f"{room}/long.cmwq", "w", encoding="utf-8") as it:
                    it.write(repeated(text))
                rows[os.path.basename(path)] = [seconds(program, form, f"{room}/long.cmwq") for form in FORMS]
    costly = sorted(rows, key=lambda name: -max(rows[name]) / rows[name][0])[:5]
    print(f"{'':28}", *(f"{form:>14}" for form in FORMS))
    for name, row in [*((name, rows[name]) for name in costly), (f"sum of {len(rows)}", [sum(it) for it in zip(*rows.values())])]:
        print(f"{name:28}", *(f"{it:8.3f} {it / row[0]:5.2f}" for it in row))


if __name__ == "__main__":
    main(*sys.argv[1:])
