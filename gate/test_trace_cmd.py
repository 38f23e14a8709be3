"""A test of trace.dat by its real reader: what `trace-cmd report` shows of `cmwq trace FILE --dat OUT` is what `cmwq trace FILE --text` says, CPU by
CPU. Each lesson of one actor is tried, and scenarios that are made here. trace-cmd has columns of its own, and shows pointers as 0x1, so
both are read into names, process identifiers, CPUs, times and what is said. Where trace-cmd isn't installed nothing is compared, and it
says so.

    python3 gate/test_trace_cmd.py PROGRAM"""
import glob
import os
import re
import shutil
import subprocess
import sys
import tempfile

TOP = os.path.dirname(os.path.dirname(os.path.realpath(__file__)))
LINE = re.compile(r" *(?P<name>\S+)-(?P<pid>\d+) +\[(?P<cpu>\d{3})\] (?:\.{5} )? *(?P<time>\d+\.\d{6}): (?P<said>workqueue_\w+: .*)")
HEAD = "cpus {cpus}\nworkers 4\nsteps 100000\nflushes 0\n"

# What no lesson has: no event at all, and an empty CPU; two CPUs, an unbound pool, one of high priority, a timer; nanoseconds that just have room
# in 27 bits, and that just haven't; and more events than go onto a page.
MADE = {
    "no event": HEAD.format(cpus=2) + "queue q max 1\nwork a q\nbody a\nfinish\nactor t\nfreeze\n",
    "two CPUs": HEAD.format(cpus=2) + "queue q max 2\nqueue u max 2 unbound\nqueue h max 1 highpri\nwork a q\nwork b u\nwork c h\n"
    "body a\nburn 1\nqueue b 1\nfinish\nbody b\nsleep 2\nfinish\nbody c\nburn 3\nfinish\nactor t\nqueue a 1\nqueue c 1\ndelay b 0 7\nnext * 60\n",
    "134 ticks": HEAD.format(cpus=1) + "queue q max 1\nwork a q\nbody a\nburn 134\nfinish\nactor t\nqueue a 0\nnext * 200\n",
    "135 ticks": HEAD.format(cpus=1) + "queue q max 1\nwork a q\nbody a\nburn 135\nfinish\nactor t\nqueue a 0\nnext * 200\n",
    "full pages": HEAD.format(cpus=1) + "queue quite_long_name max 1\nwork a quite_long_name\nbody a\nburn 200\nqueue a 0\nfinish\nactor t\nqueue a 0\nnext * 30000\n",
}


def said(*words):
    """What the program prints, and None where it doesn't end with status 0 or says something on standard error."""
    ran = subprocess.run(words, stdout=subprocess.PIPE, stderr=subprocess.PIPE, text=True, timeout=120)
    return None if ran.returncode or ran.stderr else ran.stdout


def read(line):
    """The parts of an event's line, and the line itself where it has none."""
    found = LINE.fullmatch(line)
    if not found:
        return line
    pointers = re.sub(r"(work struct[ =])(?:0x)?0*([0-9a-f]+)", r"\g<1>0x\2", found["said"])
    return found["name"], int(found["pid"]), int(found["cpu"]), found["time"], pointers


def events_of(text, head):
    """The events of a text, by their CPUs, or what isn't one; the lines that begin so are left out."""
    events = [read(line) for line in text.splitlines() if not line.startswith(head)]
    return sorted(events, key=lambda event: event[2] if isinstance(event, tuple) else -1)


def trace_faults(program, name, text, out):
    """What is wrong with a scenario's trace."""
    lines, made = said(program, "trace", text, "--text"), said(program, "trace", text, "--dat", out)
    shown = said("trace-cmd", "report", out)
    if lines is None or made != "" or shown is None:
        return [f"{name}: it isn't traced, or not shown"]
    cpus = re.search(r"#P:(\d+)", lines)[1]
    told, seen = events_of(lines, "#"), events_of(shown, "cpus=")
    faults = [] if shown.startswith(f"cpus={cpus}\n") else [f"{name}: it isn't shown with {cpus} CPUs"]
    different = [pair for pair in zip(told, seen) if pair[0] != pair[1]]
    faults += [f"{name}: {told!r} is shown as {seen!r}" for told, seen in different[:1]]
    return faults + ([] if len(told) == len(seen) else [f"{name}: {len(told)} events are shown as {len(seen)}"])


def main(program):
    if not shutil.which("trace-cmd"):
        print("trace-cmd: it isn't installed: nothing is compared")
        return 0
    faults, count = [], 0
    with tempfile.TemporaryDirectory(prefix="trace-cmd-") as room:
        for name, text in MADE.items():
            with open(f"{room}/{name}.cmwq", "w", encoding="utf-8") as it:
                it.write(text)
        lessons = [it for it in sorted(glob.glob(f"{TOP}/scenarios/**/*.cmwq", recursive=True)) if len(re.findall(r"^actor ", open(it, encoding="utf-8").read(), re.M)) == 1]
        for text in lessons + [f"{room}/{name}.cmwq" for name in MADE]:
            count += 1
            faults += trace_faults(program, os.path.basename(text), text, f"{room}/{count}.dat")
    faults += [] if lessons else ["scenarios/: there is nothing to compare"]
    print("".join(f"trace-cmd: {fault}\n" for fault in faults), end="")
    print(f"trace-cmd: {count} traces compared, {len(faults)} faults")
    return 1 if faults else 0


if __name__ == "__main__":
    sys.exit(main(*sys.argv[1:]))
