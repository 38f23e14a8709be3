"""What the scripts of hostile use share (refused_memory.py, refused_calls.py, fuzz.py, hostile_streams.py): a table of command lines, in each of the
program's forms, with the files that they need; what the program ends with; and the faults that docs/FORMATS.md documents."""
import collections
import os
import re
import shutil
import signal
import struct
import subprocess

import test_user_files as user_files

TOP = os.path.dirname(os.path.dirname(os.path.realpath(__file__)))
NO_MEMORY, READ, WRITE = (4, b"no memory\n"), (3, b"read\n"), (3, b"write\n")
KINDS = ("memory", "read", "write")

# Each word of scenarios stands here, and each operation in a body: `uncovered` tells which doesn't.
EVERY = """cpus 2
workers 2
steps 90
flushes 5
queue q max 1
queue h max 2 highpri
queue u max 2 unbound freezable
queue o max 1 ordered
queue m max 1 mem_reclaim cpu_intensive
work a q
work b q
work c h
work d u
work e m
body a
burn 3
sleep 2
queue b 0
finish
body b
burn 1
finish
body c
sleep 2
delay b 2
burn 1
finish
body d
burn 2
queue e 1
mod b 1
cancel e
finish
body e
sleep 1
finish
actor t
queue a 0
queue b 0
flush b
queue c 1
step 0
next * 4
delay d 0 3
mod d 1 2
flush_delayed d
state d
busy
ask 0
tick
fire
freeze
queue d 0
pressure
queue e 0
queue a 0
flush_queue q
cancel_sync a
next * 6
relief
thaw
cancel c
disable c
queue c 0
enable c
set_max q 3
ask 9
until 9 * 2
wait 0 * 2
quiet * 24
"""
# Several actors, whose orders come to few states; and one who is stuck.
ORDERS = """cpus 1
workers 2
steps 30
flushes 1
queue q max 1
work a q
work b q
body a
burn 1
finish
body b
finish
actor one
queue a 0
actor other
cancel_sync a
queue b 0
"""
FROZEN = """cpus 1
workers 2
steps 100
flushes 1
queue q max 1 freezable
work a q
body a
finish
actor pm
freeze
queue a 0
flush a
"""
HEAD = "cpus 1\nworkers 4\nsteps {steps}\nflushes 0\nqueue q max 1\nwork a q\nbody a\n{does}\nfinish\nactor t\nqueue a 0\nnext * {times}\n"
FILES = {
    "every.cmwq": EVERY,
    "restless.cmwq": HEAD.format(steps=40, does="queue a 0", times=8),
    "long.cmwq": HEAD.format(steps=900, does="sleep 700", times=800),
    "asks.cmwq": "cpus 1\nworkers 4\nsteps 1\nflushes 0\n" + "".join(f"actor {name}\nbusy\nbusy\n" for name in ("one", "other", "third")),
    "orders.cmwq": ORDERS,
    "frozen.cmwq": FROZEN,
    "spent.cmwq": HEAD.format(steps=4, does="burn 1", times=1).replace("next * 1\n", ""),
    "actorless.cmwq": FROZEN.partition("actor")[0],
    "flushing.cmwq": FROZEN.replace("flush a", "flush a * 2"),
    "lines.cmwq": FROZEN.replace("flush a", "cancel_sync a * 1365"),
    "faulty.cmwq": "cpus 1\nworkers 65\n",
    "late.cmwq": EVERY + "meet a\n",
    "asked.cmwq": HEAD.format(steps=9, does="burn 1", times=1).replace("next * 1\n", "queue a 9\n"),
    "there": "what was there before\n",
    "faulty.image": "CMWQ and no more",
}
# The command lines, each with what stands on standard input; `-` is one without words.
USES = [(line, "") for line in """
new
new fresh.cmwq
new there
run every.cmwq
run --tell every.cmwq
run --strict every.cmwq
run --strict asked.cmwq
run --strict --settle --tell asked.cmwq
run --strict faulty.cmwq
run --strict nothing.cmwq
run --explain --strict asked.cmwq
run --settle every.cmwq
run --settle restless.cmwq
run --settle --tell every.cmwq
run --settle --tell restless.cmwq
run faulty.cmwq
run asks.cmwq
run nothing.cmwq
settle every.cmwq
settle restless.cmwq
list every.cmwq
list late.cmwq
draw every.cmwq
draw --settle every.cmwq
draw --from 2 --to 9 every.cmwq
draw --svg every.cmwq
draw --settle --svg --from 1 --to 12 every.cmwq
draw long.cmwq
draw --fold every.cmwq
draw --works a,b every.cmwq
draw --works a,nobody every.cmwq
draw --svg --fold --scale 5 --id one every.cmwq
why every.cmwq b
why every.cmwq b --every
why every.cmwq b --at 9
why every.cmwq b --at 999
why every.cmwq b --time 3
why every.cmwq b --time 999
why every.cmwq b --settle
why restless.cmwq a --settle
why every.cmwq nobody
why every.cmwq --flush 0
why every.cmwq --flush 0 --every
why every.cmwq --flush 1 --at 24
why every.cmwq --flush 9
asm every.cmwq out.image
asm every.cmwq there
asm faulty.cmwq there
asm nothing.cmwq there
show every.image
show faulty.image
show nothing.image
debug faulty.cmwq
play asks.cmwq --capacity 100
play asks.cmwq --capacity 2
play asks.cmwq --capacity 0
explore orders.cmwq --never a
explore orders.cmwq --before one other --never a b
explore orders.cmwq --after other --never a
explore orders.cmwq --before one other --after other --never a --limit 29
explore orders.cmwq --before one other --stuck --limit 28
explore frozen.cmwq --stuck
explore frozen.cmwq --after pm --never a
explore frozen.cmwq --never a
explore spent.cmwq --stuck
explore asks.cmwq --stuck --before one other --before one third --before other third
explore actorless.cmwq --stuck
explore lines.cmwq --stuck
explore flushing.cmwq --stuck
explore orders.cmwq --after nobody --never a
explore orders.cmwq --after one --never nobody
explore orders.cmwq --never a nobody
explore orders.cmwq --before nobody one --stuck
explore faulty.cmwq --stuck
explore nothing.cmwq --stuck
explore orders.cmwq
explore orders.cmwq --never a --stuck
explore orders.cmwq --never a a
explore orders.cmwq --never a b c
explore orders.cmwq --after one
explore orders.cmwq --after one --never a b
explore orders.cmwq --after one --stuck
explore orders.cmwq --stuck --before one
explore orders.cmwq --stuck --before one one
explore orders.cmwq --stuck --before one other --before other one
explore orders.cmwq --stuck --limit 0
explore orders.cmwq --stuck --limit 1000001
explore --stuck
explore --explain flushing.cmwq --stuck
explore lines.cmwq --stuck --explain
explore orders.cmwq --explain --never nobody
times every.cmwq
times every.cmwq --json
times asks.cmwq
times faulty.cmwq
times nothing.cmwq
times
times --explain asks.cmwq
times every.cmwq --whom
times every.cmwq --whom --json
times asks.cmwq --whom
times every.cmwq --sweep q 1..3
times every.cmwq --sweep q 1..3 --json
times every.cmwq --sweep nosuch 1..3
times every.cmwq --sweep q 3..1
times every.cmwq --sweep q 1..3 --whom
times asks.cmwq --sweep q 1..3
trace every.cmwq --json
trace every.cmwq --lines
trace asks.cmwq --lines
trace faulty.cmwq --json
trace nothing.cmwq --json
trace every.cmwq
trace every.cmwq --json --lines
trace --json
trace every.cmwq --text
trace asks.cmwq --text
trace faulty.cmwq --text
trace every.cmwq --dat out.data
trace faulty.cmwq --dat out.data
trace every.cmwq --dat out.data --text
check every.cmwq
check every.cmwq faulty.cmwq nothing.cmwq late.cmwq asks.cmwq
check late.cmwq
run --explain nothing.cmwq
run faulty.cmwq --explain
run --explain asks.cmwq
why --explain every.cmwq nobody
why every.cmwq b --at 999 --explain
new --explain there
asm every.cmwq every.cmwq --explain
show --explain faulty.image
help
--help
--version
walk
-
run
why every.cmwq b --flush 0
why every.cmwq b --at 1 --time 1
draw --from x every.cmwq
draw --from 9 --to 2 every.cmwq
draw --scale 5 every.cmwq
debug -
help scenario
run --explain late.cmwq
run --explain every.cmwq
draw --explain asked.cmwq
""".split("\n")[1:-1]]
USES += [("debug every.cmwq", commands) for commands in (
    "", "step 9", "goto 24\nback 3", "goto 99", "break work a event starts\nrun", "break time 3\nrun\nrun", "break refusal\nclear 0\nclear 0",
    "run", "next event\nnext event\nnext", "goto 24\nnext event\nnext event", "dump", "goto 24\ndump", "goto 24\ndump pool 0", "why b", "goto 24\nwhy flush 1", "# nothing\n\nwalk",
    "break work b event queues\n" * 17, "list\nbreak activates b\nbreak time 3\nlist\nrun\nrun\nback", "help", "s\nb\nquit\ndump",
)]
USES += [("debug --settle every.cmwq", "run"), ("debug --settle restless.cmwq", "run")]
# Standard input as a file.
USES += [(line, text) for line in ("run -", "run --strict -", "run --explain -", "check - faulty.cmwq", "asm - out.image", "draw -", "why - b", "show -") for text in (EVERY, FILES["faulty.cmwq"])]
USES += [(line, text) for line in ("times -", "trace - --json", "trace - --lines") for text in (EVERY, FILES["faulty.cmwq"])]
USES += [("explore - --never a", text) for text in (ORDERS, FILES["faulty.cmwq"])]
# On a way with checkpoints.
USES += [("debug long.cmwq", "goto 700\nback 1\nback 600\ngoto 640\nbreak time 690\nrun\ngoto 3\nwhy a\ngoto 801\ndump")]
# What follows a run where that is asked for.
REFUSED, LEFT = rb"instructions? (?:was|were) refused(?:,| as Spent;)", rb"work items? (?:is|are) pending(?: or running at the end)?;"
REMARK = re.compile(rb"^(?:\d+ (?:%s|%s)|line \d+: [a-z]+: without a count) .*\n" % (REFUSED, LEFT), re.M)
Outcome = collections.namedtuple("Outcome", "status output errors files")


def bytes_of(path):
    with open(path, "rb") as it:
        return it.read()


def debugger_commands():
    """The first words of the debugger's commands."""
    return set(re.findall(r"^\| `(\w+)", section("## debug"), re.M))


def operations_in(text):
    """The words that operations of a text's bodies begin with."""
    return {line.split()[0] for body in re.findall(r"^body .*\n((?:(?!finish).*\n)*finish)$", text, re.M) for line in body.split("\n")}


def uncovered(uses):
    """Which command, debugger's command, word of scenarios or operation nothing in the table tries."""
    words = {line.split()[0] for line, _ in uses}
    asked = {word for _, given in uses for word in re.findall(r"^\w+", given, re.M)}
    wanted = [(user_files.words_of_commands(), words), (debugger_commands(), asked), (user_files.words_of_scenarios(), set(EVERY.split()))]
    wanted += [(user_files.words_of_bodies(), operations_in(EVERY))]
    return [f"no line of the table tries {word}" for all_of, tried in wanted for word in sorted(all_of - tried)]


def all_uses():
    """The table, with each command's help."""
    return USES + [(f"help {name}", "") for name in sorted(user_files.words_of_commands())] + [("run --help", "")]


def shown(use):
    """A command line as a row or a fault shows it."""
    line, given = use
    return f"{line} <<< {given[:50]!r}" if given else line


def words_of(line):
    return [] if line == "-" else line.split(" ")


def make_image(program, text, image, room):
    """Has the program make an image, if it can."""
    subprocess.run([program, "asm", text, image], cwd=room, stdout=subprocess.DEVNULL, stderr=subprocess.DEVNULL, timeout=60)


def fill(program, room):
    """Writes the files that the command lines need into an empty folder."""
    for name, text in FILES.items():
        with open(f"{room}/{name}", "w", encoding="utf-8") as it:
            it.write(text)
    make_image(program, "every.cmwq", "every.image", room)


def files_in(room):
    return {name: bytes_of(f"{room}/{name}") for name in sorted(os.listdir(room))}


def put_back(room, files):
    """Has the folder hold just these files again."""
    for name, content in files_in(room).items() | files.items():
        if files.get(name) != content:
            os.remove(f"{room}/{name}")
    for name in files.keys() - set(os.listdir(room)):
        with open(f"{room}/{name}", "wb") as it:
            it.write(files[name])


def without_advice(errors):
    """What a command says on standard error, less the advice behind a fault's line, or the remarks behind a run, if each line is whole."""
    first, end, _ = REMARK.sub(b"", errors).partition(b"\n")
    return first + end if errors.endswith(b"\n") and not first.startswith(b"error: ") else errors


class Counted:
    """Runs a program whose calls for memory, reads and writes are counted, and one of them fails."""

    def __init__(self, program, library, room):
        self.program, self.room, self.counts = program, room, f"{room}.counts"
        # The last one has the C library overwrite blocks that are given out and given back, so that what reads there is seen.
        self.env = {**os.environ, "LD_PRELOAD": library, "REFUSED_COUNTS": self.counts, "MALLOC_PERTURB_": "165"}

    def run(self, line, given, refused="", **how):
        """What a command line ends with, and how many calls of each kind it made."""
        with open(self.counts, "wb") as it:
            it.write(bytes(8 * len(KINDS)))
        streams = {"stdout": subprocess.PIPE, "stderr": subprocess.PIPE, **({} if "stdin" in how else {"input": given.encode()})}
        try:
            ran = subprocess.run([self.program, *words_of(line)], cwd=self.room, env={**self.env, "REFUSED": refused}, timeout=60, **{**streams, **how})
            errors = without_advice(ran.stderr or b"") if "--explain" in words_of(line) else ran.stderr or b""
            ended = ran.returncode, ran.stdout or b"", errors
        except subprocess.TimeoutExpired:
            ended = -signal.SIGKILL, b"", b"it was killed after a minute"
        counts = dict(zip(KINDS, struct.unpack(f"={len(KINDS)}Q", bytes_of(self.counts))))
        return Outcome(*ended, files_in(self.room)), counts


def built_library(room):
    """Builds the library that is preloaded."""
    out = f"{room}/refuse.so"
    words = [shutil.which("cc") or "cc", "-std=gnu11", "-O1", "-Wall", "-Werror", "-fno-builtin", "-shared", "-fPIC", "-o", out, f"{TOP}/gate/refuse.c"]
    subprocess.run(words, check=True)
    return out


def changed(outcome, before):
    """The files that are otherwise than before."""
    return {name: outcome.files.get(name) for name in outcome.files.keys() | before.keys() if outcome.files.get(name) != before.get(name)}


def front_faults(line, outcome, whole, before, ends):
    """What is wrong with an outcome that isn't the whole one: with what it ends, unless that is this status and this line; with what went
    out before, which is a front of the whole output and, of `check`, whole lines of the whole errors; and with its files."""
    status, said = ends
    said_before = outcome.errors.removesuffix(said)
    is_front = whole.errors.startswith(said_before) and said_before[-1:] in (b"", b"\n") and (not said_before or line.startswith("check "))
    ended = f"with status {outcome.status}" if outcome.status >= 0 else f"by signal {-outcome.status}"
    checks = {
        f"ends {ended} and says {outcome.errors[-80:]!r}": outcome.status == status and outcome.errors.endswith(said) and is_front,
        "writes what is no front of its output": whole.output.startswith(outcome.output),
    }
    halves = [name for name, content in changed(outcome, before).items() if content and content != whole.files.get(name)]
    return [what for what, is_well in checks.items() if not is_well] + [f"leaves half of {name}" for name in halves]


def commit():
    """The commit's hash, by which what is left out takes turns; 0 where there is no commit."""
    ran = subprocess.run(["git", "rev-parse", "HEAD"], cwd=TOP, stdout=subprocess.PIPE, stderr=subprocess.DEVNULL, text=True)
    return ran.stdout.strip() or "0"


def section(*headings):
    """A section of docs/FORMATS.md: behind these headings, each below the one before it, up to the next one as high as the last."""
    rest = re.sub(r"^```.*?^```$", "", user_files.text_of("docs/FORMATS.md"), flags=re.S | re.M)
    for heading in headings:
        depth = heading.index(" ")
        rest = re.split(rf"^#{{1,{depth}}} ", rest.partition(f"\n{heading}\n")[2], maxsplit=1, flags=re.M)[0]
    assert rest, f"docs/FORMATS.md has no {headings}"
    return rest


class Documented:
    """What docs/FORMATS.md says that a command may say: faults with their statuses, verdicts, and refusals."""

    def __init__(self):
        texts = section("## Scenario text", "### Faults")
        self.reasons = {reason for row in re.findall(r"^\| [^|]* \| (`[^|]*) \|", texts, re.M) for reason in re.findall(r"`(\w+)`", row)}
        images = re.sub(r"\(.*?\)", "", section("## Image", "### Faults").partition("\nEach line of")[0])
        self.image_reasons = set(re.findall(r"`([A-Z][a-z]\w*(?: N)?)`", images))
        self.refusals = {name for row in re.findall(r"^\| (`\w+`.*?) \|", section("## Output", "### Refusals"), re.M) for name in re.findall(r"`(\w+)`", row)}
        commands_table = re.findall(r"^\| `[^|]* \|[^|]*\|([^|]*)\|", section("## debug"), re.M)
        self.debugger_refusals = {name for cell in commands_table for name in re.findall(r"`(\w+)`", cell)}
        rows = re.findall(r"^\| `([^`|]+)` \| (\d) \|", section("## Output", "### Faults"), re.M)
        self.lines = [(re.compile(self.pattern(line)), int(status)) for line, status in rows]
        # Those of `explore`, which says nothing on standard error then.
        self.silent = {0, *map(int, re.findall(r"^\| [^|]+ \| (\d) \|", section("## explore"), re.M))}
        notes = re.findall(r"^\| `FILE:LINE: note: (?:[A-Z]+|steps): ([^`]+[,;]) \.\.` \|", section("## check"), re.M)
        self.note = re.compile(rf".*:\d+: note: [a-z0-9_]+: (?:{'|'.join(map(re.escape, notes))}) [^:]+(?:: [^:]+)?")
        assert len(notes) == 5 and len(self.reasons) >= 12 and len(self.image_reasons) >= 10 and len(self.refusals) >= 15 and len(self.debugger_refusals) >= 7 and len(rows) >= 16 and self.silent == {0, 5, 6}

    def pattern(self, line):
        """What such a line of the document stands for."""
        for front, names in {"line N: ": self.reasons, "image: ": self.image_reasons}.items():
            if line == f"{front}REASON":
                return f"{front}({'|'.join(sorted(names))})".replace(" N", " [0-9]+")
        return re.sub(r"\b[NK]\b", "[0-9]+", re.escape(line))

    def is_verdict(self, line):
        """Whether `check` says such a line on standard error, for no terminal."""
        reasons = "|".join(sorted(self.reasons))
        fault = rf".*: read|.*:\d+:\d+: [!-~? ]{{1,80}}: (?:{reasons})"
        thing = r"(?:[a-z0-9_]+|\*|a new name|a number from \d+ to \d+|the number \d+|\d+ more)"
        begins = r"  a line here may begin with: [a-z_]+(?:, [a-z_]+)*|  no line may follow"
        goes_on = rf"  expected here: {thing}(?:, {thing})*(?:, or the line's end)?|  the line should end here"
        meant = r"  did you mean (?:[a-z0-9_]+|\*|\* \d+)\?"
        form = r"[a-z_]+(?: (?:[A-Z]+|max|FLAG\.\.|\*))*"
        cure = r"  a comment begins with #, and ends with its line|  write flags one after another, without WQ_ and \|: queue NAME max N FLAG FLAG"
        cure += rf"|  a kernel's [A-Za-z_]+ is written here: {form}|  {form}: the (?:word |number )?[A-Za-z]+ is missing"
        cure += r"|  work ([a-z][a-z0-9_]*) has no body: body \1, its operations and finish come before the actors"
        return re.fullmatch(f"{fault}|{begins}|{goes_on}|{meant}|{cure}", line) is not None or self.is_note(line)

    def is_note(self, line):
        """Whether `check` says such a line behind a good text's."""
        return self.note.fullmatch(line) is not None

    def is_told(self, status, errors):
        """Whether a command may end with this status and these errors."""
        text = errors.decode("utf-8", "replace")
        if not text.endswith("\n"):
            return status in self.silent and not text
        lines = text[:-1].split("\n")
        if status == 0:
            return all(map(self.is_note, lines))
        is_fault = len(lines) == 1 and any(status == wanted and pattern.fullmatch(lines[0]) for pattern, wanted in self.lines)
        is_usage = status == 2 and (text.startswith("error: ") or lines[2:3] and lines[2].startswith("Usage: "))
        return is_fault or is_usage or status in (1, 3) and all(map(self.is_verdict, lines))
