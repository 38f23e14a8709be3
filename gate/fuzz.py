"""Makes up scenarios, mutates these and lessons' texts, images, debuggers' commands and command lines, from a seed, and runs the program on each. It never ends by
a signal, and never takes over 10 seconds of processor time or 200 MB. What it says on standard error is what docs/FORMATS.md says, with the
status that stands there. `check` and each other command agree on a text: on its first fault, or on there being none. A scenario's listing
and its image have its listing; so has an image that is read, and of its listing the image is made again. What `run` prints `run --tell`
prints with more, and `run --settle` of what `settle` writes; a debugger at a position says what `why` says of it, by whatever way
it came there; what a play leaves, and an order that `explore` finds, print their comments.

    python3 gate/fuzz.py PROGRAM [--seconds N] [--turns N] [--seed S] [--turn T]

Without words TURNS turns with the seed 1, some two minutes of processor time. They are the same on each machine, so that a run of the gate fails by what was changed alone. A turn
goes by the seed and its number alone: --turn T tries one again. A failure is told with its command line, and the files that it needs are kept."""
import argparse
import collections
import glob
import json
import multiprocessing
import os
import random
import re
import resource
import shutil
import signal
import subprocess
import sys
import tempfile
import time

sys.dont_write_bytecode = True
sys.path.insert(0, os.path.dirname(os.path.realpath(__file__)))
import hostile
import mutations
import reports
import telling

TURNS = 4500
SECONDS, MEGABYTES = 10, 200
# The most actors of a play, and how many megabytes a thread's stack takes.
THREADS, STACK = 16, 8
# A line that ends a debugger's session.
QUIT = re.compile(rb"^[ \t]*(?:q|qu|qui|quit)[ \t]*(?:#.*)?\r?$", re.M)
# The most bytes of a debugger's commands.
MOST = 4_194_304
FAILURES = 3
TEXT = "text.cmwq"
Ended = collections.namedtuple("Ended", "status output errors")


class Failure(Exception):
    """The program did what it shouldn't."""


def bounded(megabytes):
    """Has this process end where it takes more time or memory."""
    resource.setrlimit(resource.RLIMIT_CPU, (SECONDS, SECONDS + 1))
    resource.setrlimit(resource.RLIMIT_AS, (megabytes << 20, megabytes << 20))
    resource.setrlimit(resource.RLIMIT_CORE, (0, 0))


class Bench:
    """Runs command lines in a folder, and looks at how each ends."""

    def __init__(self, program, room, documented):
        self.program, self.room, self.documented, self.last = program, room, documented, []

    def write(self, name, content):
        with open(f"{self.room}/{name}", "wb") as it:
            it.write(content)

    def run(self, *words, given=b""):
        """What a command line ends with, which is one of the ways that are documented."""
        self.last = words
        self.write("given", given)
        room_for_threads = THREADS * STACK if "play" in map(os.fsdecode, words) else 0
        how = {"cwd": self.room, "stdout": subprocess.PIPE, "stderr": subprocess.PIPE, "env": {**os.environ, "MALLOC_ARENA_MAX": "1"}}
        try:
            ran = subprocess.run([self.program, *words], input=given, timeout=100, preexec_fn=lambda: bounded(MEGABYTES + room_for_threads), **how)
        except subprocess.TimeoutExpired:
            raise Failure("it doesn't end") from None
        if ran.returncode in (-signal.SIGXCPU, -signal.SIGKILL):
            raise Failure(f"it takes over {SECONDS} seconds")
        if ran.returncode < 0:
            raise Failure(f"it ends by signal {-ran.returncode}")
        errors = hostile.without_advice(ran.stderr) if "--explain" in map(os.fsdecode, words) and ran.returncode != 2 else ran.stderr
        if errors == hostile.NO_MEMORY[1]:
            raise Failure(f"it takes over {MEGABYTES} MB")
        if not self.documented.is_told(ran.returncode, errors):
            raise Failure(f"no document says that it ends with {ran.returncode} and says {ran.stderr[-200:]!r}")
        return Ended(ran.returncode, ran.stdout, errors)

    def made(self, name):
        """What a file has that a command line made, or None."""
        path = f"{self.room}/{name}"
        return hostile.bytes_of(path) if os.path.exists(path) else None

    def want(self, is_so, what):
        if not is_so:
            raise Failure(what)


def told_fault(bench, verdict, content):
    """The fault of a text, as the other commands tell it, from what `check` says of it."""
    found = re.match(rf"{TEXT}:(\d+):(\d+): (.*): (\w+)\n", verdict.errors.decode())
    bench.want(found, "the verdict isn't of this form")
    line, column, word, reason = int(found[1]), int(found[2]), found[3], found[4]
    rest = (content.split(b"\n") + [b""])[line - 1][column - 1:] if line else b""
    shown = re.sub(rb"[^!-~]", b"?", rest[:len(word)]).decode()
    bench.want(word in (shown, "end of line", "end of text", "line", "text"), f"the word of the verdict isn't at its column, where {shown!r} is")
    return b"line %d: %s\n" % (line, reason.encode())


def try_faulty(bench, rng, verdict, content):
    """Each command tells the fault that `check` tells."""
    wanted = Ended(1, b"", told_fault(bench, verdict, content))
    lines = ["run", "run --settle", "run --tell", "run --strict --settle", "settle", "list", "draw", "why a", "why --flush 0", "debug", "play --capacity 9", "asm"]
    lines += ["explore --stuck", "explore --never a --limit 9"]
    for line in ["list", *rng.sample(lines, 2)]:
        command, *rest = line.split()
        ended = bench.run(command, TEXT, *rest, *(["out"] if command == "asm" else []))
        bench.want(ended == wanted, f"check says {verdict.errors!r}, and this {ended}")
    bench.want("asm" not in bench.last or bench.made("out") == b"", "there is an image of a faulty text")


def try_good(bench, listed):
    """A scenario's listing is its own listing, and its image has that listing."""
    bench.write("listed.cmwq", listed.output)
    bench.want(bench.run("list", "listed.cmwq") == listed, "the listing has another listing")
    bench.want(bench.run("asm", TEXT, "out") == Ended(0, b"", b""), "no image is made of a good text")
    bench.want(bench.run("show", "out") == listed, "the image has another listing")


def unmarked(lines):
    return b"".join(line for line in lines.splitlines(True) if not line.startswith(b"#"))


def refusals(lines):
    return set(re.findall(r"refused (\w+)$", lines.decode(), re.M))


def try_run(bench, _rng, _listed):
    """A told run has the run's lines, and so has the listing's run; each refusal is a documented one."""
    ran = bench.run("run", TEXT)
    bench.want(refusals(ran.output) <= bench.documented.refusals, "it refuses by a name that isn't documented")
    told = bench.run("run", "--tell", TEXT)
    bench.want(told._replace(output=unmarked(told.output)) == ran, "what is told has other lines than the run")
    bench.want(bench.run("run", "listed.cmwq") == ran, "the listing has another run")


def try_settle(bench, _rng, _listed):
    """What is settled runs as `run --settle` does, is settled, and has the picture of `draw --settle`."""
    settled, ran, drawn = bench.run("settle", TEXT), bench.run("run", "--settle", TEXT), bench.run("draw", "--settle", TEXT)
    told = bench.run("run", "--settle", "--tell", TEXT)
    if settled.status:
        bench.want(settled.errors == b"full\n" or ran[::2] == settled[::2], f"settle says {settled.errors!r}, and run --settle {ran.errors!r}")
        bench.want(drawn.status and not settled.output, "what can't be settled is drawn")
        bench.want(told[::2] == settled[::2] and not told.output, "what can't be settled is told")
        return
    bench.write("settled.cmwq", settled.output)
    bench.want(bench.run("run", "settled.cmwq") == ran, "what is settled has another run than that of run --settle")
    bench.want(bench.run("run", "--tell", "settled.cmwq") == told, "what is settled is told otherwise than by run --settle --tell")
    bench.want(bench.run("why", "settled.cmwq", "--flush", "0") == bench.run("why", "--settle", TEXT, "--flush", "0"), "what is settled has another answer than why --settle")
    bench.want(bench.run("settle", "settled.cmwq") == settled, "what is settled isn't settled")
    bench.want(bench.run("draw", "settled.cmwq") == drawn, "what is settled has another picture than that of draw --settle")


def try_draw(bench, rng, _listed):
    """Both pictures are drawn, or neither; and a stretch of a run can be drawn."""
    bench.want(bench.run("draw", TEXT)[::2] == bench.run("draw", "--svg", TEXT)[::2], "only one of both pictures is drawn")
    first = rng.choice([0, 1, 5, 400, 70_000])
    stretch = ["--from", str(first), "--to", str(first + rng.choice([0, 1, 40, 3000]))]
    bench.want(bench.run("draw", TEXT, *stretch)[::2] == bench.run("draw", "--svg", TEXT, *stretch)[::2], "only one of both stretches is drawn")


def try_why(bench, rng, listed):
    """At a position the debugger says what `why` says, of a work and of a flush, but for that the actor has stopped."""
    works, position, flush = re.findall(r"^work (\w+)", listed.output.decode(), re.M), rng.choice([0, 1, 4, 9, 16, 30, 80]), rng.choice([0, 0, 1, 2])
    for what in [*([[rng.choice(works)]] if works else []), ["--flush", str(flush)]]:
        why = bench.run("why", TEXT, *what, "--at", str(position))
        said = bench.run("debug", TEXT, given=f"goto {position}\nwhy {' '.join(what).replace('--', '')}\n".encode())
        if not why.status:
            now = re.match(rb"at (\d+ now \d+) ", why.output)
            bench.want(now, "it doesn't say at which position")
            line = why.output[len(now[0]):].replace(b"; the actor has stopped\n", b"\n", 1)
            bench.want(said == (0, b"at %s\n" % now[1] + line, b""), f"why says {why}, and the debugger {said}")
        else:
            refused = {b"past the end\n": b"refused PastEnd\n", b"no such flush\n": b"refused NoSuchFlush\n"}.get(why.errors)
            bench.want(refused in said.output if refused else said[::2] == why[::2], f"why says {why}, and the debugger {said}")


def try_play(bench, rng, _listed):
    """What a play leaves is a scenario, and prints its comments."""
    played = bench.run("play", TEXT, "--capacity", str(rng.choice([1, 2, 5, 50, 4096])))
    if played.output:
        bench.write("played.cmwq", played.output)
        comments = b"".join(line[2:] for line in played.output.splitlines(True) if line.startswith(b"# "))
        bench.want(bench.run("run", "played.cmwq") == Ended(0, comments, b""), "what the play leaves prints other lines")
        bench.want(bench.run("list", "played.cmwq") == Ended(0, unmarked(played.output), b""), "what the play leaves isn't a listing")


def read_json(text):
    """What the bytes are as JSON, or nothing where they aren't that."""
    try:
        return json.loads(text)
    except ValueError:
        return None


def try_reports(bench, _rng, _listed):
    """`times` and `trace` end as the run does; the ticks of each line of `times` add up, and the objects of `trace` are JSON, of which `--lines` has one
    for each line of the run."""
    ran = bench.run("run", TEXT)
    told = {words: bench.run(*words.split(), TEXT) for words in ("times", "times --json", "times --whom", "trace --json", "trace --lines", "trace --text")}
    for words, it in told.items():
        bench.want(it[::2] == ran[::2], f"{words} ends with {it[::2]}, and run with {ran[::2]}")
    if ran.status:
        return
    lines = [reports.LINE.fullmatch(line) for line in told["times"].output.decode().splitlines() if " since " in line]
    bench.want(all(it and int(it[4]) + sum(map(int, it.groups()[4:])) == int(it[1]) for it in lines), "a line of times doesn't add up")
    bench.want(isinstance(read_json(told["trace --json"].output), dict), "a trace is no object")
    objects = [read_json(line) for line in told["trace --lines"].output.splitlines()]
    bench.want(all(isinstance(it, dict) for it in objects), "a line of a trace is no object")
    times = [str(it.get("time")).encode() for it in objects]
    bench.want(times == [line.split(b" ")[0] for line in ran.output.splitlines()], "trace --lines has other lines than the run")


def asked_of_orders(rng, listed):
    """Words of an exploration, and how many states are looked at."""
    works, actors = (re.findall(rf"^{kind} (\w+)", listed.output.decode(), re.M) for kind in ("work", "actor"))
    (work, other), (actor, second) = (rng.sample([*names, "nobody", "someone"][: max(len(names), 2)], 2) for names in (works, actors))
    forms = [["--stuck"], ["--never", work], ["--never", work, other], ["--after", actor, "--never", work]]
    return rng.choice(forms) + (["--before", actor, second] if not rng.randrange(3) else []), rng.choice([1, 2, 20, 200, 1000, 3000])


def try_explore(bench, rng, listed):
    """An order that was found prints its comments, is a listing without them, has the instructions that its comments tell, and is the one that
    is found with a higher limit, too; what holds in all states does so with a limit of so many, and not with a lower one."""
    words, limit = asked_of_orders(rng, listed)
    # Mostly with room for all flushes.
    bench.write("asked.cmwq", re.sub(rb"^flushes \d+", b"flushes 1024", listed.output, flags=re.M) if rng.randrange(8) else listed.output)
    first, more = (bench.run("explore", "asked.cmwq", *words, "--limit", str(most)) for most in (limit, 2 * limit))
    gave_up = first.output.startswith(b"gave up at ")
    bench.want(gave_up or first == more, f"with a limit of {limit} it ends with {first}, and with twice that with {more}")
    bench.want(not gave_up or b"at %d states;" % limit in first.output or b" at most 4096 instr" in first.output, "it gave up before its limit")
    if first.status == 5:
        bench.write("found.cmwq", first.output)
        steps = re.findall(rb"^# \d+ (?:\(machine\)|\w+) (.*)\n((?:#   .*\n)?)", first.output.partition(b"\n# ")[2], re.M)
        tell = bench.run("run", "--tell", "found.cmwq")
        bench.want(telling.instructions(tell.output.decode()) == [(instr.decode(), line[4:].decode()) for instr, line in steps], "what was found has other steps than its comments tell")
        bench.want(bench.run("list", "found.cmwq") == Ended(0, unmarked(first.output), b""), "what was found isn't a listing")
    elif b" in all " in first.output:
        states = int(re.search(rb" in all (\d+) states", first.output)[1])
        ends = [bench.run("explore", "asked.cmwq", *words, "--limit", str(most)) for most in (states, states - 1) if most]
        bench.want(ends[0] == first and all(it.output.startswith(b"gave up at %d states;" % (states - 1)) for it in ends[1:]), f"with the limits of {states} states and one less it ends with {ends}")


def try_text(bench, rng, found):
    """A text: `check` and `list` agree on whether it is a scenario, and what each command then does fits together."""
    content = mutations.text(rng, found.lessons)
    bench.write(TEXT, content)
    verdict, listed = bench.run("check", TEXT), bench.run("list", TEXT)
    bench.want(verdict.status == listed.status, f"check says {verdict}, and list {listed}")
    if verdict.status:
        try_faulty(bench, rng, verdict, content)
        return "faulty text"
    is_noted = all(line.startswith(f"{TEXT}:".encode()) for line in verdict.errors.splitlines())
    bench.want(verdict[:2] == (0, f"{TEXT}: ok\n".encode()) and is_noted, "a good text isn't told so")
    try_good(bench, listed)
    for part in rng.sample([try_run, try_settle, try_draw, try_why, try_play, try_explore, try_reports], 2):
        part(bench, rng, listed)
    return "scenario"


def try_image(bench, rng, found):
    """An image: it is read, and then it is that of its listing, but for the version; or its fault is told."""
    content = mutations.image(rng, found.images)
    bench.write("image", content)
    shown = bench.run("show", "image")
    bench.want(not shown.output or not shown.status, "a faulty image has a listing")
    if shown.status:
        return "faulty image"
    bench.write(TEXT, shown.output)
    bench.want(bench.run("list", TEXT) == shown, "what an image shows isn't a listing")
    bench.want(bench.run("asm", TEXT, "out") == Ended(0, b"", b""), "no image is made of what an image shows")
    bench.want(bench.made("out") == content[:5] + b"\x04" + content[6:], "the listing has another image")
    return "image"


def try_commands(bench, rng, found):
    """Debuggers' commands: each refusal is a documented one, and the state at the beginning is what it was, unless `quit` came before."""
    bench.write(TEXT, rng.choice(found.lessons).encode())
    given = mutations.commands(rng, found.sessions) + b"\ngoto 0\ndump\n"
    at_first, said = bench.run("debug", TEXT, given=b"goto 0\ndump\n"), bench.run("debug", TEXT, given=given)
    bench.want(refusals(said.output) <= bench.documented.debugger_refusals, "it refuses by a name that isn't documented")
    is_same = said[::2] == at_first[::2] and (QUIT.search(given) or said.output.endswith(at_first.output))
    is_long = len(given) > MOST and (QUIT.search(given) or said[::2] == (1, b"too long\n"))
    bench.want(is_long or is_same and len(given) <= MOST, "behind these commands position 0 is another")
    return "session"


def may_write(words):
    """The files that a command line may write over: those of `asm`, and what stands behind `--dat` of `trace`."""
    if words[:1] == [b"trace"]:
        return {name for word, name in zip(words[1:], words[2:]) if word == b"--dat"}
    return set(words[1:]) if words[:1] == [b"asm"] else set()


def try_words(bench, rng, found):
    """A command line: no file changes but those that it may write."""
    for name, content in found.files.items():
        bench.write(name, content)
    words = mutations.words(rng, found.uses)
    ended = bench.run(*words, given=mutations.commands(rng, found.sessions))
    changed = {name for name, content in found.files.items() if bench.made(name) != content}
    bench.want(changed <= {os.fsdecode(name) for name in may_write(words)}, f"{sorted(changed)} have changed")
    return f"command line of status {ended.status}"


Found = collections.namedtuple("Found", "lessons images sessions uses files")


def found_in(program, room):
    """What is mutated: the lessons and what the table of hostile.py has."""
    hostile.fill(program, room)
    lessons = sorted(glob.glob(f"{hostile.TOP}/scenarios/**/*.cmwq", recursive=True), key=os.path.basename) + [f"{room}/{name}" for name in ("every.cmwq", "asks.cmwq", "restless.cmwq")]
    for number, lesson in enumerate(lessons):
        hostile.make_image(program, lesson, f"image{number}", room)
    images = [content for number in range(len(lessons)) if os.path.exists(path := f"{room}/image{number}") and (content := hostile.bytes_of(path))]
    sessions = [hostile.bytes_of(path).decode() for path in sorted(glob.glob(f"{hostile.TOP}/scenarios/**/*.debug", recursive=True), key=os.path.basename)]
    sessions += [given for _, given in hostile.USES if given]
    files = {name: hostile.bytes_of(f"{room}/{name}") for name in hostile.FILES}
    return Found([hostile.bytes_of(lesson).decode() for lesson in lessons], images or [b"CMWQ"], sessions, hostile.all_uses(), files)


def try_turn(bench, found, seed, turn):
    """What a turn came to, and what failed in it."""
    rng = random.Random(f"{seed} {turn}")
    part = rng.choice([try_text] * 5 + [try_image] * 2 + [try_commands, try_words, try_words])
    try:
        return part(bench, rng, found), None
    except Failure as failure:
        kept = tempfile.mkdtemp(prefix=f"fuzz-{re.sub(r'[^0-9A-Za-z]', '', seed)[:12]}-{turn}-")
        shutil.copytree(bench.room, kept, dirs_exist_ok=True)
        return "failure", f"turn {turn} of seed {seed}: {[os.fsdecode(word) for word in bench.last]} in {kept}, with the file given: {failure}"


def try_turns(job):
    """What the turns of one process came to, and its failures: up to these turns, or until this time."""
    program, found, seed, turns, until = job
    counts, failures = collections.Counter(), []
    with tempfile.TemporaryDirectory(prefix="fuzz-") as room:
        for turn in turns:
            if time.monotonic() > until or len(failures) >= FAILURES:
                break
            place = f"{room}/{turn}"
            os.mkdir(place)
            kind, failure = try_turn(Bench(program, place, hostile.Documented()), found, seed, turn)
            shutil.rmtree(place)
            counts[kind] += 1
            failures += [failure] if failure else []
    return counts, failures


def fuzzed(program, seed, turns, seconds):
    """What all turns came to, and the failures."""
    processes, until, program = len(os.sched_getaffinity(0)), time.monotonic() + seconds, os.path.abspath(program)
    with tempfile.TemporaryDirectory(prefix="fuzz-") as room:
        found = found_in(program, room)
    jobs = [(program, found, seed, turns[at::processes], until) for at in range(processes)]
    with multiprocessing.Pool(processes) as pool:
        results = pool.map(try_turns, jobs, 1)
    return sum((counts for counts, _ in results), collections.Counter()), [failure for _, failures in results for failure in failures]


def main(words):
    asked = argparse.ArgumentParser(description=__doc__, formatter_class=argparse.RawDescriptionHelpFormatter)
    asked.add_argument("program")
    asked.add_argument("--seconds", type=float)
    asked.add_argument("--turns", type=int)
    asked.add_argument("--seed", default="1")
    asked.add_argument("--turn", type=int)
    given = asked.parse_args(words)
    count = given.turns if given.turns is not None else 1 << 40 if given.seconds else TURNS
    turns = range(given.turn, given.turn + 1) if given.turn is not None else range(count)
    counts, failures = fuzzed(given.program, given.seed, turns, given.seconds or 1 << 40)
    print("".join(f"fuzz: {failure}\n" for failure in failures), end="")
    print("".join(f"fuzz: {counts[kind]} times {kind}\n" for kind in sorted(counts)), end="")
    print(f"fuzz: seed {given.seed}, {sum(counts.values())} turns, {len(failures)} failures")
    return 1 if failures or not counts else 0


if __name__ == "__main__":
    sys.exit(main(sys.argv[1:]))
