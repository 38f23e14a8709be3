"""Tries each limit, and one more (where it has a lower end, also one less): of texts and images, of what a machine takes, of the
debugger's commands, of options, and of inputs' sizes. What is wanted stands in docs/FORMATS.md, but for the greatest `--from` and `--to`, which
stand in the specs of cmwq_request. Then it has the greatest scenario go through each command, in each of its forms: none takes over 20
seconds of processor time or 200 MB, and each ends as it should. It prints what each took; a peak is told no lower than this script's own.

    python3 gate/limits.py PROGRAM"""
import collections
import os
import signal
import struct
import subprocess
import sys
import tempfile

sys.dont_write_bytecode = True
sys.path.insert(0, os.path.dirname(os.path.realpath(__file__)))
import hostile
import test_user_files as user_files
from making import MOST_TIMES, Actor, Queue, Work, greatest, image, lines_of, longest, repeated, text

SECONDS, MEGABYTES, SLOW = 20, 200, 5
# What a command may take by the clock.
MOST_SECONDS = 100
LONGEST_TEXT, LONGEST_IMAGE, MOST_INSTRUCTIONS, MOST_COUNT = 4_194_304, 923_058, 1_048_576, 4_294_967_295
TEN_DIGITS, ELEVEN_DIGITS = 9_999_999_999, 10_000_000_000

# Rows of texts and images: what is limited; the small scenario's parts where it is so much; the line at which that is told; how much is
# taken; for what reasons a text is refused that has so much, and an image. What an image has no room for isn't tried there.
Row = collections.namedtuple("Row", "what parts line taken refused image")


def number_row(what, parts, line, ends, in_image):
    """A row of a number in a line. Below and above its ends it is out of range, in an image where `in_image` has it."""
    refused = {it: "Range" for it in (ends[0] - 1, ends[1] + 1, TEN_DIGITS) if it >= 0}
    return Row(what, parts, line.format, ends, {**refused, ELEVEN_DIGITS: "BadNumber"}, {it: "Range" for it in in_image})


def head_row(word, ends, *in_image):
    return number_row(word, lambda n: {word: n}, f"{word} {{}}", ends, in_image)


def op_row(line, ends, *in_image):
    return number_row(line, lambda n: {"cpus": 16, "works": [Work("a", "q", (line.format(n),))]}, line, ends, in_image)


def instr_row(line, ends, *in_image):
    return number_row(line, lambda n: {"actors": [Actor("t", (line.format(n),))]}, line, ends, in_image)


def count_row(what, parts, line, most, at, least=0):
    """A row of how many there are of something, of which one more is refused; in an image its count is at this offset."""
    return Row(what, parts, line, [least, 1, most], {most + 1: "TooMany"}, {most + 1: f"BadField {at}"})


def name_row(word, parts, line, at):
    """A row of a name's letters, which in an image begin behind this offset."""
    return Row(f"letters of {word}", lambda n: parts("n" * n), lambda n: line.format("n" * n), [1, 15], {16: "BadName"}, {it: f"BadField {at}" for it in (0, 16)})


def max_row(what, line, flags, most):
    """A row of `max`."""
    refused = {0: "BadFlags", most + 1: "BadFlags"}
    more = {TEN_DIGITS: "BadFlags", ELEVEN_DIGITS: "BadNumber"}
    return Row(what, lambda n: {"queues": [Queue("q", n, flags)]}, line.format, [1, most], {**refused, **more}, refused)


def queues(count):
    return {"queues": [Queue(f"q{at}", 1) for at in range(count)], "works": [], "actors": []}


def works(count):
    return {"works": [Work(f"a{at}", "q") for at in range(count)], "actors": []}


def operations(count):
    """So many, `finish` included, no two of which are the same."""
    return {"works": [Work("a", "q", tuple(f"burn {number}" for number in range(1, count)))]}


def delays(count):
    return {"actors": [Actor("t", tuple(f"delay a 0 {number}" for number in range(count)))]}


ROWS = [
    head_row("cpus", [1, 16], 0, 17),
    head_row("workers", [1, 64], 0, 65),
    head_row("steps", [1, MOST_COUNT], 0),
    head_row("flushes", [0, 1024], 1025, 65_535),
    count_row("queues", queues, lambda n: f"queue q{n - 1} max 1", 32, 14),
    count_row("works", works, lambda n: f"work a{n - 1} q", 256, 15),
    count_row("actors", lambda n: {"actors": [Actor(f"t{at}") for at in range(n)]}, lambda n: f"actor t{n - 1}", 16, 17),
    count_row("operations", operations, lambda n: f"burn {n - 1}", 64, 55, least=1),
    count_row("lines", delays, lambda n: f"delay a 0 {n - 1}", 4096, 88),
    name_row("a queue", lambda name: {"queues": [Queue(name, 1)], "works": [], "actors": []}, "queue {} max 1", 18),
    name_row("a work", lambda name: {"works": [Work(name, "q")], "actors": []}, "work {} q", 38),
    name_row("an actor", lambda name: {"actors": [Actor(name)]}, "actor {}", 72),
    max_row("max", "queue q max {}", (), 512),
    max_row("max of an ordered queue", "queue q max {} ordered", ("ordered",), 1),
    op_row("burn {}", [1, 1_000_000], 0, 1_000_001, MOST_COUNT),
    op_row("sleep {}", [1, 1_000_000], 0, 1_000_001, MOST_COUNT),
    op_row("queue a {}", [0, 15], 16, 255),
    *(op_row(line, [0, 1_000_000], 1_000_001, MOST_COUNT) for line in ("delay a {}", "mod a {}")),
    instr_row("next * {}", [1, MOST_TIMES], 0, MOST_TIMES + 1, MOST_COUNT),
    *(instr_row(line, [0, 255]) for line in ("queue a {}", "delay a {} 1", "mod a {} 1", "step {}")),
    *(instr_row(line, [0, MOST_COUNT]) for line in ("delay a 0 {}", "mod a 0 {}", "set_max q {}", "until {}")),
    *(instr_row(line, [0, 65_535]) for line in ("ask {}", "wait {}")),
]
# Of the small scenario's image: the offset and form of fields, what they may be, and for what reason they are refused else.
PATCHES = [
    ("version", 4, ">H", [1, 2, 3, 4], {0: "Version", 5: "Version"}),
    ("flags", 36, ">B", [0, 47], {64: "BadField 36", 128: "BadField 36", 255: "BadField 36"}),
    ("the byte behind them", 37, ">B", [0], {1: "BadField 37"}),
    ("number of a work's queue", 54, ">B", [0], {1: "Unknown", 255: "Unknown"}),
    ("operations", 55, ">B", [2], {0: "BadField 55", 255: "BadField 55"}),
    ("tag of an operation", 56, ">B", [1, 2, 5, 6], {0: "BadField 56", 7: "BadField 60", 8: "BadField 56", 16: "BadField 56"}),
    ("work of an operation", 56, ">BBHI", [(5, 0, 0, 0), (6, 0, 0, 1_000_000), (7, 0, 0, 0)], {(5, 0, 1, 0): "Unknown", (6, 0, 65_535, 0): "Unknown", (7, 0, 1, 0): "Unknown"}),
    ("CPU of an operation", 57, ">B", [0], {1: "BadField 57"}),
    ("tag of an instruction", 90, ">B", [19, 22, 33, 35, 40], {4: "BadField 90", 15: "BadField 90", 41: "BadField 90"}),
    ("work of an instruction", 92, ">H", [0], {1: "Unknown", 65_535: "Unknown"}),
    ("queue of an instruction", 90, ">BBH", [(23, 0, 0)], {(23, 0, 1): "Unknown", (23, 0, 255): "Unknown", (23, 0, 256): "BadField 92"}),
    ("flush of an instruction", 90, ">BBH", [(31, 0, 0), (31, 0, 65_535), (39, 0, 65_535)], {}),
    ("time of an instruction", 90, ">BBHI", [(38, 0, 0, 0), (38, 0, 0, MOST_COUNT)], {}),
]


# Rows of runs: what is tried, the small scenario's parts, and the lines that are printed.


def acted(what, lines, said, **parts):
    return what, {"actors": [Actor("t", tuple(lines))], **parts}, said


def with_workers(count):
    """One work more sleeps than a pool has workers: it alone waits."""
    names = [f"a{at}" for at in range(count + 1)]
    said = [line for name in names[:-1] for line in (f"0 {name} starts", f"0 {name} sleeps 9")]
    lines = [*(f"queue {name} 0" for name in names), f"next * {2 * count + 1}", f"state {names[-1]}"]
    declared = {"workers": count, "queues": [Queue("q", 512)], "works": [Work(name, "q", ("sleep 9",)) for name in names]}
    return acted(f"{count} workers", lines, [*said, f"1 {names[-1]} listed 0 still"], **declared)


def with_max(most):
    """One work more is queued than may be active: it alone is inactive."""
    lines = [*(f"queue a{at} 0" for at in range(most + 1)), f"state a{most - 1}", f"state a{most}"]
    declared = {"queues": [Queue("q", most)], "works": [Work(f"a{at}", "q") for at in range(most + 1)]}
    return acted(f"{most} active works", lines, [f"0 a{most - 1} listed 0 still", f"0 a{most} inactive 0 still"], **declared)


def with_flushes(count):
    """One flush more than can be given."""
    asked = [(f"ask {count - 1}", "0 yes")] if count else []
    asked += [(f"ask {count}", "0 refused NoSuchFlush")]
    said = [*(f"0 flush {it}" for it in range(count)), "0 refused TooManyFlushes", *(answer for _, answer in asked)]
    return acted(f"{count} flushes", [f"flush a * {count + 1}", *(line for line, _ in asked)], said, flushes=count, steps=2000)


def with_cpus(count):
    """One CPU and one pool more than there are."""
    lines = [f"queue a {count - 1}", "cancel a", f"queue a {count}", f"step {2 * count + 1}", f"step {2 * count + 2}"]
    return acted(f"{count} CPUs", lines, ["0 cancelled", "0 refused NoSuchCpu", "0 refused NothingToDo", "0 refused NoSuchPool"], cpus=count)


def for_a_million_ticks(op, *said):
    declared = {"steps": MOST_COUNT, "works": [Work("a", "q", (op,))]}
    return acted(op, ["queue a 0", *repeated("next", 1_000_004)], ["0 a starts", *said, "1000000 a finishes"], **declared)


def behind_a_million_ticks(op, did):
    """A body sets the timer of another work, which comes so late."""
    declared = {"steps": MOST_COUNT, "works": [Work("a", "q", (op,)), Work("b", "q", ())]}
    said = ["0 a starts", f"0 a {did} b 1000000", "0 a finishes", *(f"1000000 b {it}" for it in ("fires", "starts", "finishes"))]
    return acted(op, ["queue a 0", *repeated("next", 1_000_006)], said, **declared)


# A delay ends behind 32 bits, too.
LONG_DELAY = [f"delay a 0 {MOST_COUNT}", "state a", "tick", f"mod a 0 {MOST_COUNT}", "state a"]
RUNS = [
    *map(with_workers, (1, 64)),
    *map(with_max, (1, 255)),
    *map(with_flushes, (0, 1024)),
    *map(with_cpus, (1, 16)),
    acted("steps", ["tick * 4", "busy"], ["3 refused Spent", "3 no"], steps=3),
    acted("steps with what is free", ["until 3 * 9", "quiet * 9", "until 4 * 2"], ["3 refused Spent"] * 2, steps=3),
    acted("set_max", [f"set_max q {it}" for it in (1, 512, 0, 513, MOST_COUNT)], ["0 refused BadCount"] * 3),
    acted("depth", ["disable a * 65535", "disable a", "enable a"], ["0 not pending"] * 65_535 + ["0 refused TooDeep", "0 no"], steps=70_000),
    acted("delay", LONG_DELAY, [f"0 a timer {MOST_COUNT} still", "1 changed", f"1 a timer {MOST_COUNT + 1} still"]),
    for_a_million_ticks("burn 1000000", "0 a burns 1000000"),
    for_a_million_ticks("sleep 1000000", "0 a sleeps 1000000", "1000000 a wakes"),
    *(behind_a_million_ticks(op, did) for op, did in {"delay b 1000000": "delays", "mod b 1000000": "mods"}.items()),
]

# Rows of the debugger on the small scenario, whose second instruction lets a tick pass: its commands, each with its answer.
SIXTEEN = [(f"break time {at}", f"break {at}") for at in range(16)]
SESSIONS = [
    [*SIXTEEN, ("break refusal", "refused TooManyBreaks"), ("clear 3", "cleared 3"), ("break refusal", "break 3"), ("break refusal", "refused TooManyBreaks")],
    [("clear 0", "refused NoSuchBreak"), ("clear 255", "refused NoSuchBreak"), ("clear 256", "bad command")],
    [("dump pool 4", "refused NoSuchPool"), ("dump pool 255", "refused NoSuchPool"), ("dump pool 256", "bad command")],
    [("goto 2", "at 2 now 1"), ("goto 3", "refused PastEnd"), ("step 1", "refused PastEnd"), ("run", "refused PastEnd"), ("next event", "refused PastEnd")],
    [("step 3", "refused PastEnd"), ("step 2", "at 2 now 1"), ("back 3", "refused PastStart"), ("back 2", "at 0 now 0"), ("back 1", "refused PastStart")],
    [(f"{word} {MOST_COUNT}", "refused PastEnd") for word in ("step", "goto")] + [(f"{word} {MOST_COUNT + 1}", "bad command") for word in ("step", "goto")],
    [(f"back {MOST_COUNT}", "refused PastStart"), (f"back {MOST_COUNT + 1}", "bad command")],
    [(f"break time {MOST_COUNT}", "break 0"), (f"break time {MOST_COUNT + 1}", "bad command")],
    [("why flush 0", "refused NoSuchFlush"), ("step 1", "at 1 now 0"), ("why flush 0", "flush 0 done"), ("why flush 1", "refused NoSuchFlush")],
    [(f"why flush {MOST_COUNT}", "refused NoSuchFlush"), (f"why flush {MOST_COUNT + 1}", "bad command")],
]

# Rows of options: the actor's lines, a command line, its status, and what it says on standard error; of a usage only that it is one.
USAGE, FULL, TOO_WIDE = None, (4, "full\n"), (2, "more than 500 columns: give --from and --to\n")
GOOD, WRONG, NEVER_QUIET = (0, ""), (2, USAGE), (1, "never quiet\n")
CAPACITIES = {0: WRONG, 1: FULL, 2: FULL, 3: GOOD, 4096: GOOD, 4097: WRONG, TEN_DIGITS: WRONG}
PAST = {it: (1, "past the end\n") for it in (3, MOST_COUNT + 1, TEN_DIGITS)}
UNGIVEN = {it: (1, "no such flush\n") for it in (1, MOST_COUNT + 1, TEN_DIGITS)}
SPANS = {"": TOO_WIDE, "--from 0": TOO_WIDE, "--from 1": GOOD, "--to 500": GOOD, "--to 501": TOO_WIDE, "--from 0 --to 501": GOOD}
SPANS |= {f"--from {it} --to 9": ends for it, ends in {0: GOOD, 9: GOOD, 10: WRONG, 2**64 - 1: WRONG, 2**64: WRONG}.items()}
# Runs of 500 and 501 ticks of which none is folded, as the actor does something at each.
RESTLESS = ("disable a", "tick", "enable a", "tick") * 250
OPTIONS = [(("busy * 3",), f"play FILE --capacity {it}", ends) for it, ends in CAPACITIES.items()]
OPTIONS += [((f"busy * {it}",), "play FILE --capacity 4096", ends) for it, ends in {4096: GOOD, 4097: FULL}.items()]
OPTIONS += [(("flush a", "busy"), f"why FILE a --at {it}", ends) for it, ends in {0: GOOD, 2: GOOD, **PAST, ELEVEN_DIGITS: WRONG}.items()]
OPTIONS += [(("flush a", "busy"), f"why FILE --flush {it}", ends) for it, ends in {0: GOOD, **UNGIVEN, ELEVEN_DIGITS: WRONG}.items()]
OPTIONS += [(("flush a", "busy"), f"why FILE --flush 0 --at {it}", ends) for it, ends in {0: UNGIVEN[1], 1: GOOD, **PAST}.items()]
RANGES = {it: GOOD for it in ("1..1", "1..64", "449..512", "512..512", "1..0000000002")}
RANGES |= {it: WRONG for it in ("1..65", "0..1", "2..1", "1...2", "450..513", "513..513", "1..00000000002", "1", "1.2", "1..", "..1", "x..1", f"1..{TEN_DIGITS}")}
OPTIONS += [(("busy * 3",), f"times FILE --sweep q {it}", ends) for it, ends in RANGES.items()]
OPTIONS += [(("busy * 3",), "times FILE --sweep r 1..2", (1, "no such queue\n")), (("busy * 3",), "times FILE --sweep q 1..2 --whom", WRONG)]
OPTIONS += [(("tick * 501",), "draw FILE", GOOD), (RESTLESS, "draw FILE", GOOD)]
OPTIONS += [((*RESTLESS, "disable a", "tick"), f"draw FILE {span}".rstrip(), ends) for span, ends in SPANS.items()]


# Rows of explorations: the actors' lines, the words behind the file, the other parts of the scenario, the status, what is said on
# standard error, and the output, where that is known.
ORDERED = " ".join(f"--before t{at} t{at + 1}" for at in range(15))
ALL_OF_TWO, ONE_OF_TWO = (0, "", "holds in all 2 states; a is pending in 0\n"), (6, "", "gave up at 1 states; holds for all orders of at most 0 instructions\n")
UNKNOWN_ACTOR, UNKNOWN_WORK, NO_EXPLORATION = (1, "no such actor\n", ""), (1, "no such work\n", ""), (2, USAGE, "")


def ended(states, count=1):
    """Nobody is stuck, in so many states, in so many of which all have ended."""
    return 0, "", f"holds in all {states} states; all actors have ended in {count}\n"


def needed(count):
    return 1, f"flushes {count} needed\n", ""


def burning(ticks):
    """A work that burns so long, for which there is one order: it is queued, starts and burns, the ticks pass, and it finishes."""
    return [("queue a 0",)], "--stuck", {"works": [Work("a", "q", (f"burn {ticks}",))], "steps": 100_000}


EXPLORING = [
    ([], "--stuck", {}, (1, "actors\n", "")),
    ([("busy",)], "--stuck", {}, ended(2)),
    ([()] * 16, "--stuck", {}, ended(1)),
    ([("busy",)] * 16, "--stuck", {}, ended(2**16)),
    ([("busy",)] * 16, f"--stuck {ORDERED}", {}, ended(17)),
    ([("busy * 4096",)], "--stuck", {}, ended(4097)),
    ([("busy * 4097",)], "--stuck", {}, (*FULL, "")),
    ([("busy * 256",)] * 16, f"--stuck {ORDERED}", {}, ended(4097)),
    ([("busy * 256",)] * 15 + [("busy", "busy * 256")], f"--stuck {ORDERED}", {}, (*FULL, "")),
    ([("cancel_sync a * 1024", "busy * 1024")], "--stuck --limit 1", {"flushes": 1024}, ONE_OF_TWO),
    ([("cancel_sync a * 1024", "busy * 1025")], "--stuck --limit 1", {"flushes": 1024}, (*FULL, "")),
    ([("cancel_sync a * 1366",)], "--stuck", {}, (*FULL, "")),
    ([("busy * 4097",)], "--never nobody", {"flushes": 0}, (*FULL, "")),
    (*burning(4092), ended(4097, 4096)),
    (*burning(4093), (6, "", "gave up at 4097 states; holds for all orders of at most 4096 instructions\n")),
    *(([("busy",)], f"--never a --limit {it}", {}, ends) for it, ends in {1: ONE_OF_TWO, 2: ALL_OF_TWO, 1_000_000: ALL_OF_TWO}.items()),
    *(([("busy",)], f"--never a --limit {it}", {}, NO_EXPLORATION) for it in (0, 1_000_001, MOST_COUNT, TEN_DIGITS, ELEVEN_DIGITS, "+1")),
    *(([(f"flush a * {it}",)] if it else [()], "--stuck", {"flushes": it}, ended(it + 1)) for it in (0, 1, 2)),
    ([("flush a * 1024",)], "--stuck", {"flushes": 1024, "steps": 1025}, ended(1025)),
    ([("flush a * 1024",)], "--stuck", {"flushes": 1024, "steps": 1024}, (6, "", "holds within 1024 steps, in all 1025 states; all actors have ended in 1\n")),
    ([("flush a * 1024",)], "--stuck", {"flushes": 1024, "steps": 1023}, (6, "", "vacuous in all 1024 states; all actors have ended in 0\n")),
    *(([(line,)], "--stuck", {}, ended(states)) for line, states in {"until 0": 2, "until 5": 7, "quiet": 2, "until 0 * 9": 2}.items()),
    ([("until 5 * 9", "quiet * 9")], "--stuck", {}, ended(8)),
    ([("busy * 4095", "quiet * 2")], "--stuck", {}, ended(4097)),
    ([("busy * 4096", "quiet")], "--stuck", {}, (*FULL, "")),
    ([("until 5",)], "--stuck", {"steps": 5}, (6, "", "holds within 5 steps, in all 7 states; all actors have ended in 1\n")),
    ([("until 5",)], "--stuck", {"steps": 4}, (6, "", "vacuous in all 5 states; all actors have ended in 0\n")),
    ([("until 2",), ("until 3",)], "--stuck", {}, ended(8)),
    ([("flush a", "wait 0")], "--stuck", {}, ended(3)),
    ([("queue a 0", "quiet")], "--stuck", {}, ended(7)),
    ([("queue a 0",)], "--stuck", {"works": [Work("a", "q", ("delay b 1",)), Work("b", "q", ())]}, ended(9, 8)),
    *(([(f"flush a * {it + 1}",)], "--stuck", {"flushes": it}, needed(it + 1)) for it in (0, 1, 2, 1024)),
    *(([(line,)], "--stuck", {"flushes": 0}, needed(1)) for line in ("flush a", "flush_delayed a", "flush_queue q", "cancel_sync a")),
    ([("flush a",), ("cancel_sync a", "flush_queue q")], "--never nobody", {"flushes": 2}, needed(3)),
    ([("cancel_sync a * 1365",)], "--stuck", {"flushes": 1024}, needed(1365)),
    ([("busy",)], "--after nobody --never a", {}, UNKNOWN_ACTOR),
    ([("busy",)], "--after nobody --never nobody", {}, UNKNOWN_ACTOR),
    ([("busy",)], "--after t0 --never nobody", {}, UNKNOWN_WORK),
    ([("busy",)], "--never nobody", {}, UNKNOWN_WORK),
    ([("busy",)], "--never a nobody", {}, UNKNOWN_WORK),
    ([("busy",)], "--never nobody --before nobody t0", {}, UNKNOWN_WORK),
    ([("busy",)], "--stuck --before t0 nobody", {}, UNKNOWN_ACTOR),
    ([("busy",)], "--stuck --before nobody t0", {}, UNKNOWN_ACTOR),
    ([("busy",)] * 2, "--stuck --before t0 t0", {}, NO_EXPLORATION),
    ([("busy",)] * 2, "--stuck --before t0 t1 --before t1 t0", {}, NO_EXPLORATION),
    ([("busy",)] * 16, f"--stuck {ORDERED} --before t15 t0", {}, NO_EXPLORATION),
    ([("busy",)] * 2, "--never a a", {}, NO_EXPLORATION),
    ([("busy",)] * 2, "--stuck --never a", {}, NO_EXPLORATION),
    ([("busy",)] * 2, "--after t0", {}, NO_EXPLORATION),
    ([("busy",)] * 2, "--before t0 t1", {}, NO_EXPLORATION),
]


def settling(ticks, lines, ends, steps=MOST_COUNT):
    """Actor's lines of which the last queues a work that sleeps so often and so long; how `settle` ends; and the scenario's other parts. The
    work is quiet after two `next` for each sleep, those of its ticks, and two more."""
    return ("busy",) * (lines - 1) + ("queue a 0",), ends, {"steps": steps, "works": [Work("a", "q", tuple(f"sleep {it}" for it in ticks))]}


# So long it sleeps, after a million ticks, where the machine is quiet with the last instruction that is issued.
LONGEST_SLEEP = MOST_INSTRUCTIONS - 1_000_007
SETTLING = [
    settling([3], 1, GOOD, steps=8),
    settling([3], 1, NEVER_QUIET, steps=7),
    settling([1_000_000, LONGEST_SLEEP], 1, GOOD),
    settling([1_000_000, LONGEST_SLEEP + 1], 1, NEVER_QUIET),
    settling([MOST_TIMES - 4], 4095, GOOD),
    settling([MOST_TIMES - 3], 4095, FULL),
    settling([3], 4096, FULL),
]

# The commands that read a text, each with what stands on standard input.
READING = [(line, "") for line in """
run FILE
run --tell FILE
run --settle FILE
settle FILE
list FILE
draw FILE
draw --settle --svg FILE
why FILE a
why FILE --flush 0
times FILE
times FILE --whom
times FILE --sweep q 1..2
trace FILE --json
trace FILE --lines
trace FILE --text
trace FILE --dat out
asm FILE out
play FILE --capacity 9
explore FILE --never a
""".split("\n")[1:-1]] + [("debug FILE", "step 1\n")]


def counting(count):
    """A scenario of so many instructions, and command lines over it, each with what it prints, where that is known."""
    scenario = text(queues=[Queue("q", 1, ("freezable",))], actors=[Actor("t", ("flush a", *repeated("busy", count - 1)))])
    printed, quiet, done = "0 flush 0\n" + "0 no\n" * (count - 1), "at 0 now 0 a not pending\n", "at 1 now 0 flush 0 done\n"
    known = {"run FILE": printed, "run --settle FILE": printed, "settle FILE": scenario.decode(), "draw FILE": None, "draw --settle --svg FILE": None}
    known |= {"run --tell FILE": "# 0 flush a\n0 flush 0\n" + "".join(f"# {it} busy\n0 no\n" for it in range(1, count)), "why FILE a": quiet, "why FILE a --every": quiet}
    known |= {f"why FILE a --at {count}": f"at {count} now 0 a not pending\n", "why FILE --flush 0": done, "why FILE --flush 0 --every": done}
    session = (f"goto {count}\ngoto {count + 1}\n", f"at {count} now 0\nrefused PastEnd\n")
    return scenario, [*((line, "", said) for line, said in known.items()), ("debug FILE", *session)]


def taken_from(path):
    """What a file has that a command made, if it did, which is then gone."""
    content = hostile.bytes_of(path) if os.path.exists(path) else b""
    if os.path.exists(path):
        os.remove(path)
    return content


class Limits:
    """Has the program read inputs, and notes which end otherwise than they should."""

    def __init__(self, program, room):
        self.program, self.room, self.path, self.tried, self.faults = os.path.abspath(program), room, f"{room}/input", 0, []

    def run(self, line, content, given="", errors=subprocess.PIPE):
        """What a command line over a file ends with: its status, its output and its errors."""
        with open(self.path, "wb") as it:
            it.write(content)
        self.tried += 1
        words = [self.path if it == "FILE" else it for it in line.split(" ")]
        ran = subprocess.run([self.program, *words], cwd=self.room, input=given.encode(), stdout=subprocess.PIPE, stderr=errors, timeout=MOST_SECONDS)
        return ran.returncode, ran.stdout.decode("utf-8", "replace"), (ran.stderr or b"").decode("utf-8", "replace")

    def run_at_terminal(self, line, content):
        """The same, with a terminal for its errors."""
        ours, theirs = os.openpty()
        os.set_blocking(ours, False)
        status, said, _ = self.run(line, content, errors=theirs)
        with open(ours, "rb", buffering=0) as it:
            shown = it.read(4096) or b""
        os.close(theirs)
        return status, said, shown.decode("utf-8", "replace").replace("\r\n", "\n")

    def want(self, what, found, ends, output=None):
        """Notes what ends otherwise. No output is wanted where it is None."""
        (status, said, errors), (wanted, reason) = found, ends
        is_told = errors.startswith("error: ") and not said if reason is USAGE else errors == reason
        if status != wanted or not is_told or output not in (None, said):
            shown = "a usage" if reason is USAGE else repr(reason)
            self.faults.append(f"{what} ends with status {status} and {errors[-80:]!r} behind {said[-80:]!r}, and not with {wanted} and {shown} behind {(output or '')[-80:]!r}")

    def want_listed(self, what, line, content, listing):
        """Notes where this command line over this content doesn't print the listing, in which no line stands `* 1`."""
        self.want(what, self.run(line, content), GOOD, listing.decode().replace(" * 1\n", "\n"))

    def try_taken(self, row, value):
        """A text is listed, has the image that is wanted, and that image its listing."""
        what, parts = f"{row.what}, {value}:", row.parts(value)
        self.want_listed(f"{what} the text", "list FILE", text(**parts), text(**parts))
        self.want_listed(f"{what} the image", "show FILE", image(**parts), text(**parts))
        self.want(f"{what} asm", self.run("asm FILE out", text(**parts)), GOOD, "")
        self.faults += [] if taken_from(f"{self.room}/out") == image(**parts) else [f"{what} asm makes another image than is wanted"]

    def try_refused(self, row, value, reason):
        """A text's fault is told at its line."""
        lines = lines_of(**row.parts(value))
        number = len(lines) - lines[::-1].index(row.line(value))
        self.want(f"{row.what}, {value}: the text", self.run("list FILE", text(**row.parts(value))), (1, f"line {number}: {reason}\n"), "")

    def try_row(self, row):
        for value in row.taken:
            self.try_taken(row, value)
        for value, reason in row.refused.items():
            self.try_refused(row, value, reason)
        for value, reason in row.image.items():
            self.want(f"{row.what}, {value}: the image", self.run("show FILE", image(**row.parts(value))), (1, f"image: {reason}\n"), "")

    def try_patch(self, what, at, form, taken, refused):
        whole = image()
        for value in [*taken, *refused]:
            patch = struct.pack(form, *(value if isinstance(value, tuple) else (value,)))
            ends = (1, f"image: {refused[value]}\n") if value in refused else GOOD
            self.want(f"{what}, {value}: the image", self.run("show FILE", whole[:at] + patch + whole[at + len(patch) :]), ends)

    def try_longest_text(self):
        """Each command does with the longest text what it does without the comment at its end; one byte more is too long, before all else."""
        for line, given in READING:
            short, long, longer = (self.run(line, text().ljust(size, b"#"), given) for size in (0, LONGEST_TEXT, LONGEST_TEXT + 1))
            self.want(f"{line} of the longest text", long, GOOD, short[1])
            self.want(f"{line} of a longer text", longer, (1, "line 0: TooLong\n"), "")
        for size, fault in {LONGEST_TEXT: "line 2: MissingWord\n", LONGEST_TEXT + 1: "line 0: TooLong\n"}.items():
            self.want(f"{size} hashes", self.run("list FILE", b"#" * size), (1, fault), "")

    def try_check(self):
        """The longest text, one more byte, and words of which all is shown, and not all."""
        verdicts = {LONGEST_TEXT: (GOOD, f"{self.path}: ok\n"), LONGEST_TEXT + 1: ((1, f"{self.path}:0:0: text: TooLong\n"), "")}
        for size, (ends, said) in verdicts.items():
            self.want(f"check of {size} bytes", self.run("check FILE", text().ljust(size, b"#")), ends, said)
        for size in (63, 64, 65):
            told = f"{self.path}:1:1: {'x' * min(size, 64)}: BadWord\n  a line here may begin with: cpus\n"
            self.want(f"check of a word of {size} bytes", self.run("check FILE", b"x" * size), (1, told), "")

    def try_terminal(self):
        """A line of which all is shown, and not all; a column that is shown, and one behind it."""
        for line, is_shown in [(b"x" * 100, True), (b"x" * 101, True), (b" " * 99 + b"x", True), (b" " * 100 + b"x", False)]:
            column, word = line.index(b"x") + 1, line.strip().decode()[:64]
            shown = f"  {line.decode()[:100]}\n  {' ' * (column - 1)}^\n" if is_shown else ""
            told = f"{self.path}:1:{column}: {word}: \x1b[1;31mBadWord\x1b[0m\n{shown}  a line here may begin with: cpus\n"
            self.want(f"check of {line[-2:]}, {len(line)} bytes, at a terminal", self.run_at_terminal("check FILE", line), (1, told), "")

    def try_other_sizes(self):
        """The debugger's commands, of which one more byte is too long, and images that are longer than the longest."""
        steps = LONGEST_TEXT // len("step 0\n")
        for size, ends in {LONGEST_TEXT: GOOD, LONGEST_TEXT + 1: (1, "too long\n")}.items():
            given = ("step 0\n" * steps).ljust(size, "#")
            self.want(f"{size} bytes of commands", self.run("debug FILE", text(), given), ends, "at 0 now 0\n" * steps)
        for size in (LONGEST_IMAGE + 1, LONGEST_TEXT, LONGEST_TEXT + 1):
            content = image(**greatest(*GREATEST[ALL])).ljust(size, b"\0")
            self.want(f"an image of {size} bytes", self.run("show FILE", content), (1, "image: Extra\n"), "")

    def try_counts(self):
        """As many instructions as there may be are carried out; with one more nothing is."""
        for count in (MOST_INSTRUCTIONS, MOST_INSTRUCTIONS + 1):
            scenario, lines = counting(count)
            for line, given, said in lines:
                is_full = count > MOST_INSTRUCTIONS
                self.want(f"{line} of {count} instructions", self.run(line, scenario, given), FULL if is_full else GOOD, "" if is_full else said)

    def try_actors(self):
        """One actor alone, or one to sixteen in a play."""
        ends = {True: GOOD, False: (1, "actors\n")}
        for count in (0, 1, 2, 16):
            scenario = text(actors=[Actor(f"t{at}", ("busy",)) for at in range(count)])
            self.want(f"a play of {count} actors", self.run("play FILE --capacity 16", scenario), ends[count > 0])
            self.want(f"an exploration of {count} actors", self.run("explore FILE --stuck --limit 99999", scenario), ends[count > 0])
            for line in ("run FILE", "run --settle FILE", "run --tell FILE", "settle FILE", "draw FILE", "why FILE a", "debug FILE"):
                self.want(f"{line} of {count} actors", self.run(line, scenario), ends[count == 1])

    def try_orders(self):
        for lines, words, parts, (*ends, output) in EXPLORING:
            scenario = text(**{"actors": [Actor(f"t{at}", it) for at, it in enumerate(lines)], **parts})
            self.want(f"explore {words} of {lines} and {parts}", self.run(f"explore FILE {words}", scenario), ends, output)

    def try_runs(self):
        for what, parts, said in RUNS:
            self.want(f"a run: {what}", self.run("run FILE", text(**parts)), GOOD, "".join(f"{line}\n" for line in said))
        for session in SESSIONS:
            given, said = ("".join(f"{line}\n" for line in half) for half in zip(*session))
            self.want(f"the session that ends with {session[-1][0]}", self.run("debug FILE", text(), given), GOOD, said)
        for lines, line, ends in OPTIONS:
            self.want(f"{line} of {lines}", self.run(line, text(actors=[Actor("t", lines)], steps=MOST_COUNT)), ends)
        for lines, ends, parts in SETTLING:
            self.want(f"settle of {len(lines)} lines and {parts}", self.run("settle FILE", text(actors=[Actor("t", lines)], **parts)), ends)

    def try_all(self):
        for row in ROWS:
            self.try_row(row)
        for patch in PATCHES:
            self.try_patch(*patch)
        for part in (self.try_runs, self.try_longest_text, self.try_check, self.try_terminal, self.try_other_sizes, self.try_counts, self.try_actors, self.try_orders):
            part()


# The greatest scenario with all actors, and with one.
ALL, ONE = "all.cmwq", "one.cmwq"
GREATEST = {ALL: (16, MOST_INSTRUCTIONS, 2000), ONE: (1, MOST_INSTRUCTIONS, 2000)}
LAST, LAST_QUEUE = longest("w", 255), longest("q", 29)
SESSION = "".join([*(f"{line}\n" for line, _ in SIXTEEN), "run\nrun\n", f"goto {MOST_INSTRUCTIONS}\nback 1\n", *(f"why {longest('w', at)}\n" for at in range(256)), "goto 3000\ndump\nwhy flush 0\n"])
MEASURED = [(line, "") for line in f"""
check {ALL} {ONE}
list {ALL}
asm {ALL} made.image
show all.image
play {ALL} --capacity 4096
explore {ALL} --stuck
run {ONE}
run --tell {ONE}
run --settle {ONE}
settle {ONE}
draw {ONE} --from 0 --to 500
draw {ONE} --from 0 --to 500 --svg
draw {ONE} --from 0 --to 500 --settle
why {ONE} {LAST} --every
why {ONE} {LAST} --at {MOST_INSTRUCTIONS}
why {ONE} --flush 5 --every
why {ONE} --flush 5 --at {MOST_INSTRUCTIONS}
why {ONE} {LAST}
why {ONE} --flush 5
times {ONE}
times {ONE} --json
times {ONE} --whom
times {ONE} --sweep {LAST_QUEUE} 1..1
trace {ONE} --json
trace {ONE} --lines
trace {ONE} --text
trace {ONE} --dat one.data
""".split("\n")[1:-1]] + [(f"debug {ONE}", SESSION)]
SHARED = "other work items start beside its own, but burn only after these sleep or finish; a kernel time-slices the CPU"
Took = collections.namedtuple("Took", "seconds megabytes status errors output")


def measured(program, room, line, given):
    """What a command line took, of processor time and at its peak, and how it ended. Its output stands in a file."""
    names = [f"{room}/{len(os.listdir(room))}.{kind}" for kind in ("given", "output", "errors")]
    with open(names[0], "w+b") as asked, open(names[1], "wb") as output, open(names[2], "wb") as errors:
        asked.write(given.encode())
        asked.seek(0)
        ran = subprocess.Popen([program, *line.split(" ")], cwd=room, stdin=asked, stdout=output, stderr=errors, preexec_fn=lambda: signal.alarm(MOST_SECONDS))
        _, status, used = os.wait4(ran.pid, 0)
        ran.returncode = os.waitstatus_to_exitcode(status)
    return Took(used.ru_utime + used.ru_stime, used.ru_maxrss / 1000, ran.returncode, hostile.bytes_of(names[2]), names[1])


def notes_on(parts):
    """The lines of a greatest scenario on which `check` has notes, with each note: each queue has works, some of CPUs, no work queues itself, there are
    more steps than instructions, and some lines have no count."""
    for at, it in enumerate(parts["queues"]):
        if "cpu_intensive" in it.flags and not {"unbound", "ordered"} & set(it.flags):
            yield 5 + at, f"{it.name}: {SHARED}"
    for number, line in enumerate(text(**parts).decode().split("\n"), 1):
        word, _, operand = line.partition(" ")
        if word in GOALS and "*" not in operand:
            yield number, f"{word}: without a count it makes at most one move; write {line} * 100 to continue until {GOALS[word].format(operand)}"


GOALS = {"quiet": "no work item is pending or running", "until": "tick {}", "wait": "flush {} is done"}


def notes_of(*files):
    """What `check` says of these greatest scenarios."""
    return "".join(f"{file}:{line}: note: {note}\n" for file in files for line, note in notes_on(greatest(*GREATEST[file])))


def cost_faults(line, took):
    """What is wrong with what a command line took, and with how it ended: the play and the exploration are full, and the verdict alone has
    notes."""
    ends = {"play": FULL, "explore": FULL, "check": (0, notes_of(ALL, ONE))}
    wanted = ends.get(line.split(" ")[0], GOOD)
    checks = {
        f"takes {took.seconds:.1f} seconds": took.seconds <= SECONDS,
        f"takes {took.megabytes:.0f} MB": took.megabytes <= MEGABYTES,
        f"ends with status {took.status} and says {took.errors[-80:]!r}": (took.status, took.errors) == (wanted[0], wanted[1].encode()),
    }
    return [f"{line} {what}" for what, is_well in checks.items() if not is_well]


def play_is_well(program, room, played):
    """Whether what the play left has as many lines as there was room for, and prints its comments."""
    with open(f"{room}/played.cmwq", "wb") as it:
        it.write(played)
    again = subprocess.run([program, "run", f"{room}/played.cmwq"], stdout=subprocess.PIPE, stderr=subprocess.STDOUT, timeout=MOST_SECONDS).stdout
    comments = [line[2:] for line in played.splitlines(True) if line.startswith(b"# ")]
    lines = played.partition(b"\nactor played\n")[2].splitlines()
    return len(lines) - len(comments) == 4096 and again == b"".join(comments)


def output_faults(program, room, outputs):
    """Which outputs are otherwise than they should be: the listings, the image, the runs that are the same, and the play."""
    printed, drawn, told = (outputs[line] for line in (f"run {ONE}", f"draw {ONE} --from 0 --to 500", f"run --tell {ONE}"))
    listing = hostile.bytes_of(f"{room}/{ALL}")
    same = {f"list {ALL}": listing, "show all.image": listing, f"settle {ONE}": hostile.bytes_of(f"{room}/{ONE}"), f"run --settle {ONE}": printed}
    checks = {line: outputs[line] == content for line, content in {**same, f"draw {ONE} --from 0 --to 500 --settle": drawn}.items()}
    checks[f"asm {ALL} made.image"] = taken_from(f"{room}/made.image") == hostile.bytes_of(f"{room}/all.image")
    checks[f"run --tell {ONE}"] = printed and b"".join(line for line in told.splitlines(True) if not line.startswith(b"#")) == printed
    checks[f"play {ALL} --capacity 4096"] = play_is_well(program, room, outputs[f"play {ALL} --capacity 4096"])
    return [f"{line} has another output than it should" for line, is_well in checks.items() if not is_well]


def uncovered():
    """Which word of scenarios, or operation of bodies, doesn't stand in the greatest one, and which command doesn't read it."""
    whole = text(**greatest(*GREATEST[ONE])).decode()
    words, operations = set(whole.split()), hostile.operations_in(whole)
    commands = {line.split()[0] for line, _ in MEASURED}
    missing = [*(user_files.words_of_scenarios() - words), *(user_files.words_of_bodies() - operations), *(user_files.words_of_commands() - commands - {"new", "help"})]
    return [f"the greatest scenario lacks {word}" for word in sorted(missing)]


def write_greatest(room):
    """Writes the greatest scenarios, and the image of the greatest."""
    contents = {**{name: text(**greatest(*size)) for name, size in GREATEST.items()}, "all.image": image(**greatest(*GREATEST[ALL]))}
    for name, content in contents.items():
        with open(f"{room}/{name}", "wb") as it:
            it.write(content)
    assert len(contents["all.image"]) == LONGEST_IMAGE, "docs/FORMATS.md has how long the longest image is"


def greatest_faults(program, room, uses):
    """Has the greatest scenario go through these command lines, prints what each took, and tells what is wrong."""
    write_greatest(room)
    print("limits: seconds   MB")
    found = {}
    for line, given in uses:
        found[line] = took = measured(program, room, line, given)
        print(f"limits: {took.seconds:7.2f} {took.megabytes:4.0f} {line}{', which is slow' if took.seconds > SLOW else ''}", flush=True)
    faults = [fault for line, took in found.items() for fault in cost_faults(line, took)]
    return faults + output_faults(program, room, {line: hostile.bytes_of(took.output) for line, took in found.items()})


def main(program):
    with tempfile.TemporaryDirectory(prefix="limits-") as room:
        faults = uncovered() + greatest_faults(os.path.abspath(program), room, MEASURED)
        limits = Limits(program, room)
        limits.try_all()
    faults += limits.faults
    print("".join(f"limits: {fault}\n" for fault in faults), end="")
    print(f"limits: {limits.tried} inputs, {len(MEASURED)} command lines over the greatest scenario, {len(faults)} faults")
    return 1 if faults else 0


if __name__ == "__main__":
    sys.exit(main(*sys.argv[1:]))
