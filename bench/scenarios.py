"""Writes the scenarios by which programs are compared into a folder, the same on each run.

    python3 scenarios.py FOLDER [NAME=SIZE ..]

SIZE is about how many instructions the scenario's actor has; of f_list, the larger text of texts.py, how many lines stand behind the first
actor's name, and of f_run, its other text, how many comments. What isn't named has the size of the table below. Each NAME.cmwq has a companion NAME.empty, which is the same but for its actor, who has no lines;
those of f_list and f_run have no comments either.

The sizes are small, so that a program that scans its works for each instruction can be measured, too. Those that grow have more instructions, so
that the lines that first queue each work are few among them."""
import pathlib
import sys

import texts

NEXT = "next"

SIZES = {
    "a_small": 20_000,
    "b_wide": 3_000,
    "c_timers": 20_000,
    "d_sleepers": 3_000,
    "e_ticks": 10_000,
    "e_ticks_wide": 2_000,
    "f_list": 65_551,
    "f_run": 65_528,
    "g_events": 10_000,
    "g_short": 20_000,
    "g_state": 30_000,
    "works_4": 80_000,
    "works_16": 80_000,
    "works_64": 80_000,
    "works_256": 80_000,
    "cpus_1": 80_000,
    "cpus_4": 80_000,
    "cpus_16": 80_000,
    "sleepers_1": 80_000,
    "sleepers_8": 80_000,
    "sleepers_64": 80_000,
}


class Numbers:
    """Numbers that look random, and are the same on each run."""

    def __init__(self, seed):
        self.state = seed

    def below(self, bound):
        self.state = (self.state * 6_364_136_223_846_793_005 + 1_442_695_040_888_963_407) % 2**64
        return (self.state >> 33) % bound


def head(cpus, workers, flushes=0):
    return [f"cpus {cpus}", f"workers {workers}", "steps 4294967295", f"flushes {flushes}"]


def declared(queues, works):
    """The lines of queues, each with its name and what follows, and of works, each with its name, its queue and its operations."""
    bodies = [line for name, _queue, ops in works for line in (f"body {name}", *ops, "finish")]
    return [*(f"queue {name} {rest}" for name, rest in queues), *(f"work {name} {queue}" for name, queue, _ops in works), *bodies]


def repeated(line, times):
    """The line so many times, in as few lines as can be; once at least."""
    most, times = 65_535, max(1, times)
    counts = [most] * (times // most) + [times % most] * (times % most > 0)
    return [line if count == 1 else f"{line} * {count}" for count in counts]


def times_of(line):
    """How often an actor's line stands."""
    return int(line.partition(" * ")[2] or 1)


def stretched(line, times):
    """An actor's line, so many times as often."""
    return f"{line.partition(' * ')[0]} * {times_of(line) * times}" if times_of(line) * times > 1 else line


def again_and_again(block, size, least=1):
    """A block of lines, over and over, up to about so many instructions, each line at least so many times as often, and more where there
    would be too many lines."""
    turns = max(1, size // sum(map(times_of, block)))
    times = max(least, -(-turns // max(1, 3_600 // len(block))))
    return [stretched(line, times) for line in block] * max(1, turns // times)


def a_small(size):
    """Four works of one pool, which burn, sleep and queue themselves."""
    works = [(f"w{at}", "q", [f"burn {at + 1}", f"sleep {2 * at + 3}", "burn 2", f"queue w{at} 0"]) for at in range(4)]
    return [*head(1, 4), *declared([("q", "max 3")], works)], [*(f"queue w{at} 0" for at in range(4)), *repeated(NEXT, size - 4)]


FLAGS = ["highpri", "unbound", "cpu_intensive", "freezable", "mem_reclaim"]


def wide_body(numbers):
    """63 operations, of which some queue others."""
    ops = []
    for _at in range(63):
        kind = numbers.below(4)
        work, cpu = numbers.below(256), numbers.below(16)
        ops.append([f"burn {1 + numbers.below(4)}", f"burn {1 + numbers.below(4)}", f"sleep {1 + numbers.below(9)}", f"queue w{work} {cpu}"][kind])
    return ops


def b_wide(size):
    """256 works of 64 operations over 34 pools, by queues of all flags, and an actor who asks for everything."""
    numbers = Numbers(2)
    flags = [" ".join(flag for bit, flag in enumerate(FLAGS) if at >> bit & 1) for at in range(30)]
    queues = [(f"q{at}", f"max {1 + numbers.below(6)} {words}".rstrip()) for at, words in enumerate(flags)]
    queues += [("q30", "max 1 ordered"), ("q31", "max 1 highpri freezable ordered mem_reclaim")]
    works = [(f"w{at}", f"q{at % 32}", wide_body(numbers)) for at in range(256)]
    actor = [f"queue w{at} {numbers.below(16)}" for at in range(256)]
    # Of 14 lines the turns are made, and 4,096 lines are the most.
    going = f"{NEXT} * {53 * -(-size // 30_000)}"
    while sum(map(times_of, actor)) < size:
        actor += wide_turn(numbers, going)
    return [*head(16, 8, 1024), *declared(queues, works)], actor


def wide_turn(numbers, going):
    """Lines that ask for a bit of everything, between lines that let the machine go on."""
    work, cpu, turn = numbers.below(256), numbers.below(16), numbers.below(4)
    others = [f"delay w{work} {cpu} {numbers.below(30)}", f"mod w{numbers.below(256)} {cpu} {numbers.below(30)}", f"cancel w{numbers.below(256)}"]
    flush = [f"flush w{work}", f"flush_queue q{work % 32}", f"cancel_sync w{work}", f"flush_delayed w{work}"][turn]
    limits = [["freeze", "thaw", "pressure", "relief"][turn], f"set_max q{numbers.below(30)} {1 + numbers.below(8)}"]
    questions = ["busy", f"state w{work}", f"ask {numbers.below(16)}"]
    return [*others, flush, going, *limits, *questions, going, f"disable w{numbers.below(8)}", f"enable w{numbers.below(8)}"]


def c_timers(size):
    """The timers of 256 works are set anew, over and over, eight times each; ticks pass, or timers fire, each sixteenth time."""
    numbers = Numbers(3)
    works = [(f"w{at}", "q", []) for at in range(256)]
    block = [f"mod w{numbers.below(256)} 0 {100 + numbers.below(2000)}" if at % 16 else NEXT for at in range(400)]
    actor = [f"delay w{at} 0 {1000 + numbers.below(1000)}" for at in range(256)]
    left, lines = size - 256, []
    for line in again_and_again(block, max(left, 8 * len(block)), 8):
        lines.append(line)
        left -= times_of(line)
        if left <= 0:
            break
    return [*head(1, 4), *declared([("q", "max 4")], works)], actor + lines


def d_sleepers(size):
    """64 works sleep and wake in one pool, while the limit of their queue changes."""
    numbers = Numbers(4)
    works = [(f"w{at}", "q", [*(f"sleep {1 + numbers.below(40)}" for _turn in range(5)), f"queue w{at} 0"]) for at in range(64)]
    block = [f"{NEXT} * 30", "set_max q 32", f"{NEXT} * 30", "set_max q 64"]
    return [*head(1, 64), *declared([("q", "max 64")], works)], [*(f"queue w{at} 0" for at in range(64)), *again_and_again(block, size - 64)]


def e_ticks(size):
    """Hardly anything but ticks, of a work that burns and one that sleeps."""
    works = [("a", "q", ["burn 997", "queue a 0"]), ("b", "q", ["sleep 1009", "queue b 0"])]
    return [*head(1, 4), *declared([("q", "max 4")], works)], ["queue a 0", "queue b 0", *repeated(NEXT, size - 2)]


def e_ticks_wide(size):
    """The same, of 16 CPUs and of 64 works of an unbound queue, all of which burn."""
    works = [(f"b{at}", "q", [f"burn {5_000 + at}", f"queue b{at} {at}"]) for at in range(16)]
    works += [(f"u{at}", "u", [f"burn {7_000 + at}", f"queue u{at} 0"]) for at in range(64)]
    queues = [("q", "max 4"), ("u", "max 512 unbound")]
    starts = [*(f"queue b{at} {at}" for at in range(16)), *(f"queue u{at} 0" for at in range(64)), f"{NEXT} * 160"]
    return [*head(16, 64), *declared(queues, works)], [*starts, *repeated(NEXT, max(1, size - 240))]


def g_events(size):
    """Events upon events, and no time: eight works on eight CPUs queue each other, and each event has a line."""
    names = [f"work_number_{at:03}" for at in range(8)]
    works = [(name, "q", [f"queue {names[(at + step) % 8]} {(at * step) % 8}" for step in (1, 3, 6)]) for at, name in enumerate(names)]
    return [*head(8, 4), *declared([("q", "max 8")], works)], [*(f"queue {name} {at}" for at, name in enumerate(names)), *repeated(NEXT, size - 8)]


def g_short(size):
    """Short answers: yes, no, already, not pending, and refusals."""
    works = [("a", "q", []), ("b", "q", [])]
    block = ["busy", "queue a 0", "ask 0", "cancel b", "queue a 1", "thaw", "ask 0", "busy"]
    actor = ["queue a 0", "flush a", *(f"{line} * {max(1, (size - 2) // 64)}" for line in block * 8)]
    return [*head(1, 4, 1), *declared([("q", "max 4 freezable")], works)], actor


def g_state(size):
    """Where 256 works are, asked one after another: some wait, some run, some sleep, some do nothing."""
    works = [(f"w{at:0{1 + at % 14}}", "pqru"[at % 4], ["sleep 1000000", "burn 1000000"][at % 2 :][:1]) for at in range(256)]
    queues = [("p", "max 512"), ("q", "max 3"), ("r", "max 4 highpri"), ("u", "max 16 unbound")]
    starts = [f"delay {name} {at % 16} {at}" if at % 5 == 0 else f"queue {name} {at % 16}" for at, (name, _q, _o) in enumerate(works) if at % 3]
    asks = [f"state {name}" for name, _queue, _ops in works]
    return [*head(16, 4), *declared(queues, works)], [*starts, f"{NEXT} * 60", *again_and_again(asks, size - len(starts) - 60, 16)]


def works_of(count, size):
    """So many works in the queue of one pool, four of which may be active, take turns."""
    works = [(f"w{at}", "q", ["burn 1", "sleep 1", "burn 1", f"queue w{at} 0"]) for at in range(count)]
    return [*head(1, 4), *declared([("q", "max 4")], works)], [*(f"queue w{at} 0" for at in range(count)), *repeated(NEXT, size)]


def cpus_of(count, size):
    """On so many CPUs one work each burns. One of them goes on each four ticks."""
    works = [(f"w{at}", "q", [f"burn {4 * at + 4}", *[f"burn {4 * count}"] * 60, f"queue w{at} {at}"]) for at in range(count)]
    return [*head(count, 4), *declared([("q", "max 4")], works)], [*(f"queue w{at} {at}" for at in range(count)), *repeated(NEXT, size)]


def sleepers_of(count, size):
    """So many works of one pool sleep. One of them wakes and sleeps again each four ticks."""
    works = [(f"w{at}", "q", [f"sleep {4 * at + 4}", *[f"sleep {4 * count}"] * 60, f"queue w{at} 0"]) for at in range(count)]
    return [*head(1, 64), *declared([("q", "max 64")], works)], [*(f"queue w{at} 0" for at in range(count)), *repeated(NEXT, size)]


LETTERED = [a_small, b_wide, c_timers, d_sleepers, e_ticks, e_ticks_wide, g_events, g_short, g_state]
GROWING = {"works": works_of, "cpus": cpus_of, "sleepers": sleepers_of}


def texts_of(name, size):
    """The lines of a scenario and those of its companion."""
    if name in ("f_list", "f_run"):
        lines = texts.lines() if name == "f_list" else texts.comments()
        plain = [line.partition(" #")[0] for line in lines if not line.startswith("#")]
        first = next(at for at, line in enumerate(plain) if line.startswith("actor "))
        kept = lines[: first + 1 + size] if name == "f_list" else lines[len(lines) - len(plain) - size :]
        return kept, plain[: first + 1]
    kind, _, count = name.partition("_")
    front, actor = GROWING[kind](int(count), size) if kind in GROWING else {it.__name__: it for it in LETTERED}[name](size)
    return [*front, "actor t", *actor], [*front, "actor t"]


def main(folder, *changed):
    sizes = {**SIZES, **{name: int(size) for name, size in (it.split("=") for it in changed)}}
    pathlib.Path(folder).mkdir(parents=True, exist_ok=True)
    for name, size in sizes.items():
        for ending, lines in zip(("cmwq", "empty"), texts_of(name, size)):
            text = "".join(f"{line}\n" for line in lines)
            assert len(text) <= texts.LARGEST, (name, len(text))
            pathlib.Path(folder, f"{name}.{ending}").write_text(text, "utf-8")


if __name__ == "__main__":
    main(*sys.argv[1:])
