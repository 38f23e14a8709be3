"""Makes scenarios for limits.py: each is a small one but for some parts, as its listing and as its image. `greatest` has as much of
everything as there may be. The images are built by docs/FORMATS.md, without the program."""
import collections
import struct

FLAGS = ("highpri", "unbound", "cpu_intensive", "freezable", "ordered", "mem_reclaim")
HEAD = ("cpus", "workers", "steps", "flushes")
MOST_TIMES, MOST_LINES, MOST_STEPS = 65_535, 4096, 4_294_967_295
Queue = collections.namedtuple("Queue", "name max flags", defaults=[()])
Work = collections.namedtuple("Work", "name queue ops", defaults=[("burn 1",)])
Actor = collections.namedtuple("Actor", "name lines", defaults=[()])
# The small scenario.
SMALL = {"cpus": 1, "workers": 4, "steps": 1000, "flushes": 2, "queues": [Queue("q", 1)], "works": [Work("a", "q")], "actors": [Actor("t", ("flush a", "next"))]}


def lines_of(**parts):
    """The lines of the small scenario's listing, but for these parts."""
    has = {**SMALL, **parts}
    lines = [f"{word} {has[word]}" for word in HEAD]
    lines += [" ".join([f"queue {it.name} max {it.max}", *it.flags]) for it in has["queues"]]
    lines += [f"work {it.name} {it.queue}" for it in has["works"]]
    lines += [line for it in has["works"] for line in (f"body {it.name}", *it.ops, "finish")]
    return lines + [line for it in has["actors"] for line in (f"actor {it.name}", *it.lines)]


def text(**parts):
    """That listing."""
    return "".join(f"{line}\n" for line in lines_of(**parts)).encode()


# A word's tag, and what its operands are: a work or a queue, a number in their place, a CPU or a pool, a count.
OPS = {"burn": (1, "n"), "sleep": (2, "n"), "queue": (3, "wc"), "finish": (4, ""), "delay": (5, "wn"), "mod": (6, "wn"), "cancel": (7, "w")}
INSTRS = {"queue": (16, "wc"), "delay": (17, "wcn"), "mod": (18, "wcn"), "cancel": (19, "w"), "cancel_sync": (20, "w"), "flush": (21, "w")}
INSTRS |= {"flush_delayed": (22, "w"), "flush_queue": (23, "q"), "set_max": (24, "qn"), "freeze": (25, ""), "thaw": (26, ""), "fire": (27, "")}
INSTRS |= {"step": (28, "c"), "tick": (29, ""), "next": (30, ""), "ask": (31, "a"), "busy": (32, ""), "state": (33, "w")}
INSTRS |= {"disable": (34, "w"), "enable": (35, "w"), "pressure": (36, ""), "relief": (37, ""), "until": (38, "n"), "wait": (39, "a"), "quiet": (40, "")}


def image_name(name):
    return struct.pack(">B15s", len(name), name.encode())


def image_word(tags, line, numbers):
    """An operation's or an instruction's 8 bytes."""
    word, *operands = line.split()
    tag, shape = tags[word]
    fields = dict(zip(shape, operands))
    named = [numbers[kind][fields[kind]] for kind in "wq" if kind in fields] or [int(fields.get("a", 0))]
    return struct.pack(">BBHI", tag, int(fields.get("c", 0)), *named, int(fields.get("n", 0)))


def image_queue(queue):
    return image_name(queue.name) + struct.pack(">HBB", queue.max, sum(1 << FLAGS.index(flag) for flag in queue.flags), 0)


def image_work(work, numbers):
    words = [image_word(OPS, line, numbers) for line in (*work.ops, "finish")]
    return image_name(work.name) + struct.pack(">BB", numbers["q"][work.queue], len(words)) + b"".join(words)


def image_actor(actor, numbers):
    halves = [line.partition(" * ") for line in actor.lines]
    words = [image_word(INSTRS, line, numbers) + struct.pack(">I", int(times or 1)) for line, _, times in halves]
    return image_name(actor.name) + struct.pack(">H", len(words)) + b"".join(words)


def image(**parts):
    """The image of the small scenario, but for these parts."""
    has = {**SMALL, **parts}
    queues, works, actors = has["queues"], has["works"], has["actors"]
    numbers = {kind: {it.name: at for at, it in enumerate(declared)} for kind, declared in (("q", queues), ("w", works))}
    head = b"CMWQ" + struct.pack(">HBBIHBHB", 4, *(has[word] for word in HEAD), len(queues), len(works), len(actors))
    return b"".join([head, *map(image_queue, queues), *(image_work(it, numbers) for it in works), *(image_actor(it, numbers) for it in actors)])


def repeated(line, total):
    """A line so often, in as few lines as can be."""
    left = total % MOST_TIMES
    return (f"{line} * {MOST_TIMES}",) * (total // MOST_TIMES) + ((f"{line} * {left}",) if left else ())


# The greatest scenario.


def longest(kind, number):
    """A name of 15 letters."""
    return f"{kind}{number:014}"


def greatest_queues():
    """32 queues: of 30 sets of flags without `ordered`, and of two with it."""
    free = [flag for flag in FLAGS if flag != "ordered"]
    sets = [tuple(flag for bit, flag in enumerate(free) if at >> bit & 1) for at in range(30)] + [("ordered",), FLAGS]
    return [Queue(longest("q", at), 1 if "ordered" in flags else (512, 1, 4)[at % 3], flags) for at, flags in enumerate(sets)]


def greatest_body(number):
    """63 operations of each kind. Each second work queues, delays, mods and cancels the one behind it, which does so with none, so that all comes to an end."""
    other = longest("w", number + 1)
    asks = [f"burn {1 + number % 3}"] * 4 if number % 2 else [f"queue {other} {number % 16}", f"mod {other} {number % 5}", f"cancel {other}", f"delay {other} {number % 7}"]
    return tuple((f"burn {1 + at % 3}", "burn 1", f"sleep {1 + (at + number) % 9}", asks[at // 4 % 4])[at % 4] for at in range(63))


def every_instruction(turn, times):
    """29 lines with each instruction, between which the machine goes on three times, by so many `next`."""
    work = [longest("w", (turn * 7 + at * 37) % 256) for at in range(7)]
    queue, cpu, going = longest("q", turn % 30), turn % 16, f"next * {times}"
    asked = [f"queue {work[0]} {cpu}", f"queue {work[1]} {15 - cpu}", f"delay {work[2]} {cpu} {turn % 30}", f"mod {work[3]} {cpu} {turn % 7}", f"flush {work[0]}", f"flush_queue {queue}"]
    taken = [f"flush_delayed {work[2]}", f"cancel {work[4]}", f"cancel_sync {work[5]}", "freeze", "pressure"]
    limited = [f"set_max {queue} {1 + turn % 512}", f"disable {work[6]}", "fire", f"step {turn % 34}", "tick"]
    return [*asked, going, *taken, going, *limited, going, "busy", f"state {work[4]}", f"ask {turn}", "thaw", "relief", f"enable {work[6]}", "next", f"until {turn}", f"wait {turn}", "quiet"]


TURNS, IN_TURN = 132, 29


def greatest_lines(instructions, times):
    """4,096 lines of so many instructions: each work is queued, then each instruction stands in turns, then the machine goes on until it is
    quiet."""
    lines = [f"queue {longest('w', at)} {at % 16}" for at in range(256)] + [line for turn in range(TURNS) for line in every_instruction(turn, times)]
    left, count = instructions - 256 - TURNS * (IN_TURN - 3 + 3 * times), MOST_LINES - len(lines)
    return (*lines, *(f"next * {left // count + (at < left % count)}" for at in range(count)))


def greatest(actors, instructions, times):
    """The parts of the greatest scenario, of so many actors with so many instructions each; `times` as in `every_instruction`."""
    works = [Work(longest("w", at), longest("q", at % 32), greatest_body(at)) for at in range(256)]
    lines = greatest_lines(instructions, times)
    acting = [Actor(longest("t", at), lines) for at in range(actors)]
    return {"cpus": 16, "workers": 64, "steps": MOST_STEPS, "flushes": 1024, "queues": greatest_queues(), "works": works, "actors": acting}
