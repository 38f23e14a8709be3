"""What gate/fuzz.py tries: scenarios made up at random, and mutations of these and of lessons. Each function takes a random.Random."""
import re

import hostile
import test_user_files as user_files

NUMBERS = """0 1 2 3 4 7 8 9 15 16 17 31 32 33 63 64 65 100 255 256 257 512 513 1024 1025 4095 4096 4097 65535 65536 1000000 1000001 1048576
4294967295 4294967296 9999999999 10000000000 18446744073709551616 01 -1 +1 0x1 1.0""".split()
ODD_WORDS = ["", "-", "--", "*", "#", "é", "a" * 15, "b" * 16, "A", "_", "9a", "--help", "--version", "--at=3", "--every=", "-V", "-h", "-x", "--flush", "."]
ODD_BYTES = [b"\x00", b"\xff", b"\r", b"\t", b" ", b"#", b"\n", b"\r\n", b"\xc3", b"\xc3\xa9", b"*", b"0", b"q", b"\x7f", b"\xe2\x80\xa8"]
VOCABULARY = sorted(user_files.words_of_scenarios())
OPTIONS = sorted(user_files.words_of_commands()) + ["help"] + sorted({word for line, _ in hostile.USES for word in line.split() if word[0] == "-"})
FLAGS = user_files.defined("crates/cmwq_types/specs/Listing.antt", "flag_words")
EVENTS = "starts burns sleeps wakes finishes defers fires queues delays mods cancels".split()


def changed_word(rng, word, words):
    """Another word for this one: a number for a number, or one of these words, or an odd one."""
    kinds = [NUMBERS if re.fullmatch(r"\d+", word) else words] * 8 + [words, NUMBERS, ODD_WORDS]
    return rng.choice(rng.choice(kinds))


def change_line(rng, lines, at, words):
    """Changes a word of a line, or puts one in, or takes one out."""
    parts = lines[at].split(" ")
    place = rng.randrange(len(parts))
    kind = rng.choice(["change"] * 6 + ["insert", "remove", "times"])
    if kind == "change":
        parts[place] = changed_word(rng, parts[place], words)
    elif kind == "insert":
        parts.insert(place, changed_word(rng, parts[place], words))
    elif kind == "remove":
        del parts[place]
    else:
        parts += ["*", rng.choice(NUMBERS[1:30])]
    lines[at] = " ".join(parts)


def change_lines(rng, lines, others, words):
    """Changes one line, or the order or the number of lines."""
    at, other = rng.randrange(len(lines)), rng.randrange(len(lines))
    kind = rng.choice(["words"] * 8 + ["drop", "double", "swap", "take", "cut", "many"])
    if kind == "words":
        change_line(rng, lines, at, words)
    elif kind == "drop" and len(lines) > 1:
        del lines[at]
    elif kind == "double":
        lines.insert(other, lines[at])
    elif kind == "swap":
        lines[at], lines[other] = lines[other], lines[at]
    elif kind == "take":
        lines.insert(at, rng.choice(rng.choice(others).split("\n")))
    elif kind == "cut":
        del lines[at + 1:]
    elif kind == "many" and not rng.randrange(4):
        lines[at:at] = [lines[at]] * rng.choice([2, 16, 33, 64, 257, 4096, 70_000])


def change_bytes(rng, content, odd=ODD_BYTES):
    """Changes a stretch of bytes: another one, none, or one more; or cuts there."""
    at = rng.randrange(len(content) + 1)
    size = rng.choice([0, 1, 1, 1, 2, 4, 16])
    stretch = rng.choice([b"", rng.choice(odd), bytes([rng.randrange(256)]), content[at:at + size] * 2, rng.randbytes(size)])
    return content[:at] if not rng.randrange(16) else content[:at] + stretch + content[at + size:]


def shapes():
    """The words of an instruction's line, by its first word, as docs/FORMATS.md has them: W for a work, N for a number, .."""
    block = user_files.text_of("docs/FORMATS.md").partition("### Instructions\n")[2].partition("```text\n")[2].partition("```")[0]
    forms = [form for line in block.splitlines() for form in line.partition("  ")[0].split(", ")]
    found = {form.split()[0]: form.split()[1:] for form in forms}
    assert found.keys() <= set(VOCABULARY) and len(found) >= 18
    return found


SHAPES = sorted(shapes().items())


def made_line(rng, works, queues):
    """An actor's line."""
    operands = {"W": works, "Q": queues, "C": ["0", "0", "1"], "P": "0 0 1 2 3 4 5".split(), "F": "0 0 1 2".split(), "N": NUMBERS[:12]}
    word, shape = rng.choice(SHAPES + [("next", []), ("queue", ["W", "C"])] * 6)
    times = [] if rng.randrange(3) else ["*", rng.choice(NUMBERS[1:14])]
    return " ".join([word, *(rng.choice(operands[letter]) for letter in shape), *times])


def made_body(rng, works):
    """What a work does."""
    asks = ["queue {} 0", "delay {} 0", "delay {} 2", "mod {} 0", "mod {} 3", "cancel {}"]
    return [f"{rng.choice(['burn', 'sleep'])} {rng.randrange(1, 6)}" if rng.randrange(3) else rng.choice(asks).format(rng.choice(works)) for _ in range(rng.randrange(6))]


def made_queue(rng, name):
    """A queue's line."""
    flags = [flag for flag in FLAGS if not rng.randrange(4)]
    return " ".join(["queue", name, "max", "1" if "ordered" in flags else rng.choice("1123"), *flags])


def made_text(rng):
    """A scenario's text, made up."""
    queues, works = list("qrst")[:rng.randrange(1, 5)], list("abcdefg")[:rng.randrange(1, 8)]
    lines = [f"cpus {rng.choice('112')}", f"workers {rng.choice('1234')}", f"steps {rng.choice([9, 60, 200, 900])}", f"flushes {rng.randrange(4)}"]
    lines += [made_queue(rng, queue) for queue in queues] + [f"work {work} {rng.choice(queues)}" for work in works]
    lines += [line for work in works for line in [f"body {work}", *made_body(rng, works), "finish"]]
    for actor in range(rng.choice([1, 1, 1, 1, 2, 3])):
        lines += [f"actor t{actor}"] + [made_line(rng, works, queues) for _ in range(rng.choice([4, 12, 40]))]
    return "\n".join([*lines, ""])


def text(rng, lessons):
    """A scenario's text, made up or from a lesson's; often a scenario still."""
    is_made = rng.randrange(2)
    lines = (made_text(rng) if is_made else rng.choice(lessons)).split("\n")
    words = VOCABULARY + sorted(set(re.findall(r"^(?:work|queue) (\w+)", "\n".join(lines), re.M))) * 4
    for _ in range(rng.choice([0, 0, 0, 0, 1] if is_made else [0, 1, 1, 1, 2, 2, 4, 8])):
        change_lines(rng, lines, lessons, words)
    content = "\n".join(lines).encode()
    return change_bytes(rng, content) if not rng.randrange(12) else content


def commands(rng, sessions):
    """A debugger's commands, from a session's."""
    lines = rng.choice(sessions).split("\n")
    words = sorted(hostile.debugger_commands()) + EVENTS + ["work", "event", "time", "refusal", "activates", "pool", "flush"] + "a b c d e w0 u x y".split()
    for _ in range(rng.choice([1, 2, 4, 8, 16])):
        change_lines(rng, lines, sessions, words)
    content = "\n".join(lines).encode()
    return change_bytes(rng, content) if not rng.randrange(4) else content


def image(rng, images):
    """An image, from a lesson's: some of its bytes, or a stretch of another one's."""
    content = rng.choice(images)
    for _ in range(rng.choice([1, 1, 1, 2, 3])):
        at, kind = rng.randrange(len(content) + 1), rng.randrange(6)
        if kind < 4:
            field = rng.choice([b"\x00", b"\x01", b"\x02", b"\x03", b"\x04", b"\x05", b"\x06", b"\x07", b"\x10", b"\x20", b"\x40", b"\xff", b"\xff\xff", bytes([rng.randrange(256)])])
            content = content[:at] + field + content[at + len(field):]
        elif kind == 4:
            other = rng.choice(images)
            content = content[:at] + other[at:at + rng.choice([1, 8, 12, 18, 20, 60])] + content[at:]
        else:
            content = change_bytes(rng, content)
    return content


def words(rng, uses):
    """The words of a command line, from one of these, as bytes; none names a file elsewhere."""
    found = hostile.words_of(rng.choice(uses)[0])
    for _ in range(rng.choice([0, 1, 1, 2])):
        at, kind = rng.randrange(len(found) + 1), rng.randrange(5)
        if kind == 0 or not found[at:]:
            found.insert(at, rng.choice(rng.choice([OPTIONS, OPTIONS, NUMBERS, ODD_WORDS, sorted(hostile.FILES)])))
        elif kind == 1:
            del found[at]
        elif kind == 2:
            found[at] = changed_word(rng, found[at], OPTIONS)
        else:
            found.insert(0 if kind == 3 else len(found), found.pop(at))
    content = [word.encode() for word in found]
    if content and not rng.randrange(4):
        at = rng.randrange(len(content))
        content[at] = change_bytes(rng, content[at])
    return [word.replace(b"/", b"").replace(b"\x00", b"").replace(b"\n", b"") for word in content]
