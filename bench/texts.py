"""Writes two large scenario texts into a folder: one of comments with a few lines, and one with as many lines as fit.

    python3 texts.py FOLDER
"""
import sys

LARGEST = 4_194_304
HEAD = ["cpus 16", "workers 64", "steps 4294967295", "flushes 1024"]


def comments():
    """A text of the greatest length: comments, and eighty lines of a scenario with one actor."""
    lines = [*HEAD, "queue q max 1", "work a q", "body a", "finish", "actor t", *["tick"] * 71]
    left = LARGEST - sum(len(line) + 1 for line in lines)
    comment = "# " + "x" * 61
    return [*[comment] * (left // (len(comment) + 1)), *lines]


def lines():
    """Every line that a scenario may have (82,484), each with the longest words and a comment."""
    queues = [f"q{number:014}" for number in range(32)]
    works = [f"w{number:014}" for number in range(256)]
    text = [*HEAD, *(f"queue {name} max 512 highpri unbound cpu_intensive freezable" for name in queues)]
    text += [f"work {name} {queues[at % 32]}" for at, name in enumerate(works)]
    for name in works:
        text += [f"body {name}", *[f"queue {works[255]} 15"] * 63, "finish"]
    for number in range(16):
        text += [f"actor t{number:014}", *[f"delay {works[255]} 255 4294967295 * 65535"] * 4096]
    return [f"{line} # {at:06}" for at, line in enumerate(text)]


def main(folder):
    for name, text in [("comments", comments()), ("lines", lines())]:
        written = "".join(f"{line}\n" for line in text)
        assert len(written) <= LARGEST, (name, len(written))
        with open(f"{folder}/{name}.cmwq", "w", encoding="utf-8") as it:
            it.write(written)


if __name__ == "__main__":
    main(*sys.argv[1:])
