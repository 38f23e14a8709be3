"""What `run --tell` prints of each instruction."""
import re

# `# K INSTR`, or `# K to L INSTR: REASON` for several that have come, and then the line of the reply, if it has one.
LINES = re.compile(r"^# (\d+) (?:to (\d+) )?(.*)\n((?:[^#].*\n)?)", re.M)


def instructions(text):
    """Returns each instruction of a run that is told, in order, with the line of its reply or nothing."""
    found = []
    for first, last, words, reply in LINES.findall(text):
        instr = words.rpartition(": ")[0] if last else words
        found += [(instr, reply)] * (int(last or first) - int(first) + 1)
    return found
