"""A test of gate/transcripts.py: what a transcript may be wrong in is told, and nothing else.

    python3 gate/test_transcripts.py"""
import os
import sys
import tempfile

sys.dont_write_bytecode = True
sys.path.insert(0, os.path.dirname(os.path.realpath(__file__)))
import transcripts

# Transcripts, and how many of their commands are told as wrong.
ROWS = [
    ("A remark.\n  $ echo one; echo two >&2\n  one\n  two\n  $ cmwq 7\n  7\n  [7]\n", 0),
    ("  $ cat << .\n  > one\n  > .\n  one\n\n  $ printf one\n  one (no-eol)\n  $ printf '\\377\\n'\n  \\xff (esc)\n", 0),
    ("  $ said() { echo $1; }\n  $ said one\n  one\n", 0),
    ('  $ test -e "$TESTDIR/row.t"\n', 0),
    ("  $ echo one\n  two\n", 1),
    ("  $ echo one\n", 1),
    ("  $ echo one\n  one\n  two\n  $ true\n", 1),
    ("  $ cmwq 7\n  7\n  $ true\n  [1]\n", 2),
    ("  $ printf one\n  one\n", 1),
    ("  $ exit 0\n  $ true\n  $ true\n", 3),
]


def faults(room):
    """The rows of which other commands are told."""
    program, path = f"{room}/program", f"{room}/row.t"
    with open(program, "w", encoding="utf-8") as it:
        it.write('#!/bin/sh\necho "$1"\nexit "$1"\n')
    os.chmod(program, 0o755)
    for text, wrong in ROWS:
        with open(path, "w", encoding="utf-8") as it:
            it.write(text)
        told, _ = transcripts.faults_of(program, path)
        count = sum(line.startswith(os.path.relpath(path, transcripts.TOP)) for line in told)
        if count != wrong:
            yield f"test_transcripts: {count} faults in {text!r}, and not {wrong}"


if __name__ == "__main__":
    with tempfile.TemporaryDirectory() as room:
        found = [*faults(room)]
    print("".join(f"{fault}\n" for fault in found), end="")
    sys.exit(1 if found else 0)
