"""Runs the transcripts of gate/transcripts/, each a talk with a shell, as cram has them: a line that begins with two spaces and `$ ` is a command,
`> ` there carries it on, and the other lines with two spaces before them are what it prints, on standard error too. Where it doesn't end with
status 0, that stands behind it in brackets; ` (no-eol)` stands behind a last line that isn't ended, and ` (esc)` behind one with escapes of
bytes. All other lines are remarks. A transcript's commands are one shell's, in a folder that was empty; `cmwq` is the program, and TESTDIR the
transcript's own folder.

    python3 gate/transcripts.py PROGRAM [TRANSCRIPT..]"""
import difflib
import glob
import os
import re
import subprocess
import sys
import tempfile

sys.dont_write_bytecode = True
TOP = os.path.dirname(os.path.dirname(os.path.realpath(__file__)))
# What a shell prints behind a command's output: the number of the command, and its status.
MARK = "the transcript has run command"


def commands_of(lines):
    """The commands of a transcript: each as its line's number, its text, and what is to be printed, in the transcript's lines."""
    found = []
    for number, line in enumerate(lines):
        if line.startswith("  $ "):
            found.append((number, [line[4:]], []))
        elif line.startswith("  > ") and found and not found[-1][2]:
            found[-1][1].append(line[4:])
        elif line.startswith("  "):
            found[-1][2].append(line[2:])
    return [(number, "\n".join(command), printed) for number, command, printed in found]


def shown(line):
    """A line of output as a transcript has it."""
    text, end = line.removesuffix(b"\n"), "" if line.endswith(b"\n") else " (no-eol)"
    if re.fullmatch(rb"[ -~]*", text):
        return text.decode() + end
    return "".join(chr(it) if 32 <= it < 127 and it != 92 else repr(bytes([it]))[2:-1] for it in text) + end + " (esc)"


def outputs_of(program, commands, room, folder):
    """What each command prints, as lines of a transcript. Those behind one that ends the shell print nothing."""
    os.symlink(os.path.abspath(program), f"{room}/cmwq")
    os.mkdir(f"{room}/here")
    script = "".join(f"{text}\nprintf '\\n{MARK} {at} %s\\n' $?\n" for at, (_, text, _) in enumerate(commands))
    with open(f"{room}/commands", "w", encoding="utf-8") as it:
        it.write(script)
    env = {**os.environ, "PATH": f"{room}:{os.environ['PATH']}", "LC_ALL": "C", "TESTDIR": folder}
    ran = subprocess.run(["bash", f"{room}/commands"], cwd=f"{room}/here", env=env, stdin=subprocess.DEVNULL, stdout=subprocess.PIPE, stderr=subprocess.STDOUT, timeout=300)
    parts = re.split(rb"\n" + MARK.encode() + rb" \d+ (\d+)\n", ran.stdout)
    for printed, status in zip(parts[::2], parts[1::2]):
        yield [*map(shown, re.findall(rb"[^\n]*\n|[^\n]+", printed)), *([f"[{status.decode()}]"] if status != b"0" else [])]


def faults_of(program, path):
    """Where a transcript isn't what the shell prints, as a difference of lines, and how many commands it has."""
    with open(path, encoding="utf-8") as it:
        lines = it.read().splitlines()
    commands = commands_of(lines)
    with tempfile.TemporaryDirectory(prefix="transcript-") as room:
        got = list(outputs_of(program, commands, room, os.path.dirname(os.path.abspath(path))))
    name, faults = os.path.relpath(path, TOP), []
    for at, (number, text, wanted) in enumerate(commands):
        printed = got[at] if at < len(got) else ["(the shell has ended)"]
        if printed != wanted:
            faults += [f"{name}:{number + 1}: $ {text}", *difflib.ndiff(wanted, printed)]
    return faults, len(commands)


def main(program, *paths):
    ran = {path: faults_of(program, path) for path in paths or sorted(glob.glob(f"{TOP}/gate/transcripts/*.t"))}
    faults = [fault for found, _ in ran.values() for fault in found]
    faults += [f"{os.path.relpath(path, TOP)}: it has no command" for path, (_, count) in ran.items() if not count]
    faults += [] if ran else ["gate/transcripts/: there is nothing to run"]
    print("".join(f"transcripts: {fault}\n" for fault in faults), end="")
    print(f"transcripts: {sum(count for _, count in ran.values())} commands in {len(ran)} transcripts, {'all is as it should be' if not faults else 'not all is as it should be'}")
    return 1 if faults else 0


if __name__ == "__main__":
    sys.exit(main(*sys.argv[1:]))
