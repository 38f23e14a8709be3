"""Runs each command line of hostile.py's table over streams that fail: closed, full, with a reader that ends early, a folder, descriptors
that don't block, inputs that never end, reads and writes of one byte, and each read and each write in turn failing, of some command lines and of
a session with reads and writes of one byte, and with writes that take none. The program then does exactly what it does over good streams, or it says
`read` or `write`, in one line, with its status, and what it wrote is a front of the whole output. Behind `quit` nothing is read. Over good streams help, the version, usage faults and a fault's line each go out in one write.

    python3 gate/hostile_streams.py PROGRAM"""
import os
import pathlib
import resource
import subprocess
import sys
import tempfile
import threading

sys.dont_write_bytecode = True
sys.path.insert(0, os.path.dirname(os.path.realpath(__file__)))
import hostile

# The kernel's document's works under `max_active` 3; more output than a pipe holds, 20,000 lines; 131,070 lines; and a work that is disabled
# 65,536 times, and then enabled.
FILES = {
    "max_active_3.cmwq": pathlib.Path(hostile.TOP, "scenarios/max_active_3.cmwq").read_text("utf-8"),
    "many.cmwq": hostile.FILES["long.cmwq"] + "state a * 20000\n",
    "refused.cmwq": "cpus 1\nworkers 1\nsteps 1\nflushes 0\nactor t\nstep 9 * 65535\nstep 9 * 65535\n",
    "deepest.cmwq": "cpus 1\nworkers 1\nsteps 70000\nflushes 0\nqueue q max 1\nwork a q\nbody a\nfinish\nactor t\ndisable a * 65535\ndisable a\nenable a\n",
}
MOST = 200
# What can't be opened or made, besides files that aren't there.
PATHS = {line: hostile.READ for line in ("run .", "list .", "show .", "explore . --stuck", "debug .", "asm . out.image", "asm every.cmwq/file out.image")}
PATHS |= {line: hostile.WRITE for line in ("asm every.cmwq every.cmwq", "asm every.cmwq ./every.cmwq", "asm every.cmwq .", "asm every.cmwq /dev/full", "trace every.cmwq --dat every.cmwq", "trace every.cmwq --dat .", "trace every.cmwq --dat /dev/full", "asm every.cmwq nowhere/out", "new .", "new nowhere/out", "new /dev/full")}
# Inputs that never end: what stands before endless zeros, and what then is the end.
TOO_LONG = (1, b"", b"line 0: TooLong\n")
ENDLESS = {(line, "every.cmwq"): TOO_LONG for line in ("run /dev/stdin", "settle /dev/stdin", "list /dev/stdin", "draw /dev/stdin", "asm /dev/stdin out.image", "why /dev/stdin b", "debug /dev/stdin", "explore /dev/stdin --stuck")}
ENDLESS |= {
    ("check /dev/stdin", "every.cmwq"): (1, b"", b"/dev/stdin:0:0: text: TooLong\n"),
    ("show /dev/stdin", "every.image"): (1, b"", b"image: Extra\n"),
    ("show /dev/stdin", "every.cmwq"): (1, b"", b"image: Magic\n"),
    ("debug every.cmwq", "there"): (1, b"bad command\n", b"too long\n"),
}
# What goes out in one write, so that nothing of other programs stands in its midst: help, the version, usage faults, a fault's line and a verdict.
AT_ONCE = ("", "--help", "help show", "asm --help", "--version", "walk a", "run", "list a b", "why a", "explore a --stuck --before x b --before b c --before c b", "run nosuch.cmwq", "show every.cmwq", "check nosuch.cmwq")
# Command lines of which reads and writes of one byte fail, so that they fail anywhere.
BY_BYTES = ("run max_active_3.cmwq", "list max_active_3.cmwq", "asm max_active_3.cmwq out.image", "show every.image", "settle -", "run --settle -", "run --tell -", "run --tell --settle -", "why - b", "why - b --every", "why - --flush 0", "why - --flush 0 --every", "why - b --every --settle", "draw --settle -", "draw --settle --svg -")
# How a read or a write fails there: with an error, or, of a write, by taking none.
FAILURES = (("read", hostile.READ, ""), ("write", hostile.WRITE, ""), ("write", hostile.WRITE, " none"))
# A session whose commands are read by single bytes, each of which fails in turn, and what is said to each command. And what stands behind `quit`.
SESSION = ("debug max_active_3.cmwq", "step 1\nstep 1\nstep 1\n", [b"at 1 now 0\n", b"at 2 now 0\n", b"at 3 now 0\n"])
BEHIND_QUIT = ("step\nquit\n", "step\nquit\nstep\n", "step\nquit\nst")
# Command lines whose output goes out a block at a time, long before all of it is made, and how many bytes have gone out where the third write fails.
IN_BLOCKS = {"run refused.cmwq": 8192, "why deepest.cmwq a": 8192, "why deepest.cmwq a --every": 8192}
# What is known to be otherwise, and isn't mended: of these situations these faults.
KNOWN = {
    # Whoever writes more than a file may have is ended by a signal, SIGXFSZ, unless it is ignored. The kit's runtime leaves it as it is, and has no
    # call by which a program ignores a signal.
    ("small files", "ends by signal 25 and says b''"),
}


class Streams:
    """Runs command lines over streams of all kinds, in a folder that is as it was after each."""

    def __init__(self, program, library, room):
        hostile.fill(program, room)
        for name, text in FILES.items():
            with open(f"{room}/{name}", "w", encoding="utf-8") as it:
                it.write(text)
        self.room, self.before, self.counted = room, hostile.files_in(room), hostile.Counted(program, library, room)

    def run(self, use, refused="", **how):
        """What a command line ends with, and how many calls of each kind it made."""
        found = self.counted.run(*use, refused, **how)
        hostile.put_back(self.room, self.before)
        return found

    def without(self, use, *descriptors):
        """With these descriptors closed."""
        return self.run(use, preexec_fn=lambda: [os.close(it) for it in descriptors])[0]

    def into(self, use, stream, path):
        """With a stream that goes into a device."""
        with open(path, "wb") as it:
            return self.run(use, **{stream: it})[0]

    def into_pipe(self, use, filled):
        """With a pipe that doesn't block, that nobody reads, and that is full or empty at first."""
        reader, writer = os.pipe()
        for end in (reader, writer):
            os.set_blocking(end, False)
        filler = os.write(writer, bytes(1 << 20)) if filled else 0
        outcome = self.run(use, stdout=writer)[0]
        os.close(writer)
        with open(reader, "rb") as it:
            return outcome._replace(output=it.read()[filler:])

    def into_gone(self, use):
        """With a pipe whose reader is gone."""
        reader, writer = os.pipe()
        os.close(reader)
        with open(writer, "wb") as it:
            return self.run(use, stdout=it)[0]

    def into_leaving(self, use):
        """With a pipe whose reader leaves once it has the first bytes."""
        reader, writer = os.pipe()
        taken = []
        taking = threading.Thread(target=lambda: (taken.append(os.read(reader, 10)), os.close(reader)))
        taking.start()
        with open(writer, "wb") as it:
            outcome = self.run(use, stdout=it)[0]
        taking.join()
        return outcome._replace(output=taken[0])

    def from_folder(self, use):
        """With a folder as the input."""
        folder = os.open(self.room, os.O_RDONLY)
        outcome = self.run(use, stdin=folder)[0]
        os.close(folder)
        return outcome

    def from_endless(self, line, name):
        """With an input that begins as this file and never ends."""
        with subprocess.Popen(["cat", name, "/dev/zero"], cwd=self.room, stdout=subprocess.PIPE, stderr=subprocess.DEVNULL) as endless:
            return self.run((line, ""), stdin=endless.stdout)[0]

    def from_pipe(self, use):
        """With an input that doesn't block, and in which the end isn't told."""
        reader, writer = os.pipe()
        os.set_blocking(reader, False)
        os.write(writer, use[1].encode())
        outcome = self.run(use, stdin=reader)[0]
        for end in (reader, writer):
            os.close(end)
        return outcome

    def into_small_file(self, use):
        """Where no file may have more than so many bytes, and the output is a file."""
        with tempfile.TemporaryFile() as it:
            outcome = self.run(use, stdout=it, preexec_fn=lambda: resource.setrlimit(resource.RLIMIT_FSIZE, (MOST, MOST)))[0]
            it.seek(0)
            return outcome._replace(output=it.read())


def reads_input(use, whole):
    return "-" in use[0].split()[1:] and whole.status != 2 or use[0].startswith("debug ") and whole.status == 0


def situations(streams, use, whole):
    """What a command line ends with in each situation, this status and line, and whether it has to end with them (or, None, may): else it
    ends as with good streams."""
    writes, reads, says = bool(whole.output), reads_input(use, whole), use[0].startswith("check ") and bool(whole.errors)
    return [
        ("closed output", streams.without(use, 1), hostile.WRITE, writes),
        ("full output", streams.into(use, "stdout", "/dev/full"), hostile.WRITE, writes),
        ("output that none reads", streams.into_gone(use), hostile.WRITE, writes),
        ("full pipe that doesn't block", streams.into_pipe(use, True), hostile.WRITE, writes),
        ("pipe that doesn't block", streams.into_pipe(use, False), hostile.WRITE, len(whole.output) > 1 << 16),
        ("reader that leaves", streams.into_leaving(use), hostile.WRITE, len(whole.output) > 1 << 18 or None),
        ("small files", streams.into_small_file(use), hostile.WRITE, max(map(len, [whole.output, *hostile.changed(whole, streams.before).values()])) > MOST),
        ("closed input", streams.without(use, 0), hostile.READ, reads),
        ("folder as input", streams.from_folder(use), hostile.READ, reads),
        # Behind `quit` nothing is read.
        ("input that doesn't block", streams.from_pipe(use), hostile.READ, reads and "quit" not in use[1].split("\n")),
        ("closed errors", streams.without(use, 2), (hostile.WRITE[0], b""), says),
        ("full errors", streams.into(use, "stderr", "/dev/full"), (hostile.WRITE[0], b""), says),
        ("all closed", streams.without(use, 0, 1, 2), (3, b""), writes or reads or says),
        ("single bytes", streams.run(use, "bytes 0")[0], None, False),
    ]


def seen(situation, outcome, whole):
    """What can be seen of a whole outcome in a situation: nothing of what was closed or full, and what was taken before the reader left."""
    errors = b"" if situation in ("closed errors", "full errors", "all closed") else whole.errors
    taken = outcome.output if whole.output.startswith(outcome.output) else whole.output
    return whole._replace(errors=errors, output={"all closed": b"", "reader that leaves": taken}.get(situation, whole.output))


def situation_faults(streams, use, whole):
    """What is wrong in each situation."""
    faults = []
    for situation, outcome, ends, must in situations(streams, use, whole):
        if outcome == seen(situation, outcome, whole) and not must:
            continue
        if must is False:
            found = [f"ends otherwise, with {outcome[:3]}"]
        elif ends == hostile.READ and use[0].startswith("check "):
            found = verdict_faults(outcome, whole)
        else:
            found = file_faults(use, streams, outcome, whole, ends)
        faults += [(situation, fault) for fault in found]
    return faults


def verdict_faults(outcome, whole):
    """What is wrong where `check` can't read one of its files: it says so in the file's verdict, and goes on."""
    return [] if outcome.status == 3 and outcome.errors.count(b": read\n") == whole.errors.count(b": read\n") + 1 else ["doesn't name the file"]


def call_faults(streams, use, whole, counts):
    """What is wrong where one read or one write fails, each in turn."""
    faults = []
    for kind, number in [(kind, number) for kind in ("read", "write") for number in range(1, min(counts[kind], 40) + 1)]:
        outcome, _ = streams.run(use, f"{kind} {number}")
        if "--explain" in use[0] and outcome in (whole, whole._replace(errors=b"" if kind == "write" else whole.errors)):
            # It failed behind the fault's line, or there.
            found = []
        elif kind == "write" and whole.errors and not use[0].startswith("check ") and number == counts[kind]:
            found = [] if outcome == whole._replace(errors=b"") else [f"ends otherwise, with {outcome[:3]}, where its line isn't written"]
        elif kind == "read" and use[0].startswith("check "):
            found = verdict_faults(outcome, whole)
        else:
            found = file_faults(use, streams, outcome, whole, hostile.READ if kind == "read" else hostile.WRITE)
        faults += [(f"{kind} {number} failing", fault) for fault in found]
    return faults


def file_faults(use, streams, outcome, whole, ends):
    """What is wrong where a call failed; a file that was written to may hold a front."""
    halves = {name: content for name, content in outcome.files.items() if content and (whole.files.get(name) or b"").startswith(content)}
    return hostile.front_faults(use[0], outcome._replace(files={**outcome.files, **{name: whole.files[name] for name in halves}}), whole, streams.before, ends)


def stated_faults(streams, paths, endless):
    """What is wrong where a file can't be opened or made, and where an input never ends: of all these it is stated how they end."""
    found = [("a file that can't be used", (line, ""), streams.run((line, ""))[0], (status, b"", said)) for line, (status, said) in paths.items()]
    found += [("endless input", (line, ""), streams.from_endless(line, name), wanted) for (line, name), wanted in endless.items()]
    wrong = [it for it in found if it[2][:3] != it[3] or any(hostile.changed(it[2], streams.before).values())]
    return [(situation, use, f"ends otherwise, with {outcome[:3]}") for situation, use, outcome, _ in wrong]


def parted_faults(streams, lines):
    """What is wrong where all that these command lines say has to go out in one write."""
    counts = {line: streams.run((line, ""))[1]["write"] for line in lines}
    return [("good streams", (line, ""), f"says what it says in {count} writes") for line, count in counts.items() if count != 1]


def made(streams, outcome):
    """All that a command line has written: its output, and what stands in files that it made."""
    return outcome.output + b"".join(it or b"" for _, it in sorted(hostile.changed(outcome, streams.before).items()))


def byte_faults(streams, lines):
    """What is wrong where each read and each write takes one byte, and one of them fails, or a write takes none, some 40 of each in turn and the
    last one: a read before anything is written, or a write behind what the writes before it took."""
    faults = []
    for use in ((line, hostile.EVERY) for line in lines):
        whole, counts = streams.run(use, "bytes 0")
        faults += [] if whole == streams.run(use)[0] else [("single bytes", use, "ends otherwise")]
        for kind, ends, how in FAILURES:
            faults += [] if counts[kind] else [("single bytes", use, f"has no {kind} that could fail")]
            for number in sorted({*range(1, counts[kind] + 1, max(counts[kind] // 40, 1)), counts[kind]} - {0}):
                wrote = b"" if kind == "read" else made(streams, whole)[: number - 1]
                faults += byte_fault(streams, use, whole, (f"{kind} {number} bytes{how}", ends, wrote))
    return faults


def byte_fault(streams, use, whole, failing):
    """What is wrong where this call fails, and it should end so and have written this."""
    refused, ends, wrote = failing
    outcome, _ = streams.run(use, refused)
    found = file_faults(use, streams, outcome, whole, ends) or ([] if made(streams, outcome) == wrote else [f"has written {len(made(streams, outcome))} bytes"])
    return [(f"single bytes, {refused} failing", use, fault) for fault in found]


def session_faults(streams, line, commands, answers):
    """What is wrong where each read of a session's commands fails in turn: all commands before it have been answered. And each write: the session ends."""
    use = (line, commands)
    whole, counts = streams.run(use, "bytes 0")
    faults = [] if whole.output == b"".join(answers) else [("single bytes", use, f"says {whole.output}")]
    for at in range(len(commands) + 1):
        read = counts["read"] - len(commands) + at
        faults += byte_fault(streams, use, whole, (f"read {read} bytes", hostile.READ, b"".join(answers[: commands[:at].count("\n")])))
    for at, how in ((at, how) for at in range(len(whole.output)) for how in ("", " none")):
        faults += byte_fault(streams, use, whole, (f"write {at + 1} bytes{how}", hostile.WRITE, whole.output[:at]))
    return faults


def quit_faults(streams, line, said, sessions):
    """What is wrong where something stands behind `quit`, a byte a call and in blocks: each of these sessions says this, and behind `quit` nothing is read."""
    reads, faults = streams.run((line, ""), "bytes 0")[1]["read"] - 1 + len(sessions[0]), []
    for use, how in (((line, session), how) for session in sessions for how in ("bytes 0", "")):
        outcome, counts = streams.run(use, how)
        is_well = outcome[:3] == (0, said, b"") and (not how or counts["read"] == reads)
        faults += [] if is_well else [("something behind quit", use, f"ends with {outcome[:3]}, after {counts['read']} reads")]
    return faults


def block_faults(streams, lines):
    """What is wrong where an output should go out a block at a time, and so many bytes of it before the third."""
    faults = []
    for line, least in dict(lines).items():
        whole, counts = streams.run((line, ""))
        cut, _ = streams.run((line, ""), "write 3")
        found = file_faults((line, ""), streams, cut, whole, hostile.WRITE)
        found += [] if counts["write"] > 100 and len(cut.output) >= least else [f"goes out in {counts['write']} writes, of which two have {len(cut.output)} bytes"]
        faults += [("write 3 failing", (line, ""), fault) for fault in found]
    return faults


def all_faults(program, uses, paths, endless, at_once=(), by_bytes=(), in_blocks=(), session=None):
    """What is wrong, each fault with its situation and its command line."""
    faults = []
    with tempfile.TemporaryDirectory(prefix="streams-") as room:
        os.mkdir(f"{room}/files")
        streams = Streams(os.path.abspath(program), hostile.built_library(room), f"{room}/files")
        for use in uses:
            whole, counts = streams.run(use)
            found = situation_faults(streams, use, whole) + call_faults(streams, use, whole, counts)
            faults += [(situation, use, fault) for situation, fault in found]
        faults += stated_faults(streams, paths, endless) + parted_faults(streams, at_once)
        faults += byte_faults(streams, by_bytes) + block_faults(streams, in_blocks)
        return faults + (session_faults(streams, *session) + quit_faults(streams, session[0], session[2][0], BEHIND_QUIT) if session else [])


def main(program):
    uses = [*hostile.all_uses(), ("run many.cmwq", ""), ("run --tell many.cmwq", "")]
    found = all_faults(program, uses, PATHS, ENDLESS, AT_ONCE, BY_BYTES, IN_BLOCKS, SESSION)
    faults = [f"{hostile.shown(use)}: {situation}: {fault}" for situation, use, fault in found if (situation, fault) not in KNOWN]
    faults += [f"{situation}: none {fault}, which stands among what is known" for situation, fault in KNOWN if (situation, fault) not in {(it[0], it[2]) for it in found}]
    print("".join(f"hostile streams: {fault}\n" for fault in faults), end="")
    print(f"hostile streams: {len(uses) + len(PATHS) + len(ENDLESS) + len(AT_ONCE) + len(BY_BYTES) + len(IN_BLOCKS) + 1 + len(BEHIND_QUIT)} command lines, {len(KNOWN)} known faults, {len(faults)} others")
    return 1 if faults else 0


if __name__ == "__main__":
    sys.exit(main(*sys.argv[1:]))
