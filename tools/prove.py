"""Proves and builds the program, as crates/cmwq/out/cmwq, and says on standard error how far it is.

The kit's gate, `rt ci`, proves a copy of the tree, which has the program's crates alone and none of their must-fail edits. It proves crates side by
side, as far as processors and memory allow. It takes what an earlier `rt ci` on this machine proved of the same files, and keeps each crate that it
has proved."""
import os
import re
import shutil
import signal
import subprocess
import sys
import tempfile
import threading

sys.dont_write_bytecode = True
sys.path[:0] = [os.path.dirname(os.path.realpath(__file__)), f"{os.path.dirname(os.path.dirname(os.path.realpath(__file__)))}/gate"]
import crates
import kit

NAME = "cmwq"
OUT = f"{kit.TOP}/crates/{NAME}/out"
LOG = f"{OUT}/build.log"
DONE = re.compile(r"rt: (\w+) (proved$|is kept: )")
FAILED = re.compile(r"rt: (\w+) NOT PROVED")
WAITS = "another run on this machine is proving the same"
# Where `rt ci` keeps what it proved, and how many bytes it leaves free there.
STORE = f"{os.path.dirname(kit.KIT)}/rattle-kept"
LEAVES = 5_000 << 20


def copy_of(top, name, room):
    """Copies what a program of the tree is proved from, without its must-fail edits. Returns the names of the crates that it has, lowest first."""
    every = crates.read(top)
    names = crates.below(every, name)
    # (`rt ci` runs at the top of a repository)
    os.makedirs(f"{room}/.git")
    with open(f"{room}/crates.txt", "w", encoding="utf-8") as it:
        it.writelines(f"{every[crate][0]}\n" for crate in names)
    if os.path.exists(f"{top}/HANDLES"):
        shutil.copy(f"{top}/HANDLES", room)
    for crate in names:
        shutil.copytree(f"{top}/crates/{crate}", f"{room}/crates/{crate}", ignore=lambda at, _: ["out", "must-fail"] if at.endswith(f"/crates/{crate}") else [])
    return names


def being_proved(parent):
    """Returns the crates that the children of a process prove, by the words that they were started with."""
    found = set()
    for process in filter(str.isdigit, os.listdir("/proc")):
        try:
            with open(f"/proc/{process}/stat", encoding="utf-8", errors="replace") as it:
                is_child = it.read().rpartition(")")[2].split()[1] == str(parent)
            with open(f"/proc/{process}/cmdline", encoding="utf-8", errors="replace") as it:
                words = it.read().split("\0") if is_child else []
        except OSError:
            # (it has ended)
            continue
        found.update(words[at + 1] for at, word in enumerate(words[:-1]) if word == "--crate-name")
    return found


class Progress:
    """Says how many crates are proved, and which are being proved, by what `rt ci` prints: on a terminal in one line that changes."""

    def __init__(self, names, screen):
        self.names, self.screen, self.done, self.running, self.last, self.lock = names, screen, set(), set(), "", threading.RLock()

    def say(self, text, end=""):
        """Says it; with an end, in a line that stays."""
        with self.lock:
            is_screen = self.screen.isatty()
            print(f"\r\x1b[K{text}{end}" if is_screen else f"{text}\n", end="", file=self.screen, flush=True)

    def read(self, line):
        """Takes a line of `rt ci`. Returns whether it says that a crate isn't proved."""
        if done := DONE.match(line):
            with self.lock:
                self.done.add(done[1])
                # (what was kept comes quickly, and is told each second)
                if done[2] == "proved":
                    self.tell(self.running)
        if WAITS in line:
            self.say(f"cmwq: {line.removeprefix('rt: ').rstrip()}", "\n")
        return bool(FAILED.match(line))

    def tell(self, running):
        """Says how far it is, while these crates are being proved, if that is news."""
        with self.lock:
            self.running = running
            of = [name for name in self.names if name in running and name not in self.done]
            text = f"{len(self.done)} of {len(self.names)} crates are proved"
            # (with no crate, one was proved just now, or the next begins)
            if (of or not self.last.startswith(text)) and f"{text}; {', '.join(of)}" != self.last:
                self.last = f"{text}; {', '.join(of)}"
                self.say(self.last if of else text)

    def watch(self, parent, is_over):
        """Says each second how far it is, until it is over."""
        while not is_over.wait(1):
            self.tell(being_proved(parent))


def prove(room, progress, log, *words):
    """Runs `rt ci` in a copy of the tree, as far as the first crate that it can't prove. Returns whether all is proved, and the last lines if not."""
    lines, has_failed, is_over = [], False, threading.Event()
    how = {"stdin": subprocess.DEVNULL, "stdout": subprocess.PIPE, "stderr": subprocess.STDOUT, "text": True, "errors": "replace"}
    ran = subprocess.Popen(["rt", "ci", *words], cwd=room, **how)
    watching = threading.Thread(target=progress.watch, args=(ran.pid, is_over))
    watching.start()
    try:
        for line in ran.stdout:
            log.write(line)
            log.flush()
            lines = [line] if line.startswith("== ") else [*lines[-19:], line]
            if progress.read(line):
                has_failed = True
                break
        else:
            ran.wait()
    finally:
        is_over.set()
        # (it ends at once, and so does all that it has started)
        ran.terminate()
        ran.wait()
        watching.join()
    return not has_failed and not ran.returncode, lines


def take(room):
    """Takes the program that was proved, and its object file, which `rt ci` doesn't make where it has kept the program."""
    for name in (f"{NAME}.o", NAME):
        made = f"{room}/crates/{NAME}/out/{name}"
        if os.path.exists(made):
            shutil.copy2(made, f"{OUT}/{name}.new")
            os.replace(f"{OUT}/{name}.new", f"{OUT}/{name}")
        elif os.path.exists(f"{OUT}/{name}"):
            os.remove(f"{OUT}/{name}")
    os.replace(f"{OUT}/{NAME}.begun", f"{OUT}/{NAME}.mark")


def keeps():
    """Returns whether `rt ci` keeps what it proves."""
    at = STORE if os.path.isdir(STORE) else os.path.dirname(STORE)
    return os.access(at, os.W_OK) and shutil.disk_usage(at).free >= LEAVES


def main(with_object=False):
    """Proves and builds the program. With an object file its own crate is proved anew, since `rt ci` keeps none."""
    os.makedirs(OUT, exist_ok=True)
    kit.begin(f"{OUT}/{NAME}.begun")
    for it in (signal.SIGTERM, signal.SIGHUP):
        signal.signal(it, lambda number, _: sys.exit(128 + number))
    with tempfile.TemporaryDirectory(prefix="cmwq-prove-", ignore_cleanup_errors=True) as room, open(LOG, "w", encoding="utf-8") as log:
        progress = Progress(copy_of(kit.TOP, NAME, room), sys.stderr)
        if not keeps():
            progress.say(f"cmwq: the kit can't keep what is proved: {STORE} isn't writable, or has less than 5,000 MB free. An interrupted proof begins anew.", "\n")
        if with_object:
            os.makedirs(f"{room}/crates/{NAME}/proofs", exist_ok=True)
            # (with this file, which nothing reads, the crate is none that was proved before)
            with open(f"{room}/crates/{NAME}/proofs/object.txt", "w", encoding="utf-8") as it:
                it.write(os.urandom(16).hex())
        try:
            is_proved, lines = prove(room, progress, log)
        except KeyboardInterrupt:
            progress.say(f"cmwq: interrupted; {'what is proved is kept, and ./cmwq --prove goes on from there' if keeps() else 'nothing is kept'}", "\n")
            return 130
        if not is_proved or not os.access(f"{room}/crates/{NAME}/out/{NAME}", os.X_OK):
            progress.say(f"{''.join(lines)}cmwq: the program isn't proved; all that `rt` said is in {LOG}", "\n")
            return 126
        take(room)
    progress.say("cmwq: proved and built", "\n")
    return 0


if __name__ == "__main__":
    sys.exit(main())
