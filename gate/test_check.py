"""A test of `check`: what makes a crate's must-fail edits run again, in which order and until when, and what it refuses. It calls no prover."""
import contextlib
import importlib.machinery
import importlib.util
import io
import os
import subprocess
import sys
import tempfile

sys.dont_write_bytecode = True
TOP = os.path.dirname(os.path.dirname(os.path.realpath(__file__)))
loader = importlib.machinery.SourceFileLoader("check", f"{TOP}/check")
check = importlib.util.module_from_spec(importlib.util.spec_from_loader("check", loader))
loader.exec_module(check)

# `high` stands on `low`, and `side` on nothing.
FILES = {
    "crates.txt": "low: thiserror\nhigh: low\nside:\n",
    "gate/edits.sums": "",
    "crates/low/src/lib.rt": 'fn low() { say("a // b", \'"\') }\n',
    "crates/low/specs/Lib.antt": "pub mod Low\n",
    "crates/low/must-fail/low_is_high.edit": "file: src/lib.rt\nold: low\nnew: high\n",
    "crates/high/src/lib.rt": "fn high() {}\n",
    "crates/high/must-fail/high_is_low.edit": "file: src/lib.rt\nold: high\nnew: low\n",
    "crates/side/src/lib.rt": "fn side() {}\n",
    "crates/side/must-fail/side_is_low.edit": "file: src/lib.rt\nold: side\nnew: low\n",
}


def write(room, path, text):
    os.makedirs(os.path.dirname(f"{room}/{path}"), exist_ok=True)
    with open(f"{room}/{path}", "w", encoding="utf-8") as it:
        it.write(text)


def made(room):
    """The tree above, with each crate's edits seen refused."""
    for path, text in FILES.items():
        write(room, path, text)
    edits = check.Edits(room, "a kit")
    assert edits.plan("00")[1:3] == (["high", "low", "side"], []), "with no sums all are tried"
    edits.write(edits.owners)


def changed(path, text, kit="a kit"):
    """The crates whose edits run after one file of the tree has changed, and those whose edits run as far as time goes."""
    with tempfile.TemporaryDirectory() as room:
        made(room)
        write(room, path, text)
        return check.Edits(room, kit).plan("00")[1:3]


def faults(path, text):
    with tempfile.TemporaryDirectory() as room:
        made(room)
        write(room, path, text)
        return check.Edits(room, "a kit").faults


def copied():
    with tempfile.TemporaryDirectory() as room, tempfile.TemporaryDirectory() as copy:
        made(room)
        subprocess.run(["git", "init", "-q"], cwd=room, check=True)
        check.copy_of(room, copy)
        return [os.path.relpath(it, copy) for it in check.files_of(copy)]


def layout(said, status=0):
    """What `layout.py` finds in two crates where `rt fmt` says this and ends so."""
    with tempfile.TemporaryDirectory() as room:
        made(room)
        write(room, "bin/rt", f"#!/bin/sh\necho '{said}'\nexit {status}\n")
        os.chmod(f"{room}/bin/rt", 0o755)
        words = [sys.executable, f"{TOP}/gate/layout.py", room, "low", "side"]
        ran = subprocess.run(words, env={**os.environ, "PATH": f"{room}/bin:/usr/bin:/bin"}, stdout=subprocess.PIPE, text=True)
        return ran.returncode, ran.stdout.splitlines()


LOW = FILES["crates/low/must-fail/low_is_high.edit"]
for path, text, want in [
    ("docs/GATE.md", "words\n", ([], [])),
    ("crates/low/specs/Lib.antt", "pub mod Lou\n", (["low"], ["high"])),
    ("crates/low/src/lib.rt", "fn lower() {}\n", (["low"], ["high"])),
    ("crates/low/proofs/Lib.antt", "\n", (["low"], ["high"])),
    ("crates/low/src/lib.rt", '//! What it is.\nfn low()\n{ say("a // b", \'"\') } // and why\n', ([], [])),
    ("crates/low/src/lib.rt", 'fn low() { say("a //  b", \'"\') }\n', (["low"], ["high"])),
    ("crates/low/src/lib.rt", 'fn low() { say("a // b", \' \') }\n', (["low"], ["high"])),
    ("crates/low/specs/Lib.antt", "-- what it has\npub mod  Low -- and why\n", ([], [])),
    ("crates/low/must-fail/low_is_high.edit", LOW + "\n", (["low"], [])),
    ("crates/high/src/lib.rt", "fn higher() {}\n", (["high"], [])),
    ("crates/high/must-fail/high_is_side.edit", LOW, (["high"], [])),
    ("crates.txt", "low: thiserror clap\nhigh: low\nside:\n", (["low"], ["high"])),
    ("crates.txt", "low: thiserror\nhigh: low thiserror\nside:\n", (["high"], [])),
]:
    assert changed(path, text) == want, path
assert changed("docs/GATE.md", "words\n", "another kit") == (["high", "low", "side"], [])

with tempfile.TemporaryDirectory() as room:
    made(room)
    check.Edits(room, "another kit").write(["low", "side"])
    write(room, "crates/high/src/lib.rt", "fn higher() {}\n")
    check.Edits(room, "another kit").write(["high"])
    assert check.Edits(room, "another kit").plan("00")[1:3] == ([], [])
    assert check.Edits(room, "a kit").plan("00")[1:3] == (["high"], []), "the sums of another kit are kept as far as they hold"

with tempfile.TemporaryDirectory() as room:
    made(room)
    write(room, "crates/low/src/lib.rt", "fn lower() {}\n")
    check.Edits(room, "a kit").write(["low"])
    assert check.Edits(room, "a kit").plan("00")[1:3] == ([], ["high"]), "what waits goes on waiting"
    write(room, "crates/high/src/lib.rt", "fn higher() {}\n")
    assert check.Edits(room, "a kit").plan("00")[1:3] == (["high"], []), "and is tried once it changes"
    check.Edits(room, "a kit").write(["high"])
    write(room, "crates/side/src/lib.rt", "fn sides() {}\n")
    write(room, "crates.txt", "low:\nhigh: low\nside: low\n")
    check.Edits(room, "a kit").write(["side", "low"])
    write(room, "crates/low/src/lib.rt", "fn lowest() {}\n")
    orders = [check.Edits(room, "a kit").plan(commit)[2] for commit in ("0", "1", "2")]
    assert orders == [["high", "side"], ["side", "high"], ["high", "side"]], "which of those that wait comes first goes by the commit's hash"

with tempfile.TemporaryDirectory() as room:
    made(room)
    chosen = [check.Edits(room, "a kit").plan(commit)[3] for commit in ("0", "1", "2", "3")]
    assert chosen == [["high"], ["low"], ["side"], ["high"]], "one of the skipped is tried all the same"



class Slow(check.bodies.Rounds):
    """Rounds of which each crate's take an hour and find nothing to say, one at a time."""

    def __init__(self, edits, names):
        super().__init__(edits.root, edits.crates, names, edits.root)
        self.libraries, self.hours = check.pathlib.Path(edits.root), 0

    def try_crate(self, name):
        self.hours += 1
        return ""


def tried(room, hours):
    """What a usual run of this tree says, and the bodies that it leaves, where there is time for so many crates."""
    edits = check.Edits(room, "a kit")
    rounds, said = Slow(edits, [name for names in edits.plan("00") for name in names]), io.StringIO()
    with contextlib.redirect_stdout(said):
        assert check.try_in_rounds(edits, rounds, lambda: rounds.hours == hours) == (0, 0)
    return said.getvalue(), sorted(check.Edits(room, "a kit").left)


check.os.sched_getaffinity = lambda _: {0}
check.bodies.stamps_of = lambda root, names: {}
with tempfile.TemporaryDirectory() as room:
    made(room)
    write(room, "crates/low/src/lib.rt", "fn lower() {}\n")
    assert check.Edits(room, "a kit").plan("00") == ([], ["low"], ["high"], ["side"]), "changed crates, then waiting ones, then one more"
    said, left = tried(room, 1)
    assert left == ["high", "side"] and said == "check: leaves the bodies of ['high', 'side'] to the next run, which tries them first\n"
    write(room, "crates/low/src/lib.rt", "fn low()   {}\n")
    assert check.Edits(room, "a kit").plan("00") == (["high", "side"], ["low"], [], []), "what was left comes first"
    said, left = tried(room, 2)
    assert left == ["low"] and "['low']" in said, "a changed crate is left too"
    assert check.Edits(room, "a kit").plan("00")[:3] == (["low"], [], []), "what is refused is no longer marked"
    assert tried(room, 9) == ("", []) and "waiting" not in check.pathlib.Path(room, check.SUMS).read_text("utf-8")

now = os.times().elapsed
assert check.is_late(now - 141 * 60) and not check.is_late(now - 139 * 60), "no crate's bodies are begun after minute 140"
assert faults("gate/edits.sums", "gone waiting\n") == ["gate/edits.sums: no crate with edits is called gone"]

assert faults("docs/GATE.md", "words\n") == []
assert len(faults("gate/edits.sums", "gone 00 00 a kit\n")) == 1, "a sum that no crate has"
assert len(faults("crates/low/must-fail/deep/low_is_side.edit", LOW)) == 1, "an edit in a folder"
assert len(faults("crates/low/low_is_side.edit", LOW)) == 1, "an edit beside the folder"
assert len(faults("crates/gone/must-fail/low_is_side.edit", LOW)) == 1, "an edit of no crate"

assert sorted(copied()) == sorted(FILES)

assert layout("") == (0, [])
for said, status in [("rt: formatted src/lib.rt", 0), ("rt: note: must-fail/a.edit cannot be applied", 0), ("no such crate", 2)]:
    assert layout(said, status) == (1, [f"layout: {name}: {said}" for name in ("low", "side")]), said
print("gate/test_check.py: ok")
