"""A test of `cmwq`, the command at the top, over a program that stands in for the real one: what it runs, builds, says and hands on.
Last, if the kit is installed, small programs that are built unproved and proved."""
import io
import os
import shutil
import signal
import subprocess
import sys
import tempfile
import time

sys.dont_write_bytecode = True
TOP = os.path.dirname(os.path.dirname(os.path.realpath(__file__)))

# Each builds a program that says who it is, where it runs, its words and its input, and ends with status 7.
PROGRAM = "#!/bin/sh\nprintf '%s %s %s ' {who} \"$PWD\" \"$*\"\ncat\nexit 7\n"
TOOL = """import os, sys
top = os.path.dirname(os.path.dirname(os.path.realpath(__file__)))
words = sys.argv[1:]
program = f"{{top}}/out/optimized/cmwq" if words else f"{{top}}/{path}"
os.makedirs(os.path.dirname(program), exist_ok=True)
with open(f"{{top}}/calls", "a") as it:
    it.write(" ".join(["{who}", *words]) + "\\n")
with open(program, "w") as it:
    it.write({text!r}.replace("{who} ", "optimized ") if words else {text!r})
os.chmod(program, 0o755)
open(program + ".mark", "w").close()
"""
NOTE = "cmwq: this build is not proved yet; ./cmwq --prove proves it, in about "
SLOW = "cmwq: it is slow, too; ./cmwq --optimized builds one that is "
FIRST = "cmwq: first it is built "


def write(path, text, mode=0o644):
    os.makedirs(os.path.dirname(path), exist_ok=True)
    with open(path, "w", encoding="utf-8") as it:
        it.write(text)
    os.chmod(path, mode)


def read(path):
    with open(path, encoding="utf-8") as it:
        return it.read()


def made(room):
    """A tree with the command, stand-ins for its tools and one crate."""
    shutil.copy2(f"{TOP}/cmwq", f"{room}/cmwq")
    write(f"{room}/crates.txt", "low:\n")
    write(f"{room}/crates/low/src/lib.rt", "fn low() {}\n")
    write(f"{room}/crates/low/specs/Lib.antt", "")
    for who, path in [("unproved", "out/unproved/cmwq"), ("prove", "crates/cmwq/out/cmwq")]:
        write(f"{room}/tools/{who}.py", TOOL.format(who=who, path=path, text=PROGRAM.format(who=who)))
    write(f"{room}/bin/rt", "#!/bin/sh\nexit 1\n", 0o755)


def call(room, *words, command="cmwq", cwd=None, path=None):
    """What a call of the command ends with: its status, output and errors."""
    env = {**os.environ, "PATH": path or f"{room}/bin:{os.environ['PATH']}"}
    how = {"cwd": cwd or room, "env": env, "input": "input", "stdout": subprocess.PIPE, "stderr": subprocess.PIPE}
    ran = subprocess.run([f"{room}/{command}", *words], text=True, timeout=60, **how)
    return ran.returncode, ran.stdout, ran.stderr


def calls(room):
    return read(f"{room}/calls").splitlines()


def begin_with(errors, *beginnings):
    """Whether these are the lines that were said, each by how it begins."""
    lines = errors.splitlines()
    return len(lines) == len(beginnings) and all(map(str.startswith, lines, beginnings))


def check_builds(room):
    status, output, errors = call(room, "run", "a file")
    assert (status, output) == (7, f"unproved {room} run a file input"), "the words, the input and the status are handed on"
    assert begin_with(errors, NOTE, SLOW, FIRST), errors
    elsewhere = f"{room}/elsewhere"
    os.makedirs(elsewhere)
    assert call(room, "x", cwd=elsewhere)[1] == f"unproved {elsewhere} x input", "it runs where it is called"
    os.symlink(f"{room}/cmwq", f"{elsewhere}/linked")
    assert call(room, "x", command="elsewhere/linked")[1] == f"unproved {room} x input", "also by a link"
    assert calls(room) == ["unproved"], "it is built once"
    touch(f"{room}/crates/low/src/lib.rt")
    call(room, "x")
    assert calls(room) == ["unproved", "unproved"], "a changed source is built again"
    assert begin_with(call(room, "x")[2], NOTE, SLOW), "a slow program says so each time"
    assert call(room, "--optimized", "x")[:2] == (0, ""), "it is built, and isn't run"
    status, output, errors_then = call(room, "x")
    assert (status, output) == (7, f"optimized {room} x input") and begin_with(errors_then, NOTE), "the quick one runs then, and isn't slow"
    assert call(room, "--prove")[0] == 0
    assert call(room, "x") == (7, f"prove {room} x input", ""), "a proved program runs, and nothing is said"
    touch(f"{room}/crates/low/specs/Lib.antt")
    assert call(room, "x")[1:] == (f"unproved {room} x input", errors), "a changed definition isn't proved"
    assert calls(room) == ["unproved", "unproved", "unproved --optimized", "prove", "unproved"]


def touch(path):
    """Makes a file newer than what was built, also where the clock of files is coarse."""
    time.sleep(0.05)
    os.utime(path)
    time.sleep(0.05)


def check_faults(room):
    bare = f"{room}/bare"
    os.makedirs(bare)
    for name in ("bash", "env", "readlink", "dirname", "find", "nproc", "mkdir", "flock"):
        os.symlink(shutil.which(name), f"{bare}/{name}")
    status, output, errors = call(room, "x", path=bare)
    assert (status, output) == (127, "") and "isn't on the PATH" in errors, "there is no kit"
    write(f"{room}/tools/unproved.py", "import sys\nprint('no', file=sys.stderr)\nsys.exit(126)\n")
    status, output, errors = call(room, "x")
    assert (status, output) == (126, "") and errors.endswith("\nno\n"), "it can't be built"
    write(f"{room}/tools/prove.py", "import sys\nsys.exit(130)\n")
    assert call(room, "--prove")[0] == 130, "a proof that was interrupted"
    assert call(room, "--package")[0] == 130, "what isn't proved isn't packed"


def check_progress(prove):
    """What is said of a proof, by the lines of `rt ci` and by what it runs."""
    said = io.StringIO()
    progress = prove.Progress(["low", "left", "right", "top"], said)
    progress.tell({"low"})
    assert not progress.read("rt: low is kept: an earlier run on this machine proved the same files over the same libraries\n")
    progress.tell({"right", "left", "low"})
    progress.tell({"left", "right"})
    progress.tell({"left", "right"})
    assert not progress.read("rt: left proved\n") and not progress.read("rt: left: its tests are proved\n")
    progress.tell(set())
    assert progress.read("rt: right NOT PROVED\n") and not progress.read("rt: note: NOT PROVED\n")
    wanted = ["0 of 4 crates are proved; low", "1 of 4 crates are proved; left, right", "2 of 4 crates are proved; right"]
    assert said.getvalue().splitlines() == wanted, said.getvalue()


LIBRARY = """// {number}
#![tactic(auto)]

ghost use Rattle.std.specs.Prelude.{{◌≡◌}};

/// Returns the number.
pub fn same(number: u32) -> u32
    ensures same {{ result ≡ number }}
{{
    number
}}
"""
CALLER = """// NUMBER
#![tactic(auto)]

use std::io;

fn main(rt: HostRuntime) -> io::Result<()> {
    println!(rt; "{} {}", left::same(1), right::same(2))
}
"""


CARELESS = """//! Reads past the end of its words if it has two, and adds past the end of a type if it has three.
#![tactic(auto)]

use std::{env, io};

fn main(rt: HostRuntime) -> io::Result<()> {
    let words = match env::args(&rt) {
        Ok(words) => words.collect::<Vec<String>>(rt.alloc()).ok(),
        Err(_) => None,
    };
    let Some(words) = words else {
        return Ok(());
    };
    match words.len() {
        2 => println!(rt; "one"),
        3 => println!(rt; "{}", words[3].len()),
        _ => println!(rt; "{}", 252u8 + words.len() as u8),
    }
}
"""


def check_unproved(room):
    """A program that is built unproved, optimized or not, stops at an index out of bounds and at a sum that wraps."""
    write(f"{room}/crates.txt", "cmwq:\n")
    write(f"{room}/crates/cmwq/src/main.rt", CARELESS)
    for file in ("tools/unproved.py", "tools/kit.py"):
        write(f"{room}/{file}", read(f"{TOP}/{file}"))
    for at, words in (("unproved", []), ("optimized", ["--optimized"])):
        os.makedirs(f"{room}/out/{at}")
        assert subprocess.run([sys.executable, f"{room}/tools/unproved.py", *words]).returncode == 0
        program = f"{room}/out/{at}/cmwq"
        ran = [subprocess.run([program, *words], stdout=subprocess.PIPE, text=True) for words in (["a"], ["a", "b"], ["a", "b", "c"])]
        assert [(it.returncode, it.stdout) for it in ran] == [(0, "one\n"), (-signal.SIGILL, ""), (-signal.SIGILL, "")], ran
    with open(program, "rb") as it:
        assert b"rattle-llvm-checks" not in it.read(), "what is optimized has no function that only checks"


def small(room):
    """A tree with a small program, two libraries below it, which no run has proved before, and one beside it."""
    write(f"{room}/crates.txt", "left:\nright:\nbeside:\ncmwq: left right\n")
    for at, name in enumerate(["left", "right", "beside"]):
        write(f"{room}/crates/{name}/src/lib.rt", LIBRARY.format(number=time.time_ns() + at))
    write(f"{room}/crates/left/must-fail/same.is_one.edit", "file: src/lib.rt\nold:     number\nnew:     1\n")
    write(f"{room}/crates/cmwq/src/main.rt", CALLER.replace("NUMBER", str(time.time_ns())))
    write(f"{room}/crates/cmwq/stdout", "1 2\n")
    for file in ("tools/prove.py", "tools/kit.py", "gate/crates.py"):
        write(f"{room}/{file}", read(f"{TOP}/{file}"))


def proof(room, stop=None):
    """Proves the tree's program, and sends what a terminal sends for Ctrl-C once this is said. Returns the status and the lines that were said."""
    lines = []
    with subprocess.Popen([sys.executable, f"{room}/tools/prove.py"], stderr=subprocess.PIPE, text=True, start_new_session=True) as ran:
        for line in ran.stderr:
            lines.append(line.rstrip("\n"))
            if stop and line.startswith(stop):
                os.killpg(ran.pid, signal.SIGINT)
    return ran.returncode, lines


def check_proof(prove, room):
    """Crates are proved side by side, Ctrl-C keeps what is proved, and the next call takes it."""
    small(room)
    copy = f"{room}/copy"
    assert prove.copy_of(room, "cmwq", copy) == ["left", "right", "cmwq"], "the program's crates, lowest first"
    assert read(f"{copy}/crates.txt") == "left:\nright:\ncmwq: left right\n"
    assert sorted(os.listdir(f"{copy}/crates")) == ["cmwq", "left", "right"] and os.listdir(f"{copy}/crates/left") == ["src"]
    shutil.rmtree(copy)
    status, lines = proof(room, "2 of 3 crates are proved")
    assert status == 130 and lines[-1].startswith("cmwq: interrupted; "), lines
    assert len(os.sched_getaffinity(0)) == 1 or "0 of 3 crates are proved; left, right" in lines, "two small crates overlap"
    if not prove.keeps():
        return
    status, lines = proof(room)
    assert (status, lines[-1]) == (0, "cmwq: proved and built"), lines
    assert not any("left" in line or "right" in line for line in lines), "what was proved is taken"
    assert subprocess.run([f"{room}/crates/cmwq/out/cmwq"], stdout=subprocess.PIPE, text=True).stdout == "1 2\n"
    assert os.path.getsize(f"{room}/crates/cmwq/out/cmwq.o") and os.path.exists(f"{room}/crates/cmwq/out/cmwq.mark")
    write(f"{room}/crates/left/src/lib.rt", LIBRARY.format(number=0).replace("    number\n", "    1\n"))
    status, lines = proof(room)
    assert status == 126 and "rt: left NOT PROVED" in lines and lines[-1].startswith("cmwq: the program isn't proved; "), lines


for check in (check_builds, check_faults):
    with tempfile.TemporaryDirectory(prefix="cmwq-") as room:
        made(room)
        check(os.path.realpath(room))
if shutil.which("rt"):
    sys.path.insert(0, f"{TOP}/tools")
    import prove

    check_progress(prove)
    with tempfile.TemporaryDirectory(prefix="cmwq-") as room:
        check_unproved(os.path.realpath(room))
    with tempfile.TemporaryDirectory(prefix="cmwq-") as room:
        check_proof(prove, os.path.realpath(room))
print("gate/test_cmwq.py: ok")
