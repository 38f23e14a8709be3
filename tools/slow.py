"""Proves a crate from nothing, over the libraries that an earlier `rt check` of it has built, and tells where the time went: how many seconds by the clock
each of its functions took, and each kind of module beneath them. `Lts` has a function's steps and drops, `Proof` its goals. The line of a function
that `rattle check --progress` prints has also what was read and checked before it, for whichever function wanted that first.

    python3 tools/slow.py CRATE [HOW MANY FUNCTIONS [tests]]

With `tests` it is the crate with its tests."""
import collections
import os
import subprocess
import sys
import tempfile

sys.dont_write_bytecode = True
sys.path.insert(0, os.path.dirname(os.path.realpath(__file__)))
import kit


def modules_of(folder):
    """The modules that a check has kept in a folder, in the order in which it ended with them, each with its seconds."""
    files = [os.path.join(at, name) for at, _, names in os.walk(folder) for name in names if name.endswith(".oantt") and not name.endswith(".decls.oantt")]
    ends = sorted((os.stat(file).st_mtime_ns / 1e9, os.path.basename(file).removesuffix(".oantt")) for file in files)
    return [(name, end - before) for (before, _), (end, name) in zip(ends, ends[1:])]


def seconds_of(crate, modules):
    """The seconds of each function, by the kinds of its modules, and those of each kind."""
    functions, kinds = collections.defaultdict(collections.Counter), collections.Counter()
    for name, seconds in modules:
        path, _, kind = name.removeprefix(f"Rattle-{crate}-").removeprefix("proofs.").rpartition(".")
        functions[path][kind] += seconds
        kinds[kind] += seconds
    return functions, kinds


def main(name, count="30", tests=""):
    folder = f"{kit.TOP}/crates/{name}"
    rtlib, crate = kit.crate_at(folder)
    with tempfile.TemporaryDirectory(prefix="slow-") as room:
        words = [rtlib.RATTLE, "check", *crate.words(["--jobs", "1"], tests=bool(tests), keeps=False), "--incremental", room]
        ran = subprocess.run(words, cwd=folder, stdout=subprocess.PIPE, stderr=subprocess.STDOUT, text=True, errors="replace")
        modules = modules_of(room)
    if ran.returncode or not modules:
        print(ran.stdout[-2000:], end="")
        return 1
    functions, kinds = seconds_of(name, modules)
    for path, of_kind in sorted(functions.items(), key=lambda it: -it[1].total())[: int(count)]:
        print(f"{of_kind.total():7.1f} {path}: {', '.join(f'{kind} {seconds:.1f}' for kind, seconds in of_kind.most_common(4))}")
    print(f"{kinds.total():7.1f} in all: {', '.join(f'{kind} {seconds:.1f}' for kind, seconds in kinds.most_common(8))}")
    return 0


if __name__ == "__main__":
    sys.exit(main(*sys.argv[1:]))
