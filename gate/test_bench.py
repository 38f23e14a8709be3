"""Builds every program below bench/: those in Rattle by the kit, unproved, and the baseline by rustc, if it is installed. It measures nothing."""
import concurrent.futures
import os
import pathlib
import shutil
import subprocess
import sys
import tempfile

sys.dont_write_bytecode = True
BENCH = pathlib.Path(__file__).resolve().parent.parent / "bench"
sys.path.insert(0, str(BENCH))
import programs
import unproved


def build(name):
    """Returns what the kit says of a program that it can't build, and nothing of one that it builds."""
    with tempfile.TemporaryDirectory(prefix="bench-") as folder:
        room = programs.use(name, folder)
        # (that a run of it takes longer says nothing of the build)
        said, _ = unproved.build(room, seconds=1)
        return "" if os.path.isfile(f"{room}/kept") else said


def build_baseline():
    """Returns what rustc says of the baseline if it can't build it."""
    with tempfile.TemporaryDirectory(prefix="bench-") as room:
        made = subprocess.run(["rustc", "--edition", "2021", "-o", f"{room}/baseline", BENCH / "baseline/main.rs"], stderr=subprocess.PIPE, text=True)
        return made.stderr if made.returncode else ""


def main():
    names = sorted(programs.listed())
    folders = sorted(it.parent.parent.name for it in BENCH.glob("*/src/main.rt.txt"))
    failed = [] if names == folders else [f"bench/programs.txt lists {names}, and bench/ has {folders}"]
    with concurrent.futures.ProcessPoolExecutor(len(os.sched_getaffinity(0))) as pool:
        failed += [f"bench/{name} doesn't build:\n{said[-2000:]}" for name, said in zip(names, pool.map(build, names)) if said]
    if shutil.which("rustc"):
        failed += [f"bench/baseline doesn't build:\n{said}" for said in [build_baseline()] if said]
    else:
        print("gate/test_bench.py: rustc isn't installed, so bench/baseline isn't built")
    print(*failed or ["gate/test_bench.py: ok"], sep="\n")
    return 1 if failed else 0


if __name__ == "__main__":
    sys.exit(main())
