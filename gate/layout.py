"""What `rt ci` would refuse a tree for only after it has proved what lies below, found in half a minute.

  layout.py ROOT CRATE..

Runs `rt fmt` in these crates of a copy of the tree. Each file that it lays out anew is a fault, and so is each must-fail edit that it
says can't be applied. It calls no prover."""
import subprocess
import sys

FAULTS = ("rt: formatted ", "rt: note: must-fail/")


def faults_of(folder):
    """What `rt fmt` found there, or its last line where it failed."""
    ran = subprocess.run(["rt", "fmt"], cwd=folder, stdout=subprocess.PIPE, stderr=subprocess.STDOUT, text=True, errors="replace")
    lines = ran.stdout.splitlines() or ["rt fmt said nothing"]
    return [line for line in lines if line.startswith(FAULTS)] or lines[-1:] * (ran.returncode != 0)


def main(root, *names):
    faults = [f"{name}: {fault}" for name in names for fault in faults_of(f"{root}/crates/{name}")]
    print("".join(f"layout: {fault}\n" for fault in faults), end="")
    return 1 if faults else 0


if __name__ == "__main__":
    sys.exit(main(*sys.argv[1:]))
