"""A test of plays whose threads can't be started: whichever is refused, nothing is written, the status is that of want of memory, and
the program ends. With one thread for each actor and no more, all play. It calls no prover.

    python3 gate/test_threads.py PROGRAM

A thread is refused by the limit on a user's threads, which doesn't hold for root: where root runs this, a user that has no process plays."""
import os
import pathlib
import resource
import shutil
import subprocess
import sys
import tempfile

ACTORS = 16
NOBODY = 65_534
REFUSED = [1, 2, 8, 16]
NO_MEMORY = (4, "", "no memory\n")

SCENARIO = "\n".join(["cpus 1", "workers 4", "steps 1", "flushes 0", *(line for at in range(ACTORS) for line in (f"actor t{at}", "busy"))]) + "\n"
LEFT = "\n".join(["cpus 1", "workers 4", "steps 1", "flushes 0", "actor played", *["busy"] * ACTORS, *["# 0 no"] * ACTORS]) + "\n"


def threads_of(user):
    """How many threads this user has."""
    processes = [path for path in pathlib.Path("/proc").glob("[0-9]*") if path.exists() and path.stat().st_uid == user]
    return sum(len(list(path.glob("task/*"))) for path in processes)


def become(user, most):
    """Has this process go on as this user, who may have so many threads."""
    if os.getuid() != user:
        os.setgid(user)
        os.setuid(user)
    resource.setrlimit(resource.RLIMIT_NPROC, (most, most))


def played(program, scenario, threads):
    """The status, output and errors of a play that gets so many threads, besides its first one."""
    user = os.getuid() or NOBODY
    most = threads_of(user) + 1 + threads
    done = subprocess.run(
        [program, "play", "--capacity", "64", scenario], preexec_fn=lambda: become(user, most), capture_output=True, text=True, timeout=60
    )
    return done.returncode, done.stdout, done.stderr


def main(program):
    with tempfile.TemporaryDirectory() as room:
        os.chmod(room, 0o755)
        scenario = pathlib.Path(room, "all_ask.cmwq")
        scenario.write_text(SCENARIO, encoding="utf-8")
        ours = shutil.copy(program, room)
        os.chmod(ours, 0o755)
        wanted = {**{at - 1: NO_MEMORY for at in REFUSED}, ACTORS: (0, LEFT, "")}
        faults = [f"with {threads} threads: {got}" for threads, want in wanted.items() if (got := played(ours, scenario, threads)) != want]
    print("\n".join(faults) or f"{ACTORS} actors: refused threads and none refused, no fault")
    return 1 if faults else 0


if __name__ == "__main__":
    sys.exit(main(*sys.argv[1:]))
