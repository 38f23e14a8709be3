"""Runs each command line of hostile.py's table with its 1st, 2nd, .. call for memory refused, until a run meets no refusal: the
program says `no memory`, with its status, or does exactly what it does with memory. It never ends by a signal; what went out is a front of
the whole output; a file that it writes is whole or empty; and where files have changed, the same command line, with memory, then does as
if nothing had been refused. Whatever takes memory is refused: blocks, pages, threads. It prints a table of what was asked and answered.

    python3 gate/refused_memory.py PROGRAM [--quick [COMMIT]]

With --quick every seventh refusal is tried; which of the seven goes by the commit's hash."""
import collections
import multiprocessing
import os
import sys
import tempfile

sys.dont_write_bytecode = True
sys.path.insert(0, os.path.dirname(os.path.realpath(__file__)))
import hostile

SHARES = 7
# Threads may take memory in another order, so that a count isn't the same each time: so many calls more are tried.
MORE = 3
# What a refusal comes to.
NO, AS, UNMET = "no memory", "as with memory", "unmet"
documented = hostile.Documented()
Found = collections.namedtuple("Found", "status count kinds faults")


class Worker:
    """What one process needs to run command lines: a folder of its own, and the files that belong there."""

    shown = staticmethod(hostile.shown)

    def __init__(self, program, library):
        self.room = tempfile.mkdtemp(dir=os.path.dirname(library))
        self.fill(program)
        self.before, self.counted = hostile.files_in(self.room), hostile.Counted(program, library, self.room)

    def fill(self, program):
        """Writes the files that the command lines need."""
        hostile.fill(program, self.room)

    def run(self, use, number=0):
        """What a command line ends with where this call for memory is refused, and how many it made."""
        outcome, counts = self.counted.run(*use, f"memory {number}")
        return outcome, counts["memory"]

    def faults_of(self, use, number, whole):
        """What the refusal of this call comes to, and what is wrong with it."""
        outcome, count = self.run(use, number)
        if outcome == whole:
            kind, faults = (UNMET if count < number else AS), []
        else:
            kind, faults = NO, hostile.front_faults(use[0], outcome, whole, self.before, hostile.NO_MEMORY)
            if hostile.changed(outcome, self.before) and self.run(use)[0] != whole:
                faults.append("leaves files with which the same command line can't do what it should")
        hostile.put_back(self.room, self.before)
        return kind, faults

    @staticmethod
    def faults_with_memory(whole, count):
        """What is wrong where nothing is refused."""
        checks = {"makes no call for memory that can be refused": count, f"ends as no document says, with {whole[:3]}": documented.is_told(whole.status, whole.errors)}
        return [what for what, is_well in checks.items() if not is_well]


def begin(kind, program, library):
    """Begins in a process of the pool, with a worker of this kind."""
    global worker
    worker = kind(program, library)


def counted(use):
    """What a command line ends with where nothing is refused, and how many calls for memory it made."""
    found = worker.run(use)
    hostile.put_back(worker.room, worker.before)
    return found


def tried(job):
    use, number, whole = job
    return use, number, *worker.faults_of(use, number, whole)


def numbers(count, share):
    """Which calls are refused, of so many: all, or those of the share."""
    return [number for number in range(1, count + MORE + 1) if share is None or number % SHARES == share]


def results(program, uses, share, kind=Worker):
    """Of each command line, how many calls it made, what each refusal came to, and what is wrong, as this kind of worker judges."""
    with tempfile.TemporaryDirectory(prefix="refused-") as room:
        library = hostile.built_library(room)
        with multiprocessing.Pool(4, begin, (kind, os.path.abspath(program), library)) as pool:
            wholes = dict(zip(uses, pool.map(counted, uses, 1)))
            found = {use: Found(whole.status, count, {}, [f"{kind.shown(use)}: {it}" for it in kind.faults_with_memory(whole, count)]) for use, (whole, count) in wholes.items()}
            jobs = [(use, number, whole) for use, (whole, count) in wholes.items() for number in numbers(count, share)]
            for use, number, came_to, faults in pool.imap_unordered(tried, jobs, 16):
                found[use].kinds[came_to] = found[use].kinds.get(came_to, 0) + 1
                found[use].faults.extend(f"{kind.shown(use)}: with call {number} refused it {fault}" for fault in faults)
    return found


def table(found):
    """What was asked of memory and answered, a line a command line."""
    lines = [f"| `{hostile.shown(use)}` | {it.status} | {it.count} | {it.kinds.get(NO, 0)} | {it.kinds.get(AS, 0)} |" for use, it in found.items()]
    return "\n".join(["| Command line | Status | Calls for memory | Refused: `no memory` | Refused: as with memory |", "|---|---|---|---|---|", *lines])


def main(program="", *options):
    if not os.path.isfile(program) or options[:1] not in ((), ("--quick",)) or len(options) > 2:
        print(__doc__, file=sys.stderr)
        return 2
    commit = (options[1:] or (hostile.commit(),))[0] if options[:1] == ("--quick",) else None
    uses = hostile.all_uses()
    found = results(program, uses, None if commit is None else int(commit, 16) % SHARES)
    well = [use for use, it in found.items() if it.status == 0]
    faults = hostile.uncovered(well) + [fault for it in found.values() for fault in it.faults]
    print(table(found), *(f"refused memory: {fault}" for fault in faults), sep="\n")
    calls, refused = sum(it.count for it in found.values()), sum(it.kinds.get(NO, 0) + it.kinds.get(AS, 0) for it in found.values())
    print(f"refused memory: {len(uses)} command lines, {calls} calls, {refused} refused, {len(faults)} faults")
    return 1 if faults else 0


if __name__ == "__main__":
    sys.exit(main(*sys.argv[1:]))
