"""Makes each library call of a table with its 1st, 2nd, .. call for memory refused, until a run meets no refusal: the call answers
`no memory`, and made again, with memory, all that it answers as if the refused one hadn't been made; or it answers that at once. What its
caller holds after the refused call is what it held before. What a refused call has written is a front of what it writes. Memory that is
refused outside of the call ends the program with `no memory` and its status. It prints a table of what was asked and answered.

    python3 gate/refused_calls.py PROGRAM

PROGRAM is cmwq_calls, built. Its word is a call's name, and on standard input it takes the text of a scenario."""
import os
import re
import subprocess
import sys

sys.dont_write_bytecode = True
sys.path.insert(0, os.path.dirname(os.path.realpath(__file__)))
import hostile
import refused_memory
import test_user_files as user_files

# What the program prints behind a call that answered so, and makes again.
REFUSED = b"\n= no memory\n"
OUTSIDE = "outside"

# The actor leaves a scenario with a work of each kind: timers, sleepers, a runner, listed, deferred and inactive works; with idle
# workers, flushes, disables, a freeze and want of memory.
CROWDED = """cpus 1
workers 8
steps 1000
flushes 3
queue q max 8
queue f max 1 freezable
queue m max 1 unbound mem_reclaim
work a q
work b q
work s q
work t q
work u m
work r q
work l q
work d f
work e f
work g q
work h m
body a
queue a 0
sleep 9
finish
body b
sleep 8
finish
body s
sleep 1
finish
body t
sleep 2
finish
body u
sleep 3
finish
body r
burn 5
finish
body l
finish
body d
finish
body e
finish
body g
finish
body h
finish
actor x
queue s 0
queue t 0
queue u 0
queue a 0
queue b 0
next * 21
queue r 0
queue l 0
next * 3
delay h 0 20
delay g 0 20
queue d 0
queue e 0
flush a
flush s
flush_queue f
set_max q 9
freeze
pressure
disable u
disable s
disable u
queue u 0
"""
# What a dump of that state has to have.
GROUPS = ("pressed", "run", "asleep", "listed", "deferred", "inactive", "timer", "disabled", "flush")
# Goes on from there over positions at which a debugger copies its machine.
LONG = f"{CROWDED}next * 300\n"
SCENARIOS = {"crowded": CROWDED, "long": LONG, "every": hostile.EVERY, "late": hostile.FILES["late.cmwq"], "asks": hostile.FILES["asks.cmwq"]}
# The calls, each behind the name of the scenario that it is made on.
TABLE = """
crowded: Scenario::copy list read write Plain::load Plain::copy Plain::look Core::load Core::copy Core::look dump_text
crowded: Lists::new Lists::copy Timers::new Timers::copy TicketLock::open Engine::open Shared::open
long: Debugger::open Step Back Goto Goto-copy Run NextEvent BreakWork BreakTime BreakRefusal BreakActivation List Clear Dump DumpPool Why WhyFlush
every: assemble read_text run list_text from_image to_image debug play
late: run
asks: play
"""
ROWS = [(call, name) for name, calls in re.findall("^(.*): (.*)$", TABLE, re.M) for call in calls.split()]
# These answer all the same: a debugger goes on without the copies that it makes on its way forward, and the others take no memory.
NEVER = {"Step", "Goto-copy", "Run", "NextEvent", "BreakWork", "BreakTime", "BreakRefusal", "BreakActivation", "Clear"}


class Caller(refused_memory.Worker):
    """Judges what a call came to."""

    @staticmethod
    def shown(use):
        """A call as a fault shows it."""
        call, text = use
        return f"{call} on {next((name for name, it in SCENARIOS.items() if it == text), 'no scenario')}"

    def fill(self, program):
        """The program needs no file."""

    def faults_of(self, use, number, whole):
        """What the refusal of this call for memory comes to, and what is wrong with it."""
        outcome, count = self.run(use, number)
        first, is_refused, again = outcome.output.partition(REFUSED)
        if outcome == whole:
            return refused_memory.UNMET if count < number else refused_memory.AS, []
        if not is_refused:
            return OUTSIDE, hostile.front_faults(use[0], outcome, whole, self.before, hostile.NO_MEMORY)
        ended = f"with status {outcome.status}" if outcome.status >= 0 else f"by signal {-outcome.status}"
        checks = {
            f"ends {ended} and says {outcome.errors[-80:]!r}": (outcome.status, outcome.errors) == (0, b""),
            "writes what is no front of its output": whole.output.startswith(first),
            "answers otherwise when it is made again, or has changed what its caller holds": again == whole.output,
        }
        return refused_memory.NO, [what for what, is_well in checks.items() if not is_well]

    @staticmethod
    def faults_with_memory(whole, count):
        """What is wrong where nothing is refused."""
        is_well = (whole.status, whole.errors) == (0, b"") and whole.output and REFUSED not in whole.output
        return [] if is_well and count else [f"with memory ends with status {whole.status}, {whole.output[-80:]!r} and {whole.errors[-80:]!r}, after {count} calls for memory"]


def uncovered():
    """The calls of the program, and the commands of the debugger, that the table lacks."""
    calls = set(re.findall(r'^ +"([\w:-]+)" => ', user_files.text_of("crates/cmwq_calls/src/call_name.rt"), re.M))
    body = re.search(r"^pub enum Command \{$(.*?)^\}$", user_files.text_of("crates/cmwq_debug/src/command.rt"), re.M | re.S)[1]
    commands = set(re.findall(r"^    (\w+)\b", body, re.M))
    return [f"the table lacks {name}" for name in sorted((calls | commands) - {call for call, _ in ROWS})]


def missing(program):
    """The groups of works, and what else, that the crowded scenario should have and has not."""
    said = subprocess.run([program, "dump_text"], input=CROWDED, stdout=subprocess.PIPE, text=True, timeout=60).stdout
    return [f"the crowded scenario has no line {group}" for group in GROUPS if not re.search(rf"^{group}\b", said, re.M)]


def faults_of_rows(found):
    """What is wrong of each row: with a refusal, or because none of them is told, or is."""
    wrong = [(call, name, call in NEVER) for (call, name), it in found.items() if bool(it.kinds.get(refused_memory.NO)) == (call in NEVER)]
    said = [f"{call} on {name}: {'answers `no memory`, which it never should' if never else 'never answers `no memory`'}" for call, name, never in wrong]
    return [fault for it in found.values() for fault in it.faults] + said


def table(found):
    """What was asked of memory and answered, a line a call."""
    kinds = (refused_memory.NO, refused_memory.AS, OUTSIDE)
    head = "| Call | Scenario | Calls for memory | Refused: `no memory` | Refused: as with memory | Refused outside of the call |\n|---|---|---|---|---|---|"
    return "\n".join([head, *(f"| `{call}` | {name} | {it.count} | {' | '.join(str(it.kinds.get(kind, 0)) for kind in kinds)} |" for (call, name), it in found.items())])


def main(program):
    by_use = refused_memory.results(program, [(call, SCENARIOS[name]) for call, name in ROWS], None, Caller)
    found = {(call, name): by_use[call, SCENARIOS[name]] for call, name in ROWS}
    faults = uncovered() + missing(os.path.abspath(program)) + faults_of_rows(found)
    print(table(found), *(f"refused calls: {fault}" for fault in faults), sep="\n")
    counts = [sum(it.kinds.get(kind, 0) for it in found.values()) for kind in (refused_memory.NO, refused_memory.AS, OUTSIDE)]
    print(f"refused calls: {len(found)} rows, {sum(counts)} refused, of which {counts[0]} answered `no memory`, {len(faults)} faults")
    return 1 if faults else 0


if __name__ == "__main__":
    sys.exit(main(*sys.argv[1:]))
