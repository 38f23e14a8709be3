"""A test of the scripts of hostile use, over programs that stand in for the real one: each of these does one thing wrong, and is refused for
it; and one that does all well is not. It builds no scenario's program and calls no prover."""
import contextlib
import io
import os
import random
import re
import shutil
import subprocess
import sys
import tempfile

sys.dont_write_bytecode = True
import cut_inputs
import fuzz
import hostile
import hostile_streams
import limits
import mutations
import refused_calls
import refused_memory

# It asks for memory twice, and writes a line behind each; `asm` and `new` write both into their last word, `new` where no file is there.
# Each WORD is what it does where memory or a write is refused.
PROGRAM = r"""
#include <fcntl.h>
#include <signal.h>
#include <stdlib.h>
#include <string.h>
#include <unistd.h>
static int said(const char *line, int status) {
    for (ssize_t size; *line && (size = write(2, line, strlen(line))) > 0; line += size);
    return status;
}
int main(int count, char **words) {
    int is_new = count > 1 && !strcmp(words[1], "new"), is_asm = count > 1 && !strcmp(words[1], "asm"), out = 1;
    signal(SIGPIPE, SIG_IGN);
    signal(SIGXFSZ, SIG_IGN);
    READS;
    char *volatile first = malloc(8);
    if (!first) AT_FIRST;
    if (is_asm || is_new) out = open(words[count - 1], O_WRONLY | O_CREAT | (is_new ? O_EXCL : O_TRUNC), 0666);
    char *volatile second = malloc(8);
    if (!second) AT_SECOND;
    for (const char *rest = LINES; *rest; rest++)
        if (write(out, rest, 1) < 1) UNWRITTEN;
    return 0;
}
"""
# It asks for memory before a call and in it, and makes the call again where none is given to it.
CALLED = r"""
#include <stdlib.h>
#include <string.h>
#include <unistd.h>
static int put(const char *text) { return write(1, text, strlen(text)) < 0; }
static int said(const char *line, int status) { return write(2, line, strlen(line)) < 0 ? status : status; }
int main() {
    char *volatile before = malloc(8);
    if (!before) BEFORE;
    put("= held\nit\n= call\none\n");
    char *volatile within = malloc(8);
    if (!within) WITHIN;
    put("two\n\n= ok\nthree\n= held\nit\n");
    return 0;
}
"""
AGAIN = '"\\n= no memory\\n= held\\nit\\n= call\\none\\n"'
WELL = {"AT_FIRST": 'return said("no memory\\n", 4)', "AT_SECOND": '{ if (is_new) unlink(words[count - 1]); return said("no memory\\n", 4); }'}
WELL |= {"READS": "0", "LINES": '"one\\ntwo\\n"', "UNWRITTEN": 'return said("write\\n", 3)'}
WELL |= {"BEFORE": 'return said("no memory\\n", 4)', "WITHIN": f"put({AGAIN})"}
RUN, ASM, NEW = ("run x", ""), ("asm x out", ""), ("new fresh", "")


def built(room, program=PROGRAM, **words):
    """The program, with these words otherwise."""
    text = program
    for word, stands in {**WELL, **words}.items():
        text = text.replace(word, stands)
    with open(f"{room}/stand_in.c", "w", encoding="utf-8") as it:
        it.write(text)
    subprocess.run(["cc", "-w", "-O0", "-o", f"{room}/stand_in", f"{room}/stand_in.c"], check=True)
    return f"{room}/stand_in"


def check_memory(room):
    """What each stand-in does where memory is refused, and what is said of it."""
    for use, words, wanted in [
        (RUN, {}, None),
        (ASM, {}, None),
        (NEW, {}, None),
        (RUN, {"AT_SECOND": "abort()"}, "ends by signal 6"),
        (RUN, {"AT_FIRST": "*first = 1"}, "ends by signal 11"),
        (RUN, {"AT_FIRST": "return 0"}, "ends with status 0"),
        (RUN, {"AT_FIRST": 'return said("no memory\\n", 1)'}, "ends with status 1"),
        (RUN, {"AT_FIRST": 'return said("none\\n", 4)'}, "ends with status 4 and says b'none"),
        (RUN, {"AT_FIRST": 'return said("one\\nno memory\\n", 4)'}, "ends with status 4 and says b'one"),
        (RUN, {"AT_SECOND": '{ write(1, "two\\n", 4); return said("no memory\\n", 4); }'}, "no front"),
        (ASM, {"AT_SECOND": '{ write(out, "on", 2); return said("no memory\\n", 4); }'}, "leaves half of out"),
        (NEW, {"AT_SECOND": 'return said("no memory\\n", 4)', "UNWRITTEN": 'return said("write\\n", 3)'}, "can't do what it should"),
    ]:
        found = refused_memory.results(built(room, **words), [use], None)[use]
        assert found.count == 2 and (any(wanted in fault for fault in found.faults) if wanted else not found.faults), (words, found)
    nothing_asked = refused_memory.results(built(room, **{"malloc(8)": "words[0]"}), [RUN], None)[RUN]
    assert nothing_asked.faults, "a program whose calls for memory can't be seen isn't tried"
    shares = [refused_memory.numbers(40, share) for share in range(refused_memory.SHARES)]
    assert sorted(sum(shares, [])) == refused_memory.numbers(40, None), "the shares are all"


def check_calls(room):
    """What each stand-in does where memory is refused to a call, and what is said of it."""
    for call, words, wanted in [
        ("list", {}, None),
        ("list", {"WITHIN": 'put("")'}, "never answers"),
        ("list", {"WITHIN": 'return said("no memory\\n", 4)'}, "never answers"),
        ("Clear", {}, "which it never should"),
        ("list", {"BEFORE": 'return said("no memory\\n", 1)'}, "ends with status 1"),
        ("list", {"BEFORE": 'put("other\\n")'}, "ends with status 0"),
        ("list", {"WITHIN": "abort()"}, "ends by signal 6"),
        ("list", {"WITHIN": f"put({AGAIN}), abort()"}, "ends by signal 6"),
        ("list", {"WITHIN": f"return put({AGAIN})"}, "when it is made again"),
        ("list", {"WITHIN": f"put({AGAIN.replace('it', 'other')})"}, "what its caller holds"),
        ("list", {"WITHIN": f'put("other" {AGAIN})'}, "no front"),
    ]:
        found = refused_memory.results(built(room, CALLED, **words), [(call, "")], None, refused_calls.Caller)[call, ""]
        faults = refused_calls.faults_of_rows({(call, "a scenario"): found})
        assert any(wanted in fault for fault in faults) if wanted else not faults, (words, faults)
    assert not refused_calls.uncovered(), "each call stands in the table"


def check_streams(room):
    """What each stand-in does where a write fails, and in which situations that is seen."""
    for words, wanted in [
        ({}, set()),
        ({"UNWRITTEN": "return 0"}, {"closed output", "full output", "output that none reads", "full pipe that doesn't block", "all closed"}),
        ({"UNWRITTEN": 'return said("write\\n", 1)'}, {"closed output", "full output", "output that none reads"}),
        ({"UNWRITTEN": 'return said("it is full\\nwrite\\n", 3)'}, {"full output"}),
        ({"UNWRITTEN": '{ write(out, "one", 3); return said("write\\n", 3); }'}, {"write 2 failing"}),
        ({"signal(SIGPIPE, SIG_IGN)": ""}, {"output that none reads"}),
        ({"signal(SIGXFSZ, SIG_IGN)": "", "LINES": f'"{"x" * 300}"'}, {"small files"}),
    ]:
        found = {situation for situation, _, _ in hostile_streams.all_faults(built(room, **words), [RUN, ASM], {}, {})}
        assert found >= wanted and bool(found) == bool(wanted), (words, found)
    stated = hostile_streams.PATHS, hostile_streams.ENDLESS
    found = hostile_streams.all_faults(built(room, UNWRITTEN="return 0"), [], *stated)
    assert len(found) == sum(map(len, stated)), "it uses what can't be used, and each input has an end"
    for script, wanted in [("printf one", 0), ("printf one; printf two", 1), ("printf one; printf two >&2", 1), ("true", 1)]:
        found = hostile_streams.all_faults(shell_program(room, script), [], {}, {}, ["--help"])
        assert len(found) == wanted, (script, found)
    check_single_bytes(room)
    check_sessions(room)


def check_sessions(room):
    """What each stand-in does that answers a line, and ends at the second one."""
    answers = "for (const char *it = \"ok\\n\"; *it; it++) if (write(1, it, 1) < 1) return said(\"write\\n\", 3);"
    well = "{ char byte; long count; int lines = 0; while ((count = read(0, &byte, 1)) > 0) if (byte == 10) { if (lines++) return 0; ANSWERS } LATER if (count < 0) return said(\"read\\n\", 3); return 0; }"
    for changes, is_well in [
        ({}, True),
        ({"ANSWERS": "", "LATER": f"if (count == 0) {{ {answers} }}"}, False),
        ({"if (lines++) return 0;": "if (lines++) continue;"}, False),
        ({"if (lines++) return 0;": "if (lines++) { read(0, &byte, 1); return 0; }"}, False),
        ({"if (lines++) return 0;": "if (lines++) return 1;"}, False),
        ({"ANSWERS": answers.replace("< 1", "< 0")}, False),
    ]:
        reads = well
        for word, stands in {**changes, "ANSWERS": answers, "LATER": ""}.items():
            reads = reads.replace(word, changes.get(word, stands))
        found = hostile_streams.all_faults(built(room, READS=reads), [], {}, {}, session=("run x", "step\n", [b"ok\n"]))
        assert bool(found) != is_well, (changes, found)


def check_single_bytes(room):
    """What each stand-in does where a read or a write of one byte fails, and which goes out in blocks."""
    reads = "{ char byte; long count; while ((count = read(0, &byte, 1)) > 0); if (count < 0) FAILED; }"
    well = reads.replace("FAILED", 'return said("read\\n", 3)')
    for words, is_well in [
        ({}, True),
        ({"READS": "0"}, False),
        ({"READS": reads.replace("FAILED", ";")}, False),
        ({"READS": reads.replace("FAILED", '{ write(1, "o", 1); return said("read\\n", 3); }')}, False),
        ({"UNWRITTEN": "return 0"}, False),
        ({"UNWRITTEN": '{ write(out, rest, 1); return said("write\\n", 3); }'}, False),
    ]:
        found = hostile_streams.all_faults(built(room, **{"READS": well, **words}), [], {}, {}, by_bytes=["run -"])
        assert bool(found) != is_well, (words, found)
    begun = reads.replace("FAILED", '{ write(open(words[3], O_WRONLY | O_CREAT, 0666), "o", 1); return said("read\\n", 3); }')
    for stands, is_well in [(well, True), (begun, False)]:
        found = hostile_streams.all_faults(built(room, READS=stands), [], {}, {}, by_bytes=["asm - out"])
        assert bool(found) != is_well, (stands, found)
    for lines, least, is_well in [("x" * 200, 2, True), ("x" * 200, 3, False), ("x" * 20, 2, False)]:
        found = hostile_streams.all_faults(built(room, LINES=f'"{lines}"'), [], {}, {}, in_blocks={"run x": least})
        assert bool(found) != is_well, (lines, least, found)


# It says of each text and image that it is faulty, and so passes.
TELLS = """case $1 in
check) printf 'text.cmwq:1:1: line: BadUtf8\\n  a line here may begin with: cpus\\n' >&2;;
asm) : > out; echo 'line 1: BadUtf8' >&2;;
show) echo 'image: Magic' >&2;;
*) echo 'line 1: BadUtf8' >&2;;
esac
exit 1
"""


def shell_program(room, script):
    """A program of these lines of a shell."""
    with open(f"{room}/shell", "w", encoding="utf-8") as it:
        it.write(f"#!/bin/sh\n{script}")
    os.chmod(f"{room}/shell", 0o755)
    return f"{room}/shell"


def check_fuzz(room):
    """What each stand-in does, and what fails of it."""
    fuzz.SECONDS = 1
    for script, wanted in [
        (TELLS, None),
        ("kill -SEGV $$\n", "it ends by signal 11"),
        ("while [ \"$1\" != asm ]; do :; done\n", "it takes over 1 seconds"),
        ("echo no memory >&2\nexit 4\n", "takes over 200 MB"),
        ("echo oops >&2\nexit 1\n", "no document says"),
        ("echo write >&2\nexit 1\n", "no document says"),
        ("exit 1\n", "no document says"),
        (TELLS.replace("line 1: BadUtf8' >&2;;\nesac", "line 2: BadUtf8' >&2;;\nesac"), "and this Ended"),
        (TELLS.replace("text.cmwq:1:1: line", "text.cmwq:1:1: word"), "isn't at its column"),
        (TELLS.replace("check)", "check) echo \"$2: ok\"; exit 0;;\nno)"), "and list Ended"),
        (TELLS.replace(": > out", "echo one > out"), "image of a faulty text"),
        ("[ \"$1\" = check ] && echo \"$2: ok\"\nexit 0\n", "image"),
        ("[ \"$1\" = debug ] && echo 'refused Rudely'\n" + TELLS, "isn't documented"),
        ("[ \"$1\" = debug ] && wc -c\n" + TELLS, "position 0 is another"),
        ("[ \"$1\" = run ] && [ -e late.cmwq ] && : > late.cmwq\n" + TELLS, "have changed"),
    ]:
        failures = fuzz.fuzzed(shell_program(room, script), "a seed", range(120), 600)[1]
        for failure in failures:
            shutil.rmtree(re.search(r" in (\S+), with the file given", failure)[1])
        assert any(wanted in failure for failure in failures) if wanted else not failures, (script, failures)


def check_cuts(room):
    """A program that takes whatever it is given, and says nothing; and one whose `check` alone refuses."""
    cutting, text = cut_inputs.Cutting(shell_program(room, "[ $1 != check ]\n"), room), b"cpus 1\nworkers 1\n"
    assert list(map(len, (cutting.image_faults(b"CMWQ12"), cutting.text_faults(text), cutting.spoilt_faults(text), cutting.line_faults(text)))) == [6, 18, 2, 3]
    assert cut_inputs.first_scenario()[1][:6] == b"CMWQ\0\4"


# It knows the limit of CPUs, of which it lists a text.
CPUS = """read -r _ cpus < $2
case $cpus in
???????????*) echo 'line 1: BadNumber' >&2; exit 1;;
[1-9]|1[0-6]) cat $2;;
*) echo 'line 1: Range' >&2; exit 1;;
esac
"""


def check_limits(room):
    """What each stand-in does with texts of so many CPUs, and which of them are told."""
    for changed, stands, wanted in [
        ("", "", []),
        ("1[0-6]", "1[0-7]", ["17"]),
        ("1[0-6]", "1[0-5]", ["16"]),
        ("[1-9]|", "[2-9]|", ["1"]),
        ("[1-9]|", "[0-9]|", ["0"]),
        ("BadNumber", "Range", ["10000000000"]),
        ("line 1: Range", "line 2: Range", ["0", "17", "9999999999"]),
        ("'line 1: Range' >&2; exit 1", "'line 1: Range' >&2; exit 2", ["0", "17", "9999999999"]),
        ("echo 'line 1: BadNumber'", "echo said; echo 'line 1: BadNumber'", ["10000000000"]),
        ("cat $2", "cat $2 $2", ["1", "16"]),
    ]:
        found = limits.Limits(shell_program(room, CPUS.replace(changed, stands) if changed else CPUS), room)
        row = limits.ROWS[0]._replace(image={})
        for value, reason in row.refused.items():
            found.try_refused(row, value, reason)
        for value in row.taken:
            found.want_listed(f"cpus, {value}: the text", "list FILE", limits.text(cpus=value), limits.text(cpus=value))
        assert sorted(fault.split(":")[0].removeprefix("cpus, ") for fault in found.faults) == sorted(wanted), (stands, found.faults)


def check_greatest(room):
    """A program that says nothing fails wherever something has to be said; and what a command takes, and how it ends, is seen."""
    with contextlib.redirect_stdout(io.StringIO()):
        silent = limits.greatest_faults(shell_program(room, "case $1 in play | explore) echo full >&2; exit 4; esac\n"), room, limits.MEASURED)
    assert [fault.split()[0] for fault in silent] == ["check", "list", "show", "settle", "asm", "run", "play"], silent
    assert not limits.uncovered()
    for script, bounds, wanted in [
        ("exit 0\n", {}, []),
        ("timeout 1 sh -c 'while :; do :; done'; exit 0\n", {"SECONDS": 0.2}, ["seconds"]),
        ("exit 0\n", {"MEGABYTES": 1}, ["MB"]),
        ("exit 1\n", {}, ["ends with status 1"]),
        ("echo said >&2\n", {}, ["ends with status 0"]),
        ("kill -SEGV $$\n", {}, ["ends with status -11"]),
        ("exec sleep 60\n", {"MOST_SECONDS": 1}, ["ends with status -14"]),
    ]:
        found = cost_faults_within(bounds, shell_program(room, script), room)
        assert len(found) == len(wanted) and all(it in fault for it, fault in zip(wanted, found)), (script, found)


def cost_faults_within(bounds, program, room):
    """What is wrong with what the program took, where these bounds are otherwise."""
    before = {name: getattr(limits, name) for name in bounds}
    vars(limits).update(bounds)
    found = limits.cost_faults("run x", limits.measured(program, room, "run x", ""))
    vars(limits).update(before)
    return found


def check_mutations():
    """A turn goes by the seed and its number alone."""
    lessons = [hostile.EVERY]
    made = [[mutations.text(random.Random(f"{seed} {turn}"), lessons) for turn in range(50)] for seed in ("one", "one", "other")]
    assert made[0] == made[1] != made[2] and len(set(made[0])) > 40


def check_documented():
    """Which ends are documented."""
    documented = hostile.Documented()
    for status, errors, is_told in [
        (0, b"", True),
        (0, b"read\n", False),
        (1, b"", False),
        (1, b"line 3: Range\n", True),
        (1, b"line 3: Rang\n", False),
        (2, b"line 3: Range\n", False),
        (1, b"line 3: Range", False),
        (1, b"image: BadField 12\n", True),
        (1, b"image: BadField\n", False),
        (3, b"write\n", True),
        (3, b"write\nwrite\n", False),
        (4, b"no memory\n", True),
        (5, b"", True),
        (6, b"", True),
        (7, b"", False),
        (1, b"flushes 12 needed\n", True),
        (1, b"flushes N needed\n", False),
        (6, b"flushes 12 needed\n", False),
        (2, b"error: unexpected argument\n\nUsage: cmwq run\n", True),
        (1, b"a.cmwq:2:9: 65: Range\n  expected here: a number from 1 to 64\n", True),
        (1, b"a.cmwq:2:9: 65: Ranger\n  expected here: a number from 1 to 64\n", False),
        (3, b"a.cmwq: read\n", True),
        (0, b"a.cmwq:9: note: m: other work items start beside its own, but burn late\n", True),
        (0, b"a.cmwq:9: note: m: no work items start beside its own, but burn late\n", False),
        (0, b"a.cmwq:9: note: quiet: without a count it makes at most one move; write quiet * 100 to continue until no work item is pending or running\n", True),
        (0, b"a.cmwq:9: note: quiet: without a count it makes two moves; write quiet * 100 to continue until no work item is pending or running\n", False),
        (1, b"a.cmwq:2:8: end of line: MissingWord\n  expected here: a number from 1 to 64\n  workers N: the number N is missing\n", True),
        (1, b"a.cmwq:2:8: end of line: MissingWord\n  expected here: a number from 1 to 64\n  workers N: it is missing\n", False),
        (0, b"a.cmwq: read\n", False),
        (3, b"a.cmwq: read\nb.cmwq:60: note: a: cancel_sync lets it queue itself again, and a kernel's doesn't\n", True),
    ]:
        assert documented.is_told(status, errors) == is_told, (status, errors)
    assert not hostile.uncovered(hostile.all_uses()) and hostile.uncovered(hostile.all_uses()[:9])


check_documented()
check_mutations()
with tempfile.TemporaryDirectory(prefix="hostile-") as ours:
    check_memory(ours)
    check_calls(ours)
    check_streams(ours)
    check_fuzz(ours)
    check_cuts(ours)
    check_limits(ours)
    check_greatest(ours)
print("gate/test_hostile.py: ok")
