"""What holds of what is told of runs, whatever the run: `times` and `trace` of each lesson of one actor, looked at as a reader would. Of `times` each
line's ticks add up, the lines add up to the sums, and the JSON objects say the same words. Of `trace` each line is JSON, names stand before what is
named so, slices of one thread don't overlap, and what works burn in slices is what `times` says; an object of `--lines` stands for each line of
the run, and says the words of one that tells what a body does with another work; and the workqueue events of `--text` are as many as the run's starts and ends, in the order of time. With `--whom` each tick of a wait has
somebody, or nobody, and `--sweep` says what `times` says of the text with that max. Where NAME.times, NAME.trace_json or NAME.trace_lines stands beside a lesson, that is what is printed.

    python3 gate/reports.py PROGRAM"""
import collections
import glob
import json
import os
import re
import subprocess
import sys

TOP = os.path.dirname(os.path.dirname(os.path.realpath(__file__)))
COUNTS = ("timer", "inactive", "listed", "deferred", "ready", "burned", "slept")
LINE = re.compile(r"(\d+) (\w+) (finished|cancelled|still (?:\w+)) since (\d+)" + "".join(f" {it} (\\d+)" for it in COUNTS))
QUEUE = re.compile(r"queue (\w+) started (\d+) finished (\d+) cancelled (\d+) rescued (\d+) burned (\d+) active (\d+) most (\d+) longest (\d+)")
WHOM = re.compile(r"(\w+) waited ([1-9]\d*) for (\w+|-)")
SWEPT = re.compile(r"max (\d+) last (\d+) left (\d+) most (\d+) longest (\d+)")
EVENT = re.compile(r" *(\S.*)-(\d+) +\[(\d{3})\] \.{5} +(\d+)\.(\d{6}): workqueue_(queue_work|activate_work|execute_start|execute_end): .*")
FORMS = {"times": ("times",), "trace_json": ("trace", "--json"), "trace_lines": ("trace", "--lines"), "whom": ("times", "--whom"), "trace_text": ("trace", "--text")}


class Lesson:
    """A lesson, and what the program says of it in each form."""

    def __init__(self, program, text):
        self.program, self.text, self.faults = program, text, []
        self.queue_of = dict(re.findall(r"^work (\w+) (\w+)", open(text, encoding="utf-8").read(), re.M))

    def said(self, *words):
        ran = subprocess.run((self.program, *words, self.text), stdout=subprocess.PIPE, stderr=subprocess.PIPE, timeout=120)
        self.want((ran.returncode, ran.stderr) == (0, b""), f"{' '.join(words)} doesn't end well")
        return ran.stdout.decode()

    def want(self, holds, what):
        self.faults += [] if holds else [f"{os.path.relpath(self.text, TOP)}: {what}"]

    def stored(self):
        """Compares what stands beside the lesson. Returns how much that is."""
        names = [name for name in FORMS if os.path.exists(f"{self.text.removesuffix('.cmwq')}.{name}")]
        for name in names:
            with open(f"{self.text.removesuffix('.cmwq')}.{name}", encoding="utf-8") as it:
                self.want(self.said(*FORMS[name]) == it.read(), f"{name} isn't what stands there")
        return len(names)

    def times(self):
        """Looks at the lines of `times`, and gives how many ticks each work burns."""
        whole = self.said("times")
        lines, sums = [LINE.fullmatch(it) for it in whole.splitlines() if " since " in it], [it for it in whole.splitlines() if " since " not in it]
        self.want(all(lines), "a line of times has another form")
        rows = [(int(it[1]), it[2], it[3], int(it[4]), dict(zip(COUNTS, map(int, it.groups()[4:])))) for it in lines if it]
        self.want(all(since + sum(counts.values()) == now for now, _, _, since, counts in rows), "a line's ticks don't add up")
        self.want([row[0] for row in rows] == sorted(row[0] for row in rows), "lines aren't in order")
        self.want(not any(counts[it] for _, _, end, _, counts in rows for it in ("ready", "burned", "slept") if end == "cancelled"), "what was cancelled ran")
        self.queue_sums(rows, [QUEUE.fullmatch(it) for it in sums if it.startswith("queue ")])
        self.tick_sums(rows, sums)
        self.objects("times", whole)
        self.whom(whole, rows)
        burned = collections.Counter()
        for _, work, _, _, counts in rows:
            burned[work] += counts["burned"]
        return burned

    def whom(self, whole, rows):
        """Each tick in which an instance waits counts for somebody, or for nobody, and the other lines are the same."""
        told = self.said("times", "--whom")
        found = [it for it in map(WHOM.fullmatch, told.splitlines()) if it]
        self.want([it for it in told.splitlines() if not WHOM.fullmatch(it)] == whole.splitlines(), "times --whom has other lines besides")
        number = {"-": -1} | {name: at for at, name in enumerate(self.queue_of)}
        self.want([(number[it[1]], number[it[3]]) for it in found] == sorted((number[it[1]], number[it[3]]) for it in found), "those who waited aren't in order")
        waited, counted = collections.Counter(), collections.Counter()
        for _, work, _, _, counts in rows:
            waited[work] += sum(counts[name] for name in ("inactive", "listed", "deferred", "ready"))
        for it in found:
            counted[it[1]] += int(it[2])
        self.want(all(counted[work] >= waited[work] for work in self.queue_of), "a tick of a wait has nobody for whom it was")
        self.want(all(waited[work] for work in counted), "a work waited that didn't wait")
        self.objects("times --whom", told)

    def sweep(self):
        """What a sweep says of a queue's max is what `times` says of the text with that max."""
        declared = open(self.text, encoding="utf-8").read()
        for queue, most in re.findall(r"^queue (\w+) max (\d+)(?!.* ordered)", declared, re.M)[:2]:
            span = range(int(most), min(int(most) + 2, 512) + 1)
            told = self.said("times", "--sweep", queue, f"{span[0]}..{span[-1]}").splitlines()
            self.want([it and int(it[1]) for it in map(SWEPT.fullmatch, told)] == list(span), f"the sweep over {queue} has other rows")
            for max_active, line in zip(span, told):
                self.want(line == self.swept(re.sub(rf"^(queue {queue} max) {most}\b", rf"\1 {max_active}", declared, flags=re.M), queue, max_active), f"times says otherwise of {queue} with max {max_active}")

    def swept(self, text, queue, max_active):
        """The row that stands for the text's run, by what `times` says of it."""
        told = subprocess.run((self.program, "times", "-"), input=text.encode(), stdout=subprocess.PIPE, check=True, timeout=120).stdout.decode().splitlines()
        ends = [LINE.fullmatch(it) for it in told if " since " in it]
        last = max([int(it[1]) for it in ends if it[3] == "finished"], default=0)
        sums = next(it for it in map(QUEUE.fullmatch, told) if it and it[1] == queue)
        return f"max {max_active} last {last} left {sum(it[3].startswith('still') for it in ends)} most {sums[8]} longest {sums[9]}"

    def events(self):
        """The workqueue events are in the order of time, and there are as many starts and ends as the run tells."""
        lines, ran = self.said("trace", "--text").splitlines(), [line.split(" ", 2) for line in self.said("run").splitlines()]
        events = [EVENT.fullmatch(it) for it in lines[12:]]
        self.want(all(it.startswith("#") for it in lines[:12]) and all(events), "a line of trace --text has another form")
        self.want(f"# entries-in-buffer/entries-written: {len(events)}/{len(events)}   #P:" in lines[2], "trace --text counts other events")
        times = [(int(it[4]), int(it[5])) for it in events if it]
        self.want(times == sorted(times), "time falls in trace --text")
        kinds, said = collections.Counter(it[6] for it in events if it), collections.Counter(it[2] for it in ran if len(it) == 3)
        self.want(kinds["execute_start"] == said["starts"] + said["starts on rescuer"] + said["finishes and starts"], "trace --text has other starts")
        self.want(kinds["execute_end"] == said["finishes"] + said["finishes and starts"], "trace --text has other ends")

    def queue_sums(self, rows, queues):
        """Each queue's sums are those of its works' lines."""
        self.want(all(queues) and [it[1] for it in queues if it] == list(dict.fromkeys(re.findall(r"^queue (\w+) max", open(self.text, encoding="utf-8").read(), re.M))), "a queue has no sums")
        for it in filter(None, queues):
            own = [row for row in rows if self.queue_of[row[1]] == it[1]]
            ends = collections.Counter(row[2] for row in own)
            started, finished, cancelled, _rescued, burned, _active, _most, longest = map(int, it.groups()[1:])
            self.want(started == finished + ends["still running"], f"not each instance of {it[1]} that started finished or runs")
            self.want((finished, cancelled) == (ends["finished"], ends["cancelled"]), f"{it[1]} has other lines")
            self.want(burned == sum(row[4]["burned"] for row in own), f"{it[1]} burned another number of ticks")
            self.want(longest == max([sum(row[4][name] for name in ("inactive", "listed", "deferred")) for row in own], default=0), f"the longest wait of {it[1]} is another")

    def tick_sums(self, rows, sums):
        """The CPUs and unbound pools burned what the lines did, and each CPU was busy or idle at each tick."""
        cpus = [tuple(map(int, it)) for it in re.findall(r"^cpu \d+ burned (\d+) idle (\d+)$", "\n".join(sums), re.M)]
        pools = [int(it) for it in re.findall(r"^pool \d+ burned (\d+)$", "\n".join(sums), re.M)]
        now = int(re.fullmatch(r"now (\d+) spent \d+", sums[-1])[1]) if sums else -1
        self.want(all(burned + idle == now for burned, idle in cpus) and cpus, "a CPU's ticks don't add up")
        self.want(sum(it[0] for it in cpus) + sum(pools) == sum(row[4]["burned"] for row in rows), "the CPUs burned another number of ticks")

    def objects(self, what, whole):
        """The JSON objects say the words of the lines, in their order."""
        found = [json.loads(line) for line in self.said(*what.split(), "--json").splitlines()]
        self.want([words_of(it) for it in found] == [line.split() for line in whole.splitlines()], f"{what} --json says something else")

    def trace(self, burned):
        """Looks at the slices, which have to have burned so many ticks of each work."""
        events, named, ends = json.loads(self.said("trace", "--json"))["traceEvents"], {}, collections.defaultdict(list)
        for it in events:
            if it["ph"] == "M":
                named[it["pid"], it.get("tid") if it["name"] == "thread_name" else None] = it["args"]["name"]
            else:
                self.want((it["pid"], it["tid"]) in named and (it["pid"], None) in named, "a slice stands before its name")
                self.want(it["dur"] > 0 or it["pid"] != 1 and it["dur"] == 0, "a slice's length is wrong")
                ends[it["pid"], it["tid"]].append((it["ts"], it["ts"] + it["dur"], it["name"]))
        for slices in ends.values():
            order = sorted(slices)
            self.want(all(one[1] <= other[0] for one, other in zip(order, order[1:])), "two slices of a thread overlap")
        found = collections.Counter()
        for (pid, tid), slices in ends.items():
            if pid == 1 and tid % 2 == 1:
                found[named[pid, tid]] += sum(end - begin for begin, end, name in slices if name == "burns") // 1000
        self.want(+found == +burned, "the slices burn another number of ticks")
        told = [json.loads(line) for line in self.said("trace", "--lines").splitlines()]
        ran = self.said("run").splitlines()
        self.want([str(it["time"]) for it in told] == [line.split()[0] for line in ran], "trace --lines has another number of lines, or other times")
        self.want(all(line_of(it) == line for it, line in zip(told, ran) if "other" in it), "trace --lines says otherwise of a body that speaks of another work")


def words_of(it):
    """The words that an object of `times --json` stands for."""
    if "waited" in it:
        return [it["work"], "waited", str(it["waited"]), "for", it["for"] or "-"]
    if "end" in it:
        state = [it["state"]] if "state" in it else []
        return [str(it["now"]), it["work"], it["end"], *state, "since", str(it["since"]), *(word for name in COUNTS for word in (name, str(it[name])))]
    return [str(word) for pair in it.items() for word in pair]


def line_of(it):
    """The line that an object of `trace --lines` stands for, where it tells what a body does with another work."""
    ticks = [str(it["ticks"])] if "ticks" in it else []
    outcome = [key.replace("_", " ") for key in ("already", "changed", "disabled", "not_pending") if key in it]
    return " ".join([str(it["time"]), it["work"], it["event"], it["other"], *ticks, *outcome])


def main(program):
    texts = [it for it in sorted(glob.glob(f"{TOP}/scenarios/**/*.cmwq", recursive=True)) if open(it, encoding="utf-8").read().count("\nactor ") == 1]
    lessons, stored = [Lesson(os.path.abspath(program), it) for it in texts], 0
    for it in lessons:
        stored += it.stored()
        it.trace(it.times())
        it.sweep()
        it.events()
    faults = [fault for it in lessons for fault in it.faults] + ([] if lessons and stored else ["there is nothing to compare"])
    print("".join(f"reports: {fault}\n" for fault in faults), end="")
    print(f"reports: {len(lessons)} lessons, {stored} stored reports, {len(faults)} faults")
    return 1 if faults else 0


if __name__ == "__main__":
    sys.exit(main(*sys.argv[1:]))
