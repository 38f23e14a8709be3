"""Runs each scenario of scenarios/ and scenarios/reference/, and each worked example of gate/examples/, which is there as it is listed, through a
built program: what it prints is NAME.out; its listing prints the same; its image is shown as the listing. What is told of its run is NAME.tell, where there is one, and
without the marked lines what it prints. Its picture, if a tick passes, is on its page, NAME.md, and is NAME.draw, where there is one. What a debugger says to NAME.debug
is NAME.said. What a play of a scenario with several actors leaves is one of NAME.play1, NAME.play2 .., and run again it prints the lines that stand in it. Why work W
waits is NAME.why_W, and what flush F waits for NAME.flush_F, where there are such; with _every behind it, the same at every position.
Each page asks why something waits: a line **QUESTION?**, a line `./cmwq why ..`, and behind it, folded away, what that
prints. What is asked of all orders of several actors, `./cmwq explore ..`, has its answer in NAME.explore_.., and folded away that name, the status and the
answer from its first comment on; an order that was found has the steps and the lines of its run in its comments. scenarios/README.md has a line for each page. In README.md,
the pages of scenarios and those of docs/tutorial/ each command follows a `$`, and what it prints follows the command; README.md's picture is docs/max_active_3.svg. The program's
own stored run is one of these. Then faulty input: the status, and what each stream is given. And each scenario of one actor through an engine, by the program CALLS, where it is named: it
prints the history, of which each entry is compared.

    python3 gate/lessons.py PROGRAM [CALLS]
    python3 gate/lessons.py --pages PROGRAM      the commands of README.md and the tutorial alone"""
import glob
import itertools
import os
import re
import subprocess
import sys
import tempfile

sys.dont_write_bytecode = True
import telling

TOP = os.path.dirname(os.path.dirname(os.path.realpath(__file__)))


def of_scenarios(pattern):
    """The files of this name, beside the lessons and beside the tests of corners."""
    found = glob.glob(f"{TOP}/scenarios/{pattern}") + glob.glob(f"{TOP}/scenarios/reference/{pattern}")
    return sorted(found, key=lambda path: (os.path.basename(path), path))


def pages():
    """The scenarios' pages, each with its text."""
    return {os.path.relpath(path, TOP): bytes_of(path).decode() for path in of_scenarios("*.md") if os.path.basename(path) != "README.md"}


def said(*words):
    """What the program prints, on standard error too; None where it doesn't end with status 0."""
    ran = subprocess.run(words, stdout=subprocess.PIPE, stderr=subprocess.STDOUT, timeout=120)
    return None if ran.returncode else ran.stdout


def bytes_of(path):
    with open(path, "rb") as it:
        return it.read()


def form_faults(program, text, room):
    """What is wrong with a scenario's listing and with its image."""
    listing, image, listed = f"{room}/listing.cmwq", f"{room}/image", said(program, "list", text)
    with open(listing, "wb") as it:
        it.write(listed or b"")
    checks = {
        "its listing": listed is not None,
        "the listing of its listing": said(program, "list", listing) == listed,
        "making its image": said(program, "asm", text, image) == b"",
        "its image shown": said(program, "show", image) == listed,
    }
    return [f"{os.path.relpath(text, TOP)}: {what} is not as it should be" for what, is_well in checks.items() if not is_well]


def run_faults(program, text, room):
    """What is wrong with a scenario's run, and with that of its listing."""
    wanted, listing = bytes_of(f"{text.removesuffix('.cmwq')}.out"), f"{room}/listing.cmwq"
    listed, told, tell = said(program, "list", text), said(program, "run", "--tell", text), f"{text.removesuffix('.cmwq')}.tell"
    with open(listing, "wb") as it:
        it.write(listed or b"")
    checks = {
        "its run": said(program, "run", text) == wanted,
        "the run of its listing": said(program, "run", listing) == wanted,
        "what is told of it, without what is marked": unmarked(told) == wanted,
        "what is told of it": not os.path.exists(tell) or told == bytes_of(tell),
    }
    return [f"{os.path.relpath(text, TOP)}: {what} is not as it should be" for what, is_well in checks.items() if not is_well]


def unmarked(told):
    """What is told, without the lines that begin with a hash."""
    return b"".join(line for line in (told or b"#").splitlines(True) if not line.startswith(b"#"))


def session_faults(program, commands):
    """What is wrong with a debugger's session: what is said to the commands."""
    text, wanted = f"{commands.removesuffix('.debug')}.cmwq", bytes_of(f"{commands.removesuffix('.debug')}.said")
    with open(commands, "rb") as it:
        ran = subprocess.run((program, "debug", text), stdin=it, stdout=subprocess.PIPE, stderr=subprocess.STDOUT, timeout=120)
    return [] if (ran.returncode, ran.stdout) == (0, wanted) else [f"{os.path.relpath(commands, TOP)}: what is said is not as it should be"]


def drawing_faults(program, drawing):
    """What is wrong with a scenario's picture as text."""
    text = f"{drawing.removesuffix('.draw')}.cmwq"
    return [] if said(program, "draw", text) == bytes_of(drawing) else [f"{os.path.relpath(text, TOP)}: its picture is not as it should be"]


def shown_faults(program, texts):
    """Which pages don't show their scenario's picture: of each in whose run a tick passes. Each page has a line of scenarios/README.md."""
    faults, shown = [], pages()
    for text in texts:
        page, picture = f"{os.path.relpath(text, TOP).removesuffix('.cmwq')}.md", said(program, "draw", text)
        found = re.match(r"# `\w+`\n(?:(?!```|\*\*).*\n)*```text\n((?:(?!```).*\n)*)```$", shown.get(page, ""), re.M)
        drawn = picture and ("" if b"\nactor||\n" in picture else picture.decode())
        faults += [] if (found[1] if found else "") == drawn and page in shown else [f"{page}: its picture is not as it should be"]
    index = re.findall(r"^- \[`(\w+)`\]\(([\w/]+)\.md\): \S", bytes_of(f"{TOP}/scenarios/README.md").decode(), re.M)
    listed, wanted = sorted(f"scenarios/{path}.md" for name, path in index if os.path.basename(path) == name), sorted(shown)
    return faults + ([] if listed == wanted else [f"scenarios/README.md: it hasn't a line for each page: {sorted(set(listed) ^ set(wanted))}"])


def answer_faults(program, stored):
    """What is wrong with a stored answer: why the work waits, or what the flush waits for, that its name tells."""
    name, kind, what, every = re.fullmatch(r"(.*)\.(why|flush)_(\w+?)(_every)?", stored).groups()
    words = [f"{name}.cmwq", *(["--flush"] if kind == "flush" else []), what, *(["--every"] if every else [])]
    return [] if said(program, "why", *words) == bytes_of(stored) else [f"{os.path.relpath(stored, TOP)}: it is not as it should be"]


def asked(page):
    """The questions of a page: the words behind `./cmwq` of each, and the answer that is folded away behind it."""
    folded = r"\n\n<details><summary>Answer</summary>\n\n```text\n((?:(?!```).*\n)*)```\n\n</details>$"
    return re.findall(r"^\*\*.*\?\*\*\n`\./cmwq (why [^`\n]*)`" + folded, page, re.M)


def question_faults(program, texts):
    """What is wrong with the pages' questions why something waits: an answer that isn't the program's, a command that stands there in
    another form, a scenario that isn't asked."""
    faults, lessons = [], {os.path.basename(text).partition(".")[0] for text in texts}
    for name, page in pages().items():
        for words, answer in asked(page):
            lessons.discard(os.path.basename(words.split()[1]).partition(".")[0])
            if failed(program, *words.replace("scenarios/", f"{TOP}/scenarios/").split()) != (0, answer.encode(), b""):
                faults.append(f"{name}: the answer to {words} is not as it should be")
        if page.count("./cmwq why") != len(asked(page)):
            faults.append(f"{name}: not each `./cmwq why` stands behind a question, and before its answer")
    return faults + [f"scenarios: {name} isn't asked why it waits" for name in sorted(lessons)]


def asked_of_orders(page):
    """The questions of a page about all orders: the words behind `./cmwq` of each and, folded away behind it, the name of the file that has the
    answer, the status, and the answer from its first comment on."""
    folded = r"\n\n<details><summary>Answer</summary>\n\n`(\w+\.explore_\w+)`, status (\d):\n\n```text\n((?:(?!```).*\n)*)```\n\n</details>$"
    return re.findall(r"^\*\*.*\?\*\*\n`\./cmwq (explore [^`\n]*)`" + folded, page, re.M)


def found_faults(program, text, found):
    """What is wrong with an order that was found: its comments tell who takes each step, an actor or the machine, and the step's instruction
    and line are those of its run."""
    content, actors = bytes_of(found).decode(), re.findall(r"^actor (\w+)", bytes_of(text).decode(), re.M)
    steps = re.findall(r"^# (\d+) (\(machine\)|\w+) (.*)\n((?:#   .*\n)?)", content.partition("\n# ")[2], re.M)
    instructions = telling.instructions((said(program, "run", "--tell", found) or b"").decode())
    checks = {
        "its listing": said(program, "list", found) == unmarked(content.encode()),
        "its run": said(program, "run", found) == "".join(line.removeprefix("#   ") for *_, line in steps).encode(),
        "a step": [(instr, line.removeprefix("#   ")) for *_, instr, line in steps] == instructions and instructions,
        "a step's number": [int(number) for number, *_ in steps] == list(range(1, len(instructions) + 1)),
        "who takes a step": {who for _, who, *_ in steps} <= {"(machine)", *actors},
    }
    return [f"{os.path.relpath(found, TOP)}: {what} is not as it should be" for what, is_well in checks.items() if not is_well]


def order_faults(program, answers):
    """What is wrong with what is asked of all orders: with what is printed, the status, what the page shows of that, and an order that was
    found; a command that stands there in another form, an answer that isn't asked for."""
    faults, seen = [], []
    for page, content in pages().items():
        questions = asked_of_orders(content)
        for words, name, status, shown in questions:
            stored, text = f"{TOP}/{os.path.dirname(page)}/{name}", f"{TOP}/{os.path.dirname(page)}/{name.partition('.')[0]}.cmwq"
            answer = bytes_of(stored) if stored in answers else b""
            if failed(program, *words.replace("scenarios/", f"{TOP}/scenarios/").split()) != (int(status), answer, b""):
                faults.append(f"scenarios/{name}: the answer to {words} is not as it should be")
            if shown.encode() != answer[max(answer.find(b"\n# ") + 1, 0):] or words.split()[1] != os.path.relpath(text, TOP):
                faults.append(f"{page}: what is shown of {name} is not as it should be")
            faults += found_faults(program, text, stored) if status == "5" else []
            seen.append(name)
        if content.count("./cmwq explore scenarios/") != len(questions):
            faults.append(f"{page}: not each `./cmwq explore` stands behind a question, and before its answer")
    return faults + ([] if sorted(seen) == sorted(map(os.path.basename, answers)) else ["scenarios: not each answer about all orders stands behind its question, once"])


def command_faults(program, room, name):
    """What is wrong with the commands that a page shows behind `$`, each with what it prints."""
    faults = []
    for command, printed in re.findall(r"^\$ (.*)\n((?:(?!\$ |```).*\n)*)", bytes_of(f"{TOP}/{name}").decode(), re.M):
        here = command.replace("/tmp/", f"{room}/").replace("./cmwq", program)
        ran = subprocess.run(["bash", "-c", here], cwd=TOP, stdout=subprocess.PIPE, stderr=subprocess.STDOUT, timeout=120)
        if (ran.returncode, ran.stdout) != (0, printed.encode()):
            faults.append(f"{name}: {command} doesn't print that")
    return faults


def first_page_faults(program, room):
    """What is wrong with the commands that README.md shows, and with its picture."""
    faults = command_faults(program, room, "README.md")
    shown = {word for command in re.findall(r"^\$ (.*)", bytes_of(f"{TOP}/README.md").decode(), re.M) for word in re.findall(r"\./cmwq (\w+)", command)}
    faults += [f"README.md: no `{word}` is shown" for word in sorted({"new", "run", "why", "explore", "times", "draw", "trace"} - shown)]
    if said(program, "draw", "--svg", f"{TOP}/scenarios/max_active_3.cmwq") != bytes_of(f"{TOP}/docs/max_active_3.svg"):
        faults.append("docs/max_active_3.svg: it isn't the lesson's picture")
    return faults


def instrs_of(listing):
    """The instructions of a listing's one actor, in order."""
    _head, _actor, lines = listing.partition("\nactor ")
    parts = [line.partition(" * ") for line in lines.splitlines()[1:]]
    return [instr for instr, _star, times in parts for _turn in range(int(times or 1))]


def times_of(text):
    """The time after each instruction of a run that is told. A line `# K to L` is of several, in which no time passes."""
    times = []
    for line in text.splitlines():
        if at := re.match(r"# (\d+) (?:to (\d+) )?", line):
            times += [times[-1] if times else 0] * (int(at[2] or at[1]) - int(at[1]) + 1)
        elif line.startswith("#   now "):
            times[-1] = int(line.removeprefix("#   now "))
    return times


def entry_faults(listing, printed, tell, history):
    """What is wrong with a history of one caller: each entry has its ticket, its caller, its instruction and its reply. Of the replies
    that have a line the lines are what is printed, each at its time; one with no line is `Queued` for what queues, and else `Done`."""
    lines, faults = [], []
    for number, (instr, entry, now) in enumerate(itertools.zip_longest(instrs_of(listing), history.splitlines(), times_of(tell))):
        front, _colon, reply = (entry or "").partition(": ")
        word, is_silent = (instr or "").partition(" ")[0], reply in ("Queued", "Done")
        good = f"{now} " == reply[:len(f"{now} ")] if not is_silent else reply == ("Queued" if word in ("queue", "delay", "mod") else "Done")
        faults += [] if good and front == f"{number} 0 {instr}" else [f"the entry {entry!r} where {instr!r} was issued"]
        lines += [] if is_silent else [f"{reply}\n"]
    return faults + ([] if "".join(lines) == printed else ["the replies of its history"])


def history_faults(calls, program, text):
    """What is wrong with a scenario's history on an engine."""
    listing, printed = said(program, "list", text).decode(), bytes_of(f"{text.removesuffix('.cmwq')}.out").decode()
    tell = (said(program, "run", "--tell", text) or b"").decode()
    with open(text, "rb") as it:
        ran = subprocess.run([calls, "history"], stdin=it, stdout=subprocess.PIPE, stderr=subprocess.STDOUT, timeout=120)
    return [f"{os.path.relpath(text, TOP)}: {fault} isn't as it should be" for fault in entry_faults(listing, printed, tell, ran.stdout.decode())]


def play_faults(program, text, room):
    """What is wrong with a play: what it leaves, and what each text that it may leave prints."""
    lefts = {bytes_of(it) for it in glob.glob(f"{text.removesuffix('.cmwq')}.play*")}
    left, kept = said(program, "play", text, "--capacity", "100"), f"{room}/kept.cmwq"
    checks = {"what its play leaves": left in lefts, "a play without room": failed(program, "play", text, "--capacity", "1")[::2] == (4, b"full\n")}
    for it in sorted(lefts):
        with open(kept, "wb") as file:
            file.write(it)
        lines = b"".join(line[2:] for line in it.splitlines(True) if line.startswith(b"# "))
        checks[f"the run of {it.splitlines()[-1].decode()}"] = said(program, "run", kept) == lines
    return [f"{os.path.relpath(text, TOP)}: {what} is not as it should be" for what, is_well in checks.items() if not is_well]


def failed(*words):
    """What the program ends with: its status, its standard output and its standard error."""
    ran = subprocess.run(words, stdout=subprocess.PIPE, stderr=subprocess.PIPE, timeout=120)
    return ran.returncode, ran.stdout, ran.stderr


SLEEPER = "cpus 1\nworkers 1\nsteps {}\nflushes 0\nqueue q max 1\nwork a q\nbody a\nsleep 65535\nsleep 10\nfinish\nactor t\nqueue a 0\n"
SLEEPS = b"0 a starts\n0 a sleeps 65535\n65535 a wakes\n65535 a sleeps 10\n"


def quiet_faults(program, room):
    """What is wrong with a run that goes on longer than a line says `next`: 65,545 ticks and six moves; and where the steps end before."""
    text = f"{room}/sleeper.cmwq"
    with open(text, "w", encoding="utf-8") as it:
        it.write(SLEEPER.format(65552))
    faults = [] if said(program, "settle", text) == bytes_of(text) + b"next * 65535\nnext * 16\n" else ["settle: it isn't 65,551 times next"]
    faults += [] if said(program, "run", "--settle", text) == SLEEPS + b"65545 a wakes\n65545 a finishes\n" else ["run --settle: not its lines"]
    with open(text, "w", encoding="utf-8") as it:
        it.write(SLEEPER.format(65551))
    faults += [] if failed(program, "settle", text) == (1, b"", b"never quiet\n") else ["settle: the steps' end isn't told"]
    spent = (1, SLEEPS + b"65545 a wakes\n", b"never quiet\n")
    return faults + ([] if failed(program, "run", "--settle", text) == spent else ["run --settle: not the lines up to the steps' end"])


def chapters():
    """The pages of the tutorial."""
    return sorted(os.path.relpath(it, TOP) for it in glob.glob(f"{TOP}/docs/tutorial/*.md"))


def page_faults(program):
    """What is wrong with the commands of README.md and of the tutorial."""
    with tempfile.TemporaryDirectory(prefix="lessons-") as room:
        faults = first_page_faults(os.path.abspath(program), room)
        for page in chapters():
            faults += command_faults(os.path.abspath(program), room, page)
    return faults + ([] if chapters() else ["docs/tutorial/: there is no chapter to compare"])


def main(program, calls=None):
    plays = sorted({re.sub(r"\.play\d+$", ".cmwq", it) for it in of_scenarios("*.play*")})
    orders = of_scenarios("*.explore_*")
    explored = sorted({re.sub(r"\.explore_\w+$", ".cmwq", it) for it in orders})
    texts = [it for it in of_scenarios("*.cmwq") if it not in {*plays, *explored}]
    examples = sorted(glob.glob(f"{TOP}/gate/examples/*.cmwq"))
    drawings = of_scenarios("*.draw")
    answers = of_scenarios("*.why_*") + of_scenarios("*.flush_*")
    with tempfile.TemporaryDirectory(prefix="lessons-") as room:
        faults = [fault for text in texts + examples + plays + explored for fault in form_faults(program, text, room)]
        faults += [f"{os.path.relpath(text, TOP)}: it isn't as it is listed" for text in examples if said(program, "list", text) != bytes_of(text)]
        faults += [fault for text in texts + examples for fault in run_faults(program, text, room)]
        faults += [fault for text in texts + examples if calls for fault in history_faults(calls, program, text)]
        faults += [fault for commands in of_scenarios("*.debug") for fault in session_faults(program, commands)]
        faults += [fault for text in plays for fault in play_faults(program, text, room)]
        faults += shown_faults(program, texts) + quiet_faults(program, room) + question_faults(program, texts + plays)
        faults += page_faults(program) + [fault for page in pages() for fault in command_faults(os.path.abspath(program), room, page)]
        faults += order_faults(program, orders)
        faults += [fault for stored in answers for fault in answer_faults(program, stored)]
        faults += [fault for drawing in drawings for fault in drawing_faults(program, drawing)]
        with open(f"{room}/faulty.cmwq", "w", encoding="utf-8") as it:
            it.write("cpus 17\n")
        if failed(program, "run", f"{room}/faulty.cmwq") != (1, b"", b"line 1: Range\n"):
            faults.append("a text with a fault isn't told as it should be")
        if failed(program, "list", f"{room}/nothing.cmwq") != (3, b"", b"read\n"):
            faults.append("a file that isn't there isn't told as it should be")
        status, output, errors = failed(program, "walk", f"{room}/faulty.cmwq")
        if (status, output) != (2, b"") or not errors.startswith(b"error: "):
            faults.append("wrong words aren't told as they should be")
    for stored in glob.glob(f"{TOP}/crates/cmwq/data/*.cmwq"):
        lesson = f"{TOP}/scenarios/{os.path.basename(stored)}"
        if bytes_of(stored) != bytes_of(lesson) or bytes_of(f"{TOP}/crates/cmwq/stdout") != bytes_of(f"{lesson.removesuffix('.cmwq')}.out"):
            faults.append(f"{os.path.relpath(stored, TOP)}: it isn't the lesson of this name")
    faults += [] if texts and examples else ["scenarios/ or gate/examples/: there is nothing to compare"]
    faults += [] if drawings else ["scenarios/: there is no picture to compare"]
    faults += [] if answers and orders else ["scenarios/: there is no answer to compare"]
    print("".join(f"lessons: {fault}\n" for fault in faults), end="")
    print(f"lessons: {len(texts + examples + plays + explored)} scenarios, {len(drawings)} pictures and {len(answers + orders)} answers compared, {len(faults)} faults")
    return 1 if faults else 0


def main_of_pages(program):
    faults = page_faults(program)
    print("".join(f"lessons: {fault}\n" for fault in faults), end="")
    print(f"lessons: README.md and {len(chapters())} pages of the tutorial compared, {len(faults)} faults")
    return 1 if faults else 0


if __name__ == "__main__":
    sys.exit(main_of_pages(*sys.argv[2:]) if sys.argv[1:2] == ["--pages"] else main(*sys.argv[1:]))
