"""A test of what users read: manual pages, completions and editors' grammars. Each knows the program's words; each is tried by the
tools that are there. With a built program, what that says of itself too. It calls no prover.

    python3 gate/test_user_files.py [PROGRAM]"""
import json
import os
import re
import shutil
import subprocess
import sys
import tempfile

TOP = os.path.dirname(os.path.dirname(os.path.realpath(__file__)))
PAGES = ["man/cmwq.1", "man/cmwq-scenario.5"]
COMPLETIONS = {"bash": "completions/cmwq.bash", "zsh": "completions/_cmwq", "fish": "completions/cmwq.fish"}
GRAMMARS = ["editors/vim/syntax/cmwq.vim", "editors/cmwq.tmLanguage.json"]


def text_of(path):
    with open(f"{TOP}/{path}", encoding="utf-8") as it:
        return it.read()


def said(*words, **how):
    return subprocess.run(words, stdout=subprocess.PIPE, stderr=subprocess.STDOUT, text=True, cwd=TOP, timeout=60, **how).stdout


def defined(path, name):
    """The quoted words of a definition."""
    body = re.search(rf"^{name}\b.*?(?=\n\n|\Z)", text_of(path), re.S | re.M)[0]
    return re.findall(r'codes "([a-z_]+)"', body)


def words_of_scenarios():
    listing = text_of("crates/cmwq_types/specs/Listing.antt")
    instructions = defined("crates/cmwq_types/specs/Mnemonics.antt", "spelling")
    flags = defined("crates/cmwq_types/specs/Listing.antt", "flag_words")
    assert len(instructions) >= 18 and len(flags) >= 5
    lines = ["cpus", "workers", "steps", "flushes", "queue", "work", "body", "actor", "max"]
    assert all(f'codes "{word}"' in listing for word in lines), "the definitions have these words"
    return {*instructions, *flags, *lines, *words_of_bodies()}


def words_of_bodies():
    """The words that operations begin with."""
    words = defined("crates/cmwq_types/specs/Operations.antt", "op_spelling")
    assert len(words) >= 7
    return set(words)


def words_of_commands():
    """The program's commands."""
    words = re.findall(r'^(?:request_words|task_words) .*?= codes "(\w+)"', text_of("crates/cmwq_request/specs/Request.antt"), re.M)
    assert len(words) >= 6
    return set(words)


def lacks(path, words):
    """Which words don't stand in the file."""
    plain = re.sub(r"\\f[BIR]", " ", text_of(path)).replace("\\-", "-")
    return [f"{path} doesn't have {word}" for word in sorted(words) if not re.search(rf"(?<![\w-]){re.escape(word)}(?![\w-])", plain)]


def page_faults():
    """What the tools say of the pages."""
    tries = [("groff", ["groff", "-ww", "-man", "-Tutf8", "-z"]), ("mandoc", ["mandoc", "-T", "lint", "-W", "warning"])]
    return [f"{page}: {tool} says {out}" for tool, words in tries if shutil.which(tool) for page in PAGES if (out := said(*words, page))]


def version_faults(program):
    """The version stands in one place, and the pages have it; the logic is that of the kit that is here."""
    version = re.search(r'VERSION: &str = "(\S+)";', text_of("crates/cmwq_command_line/src/help.rt"))[1]
    logic = re.search(r'LOGIC: &str = "(.*)";', text_of("crates/cmwq/src/main.rt"))[1]
    faults = [f"{page} is of another version" for page in PAGES if f'"cmwq {version}"' not in text_of(page)]
    if shutil.which("rt") and said("rt", "version").split()[-1:] != [logic]:
        faults.append("main.rt names another logic than that of the kit that is here")
    faults += [f"{page} names another logic than main.rt" for page in ("README.md", "docs/PROVED.md") if f"`{logic}`" not in text_of(page)]
    if f"version {version}" not in text_of("README.md") or f"\n## {version} " not in text_of("CHANGELOG.md"):
        faults.append("README.md or CHANGELOG.md is of another version")
    if program and said(program, "--version") != f"cmwq {version} (logic {logic})\n":
        faults.append("the program's version isn't that of help.rt, with the logic of main.rt")
    return faults


def terminal_faults(program):
    """A verdict is red where standard error is a terminal, with a caret, and plain where it isn't."""
    if not program:
        return []
    with tempfile.NamedTemporaryFile(suffix=".cmwq") as file:
        file.write(b"cpus 1\nworkers 65\n")
        file.flush()
        first, last = f"{file.name}:2:9: 65: ", "\n  expected here: a number from 1 to 64\n"
        ours, theirs = os.openpty()
        with open(ours, "rb", buffering=0) as screen:
            subprocess.run([program, "check", file.name], stderr=theirs, timeout=60)
            os.close(theirs)
            shown = screen.read(4096).decode().replace("\r\n", "\n")
        found = {"a file": said(program, "check", file.name), "a terminal": shown}
    wanted = {"a file": first + "Range" + last, "a terminal": first + "\x1b[1;31mRange\x1b[0m\n  workers 65\n          ^" + last}
    return [f"check says {found[where]!r} to {where}" for where in wanted if found[where] != wanted[where]]


def help_faults(program, commands):
    """Each command's help has its usage, an example and its statuses, in this order, except that of `help` itself. `help` has a line for each
    command, in groups. No line has more than 80 columns, and the program alone prints few lines."""
    if not program:
        return []
    pages = {command: said(program, command, "--help") for command in sorted(commands - {"help"})}
    parts = r"Usage: cmwq {} .*?\n\n[A-Z].*?\n\nExamples?:\n  cmwq {} .*\n\nOptions:\n  --.*\n\nExit status[^\n]*:\n  0  "
    faults = [f"{command} --help lacks a part" for command, page in pages.items() if not re.match(parts.format(command, command), page, re.S)]
    whole, alone = said(program, "help"), said(program)
    faults += [f"help lacks {command}" for command in sorted(commands) if not re.search(rf"^  {command} ", whole, re.M)]
    faults += [f"help lacks the group {group}" for group in ("Look", "Ask", "Export", "Files") if f"\n{group}:\n" not in whole]
    pages = {**pages, "help": whole, "help scenario": said(program, "help", "scenario"), "cmwq alone": alone}
    faults += [f"{name} has a line of {len(line)} columns" for name, page in pages.items() for line in page.splitlines() if len(line) > 80]
    return faults + ([] if len(alone.splitlines()) <= 15 else [f"cmwq alone prints {len(alone.splitlines())} lines"])


def bash_completes(*words):
    """What bash offers for the last of the words."""
    script = 'source completions/cmwq.bash; COMP_WORDS=(cmwq "$@"); COMP_CWORD=$#; _cmwq; echo "${COMPREPLY[*]}"'
    return said("bash", "-c", script, "bash", *words).split()


# A terminal of zsh's own, in which the words and a tab are typed; what the line then has stands between < and >.
ZSH = r"""
zmodload zsh/zpty
zpty terminal zsh -f -i
zpty -w terminal 'fpath=($PWD/completions $fpath); autoload -U compinit; compinit -u -D'
zpty -w terminal 'tell() { print -r -- "<$BUFFER>"; exit }; zle -N tell; bindkey "^X" tell; PS1=; print REA""DY'
zpty -r terminal said $'*READY\r*'
zpty -w -n terminal "cmwq $*"$'\t\x18'
zpty -r terminal said '*<*>*'
print -r -- "$said"
"""


def zsh_completes(*words):
    """What zsh makes of the last of the words, and what it says besides."""
    out = said("zsh", "-f", "-c", ZSH, "zsh", *words)
    line = re.search(r"<cmwq (.*)>", out)
    return [out] if "error" in out or not line else line[1].split()[-1:]


def fish_completes(*words):
    """What fish offers for the last of the words."""
    out = said("fish", "--no-config", "-c", 'source completions/cmwq.fish; complete -C "$argv"', "cmwq", *words)
    return [line.split("\t")[0] for line in out.splitlines()]


def unchanged(shell, words):
    """What a shell shows where it completes nothing: zsh the word as it was typed."""
    return [*words[-1:]] if shell == "zsh" else []


def fish_describes(*words):
    """What fish offers for the last of the words, each with what it says of it."""
    out = said("fish", "--no-config", "-c", 'source completions/cmwq.fish; complete -C "$argv"', "cmwq", *words)
    return dict(line.partition("\t")[::2] for line in out.splitlines())


def completion_faults(commands):
    shells = {"bash": bash_completes, "zsh": zsh_completes, "fish": fish_completes}
    shells = {shell: completes for shell, completes in shells.items() if shutil.which(shell)}
    rows = [(("ru",), ["run"]), (("run", "docs/FORM"), ["docs/FORMATS.md"]), (("play", "--c"), ["--capacity"]), (("why", "--fl"), ["--flush"]), (("help", "de"), ["debug"])]
    rows += [(("--v",), ["--version"]), (("run", "--ex"), ["--explain"]), (("run", "scenarios/race.c"), ["scenarios/race.cmwq"])]
    with tempfile.NamedTemporaryFile("w", suffix=".cmwq") as file:
        file.write("queue main max 2\nwork handler main # and one that is no scenario's: work hat\n  work other main\n")
        file.write("body handler\nqueue other 0\nfinish\nactor probe\nqueue handler 0\n actor remove\n")
        file.flush()
        # An instruction that queues a work declares no queue; a list of works is completed behind its last comma; and behind FILE no file is offered.
        rows += [(("times", file.name, "--sweep", ""), ["main"]), (("draw", file.name, "--works", "ha"), ["handler"]), (("draw", file.name, "--works", "other,ha"), ["other,handler"])]
        rows += [(("why", file.name, "READ"), []), (("run", file.name, "READ"), [])]
        rows += [(("why", file.name, "ha"), ["handler"]), (("why", "--at", "3", file.name, "oth"), ["other"]), (("explore", "--be"), ["--before"])]
        rows += [(("explore", file.name, *words), want) for words, want in [(("--never", "ha"), ["handler"]), (("--after", "re"), ["remove"]), (("--before", "pr"), ["probe"])]]
        faults = [f"{shell} completes {words} as {found}" for words, want in rows for shell, completes in shells.items() if (found := completes(*words)) != (want or unchanged(shell, words))]
    faults += [f"{COMPLETIONS[shell]}: {shell} says {out}" for shell in shells if (out := said(shell, "-n", COMPLETIONS[shell]))]
    if not commands <= set(bash_completes("")):
        faults.append("bash doesn't offer each command")
    if "fish" in shells and (bare := [name for name in sorted({*commands, "scenario"}) if not fish_describes("help", "").get(name)]):
        faults.append(f"fish says nothing of {bare} behind help")
    return faults


def grammar_faults():
    """The TextMate grammar colours a line as it should, and vim reads its file."""
    rules = json.loads(text_of("editors/cmwq.tmLanguage.json"))["patterns"]
    wanted = {"queue q max 2 freezable # x": ["#", "queue", "max", "2", "freezable"], "next * 20": ["next", "*", "20"], "set_max q 4": ["set_max", "4"]}
    faults = []
    for line, words in wanted.items():
        found = {it[1] if it.re.groups else it[0][:1] if it[0][:1] == "#" else it[0] for rule in rules for it in re.finditer(rule["match"], line)}
        faults += [f"the TextMate grammar doesn't colour {word} in {line}" for word in words if word not in found]
    if "+syntax" in (said("vim", "--version") if shutil.which("vim") else ""):
        script = ["set rtp^=editors/vim", "edit scenarios/freeze.cmwq", "set ft=cmwq", "syntax on", "call search('freezable')"]
        show = "verbose echo synIDattr(synID(line('.'), col('.'), 1), 'name')"
        out = said("vim", "-Nu", "NONE", "-es", *(it for word in [*script, show, "qall!"] for it in ("-c", word)), stdin=subprocess.DEVNULL)
        faults += [] if "cmwqFlag" in out else [f"vim says {out!r} of a flag"]
    return faults


def extension_faults():
    """The extension beside the TextMate grammar names what is there, and has the program's version."""
    about, grammar = json.loads(text_of("editors/package.json")), json.loads(text_of("editors/cmwq.tmLanguage.json"))
    language, colours = about["contributes"]["languages"][0], about["contributes"]["grammars"][0]
    json.loads(text_of(f"editors/{language['configuration']}"))
    faults = [] if os.path.isfile(f"{TOP}/editors/{colours['path']}") else ["the extension has no grammar"]
    if (colours["scopeName"], colours["language"], language["extensions"]) != (grammar["scopeName"], language["id"], [".cmwq"]):
        faults.append("the extension's language isn't the grammar's")
    if f'VERSION: &str = "{about["version"]}";' not in text_of("crates/cmwq_command_line/src/help.rt"):
        faults.append("the extension is of another version")
    return faults


def main(program=None):
    scenario, commands = words_of_scenarios(), words_of_commands()
    faults = [fault for path in [PAGES[1], *GRAMMARS] for fault in lacks(path, scenario)]
    faults += [fault for path in [PAGES[0], *COMPLETIONS.values()] for fault in lacks(path, commands)]
    faults += page_faults() + version_faults(program) + help_faults(program, commands) + terminal_faults(program) + completion_faults(commands) + grammar_faults() + extension_faults()
    print("".join(f"user files: {fault}\n" for fault in faults), end="")
    print(f"user files: {len(scenario)} words and {len(commands)} commands compared, {len(faults)} faults")
    return 1 if faults else 0


if __name__ == "__main__":
    sys.exit(main(*sys.argv[1:]))
