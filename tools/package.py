"""Makes cmwq-VERSION-linux-x86_64.tar.gz at the top: the proved program, linked to need no library, and what its users read."""
import gzip
import os
import re
import shutil
import subprocess
import sys
import tarfile
import tempfile

sys.dont_write_bytecode = True
sys.path.insert(0, os.path.dirname(os.path.realpath(__file__)))
import kit
import prove

OBJECT = f"{kit.TOP}/crates/cmwq/out/cmwq.o"
# Each folder or file of the repository, and where it goes.
PARTS = [
    ("man/cmwq.1", "share/man/man1/cmwq.1"),
    ("man/cmwq-scenario.5", "share/man/man5/cmwq-scenario.5"),
    ("completions/cmwq.bash", "share/bash-completion/completions/cmwq"),
    ("completions/_cmwq", "share/zsh/site-functions/_cmwq"),
    ("completions/cmwq.fish", "share/fish/vendor_completions.d/cmwq.fish"),
    ("editors/vim", "share/vim/vimfiles"),
    *((f"editors/{name}", f"share/cmwq/vscode/{name}") for name in ("package.json", "language-configuration.json", "cmwq.tmLanguage.json")),
    ("scenarios", "scenarios"),
    *((f"docs/{name}", f"docs/{name}") for name in ("tutorial", "FORMATS.md", "GLOSSARY.md", "KERNEL.md", "MODEL.md")),
]
README = """cmwq {version}: Linux's concurrency-managed workqueue, emulated

    bin/cmwq new first.cmwq        a scenario to start from
    bin/cmwq run first.cmwq        a line for each event
    bin/cmwq help                  all commands

bin/cmwq runs on any Linux on x86-64 (x86-64-v2, since 2009); it needs no library of the system. share/man has its pages (man -l share/man/man1/cmwq.1),
and so have bash, zsh and fish their completions and vim its colours there: copied into /usr/local, or any prefix that these look into, all is found.
share/cmwq/vscode is an extension for Visual Studio Code (copy it to ~/.vscode/extensions/cmwq). docs/tutorial/README.md is a tutorial, and scenarios/README.md lists the
examples; write bin/cmwq for ./cmwq there. docs/FORMATS.md is the reference.
"""


def link(program):
    """Links the proved program's object file with the C library in it. (The kit has no C library to be linked in, so it is this system's.)"""
    libraries = [f"{kit.KIT}/c/libos_c.a", f"{kit.KIT}/c/liblibc_c.a"]
    try:
        made = subprocess.run(["cc", "-static-pie", "-Wl,--gc-sections", "-s", "-o", program, OBJECT, *libraries], stderr=subprocess.PIPE, text=True)
    except FileNotFoundError:
        return "there is no C compiler, `cc`"
    return made.stderr.strip() if made.returncode else None


def is_alone(program, room):
    """Whether the program names no library, and runs where there is nothing but itself."""
    heads = subprocess.run(["ldd", program], stdout=subprocess.PIPE, stderr=subprocess.STDOUT, text=True).stdout
    bare = f"{room}/bare"
    os.makedirs(bare)
    shutil.copy(program, bare)
    words = [["unshare", "-r", "chroot"], ["chroot"]][os.geteuid() == 0]
    ran = subprocess.run([*words, bare, "/cmwq", "new"], stdout=subprocess.PIPE, stderr=subprocess.STDOUT, text=True)
    return ("statically linked" in heads or "not a dynamic executable" in heads) and ran.returncode == 0 and "cpus 1" in ran.stdout


def pack(program, version):
    """Puts the program and the files of its users into the archive. Owners, times and order are always the same."""
    name = f"cmwq-{version}"
    archive = f"{kit.TOP}/{name}-linux-x86_64.tar.gz"

    def plain(entry):
        entry.uid = entry.gid = entry.mtime = 0
        entry.uname = entry.gname = "root"
        return entry

    with tempfile.TemporaryDirectory() as room, gzip.GzipFile(f"{archive}.part", "wb", mtime=0) as packed, tarfile.open(fileobj=packed, mode="w") as tar:
        with open(f"{room}/README", "w", encoding="utf-8") as it:
            it.write(README.format(version=version))
        tar.add(program, f"{name}/bin/cmwq", filter=plain)
        tar.add(f"{room}/README", f"{name}/README", filter=plain)
        for part, to in PARTS:
            tar.add(f"{kit.TOP}/{part}", f"{name}/{to}", filter=plain)
    os.replace(f"{archive}.part", archive)
    return archive


def main():
    if not os.path.exists(OBJECT):
        # (`rt ci` took a program that it had kept)
        status = prove.main(with_object=True)
        if status:
            return status
    with tempfile.TemporaryDirectory(prefix="cmwq-package-") as room:
        program = f"{room}/cmwq"
        why = link(program)
        if why:
            print(f"cmwq: the program can't be linked with the C library in it, which takes a C compiler and libc.a: {why}", file=sys.stderr)
            return 126
        if not is_alone(program, room):
            print("cmwq: the program that was linked doesn't run by itself", file=sys.stderr)
            return 126
        lessons = subprocess.run([sys.executable, f"{kit.TOP}/gate/lessons.py", program], stdout=sys.stderr)
        if lessons.returncode:
            return 126
        version = re.match(r"cmwq (\S+)", kit.said(program, "--version"))[1]
        print(pack(program, version))
    return 0


if __name__ == "__main__":
    sys.exit(main())
