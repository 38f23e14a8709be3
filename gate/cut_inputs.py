"""Cuts texts and images short, and spoils each line of a text. The first scenario of docs/FORMATS.md has the image that stands there. An image
that is cut is Magic, or Truncated from its fourth byte on. The listing of that scenario, cut behind each line, has the fault that stands
below; a text that is cut behind any byte has none, or one at its last line or behind it, and `check` and `list` agree. A byte ff at the end
of any line is that line's fault.

    python3 gate/cut_inputs.py PROGRAM"""
import os
import re
import subprocess
import sys
import tempfile

sys.dont_write_bytecode = True
sys.path.insert(0, os.path.dirname(os.path.realpath(__file__)))
import hostile
import test_user_files as user_files

# The fault of the first scenario's listing that is cut behind so many lines; where there is none it is a scenario.
CUT = {**{lines: f"line {lines + 1}: MissingWord\n" for lines in (0, 1, 2, 3, 6)}, 7: "line 8: BadBody\n", 8: "line 9: BadBody\n"}


def first_scenario():
    """The text at the top of docs/FORMATS.md, and the image at its end."""
    page = user_files.text_of("docs/FORMATS.md")
    rows = re.search(r"### A worked image\n.*?```\n(.*?)```", page, re.S)[1]
    groups = re.findall(r"^[0-9a-f]{2}  ((?:[0-9a-f]+ )+)(?:x(\d+) )?", rows.replace("00 x14", "00" * 14), re.M)
    return re.search(r"```text\n(.*?)```", page, re.S)[1].encode(), bytes.fromhex("".join(found for found, _ in groups))


class Cutting:
    """Has the program read inputs."""

    def __init__(self, program, room):
        self.program, self.path, self.tried = os.path.abspath(program), f"{room}/input", 0

    def run(self, command, content, *more):
        with open(self.path, "wb") as it:
            it.write(content)
        self.tried += 1
        ran = subprocess.run([self.program, command, self.path, *more], stdout=subprocess.PIPE, stderr=subprocess.PIPE, timeout=60)
        return ran.returncode, ran.stdout, ran.stderr.decode()

    def image(self, content):
        """The image of a text."""
        self.run("asm", content, f"{self.path}.image")
        return hostile.bytes_of(f"{self.path}.image")

    def image_faults(self, image):
        """What is wrong with the ends of an image that is cut."""
        wanted = {size: (1, b"", f"image: {'Magic' if size < 4 else 'Truncated'}\n") for size in range(len(image))}
        return [f"an image of {len(image)} bytes, cut to {size}, ends with {found}" for size, want in wanted.items() if (found := self.run("show", image[:size])) != want]

    def line_faults(self, text):
        """What is wrong with the ends of the first scenario's listing, cut behind each line."""
        lines = text.splitlines(True)
        cuts = {number: self.run("list", b"".join(lines[:number])) for number in range(len(lines) + 1)}
        wanted = {number: (1, b"", CUT[number]) if number in CUT else (0, b"".join(lines[:number]), "") for number in cuts}
        return [f"the first {number} lines of the first scenario end with {found}" for number, found in cuts.items() if found != wanted[number]]

    def text_faults(self, text):
        """What is wrong with the ends of a text that is cut behind each byte."""
        faults = []
        for size in range(len(text) + 1):
            listed, checked, last = self.run("list", text[:size]), self.run("check", text[:size]), text[:size].count(b"\n") + 1
            told = re.match(rf"{re.escape(self.path)}:(\d+):\d+: .*: (\w+)\n", checked[2])
            agreed = listed[2] == f"line {told[1]}: {told[2]}\n" and int(told[1]) in (last, last + 1) if told else (listed[0], listed[2]) == (0, "")
            faults += [] if agreed and checked[0] == listed[0] else [f"a text, cut to {size} bytes, ends with {checked} and {listed}"]
        return faults

    def spoilt_faults(self, text):
        """What is wrong with the ends of a text with a byte ff behind a line."""
        ends = [at for at, byte in enumerate(text) if byte == 10]
        spoilt = {number: self.run("run", text[:at] + b"\xff" + text[at:]) for number, at in enumerate(ends, 1)}
        return [f"a text with a byte ff in line {number} ends with {found}" for number, found in spoilt.items() if found != (1, b"", f"line {number}: BadUtf8\n")]


def all_faults(cutting):
    text, image = first_scenario()
    listing, every = cutting.run("list", text)[1], hostile.EVERY.encode()
    assert len(image) == 126 and len(listing.splitlines()) in (0, 13)
    faults = [] if cutting.image(text) == image else ["the first scenario of docs/FORMATS.md hasn't the image that stands there"]
    faults += [fault for it in (image, cutting.image(every)) for fault in cutting.image_faults(it)]
    return faults + cutting.line_faults(listing) + cutting.text_faults(every) + [fault for it in (listing, every) for fault in cutting.spoilt_faults(it)]


def main(program):
    with tempfile.TemporaryDirectory(prefix="cut-") as room:
        cutting = Cutting(program, room)
        faults = all_faults(cutting)
    print("".join(f"cut inputs: {fault}\n" for fault in faults), end="")
    print(f"cut inputs: {cutting.tried} inputs, {len(faults)} faults")
    return 1 if faults else 0


if __name__ == "__main__":
    sys.exit(main(*sys.argv[1:]))
