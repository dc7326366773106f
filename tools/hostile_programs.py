#!/usr/bin/env python3
"""Asks the built programs for answers to hostile words, files, stores and sinks.

    hostile_programs.py FOLDER [--changed N]

FOLDER has the programs by the words by which people call them (prem, prem_time, ..). Of each program but prem there are asked:
  - words: those at their limits and past them, with the answers that are worked out below;
  - stores: each file that the words name missing, a directory, unreadable, failing in mid-read, empty, endless;
  - sinks: a full disk, a closed one, a pipe that nobody reads;
  - files: each beginning of the set file, of the source and of the run file, and N (300) of each with changed bytes: where `prem` refuses
    the same words (`check SET`, or `run SET RUN`), with its status the text is the same, and else the status is one of the program's.
The table that is printed is that of docs/HOSTILE.md. Status 1: an answer is another one.
"""
import os
import random
import subprocess
import sys
import tempfile

SOURCE = """int g; int h[4];
PREDICTABLE(2000) REGION(g, 0, 0) REGION(h, 0, 3)
void set(int x RANGE(0, 3)) { g = x; h[x] = g; }
void job(void) { int i = 0; for (i = 0; i < 3; i++) { set(i); } out(g); }
"""
SET = """[plant]
policy = "fifo"
[[task]]
name = "m"
source = "m.c"
period = 20000
jobs = 2
[[device]]
name = "dma"
queue = 2
cost = 40
lines = 4
"""
RUN = "# words and requests\nin m 1 2 3\nreq 30 dma put 0 1\nreq 900 dma get 0\n"
FILES = {"m.c": SOURCE, "s.toml": SET, "d.run": RUN}
LONG = "x" * 100000
# Of each program the words of a good call, and the command of prem whose refusals are its own: the same text, or its first words.
PROGRAMS = {
    "prem_time": (["s.toml", "dma=500"], ["check", "s.toml"], None),
    "prem_wave": (["s.toml", "d.run"], ["run", "s.toml", "d.run"], None),
    "prem_chart": (["s.toml", "d.run", "--every", "dma=500"], ["run", "s.toml", "d.run"], None),
    "prem_profile": (["s.toml", "d.run"], ["run", "s.toml", "d.run"], None),
    "prem_annotate": (["s.toml", "m"], ["check", "s.toml"], None),
    "prem_resp": (["s.toml"], ["check", "s.toml"], 2),
    "prem_lint": (["s.toml"], ["check", "s.toml"], 0),
    "prem_pair": (["s.toml", "e.toml", "d.run", "e.run"], ["run", "s.toml", "d.run"], 0),
}
USAGE = "usage"
NUMBERS = {  # what stands behind DEVICE=: whether it is taken
    "1": True, "1099511627776": True, "1099511627777": False, "18446744073709551616": False, "0": False, "01": False, "": False, "-1": False,
    "+1": False, " 1": False, "1 ": False, "1e3": False, "0x1": False, "9" * 100000: False,
}
ENDS = {"0": True, "1125899906842624": True, "1125899906842625": False, "18446744073709551616": False, "-1": False, "": False, "9" * 100000: False}
BEGINNINGS = {"0": True, "1125899906842623": True, "1125899906842624": False, "-1": False, "": False, "9" * 100000: False}
WORDS = {  # words, and the status with the text: None for a text that is long
    "prem_time": [
        *[(["s.toml", f"dma={it}"], (0, None) if good else (2, USAGE)) for it, good in NUMBERS.items()],
        (["s.toml"], (0, None)),
        (["s.toml", "x=5"], (1, "refused * device x\n")),
        (["s.toml", f"{LONG}=5"], (2, USAGE)),
        (["s.toml", "X=5"], (2, USAGE)),
        (["s.toml", "=5"], (2, USAGE)),
        (["s.toml", "dma"], (2, USAGE)),
        (["s.toml", "dma=5", "dma=5"], (2, USAGE)),
        (["s.toml", *[f"d{it}=5" for it in range(2000)]], (1, "refused * device d0\n")),
        (["s.toml", "dma=5", *["x=5"] * 2], (2, USAGE)),
    ],
    "prem_wave": [
        *[(["s.toml", "d.run", "--from", it], (0, None) if good else (2, USAGE)) for it, good in BEGINNINGS.items()],
        *[(["s.toml", "d.run", "--to", it], (0, None) if good else (2, USAGE)) for it, good in ENDS.items()],
        (["s.toml", "d.run", "--from", "9", "--to", "5"], (0, None)),
        (["s.toml", "d.run", "--from"], (2, USAGE)),
        (["s.toml", "d.run", "--from", "1", "--from", "1"], (2, USAGE)),
        (["s.toml", "d.run", "d.run"], (2, USAGE)),
    ],
    "prem_chart": [
        *[(["s.toml", "d.run", "--from", it], (0, None) if good else (2, USAGE)) for it, good in BEGINNINGS.items()],
        *[(["s.toml", "d.run", "--to", it], (0, None) if good else (2, USAGE)) for it, good in ENDS.items()],
        *[(["s.toml", "d.run", "--every", f"dma={it}"], (2, USAGE) if not good else (0, None) if it == "1" else (1, "refused * requests dma\n")) for it, good in NUMBERS.items()],
        (["s.toml", "d.run", "--from", "9", "--to", "5"], (0, None)),
        (["s.toml", "d.run", "--every", "dma=870"], (0, None)),
        (["s.toml", "d.run", "--every", "dma=871"], (1, "refused * requests dma\n")),
        (["s.toml", "d.run", "--every", "x=5"], (1, "refused * device x\n")),
        (["s.toml", "d.run", "--every", f"{LONG}=5"], (2, USAGE)),
        (["s.toml", "d.run", "--every"], (2, USAGE)),
        (["s.toml", "d.run", "--every", "dma"], (2, USAGE)),
        (["s.toml", "d.run", "--every", "dma=5", "--every", "dma=5"], (2, USAGE)),
    ],
    "prem_profile": [
        *[(["s.toml", "d.run", "--cycles", it], (0, None) if good else (2, USAGE)) for it, good in ENDS.items()],
        (["s.toml", "d.run", "--cycles"], (2, USAGE)),
        (["s.toml", "d.run", "--cycles", "1", "--cycles", "1"], (2, USAGE)),
        (["s.toml", "d.run", "d.run"], (2, USAGE)),
    ],
    "prem_annotate": [
        (["s.toml", "x"], (7, "missing x\n")),
        (["s.toml", ""], (7, "missing \n")),
        (["s.toml", "-x"], (7, "missing -x\n")),
        (["s.toml", LONG], (7, f"missing {LONG}\n")),
        (["s.toml", "m", "m"], (2, USAGE)),
    ],
    "prem_resp": [],
    "prem_lint": [],
    "prem_pair": [],
}
COMMON = [([], (2, USAGE)), (["-x"], (2, USAGE)), ([b"\xff"], (9, "")), ([LONG], None), ([""] * 2000, (2, USAGE))]


def write(folder, name, data):
    path = f"{folder}/{name}"
    if os.path.lexists(path):
        os.remove(path)
    with open(path, "wb") as it:
        it.write(data)


class Asked:
    """A program over the files of a folder, and the answers that aren't those that are wanted."""

    def __init__(self, programs, word, folder):
        self.programs, self.word, self.folder = programs, word, folder
        self.good, self.command, self.kept = PROGRAMS[word]
        self.counts, self.other = {}, []

    def run(self, program, words, **how):
        how = {"stdout": subprocess.PIPE, "stdin": subprocess.DEVNULL, "cwd": self.folder, "timeout": 120, **how}
        ran = subprocess.run([f"{self.programs}/{program}", *words], stderr=subprocess.PIPE, check=False, **how)
        return ran.returncode, ran.stdout

    def note(self, what, is_wanted, *told):
        self.counts.setdefault(what, [0, 0])[not is_wanted] += 1
        if not is_wanted:
            self.other.append([what, *told])

    def words(self):
        for words, wanted in [*COMMON, *WORDS[self.word]]:
            if wanted is None:
                # (a name that no file can have: reading fails, and not since nothing is there)
                wanted = (4, "") if self.word in ("prem_time", "prem_resp", "prem_lint") else (2, USAGE)
            status, text = self.run(self.word, words)
            is_wanted = wanted[1] is None or text == wanted[1].encode() or wanted[1] == USAGE and text.startswith(f"usage: {self.word} ".encode())
            self.note("words", status == wanted[0] and is_wanted, [str(it)[:40] for it in words[:4]], status, text[:60])

    def stores(self):
        """Each named file in turn, in the place of a good one."""
        for at, name in enumerate(self.good):
            if name not in FILES and not name.startswith("e."):
                continue
            for other, wanted in (("no", (7, b"missing no\n")), (".", (4, b"")), ("shut", (4, b"")), ("/proc/self/mem", (4, b"")), ("/dev/zero", (3, None))):
                words = [*self.good[:at], other, *self.good[at + 1 :]]
                status, text = self.run(self.word, words, user=65534) if other == "shut" else self.run(self.word, words)
                said = self.kept is None and wanted[1] is None and text != b"form /dev/zero too-long\n"
                self.note("stores", status == wanted[0] and wanted[1] in (None, text) and not said, words, status, text[:60])
        for data, wanted in ((None, (7, b"missing m.c\n")), ("directory", (4, b"")), ("failing", (4, b""))):
            os.rename(f"{self.folder}/m.c", f"{self.folder}/kept")
            if data == "directory":
                os.mkdir(f"{self.folder}/m.c")
            elif data:
                os.symlink("/proc/self/mem", f"{self.folder}/m.c")
            status, text = self.run(self.word, self.good)
            self.note("stores", (status, text) == wanted, "m.c", data, status, text[:60])
            if data:
                (os.rmdir if data == "directory" else os.remove)(f"{self.folder}/m.c")
            os.rename(f"{self.folder}/kept", f"{self.folder}/m.c")

    def sinks(self):
        for words in (self.good, [], ["no", *self.good[1:]]):
            silent = 0 if words == self.good and self.word == "prem_lint" else 5
            with open("/dev/full", "wb") as it:
                status, _ = self.run(self.word, words, stdout=it)
            self.note("sinks", status == silent, words, "full", status)
            line = " ".join([f"'{self.programs}/{self.word}'", *words])
            status = subprocess.run(["sh", "-c", f"{line} >&-"], cwd=self.folder, stdin=subprocess.DEVNULL, check=False).returncode
            self.note("sinks", status == silent, words, "closed", status)
            reader, writer = os.pipe()
            os.close(reader)
            status, _ = self.run(self.word, words, stdout=writer)
            os.close(writer)
            self.note("sinks", status == silent, words, "unread", status)

    def answers_alike(self, what, told):
        """Whether the answer is that of prem, where that refuses, and one of the program's own where not."""
        status, text = self.run(self.word, self.good)
        wanted, line = self.run("prem", self.command)
        if self.word == "prem_lint":
            is_wanted = status == (1 if wanted == 3 and not line.endswith(b" too-long\n") else wanted)
        elif self.word == "prem_annotate" and wanted in (0, 1):
            is_wanted = status in (0, 1, 7)
        elif wanted == 0:
            is_wanted = status == 0 or status == 1 and text.startswith((b"refused * requests ", b"refused * device "))
        elif self.kept is None:
            is_wanted = (status, text) == (wanted, line)
        else:
            is_wanted = status == wanted and (not self.kept or text.split() == line.split()[: self.kept])
        self.note(what, is_wanted, told, (status, text[:60]), (wanted, line[:60]))

    def files(self, changed):
        for name, data in ((it, FILES[it].encode()) for it in FILES):
            if name == "d.run" and name not in self.good:
                continue
            for end in range(len(data)):
                write(self.folder, name, data[:end])
                self.answers_alike("beginnings", (name, end))
            draw = random.Random(f"{self.word} {name}")
            for number in range(changed):
                other = bytearray(data)
                for _ in range(draw.choice([1, 1, 2, 5])):
                    other[draw.randrange(len(other))] = draw.choice([draw.randrange(256), draw.choice(data), draw.choice(b"0123456789\n\"[]{}()=-;, ")])
                write(self.folder, name, bytes(other))
                self.answers_alike("changed", (name, number, bytes(other)))
            write(self.folder, name, data)


def main():
    words = sys.argv[1:]
    changed = 300
    if len(words) == 3 and words[1] == "--changed" and words[2].isdigit():
        changed = int(words[2])
    elif len(words) != 1:
        sys.exit(__doc__.split("\n\n")[1].strip())
    bad = 0
    kinds = ("words", "stores", "sinks", "beginnings", "changed")
    print(f"| program | {' | '.join(kinds)} | other |\n|---|{'---|' * (len(kinds) + 1)}")
    for word in PROGRAMS:
        if not os.path.isfile(f"{words[0]}/{word}"):
            print(f"{word} isn't built", file=sys.stderr)
            continue
        with tempfile.TemporaryDirectory() as folder:
            os.chmod(folder, 0o755)
            for name, text in {**FILES, "e.toml": SET.split("[[device]]")[0], "e.run": "", "shut": SET}.items():
                write(folder, name, text.encode())
            os.chmod(f"{folder}/shut", 0o600)
            asked = Asked(os.path.abspath(words[0]), word, folder)
            for it in (asked.words, asked.stores, asked.sinks, lambda: asked.files(changed)):
                it()
        counts = [asked.counts.get(it, [0, 0]) for it in kinds]
        print(f"| `{word}` | {' | '.join(str(sum(it)) for it in counts)} | {len(asked.other)} |", flush=True)
        for it in asked.other[:20]:
            print("OTHER:", word, *it)
        bad += len(asked.other)
    sys.exit(bad > 0)


main()
