#!/usr/bin/env python3
"""How the work of the built programs grows with hostile inputs: growth.py PROGRAM | FOLDER

Each input is made of half its size and of its size, and callgrind counts the instructions of both runs. The table that is printed is that
of docs/HOSTILE.md: linear work has a quotient of 2. PROGRAM is a build of prem. In a FOLDER the programs lie by the words by which people
call them, and those that lie there are asked, prem too.
"""
import os
import re
import subprocess
import sys
import tempfile

HEAD = b"".join(n.to_bytes(4, "little") for n in (256, 1024, 16, 1, 1, 0, 1 << 24))
TASK = b"\x01m" + b"".join(n.to_bytes(4, "little") for n in (1000, 1, 0, 1 << 24))
SET = b'[plant]\nmemory = 16777216\n[[task]]\nname = "m"\nsource = "f"\nperiod = 4000000000\njobs = 1\n'
DEVICE = b'[[device]]\nname = "d"\nqueue = 1024\ncost = 1\nlines = 1\n'
IDLE = SET.partition(b"16777216\n")[2].replace(b'"f"', b'"idle.c"').replace(b"4000000000", b"1000000").replace(b"jobs = 1", b"jobs = 2") + DEVICE


def image(content):
    return b"PREM\x01\0\x01\0\0\0\0\0" + HEAD + len(content).to_bytes(4, "little") + TASK + content


def keys(count):
    return b"".join(b"k%05d=1\n" % (n * 7919 % 100000) for n in range(count))


def job(text):
    return b"int g; int h[64];\nvoid job(void) { int i = 0; " + text + b" }\n"


def loops(count):
    return job(b"for (i = 0; i < 9; i++) { h[i] = g; } " * count)


def nested(count):
    return job(b"if (g) { " * count + b"g = 1; " + b"} else { g = 2; }" * count)


def calls(count):
    return b"int g; PREDICTABLE(9999) REGION(g, 0, 0) void m(int x RANGE(0, 9)) { g = x; }\nvoid job(void) { " + b"m(1); " * count + b"}\n"


def functions(count):
    """Functions with a parameter, each of which calls the one before it twice."""
    parts = [b"int h[64]; int f0(int x RANGE(0, 9)) { return h[x]; }\n"]
    call = b"int f%d(int x RANGE(0, 9)) { int y = 0; int z = 0; y = f%d(x); z = f%d(x); return y + z; }\n"
    parts += [call % (n, n - 1, n - 1) for n in range(1, count)]
    return b"".join(parts) + b"void job(void) { int y = 0; y = f%d(5); out(y); }\n" % (count - 1)


def marked(count):
    """Marked functions, each of which reaches all globals."""
    names = [b"g%d" % n for n in range(32)]
    parts = [b"int " + it + b"; " for it in names] + [b"void all(void) { " + b"".join(it + b" = 1; " for it in names) + b"}\n"]
    parts += [b"PREDICTABLE(1) void m%d(void) { all(); }\n" % n for n in range(count)]
    return b"".join(parts) + b"void job(void) { " + b"".join(b"m%d(); " % n for n in range(count)) + b"}\n"


def requests(count):
    return b"".join(b"req %d d put 0 1\n" % (10 * n) for n in range(count))


def bare(text):
    return text.replace(b"9999", b"1").replace(b" REGION(g, 0, 0)", b"").replace(b" RANGE(0, 9)", b"")


LOOP = (0x6F).to_bytes(4, "little")
FILES = {"i": image(LOOP), "e": b"", "s": SET, "idle": IDLE, "idle.c": b"void job(void) { out(1); }\n"}
CASES = [  # the program, what, the greatest count, the words, the file as a function of the count
    ("prem", "a name of n bytes", 1048576, "one f", lambda n: b"a" * n),
    ("prem", "n opened blocks", 199980, "one f", lambda n: b"void job(void){" + b"{" * n),
    ("prem", "a comment of n bytes that isn't closed", 1048576, "one f", lambda n: b"/*" + b"*" * (n - 2)),
    ("prem", "n / 6 tokens with a comment between each two", 1048576, "one f", lambda n: b"*/" * (n // 2)),
    ("prem", "n times 64 nested blocks", 1562, "one f", lambda n: b"void job(void){" + (b"{" * 64 + b"}" * 64) * n + b"}"),
    ("prem", "n tables of 79 nested tables in an array", 206, "check f", lambda n: b"a=[" + (b"{a=" * 79 + b"1" + b"}" * 79 + b",") * n + b"]"),
    ("prem", "n headers of 80 names", 398, "check f", lambda n: (b"[[a" + b".a" * 79 + b"]]\n") * n),
    ("prem", "n distinct keys", 7280, "check f", keys),
    ("prem", "n tasks without a key", 7280, "check f", lambda n: b"[[task]]\n" * n),
    ("prem", "a number of n digits in a set file", 65534, "check f", lambda n: b"a=" + b"1" * n),
    ("prem", "n input words in a line", 2097150, "exec i f --cycles 0", lambda n: b"in m" + b" 1" * n),
    ("prem", "n lines of no input words", 838860, "exec i f --cycles 0", lambda n: b"in m\n" * n),
    ("prem", "n empty lines", 4194304, "exec i f --cycles 0", lambda n: b"\n" * n),
    ("prem", "a word of n bytes", 4194304, "exec i f --cycles 0", lambda n: b"x" * n),
    ("prem", "n bytes of content", 16777216, "exec f e", lambda n: image(b" " * n)),
    ("prem", "n bytes behind the content", 16842688, "exec f e", lambda n: image(b"") + b" " * n),
    ("prem", "an endless loop of n cycles", 1000000, "exec i e --cycles {n}", lambda n: b""),
    ("prem_time", "a job of n loops", 1500, "s", loops),
    ("prem_time", "a job of n nested choices", 30, "s", nested),
    ("prem_time", "a job of n marked calls", 6000, "s", calls),
    ("prem_time", "n functions, each calling the one before it twice", 24, "s", functions),
    ("prem_annotate", "a job of n loops", 1500, "s m", loops),
    ("prem_annotate", "a job of n marked calls", 2000, "s m", lambda n: bare(calls(n))),
    ("prem_annotate", "n functions, each calling the one before it twice", 24, "s m", lambda n: bare(functions(n))),
    ("prem_annotate", "n marked functions that reach 32 globals", 50, "s m", marked),
    ("prem_annotate", "a comment of n bytes behind the job", 200000, "s m", lambda n: job(b"out(1);") + b"/*" + b"*" * n + b"*/"),
    ("prem_chart", "n requests", 10000, "idle f", requests),
    ("prem_chart", "n requests, with --every", 10000, "idle f --every d=10", requests),
    ("prem_wave", "n requests", 10000, "idle f", requests),
    ("prem_wave", "a run of n jobs", 10000, "jobs e", lambda n: b""),
    ("prem_profile", "a run of n jobs", 10000, "jobs e", lambda n: b""),
    ("prem_profile", "a job of n marked calls", 2000, "s e", calls),
    ("prem_profile", "a job of n loops", 1500, "s e", loops),
    ("prem_profile", "a job of n nested choices", 30, "--bound s", nested),
    ("prem_profile", "a job of n marked calls", 2000, "--bound s", calls),
    ("prem_profile", "a job of n loops", 1500, "--bound s", loops),
    ("prem_profile", "n functions, each calling the one before it twice", 24, "--bound s", functions),
]


def instructions(program, words, folder):
    """How many instructions the run takes, and its status."""
    words = ["valgrind", "--tool=callgrind", "--callgrind-out-file=/dev/null", program, *words]
    ran = subprocess.run(words, cwd=folder, stdout=subprocess.DEVNULL, stderr=subprocess.PIPE, check=False)
    return int(re.search(rb"Collected : (\d+)", ran.stderr)[1]), ran.returncode


def main():
    path = os.path.abspath(sys.argv[1])
    programs = {it: f"{path}/{it}" for it, *_ in CASES if os.path.isfile(f"{path}/{it}")} or {"prem": path}
    print("| input | n | command | status | instructions for n / 2 | for n | quotient |")
    print("|---|---|---|---|---|---|---|")
    with tempfile.TemporaryDirectory() as folder:
        for called, what, most, words, make in (it for it in CASES if it[0] in programs):
            counts, status = [], set()
            for n in (most // 2, most):
                jobs = IDLE.replace(b"jobs = 2", b"jobs = %d" % min(n, 65535)).replace(b"1000000", b"200")
                for name, data in {**FILES, "f": make(n), "jobs": jobs}.items():
                    with open(f"{folder}/{name}", "wb") as it:
                        it.write(data)
                count, ended = instructions(programs[called], words.replace("{n}", str(n)).split(), folder)
                counts.append(count)
                status.add(str(ended))
            half, whole = counts
            told = f"{called} {words}"
            print(f"| {what} | {most} | `{told}` | {'/'.join(sorted(status))} | {half} | {whole} | {whole / half:.2f} |", flush=True)


main()
