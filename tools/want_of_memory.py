#!/usr/bin/env python3
"""Lets each call for memory of the built programs fail once, one call a run.

    want_of_memory.py [PROGRAM | FOLDER] [--most N]

For each command below its program runs with its n-th call for memory failing, for n = 1, 2, .. until no call fails. Each such run has to
end with status 6, with nothing on standard output and no signal. The table that is printed is that of docs/HOSTILE.md. With PROGRAM,
which is another build of prem, only the commands of prem are tried, and with FOLDER those of the programs that lie there, by the words by
which people call them; without either each program is proved and built first, if need be (build.py). With --most N only N of the calls
are tried, spread over all.
"""
import os
import subprocess
import sys
import tempfile

TOOLS = os.path.dirname(os.path.abspath(__file__))
TOP = os.path.dirname(TOOLS)
MARKED = """int g;
PREDICTABLE(491) REGION(g, 0, 0) void set(int x RANGE(0, 9)) { g = x; }
void job(void) { set(7); out(g); }
"""
TILED = """int a[8];
PREDICTABLE(900) REGION(a, 0, 7) void f(void) { int i = 0; for (i = 0; i < 8; i++) { a[i] = i; } }
void job(void) { f(); out(a[7]); }
"""
SET = '[[task]]\nname = "m"\nsource = "m.c"\nperiod = 1000\njobs = 1\n'
DEVICE = '[[device]]\nname = "dma"\nqueue = 2\ncost = 40\nlines = 4\n'
FILES = {
    "five.c": "void job(void){ out(2+3); }",
    "broken.c": "void job(void){ out(2+; }",
    "late.c": "int a[64];\nvoid job(void) { int i = 0; for (i = 0; i < 64; i++) { out(a[i + 1]); } }\n",
    "m.c": MARKED,
    "s.toml": SET,
    "sd.toml": SET + DEVICE,
    "conflict.toml": "[plant]\nsets = 1\nways = 1\n" + SET,
    "colour.toml": "plant = {colour = 1}\n" + SET,
    "moved.toml": "[plant]\nsets = 16\nways = 1\n" + SET,
    "stuck.toml": "[plant]\nsets = 8\nways = 1\n" + SET,
    "short.toml": SET.replace("m.c", "short.c"),
    "late.toml": SET.replace("m.c", "late.c"),
    "bare.toml": SET.replace("m.c", "bare.c"),
    "bare.c": "int g;\nPREDICTABLE(1) void set(int x) { g = x; }\nvoid job(void) { set(7); out(g); }\n",
    "short.c": MARKED.replace("491", "490"),
    "d.run": "# words and requests\nin m 1 2 3\nreq 30 dma put 0 1\nreq 30 dma get 0\n",
    "f.run": "req 30 dma put 0 1\nreq 900 dma get 0\n",
    "lan.run": "req 30 lan get 0\n",
    "d.mail": "feed dma 0 m\n",
    "tiled.c": TILED,
    "e.run": "",
}
COMMANDS = {
    "prem_cli": """one five.c
one broken.c
one late.c
one no.c
check s.toml
check conflict.toml
check colour.toml
build sd.toml
list s.toml
source sd.toml d.run
run sd.toml d.run --intervals
run sd.toml lan.run
exec s.img e.run --cycles 645
exec trap.img e.run
exec cut.img e.run
check fir.toml
list fir.toml
run fir.toml fir.run
sample 7
tile tiled.c f 2 700
tile tiled.c f 9 700
color moved.toml
color stuck.toml
color conflict.toml
mail sd.toml d.run d.mail
mail sd.toml d.run e.run
mail sd.toml d.run lan.run
exec
""",
    "prem_lint_cli": """s.toml
conflict.toml
colour.toml
short.toml
late.toml
no.toml
""",
    "prem_resp_cli": """s.toml
conflict.toml
colour.toml
""",
    "prem_pair_cli": """s.toml s.toml e.run e.run --intervals
sd.toml s.toml d.run e.run
s.toml sd.toml e.run e.run
s.toml conflict.toml e.run e.run
""",
    "prem_chart_cli": """sd.toml d.run
sd.toml d.run --from 100 --to 500
sd.toml lan.run
conflict.toml e.run
sd.toml f.run --every dma=500
sd.toml d.run --every dma=500
sd.toml d.run --every x=5
""",
    "prem_time_cli": """s.toml
sd.toml dma=500
sd.toml dma=1
sd.toml x=5
conflict.toml
colour.toml
fir.toml
""",
    "prem_wave_cli": """sd.toml d.run
sd.toml d.run --from 100 --to 500
sd.toml lan.run
conflict.toml e.run
""",
    "prem_profile_cli": """sd.toml d.run
sd.toml d.run --cycles 500
sd.toml lan.run
conflict.toml e.run
fir.toml fir.run
--bound sd.toml
--bound conflict.toml
--bound fir.toml
""",
    "prem_annotate_cli": """s.toml m
bare.toml m
late.toml m
conflict.toml m
colour.toml m
s.toml x
""",
}
CALLED = {it: it.removesuffix("_cli") for it in COMMANDS}


def build(crate):
    """The path of the built program."""
    subprocess.run([sys.executable, f"{TOOLS}/build.py", crate], check=True)
    return f"{TOP}/crates/{crate}/out/{crate}"


def named(path):
    """The programs that a path names: that of prem, or those of a folder."""
    if os.path.isfile(path):
        return {"prem_cli": os.path.abspath(path)}
    return {it: os.path.abspath(f"{path}/{word}") for it, word in CALLED.items() if os.path.isfile(f"{path}/{word}")}


def made(folder, program):
    """Writes the files of the commands into the folder."""
    for name in ("fir.c", "fir.toml", "fir.run"):
        with open(f"{TOP}/examples/fir/{name}", "rb") as it, open(f"{folder}/{name}", "wb") as to:
            to.write(it.read())
    for name, text in FILES.items():
        with open(f"{folder}/{name}", "w", encoding="ascii") as it:
            it.write(text)
    image = subprocess.run([program, "build", "s.toml"], cwd=folder, capture_output=True, check=True).stdout
    for name, data in (("s.img", image), ("trap.img", image[:62] + bytes(4) + image[66:]), ("cut.img", image[:11])):
        with open(f"{folder}/{name}", "wb") as it:
            it.write(data)


class Trial:
    """A program, in the folder where its files and the library that makes calls fail lie."""

    def __init__(self, program, folder):
        self.program, self.folder = program, folder

    def run(self, words, failing):
        """The status, the output, and what the library told: of n calls that none failed, or that one did."""
        told, tell = os.pipe()
        env = {"LD_PRELOAD": f"{self.folder}/fail_alloc.so", "FAIL_ALLOC": str(failing), "FAIL_ALLOC_TOLD": str(tell)}
        ran = subprocess.run([self.program, *words], cwd=self.folder, env=env, pass_fds=(tell,), capture_output=True, timeout=300)
        os.close(tell)
        with os.fdopen(told, "rb") as it:
            return ran.returncode, ran.stdout, it.read()

    def of_command(self, words, most):
        """The status and the calls where none fails, how many were tried, and those runs that ended otherwise than with status 6 and nothing written."""
        status, _, told = self.run(words, 0)
        count, other, tried, n = int(told), [], 0, 1
        step = max(1, -(-count // most)) if most else 1
        while True:
            ended, text, told = self.run(words, n)
            if told != b"!":
                return status, count, tried, other
            tried += 1
            if (ended, text) != (6, b""):
                other.append((n, ended, text[:40]))
            n += step


def main():
    words = sys.argv[1:]
    most = None
    if "--most" in words:
        at = words.index("--most")
        most = int(words[at + 1])
        del words[at : at + 2]
    programs = named(words[0]) if words else {it: build(it) for it in COMMANDS if os.path.isdir(f"{TOP}/crates/{it}")}
    runs = bad = 0
    with tempfile.TemporaryDirectory() as folder:
        subprocess.run(["cc", "-shared", "-fPIC", "-O2", "-o", f"{folder}/fail_alloc.so", f"{TOOLS}/fail_alloc.c"], check=True)
        made(folder, programs["prem_cli"])
        print("| command | status | calls for memory | tried | status 6, nothing written | other |\n|---|---|---|---|---|---|")
        for crate, program in programs.items():
            for command in COMMANDS[crate].split("\n")[:-1]:
                status, count, tried, other = Trial(program, folder).of_command(command.split(), most)
                runs, bad = runs + tried, bad + len(other)
                print(f"| `{CALLED[crate]} {command}` | {status} | {count} | {tried} | {tried - len(other)} | {len(other)} |", flush=True)
                for n, ended, text in other[:5]:
                    print(f"call {n}: status {ended}, {text!r}", file=sys.stderr)
    print(f"{runs} runs, of which {bad} ended otherwise")
    sys.exit(bad > 0)


main()
