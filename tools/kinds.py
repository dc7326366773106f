#!/usr/bin/env python3
"""What policy and target cost, by other models of code and of the machine.

    kinds.py             prints the table of docs/MACHINE.md
    kinds.py answers     compares the answers of crates/prem_answers to the sets of the four kinds with what the models give

Programs stand here as trees, so nothing comes from a compiled prem.
"""
import os
import sys

from code_model import Compiled, Function, Program, Set
from machine_model import Machine, read_image, read_run

TOP = os.path.join(os.path.dirname(os.path.abspath(__file__)), "..")
ADC = [("adc", 4, 40, 2)]
NO_FAULT = "execmisses 0 memstores 0 clashes 0 overruns 0"


def local(name):
    return ("local", name)


def var(name):
    return ("global", name)


def at(name, index):
    return ("element", name, index)


def clamped(it, most):
    """Two choices that hold it between its limits."""
    return [("if", (">", it, most), [("set", it, most)], []), ("if", ("<", it, ("-", most)), [("set", it, ("-", most))], [])]


def marked(stated):
    """The smallest program with a marked function."""
    store = Function("set", ["x"], [], [("set", var("g"), local("x"))], stated, [("g", 0, 0)])
    job = Function("job", [], [], [("call", "set", [7]), ("out", var("g"))])
    return Program([("g", "int", 1, [])], [store, job])


def product():
    return Program([], [Function("job", [], [], [("out", ("*", 6, 7))])])


def quotient():
    seven = ("-", 0, 7)
    values = [("/", seven, 2), ("%", seven, 2), ("*u", 0x10001, 0x10001), ("/", var("m"), ("-", 0, 1))]
    return Program([("m", "int", 1, [0x80000000])], [Function("job", [], [], [("out", it) for it in values])])


def fir(stated):
    i, j, s, x = map(local, "ijsx")
    turn = [("set", s, ("+", s, ("*", at("coef", j), at("sample", ("+", i, j)))))]
    rows = [("set", s, 0), ("for", "j", 0, "<", 16, 16, turn), ("set", at("result", i), s)]
    regions = [("coef", 0, 15), ("sample", 0, 79), ("result", 0, 63)]
    filtering = Function("fir", [], [("i", 0), ("j", 0), ("s", 0)], [("for", "i", 0, "<", 64, 64, rows)], stated, regions)
    body = [
        ("for", "i", 0, "<", 80, 80, [("in", "x"), ("set", at("sample", i), x)]),
        ("call", "fir", []),
        ("for", "i", 0, "<", 64, 64, [("out", at("result", i))]),
    ]
    taps = [1, 2, 3, 4, 5, 6, 7, 8, 8, 7, 6, 5, 4, 3, 2, 1]
    variables = [("coef", "short", 16, taps), ("sample", "short", 80, []), ("result", "int", 64, [])]
    return Program(variables, [filtering, Function("job", [], [("i", 0), ("x", 0)], body)])


def control(law, smoothing):
    total, command, filtered = var("sum"), var("command"), var("filtered")
    wanted, measured, error = local("wanted"), local("measured"), local("error")
    steps = [("set", total, ("+", total, error)), *clamped(total, 8000)]
    steps += [("set", command, ("/", ("+", ("*", 12, error), total), 8)), *clamped(command, 1000)]
    first = [("error", ("-", wanted, measured))]
    controlling = Function("control", ["wanted", "measured"], first, steps, law, [("sum", 0, 0), ("command", 0, 0)])
    steps = [("set", filtered, ("/", ("+", filtered, measured), 2)), *clamped(filtered, 1000)]
    filtering = Function("filter", ["measured"], [], steps, smoothing, [("filtered", 0, 0)])
    body = [("in", "wanted"), ("in", "measured"), *clamped(wanted, 1000), *clamped(measured, 1000), ("call", "filter", [measured])]
    body += [("set", measured, filtered), *clamped(measured, 1000), ("call", "control", [wanted, measured]), ("out", command)]
    variables = [(name, "int", 1, []) for name in ("sum", "command", "filtered")]
    return Program(variables, [controlling, filtering, Function("job", [], [("wanted", 0), ("measured", 0)], body)])


def a_set(fifo, multiplies, name="m", period=1000, jobs=1, sets=64, devices=()):
    return Set(fifo, multiplies, 16, sets, 4, name, period, jobs, list(devices))


def marks(compiled):
    return [f for f in compiled.program.functions.values() if f.stated]


def report(compiled, run, intervals=False):
    image = read_image(compiled.image())
    return Machine(image, *read_run(run, image)).report(compiled.limit(), intervals)[1]


def run_of(name):
    with open(os.path.join(TOP, "examples", name, f"{name}.run"), "rb") as it:
        return it.read()


def table():
    print("| set | policy | target | code | lines | bound | job | run |\n|---|---|---|---|---|---|---|---|")
    sets = [("fir", fir, [500000], 1000000, 1, 64, ()), ("control", control, [6000, 3000], 50000, 3, 32, ADC)]
    for name, program, loose, period, jobs, ways, devices in sets:
        for multiplies in (False, True):
            for fifo in (False, True):
                asked = a_set(fifo, multiplies, name, period, jobs, ways, devices)
                first = Compiled(program(*loose), asked)
                tight = Compiled(program(*map(first.bound, marks(first))), asked)
                text = report(tight, run_of(name))
                if NO_FAULT not in text or not text.endswith("finished\n"):
                    sys.exit(f"{asked}:\n{text}")
                cycles = next(it.split()[1] for it in text.split("\n") if it.startswith("cycles "))
                lines = ", ".join(str(len(tight.lines(f))) for f in marks(tight))
                bounds = ", ".join(str(tight.bound(f)) for f in marks(tight))
                kind = f"`{'fifo' if fifo else 'lru'}` | `{'rv32im' if multiplies else 'rv32i'}`"
                print(f"| `{name}` | {kind} | {tight.code_bytes()} | {lines} | {bounds} | {tight.job_bound()} | {cycles} |")


def sheet(compiled):
    text = f"task {compiled.asked.name} bound {compiled.job_bound()}\n"
    for f in marks(compiled):
        if compiled.bound(f) > f.stated:
            return f"Refused refused {compiled.asked.name} length {f.name} {compiled.bound(f)} {f.stated}\n"
        text += f"interval {f.name} lines {len(compiled.lines(f))} most {compiled.most(f)} bound {compiled.bound(f)} stated {f.stated}\n"
    return f"Done {text}limit {compiled.limit()}\n"


def answers():
    """The sets of crates/prem_answers whose answers the models give."""
    filtering = {"name": "fir", "period": 1000000}
    return {
        "s.toml": Compiled(marked(491), a_set(False, False)),
        "fifo.toml": Compiled(marked(1017), a_set(True, False)),
        "fifo1.toml": Compiled(marked(1016), a_set(True, False)),
        "im.toml": Compiled(marked(491), a_set(False, True)),
        "words.toml": Compiled(marked(491), a_set(False, False)),
        "both.toml": Compiled(marked(1017), a_set(True, True)),
        "both1.toml": Compiled(marked(1016), a_set(True, True)),
        "fir.toml": Compiled(fir(500000), a_set(False, False, **filtering)),
        "fifofir.toml": Compiled(fir(500000), a_set(True, False, **filtering)),
        "imfir.toml": Compiled(fir(500000), a_set(False, True, **filtering)),
        "fast.toml": Compiled(fir(44922), a_set(False, True, **filtering)),
        "fast1.toml": Compiled(fir(44921), a_set(False, True, **filtering)),
        "product.toml": Compiled(product(), a_set(False, True)),
        "quotient.toml": Compiled(quotient(), a_set(False, False, period=100000)),
        "imquotient.toml": Compiled(quotient(), a_set(False, True, period=100000)),
    }


def compare():
    sets, runs, compared, wrong = answers(), {"fir.run": run_of("fir"), "empty.run": b""}, 0, 0
    with open(os.path.join(TOP, "crates", "prem_answers", "stdout"), encoding="ascii") as it:
        lines = it.read().split("\n")
    for line in lines:
        asked, _, told = line.partition(" => ")
        faults, words = asked[:4], asked[4:].split()
        if faults != "0 0 " or len(words) < 2 or words[1] not in sets or any(it.startswith("--cycles") for it in words):
            continue
        compiled = sets[words[1]]
        if words[0] == "check" and len(words) == 2:
            text = sheet(compiled).replace("\n", "$")
        elif words[0] == "build" and len(words) == 2:
            text = f"Done {compiled.image().hex()}"
        elif words[0] == "run" and len(words) > 2 and words[2] in runs:
            text = "Done " + report(compiled, runs[words[2]], "--intervals" in words).replace("\n", "$")
        else:
            continue
        compared += 1
        if text != told:
            wrong += 1
            print(f"{asked}: {told}, and not {text}")
    print(f"{compared} answers, {wrong} differ")
    sys.exit(wrong > 0)


if __name__ == "__main__":
    if sys.argv[1:] == ["answers"]:
        compare()
    else:
        table()
