#!/usr/bin/env python3
"""Reads profiles of runs by the grammar of callgrind's format, and compares them with reports, with the model and with `callgrind_annotate`.

    profile_check.py PROFILE [REPORT]
    profile_check.py --examples [PREM PROFILER]

PROFILE is what `prem_profile SET RUN` writes, REPORT what `prem run SET RUN` writes. Told are the sums, the lines with the most cycles, and each
line that the grammar refuses. The grammar is that of "Callgrind Format Specification" in Valgrind's documentation, with calls inside one file
and without jumps.

With --examples each run of the examples is profiled, by the built programs `prem` and `prem_profile` where they are named: the costs of each word
of code, of switches and of idle time, and what is spent in its calls by a stack of them, have to be those of `machine_model.py`, and the sums, of
functions with what they call too, those of the report and of `callgrind_annotate`.
"""
import collections
import glob
import os
import re
import shutil
import subprocess
import sys
import tempfile

import ask
import machine_model

TOP = os.path.dirname(os.path.dirname(os.path.abspath(__file__)))
EVENTS = ["Instructions", "Cycles", "Misses", "WriteBacks"]
HEADER = [r"# callgrind format", r"version: 1", r"creator:.*", r"positions: line", "events: " + " ".join(EVENTS), r"summary: (\d+) (\d+) (\d+) (\d+)"]
KINDS = {"start": lambda name: "[start]", "code": lambda name: name, "stub": lambda name: f"[stub] {name}"}


# ---- profiles

def read(text):
    """The costs in order as (ob, fl, fn, line, cost, call), the summary and the totals, and the lines that are refused. A call is told as
    (function, count, line), and is nothing at a function's own costs."""
    lines = text.split("\n")
    refused = [] if lines and lines[-1] == "" else ["the last line has no end"]
    lines = lines[:-1] if lines and lines[-1] == "" else lines
    told = {}
    for form, line in zip(HEADER, lines):
        found = re.fullmatch(form, line)
        if not found:
            refused.append(line)
        elif found.groups():
            told["summary"] = [int(it) for it in found.groups()]
    place, names, costs, call = {"ob": "", "fl": "", "fn": ""}, {}, [], []
    for line in lines[len(HEADER):]:
        position = re.fullmatch(r"(ob|fl|fn)=(?:\((\d+)\) ?)?(.*)", line)
        cost = re.fullmatch(r"(\d+)((?: \d+){1,4})", line)
        totals = re.fullmatch(r"totals: (\d+) (\d+) (\d+) (\d+)", line)
        callee = re.fullmatch(r"cfn=([^(].*)?", line)
        count = re.fullmatch(r"calls=(\d+) (\d+)", line)
        if len(call) != (1 if count else 3 if call and cost else 0):
            refused.append(f"{line} behind {call}")
        if callee:
            call = [callee.group(1) or ""]
        elif count:
            call += [int(count.group(1)), int(count.group(2))]
        elif position:
            spec, number, name = position.groups()
            if number is not None:
                name = names.setdefault((spec, number), name) if name else names.get((spec, number), "")
            place[spec] = name
        elif cost:
            numbers = [int(it) for it in cost.group(2).split()]
            costs.append((place["ob"], place["fl"], place["fn"], int(cost.group(1)), numbers + [0] * (len(EVENTS) - len(numbers)), tuple(call)))
            call = []
        elif totals:
            told["totals"] = [int(it) for it in totals.groups()]
        elif line:
            refused.append(line)
    return costs, told, refused


def sums_of(costs):
    return [sum(cost[at] for *_, cost, call in costs if not call) for at in range(len(EVENTS))]


def reported(text):
    """The cycles, misses and write backs of a report."""
    cycles = re.search(r"^cycles (\d+)$", text, re.M)
    cache = re.search(r"^hits \d+ misses (\d+) writebacks (\d+)$", text, re.M)
    return [int(cycles.group(1)), int(cache.group(1)), int(cache.group(2))]


def call_faults(costs):
    """Calls that don't stand behind the costs of their line, or whose function doesn't begin where they tell."""
    first, faults = {}, []
    for task, _, function, line, _, call in costs:
        if not call:
            first.setdefault((task, function), line)
    for before, (task, _, function, line, _, call) in zip([None, *costs], costs):
        if call and (before is None or before[5] or before[:4:3] != (task, line) or before[2] != function):
            faults.append(f"call of {call[0]} at line {line} of {function}: no costs of that line before")
        if call and first.get((task, call[0]), call[2]) != call[2]:
            faults.append(f"call of {call[0]}, which begins at line {first[task, call[0]]}, not {call[2]}")
    return faults


def faults_of(costs, told, refused, report):
    sums = sums_of(costs)
    faults = [f"refused: {line}" for line in refused] + call_faults(costs)
    faults += [f"{name} {told.get(name)} isn't {sums}" for name in ("summary", "totals") if told.get(name) != sums]
    if report is not None and reported(report) != sums[1:]:
        faults.append(f"the report has {reported(report)}, the profile {sums[1:]}")
    return faults


# ---- the model

class Watched(machine_model.Machine):
    """The model of the machine, with the address of the instruction that a cycle issued, and for each task a stack of the calls that are open:
    each the address of the call, that of the function, and that to which it returns."""

    def __init__(self, *words):
        super().__init__(*words)
        self.stacks, self.calls = [[] for _ in self.tasks], collections.Counter()

    def issue(self):
        task, pc = self.task, self.pc[self.task]
        self.issued, self.stood = pc, list(self.stacks[task])
        word = self.load(pc, 4)
        super().issue()
        if self.stacks[task] and self.pc[task] == self.stacks[task][-1][2]:
            self.stacks[task].pop()
        elif word & 0b1111111 == 0b1101111 and word >> 7 & 31:
            self.stacks[task].append((pc, self.pc[task], pc + 4))
            self.calls[pc, self.pc[task]] += 1


def counted(image, run, limit=None):
    """What a run costs by the model: at each address of an instruction, in the switches to each task, and in idle time; and for each address with
    that of a function that it calls how often it does, and what is spent in these calls."""
    machine = Watched(image, *machine_model.read_run(run, image))
    none = lambda: [0] * len(EVENTS)
    costs, inside, home, stood = collections.defaultdict(none), collections.defaultdict(none), "[idle]", []
    while machine.now != limit and any(done < it["jobs"] for done, it in zip(machine.ended, machine.tasks)):
        machine.issued, before = None, (machine.now, machine.misses, machine.writebacks)
        machine.cycle()
        if machine.trap:
            break
        if machine.issued is not None:
            home, stood = machine.issued, machine.stood
        elif machine.mode == "idle":
            home, stood = "[idle]", []
        elif machine.mode == "switch":
            home, stood = "[switch] " + machine.tasks[machine.task]["name"].decode(), []
        spent = [machine.issued is not None, *(a - b for a, b in zip((machine.now, machine.misses, machine.writebacks), before))]
        costs[home] = [a + b for a, b in zip(costs[home], spent)]
        for at, function, _ in stood:
            inside[at, function] = [a + b for a, b in zip(inside[at, function], spent)]
    return costs, {key: (count, inside[key]) for key, count in machine.calls.items()}


def parts_of(listing):
    """The addresses of each part of a listing by its task and what it is told as."""
    parts, task, at = {}, None, None
    for line in listing.splitlines():
        words = line.split()
        if words[0] == "task":
            task = words[1]
        elif words[0] == "part":
            at = parts.setdefault((task, KINDS[words[1]](words[2])), [])
        else:
            at.append(int(words[0], 16))
    return parts


def wanted(listing, costs, calls):
    """What a profile tells by the model: for each part the costs of its words in order, each before those of its calls, and those of what has no
    line."""
    places = parts_of(listing)
    names = {at[0]: function for (_, function), at in places.items() if at}
    called = collections.defaultdict(list)
    for (at, function), (count, cost) in calls.items():
        called[at].append((names[function], count, cost))
    parts = {key: [it for at in them if any(costs[at]) for it in [costs[at], *called[at]]] for key, them in places.items()}
    parts |= {("[machine]", home): [cost] for home, cost in costs.items() if isinstance(home, str)}
    return {key: found for key, found in parts.items() if found}


def in_parts(costs):
    parts = collections.defaultdict(list)
    for task, _, function, _, cost, call in costs:
        parts[task, function].append((call[0], call[1], cost) if call else cost)
    return dict(parts)


# ---- callgrind_annotate

def annotated(text, *options):
    """The totals that `callgrind_annotate` tells of a profile, and its functions with theirs."""
    with tempfile.TemporaryDirectory(prefix="prem-profile-") as folder:
        with open(f"{folder}/callgrind.out.1", "w", encoding="utf-8") as it:
            it.write(text)
        words = ["callgrind_annotate", "--threshold=100", "--auto=no", *options, "callgrind.out.1"]
        ran = subprocess.run(words, cwd=folder, capture_output=True, text=True)
    if ran.returncode or ran.stderr:
        raise ask.Fault(f"callgrind_annotate: {ran.stderr}")
    rows = re.findall(r"^((?:\s*[\d,]+ (?:\([^)]*\))?)+)\s+(\S.*)$", ran.stdout, re.M)
    rows = [([int(it.replace(",", "")) for it in re.findall(r"([\d,]+)(?= |$)", re.sub(r"\([^)]*\)", " ", numbers) + " ")], name) for numbers, name in rows]
    totals = [numbers for numbers, name in rows if name == "PROGRAM TOTALS"]
    return totals, sorted((name, numbers) for numbers, name in rows if name != "PROGRAM TOTALS")


def annotating_faults(text, costs):
    """Where `callgrind_annotate` tells others than the sums of the functions by themselves, or with what they call; nothing where it isn't there."""
    faults = []
    for option in ["no", "yes"] if shutil.which("callgrind_annotate") else []:
        sums = collections.defaultdict(lambda: [0] * len(EVENTS))
        for task, file, function, _, cost, call in costs:
            if option == "yes" or not call:
                name = f"{file}:{function} [{task}]"
                sums[name] = [a + b for a, b in zip(sums[name], cost)]
        totals, functions = annotated(text, f"--inclusive={option}")
        if totals != [sums_of(costs)]:
            faults.append(f"callgrind_annotate tells {totals}, the profile {sums_of(costs)}")
        if functions != sorted(it for it in sums.items() if any(it[1])):
            faults.append(f"callgrind_annotate --inclusive={option} tells {functions}, the profile {dict(sums)}")
    return faults


# ---- the examples

def example_faults(image, run, listing, report, text):
    costs, told, refused = read(text)
    faults = faults_of(costs, told, refused, report)
    found, model = in_parts(costs), wanted(listing, *counted(machine_model.read_image(image), run))
    faults += [f"{key}: {found.get(key)}, by the model {model.get(key)}" for key in sorted(found.keys() | model.keys()) if found.get(key) != model.get(key)]
    return faults + annotating_faults(text, costs)


def examples(prem=None, profiler=None):
    profiles = bad = 0
    for path in sorted(glob.glob(f"{TOP}/examples/*/*.run")):
        folder, name = os.path.dirname(path), os.path.basename(path)[:-4]
        files = [f"{name}.toml", f"{name}.run"]
        (status, image), (_, listing), (_, report) = ask.answers([["build", files[0]], ["list", files[0]], ["run", *files]], folder, prem)
        if status:
            continue
        ((status, text),) = ask.answers([files], folder, profiler, "prem_profile_cli", 600)
        with open(path, "rb") as it:
            faults = example_faults(image, it.read(), listing.decode(), report.decode(), text.decode()) if status == 0 else [f"status {status}"]
        profiles, bad = profiles + 1, bad + bool(faults)
        print(f"{name}: {len(text)} bytes, sums {' '.join(str(it) for it in sums_of(read(text.decode())[0]))}", *(faults or ["no fault"]), sep="\n  ", flush=True)
    print(f"{profiles} profiles, of which {bad} have faults")
    return bad > 0


def main(words):
    if words and words[0] == "--examples":
        return examples(*words[1:])
    texts = []
    for word in words[:2]:
        with open(word, encoding="utf-8") as it:
            texts.append(it.read())
    costs, told, refused = read(texts[0])
    lines = collections.defaultdict(lambda: [0] * len(EVENTS))
    for *place, cost, call in costs:
        if not call:
            lines[tuple(place)] = [a + b for a, b in zip(lines[tuple(place)], cost)]
    print("sums", *(f"{name} {n}" for name, n in zip(EVENTS, sums_of(costs))))
    for place, cost in sorted(lines.items(), key=lambda it: -it[1][1])[:10]:
        print(*cost, ":".join(str(it) for it in place))
    faults = faults_of(costs, told, refused, texts[1] if len(texts) > 1 else None)
    print("\n".join(faults) if faults else "no fault")
    return bool(faults)


if __name__ == "__main__":
    sys.exit(main(sys.argv[1:]))
