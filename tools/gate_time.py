#!/usr/bin/env python3
"""How long the gate takes from nothing, by the seconds of each crate in docs/PROVING.md and by how `rt ci` gives its work to processors.

    gate_time.py [--lanes N] [--memory GB] [--edit SECONDS] [--times FACTOR] [--steps]

A lane is a processor (4), memory what is free when the gate begins (22.5), an edit what one takes over work that is kept (20). A machine that takes
FACTOR times the seconds of the table takes so many times the answer. With --steps each task is told as it begins.
"""
import argparse
import importlib.machinery
import importlib.util
import os
import re

TOP = os.path.dirname(os.path.dirname(os.path.abspath(__file__)))
# what several jobs of one proof gain: measured, rough
GAIN = {1: 1.0, 2: 1.6, 3: 2.0, 4: 2.2}


def load_rt():
    """What the tool beside this one makes of rt."""
    loader = importlib.machinery.SourceFileLoader("rt_once", f"{TOP}/tools/rt-once")
    made = importlib.util.module_from_spec(importlib.util.spec_from_loader("rt_once", loader))
    loader.exec_module(made)
    return made.load_rt()


def seconds_of():
    """The seconds of each crate, by the table of docs/PROVING.md."""
    with open(f"{TOP}/docs/PROVING.md", encoding="utf-8") as file:
        return {name: int(seconds) for name, seconds in re.findall(r"(?m)^\| `(\w+)` \| *(\d+) *\|", file.read())}


def tasks_of(rt, edit):
    """The gate's tasks by crate and kind: what each waits for, its lines, its memory in bytes, and its seconds."""
    crates = sorted(rt.rtlib.crates_below(TOP), key=lambda it: len(it.below()))
    known, tasks = seconds_of(), {}
    for crate in crates:
        lines, memory = crate.count(rb"\n"), rt.need(crate)
        seconds, edits = known.get(crate.name, lines / 20), len(rt.edits_of(crate)[0])
        tried = seconds + edits * edit if edits > 1 else seconds * edits
        tasks[crate.name, "proof"] = [(it.name, "proof") for it in crate.below()], lines, memory, seconds
        tasks[crate.name, "edits"] = [(crate.name, "proof")], lines * bool(edits), memory, tried
    return tasks


def chains(tasks):
    """The lines of the longest chain of tasks that begins with each."""
    behind = dict.fromkeys(tasks, 0)
    for key in reversed([*tasks]):
        behind[key] += tasks[key][1]
        for below in tasks[key][0]:
            behind[below] = max(behind[below], behind[key])
    return behind


def begin(ready, tasks, running, now, lanes, memory):
    """Begins what is ready as rt ci does, and returns what began: its end, memory and jobs."""
    began = {}
    for at, key in enumerate(ready):
        every = [*running.values(), *began.values()]
        room, idle = memory - sum(it[1] for it in every), lanes - sum(it[2] for it in every)
        needs, seconds = tasks[key][2:]
        if idle > 0 and (not every or needs <= room):
            spare = min(4, idle // (len(ready) - at), 1 + int((room / needs - 1) / 0.6))
            jobs = 1 if key[1] == "edits" else max(1, spare)
            began[key] = now + seconds / GAIN[jobs], needs * (1 + 0.6 * (jobs - 1)), jobs
    return began


def gate(tasks, lanes, memory, tell):
    """The seconds in which the tasks are done."""
    behind = chains(tasks)
    left, running, done, now = sorted(tasks, key=lambda it: -behind[it]), {}, set(), 0.0
    while left or running:
        ready = [it for it in left if all(below in done for below in tasks[it][0])]
        began = begin(ready, tasks, running, now, lanes, memory)
        left = [it for it in left if it not in began]
        running.update(began)
        for key, (end, _, jobs) in began.items():
            tell(f"{now:6.0f} {end - now:5.0f} {' '.join(key)}, {jobs} jobs")
        key = min(running, key=lambda it: running[it][0])
        now = running.pop(key)[0]
        done.add(key)
    return now


def main():
    words = argparse.ArgumentParser(description=__doc__, formatter_class=argparse.RawDescriptionHelpFormatter)
    words.add_argument("--lanes", type=int, default=4)
    words.add_argument("--memory", type=float, default=22.5)
    words.add_argument("--edit", type=float, default=20)
    words.add_argument("--times", type=float, default=1)
    words.add_argument("--steps", action="store_true")
    asked = words.parse_args()
    tasks = tasks_of(load_rt(), asked.edit)
    # rt ci takes so much of what is free
    seconds = gate(tasks, asked.lanes, 0.85e9 * asked.memory, print if asked.steps else lambda text: None)
    work = {kind: sum(task[3] for key, task in tasks.items() if key[1] == kind) for kind in ("proof", "edits")}
    print(f"{asked.times * seconds / 60:.0f} minutes; of processor {asked.times * work['proof'] / 60:.0f} for proofs, {asked.times * work['edits'] / 60:.0f} for edits")


if __name__ == "__main__":
    main()
