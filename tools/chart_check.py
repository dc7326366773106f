#!/usr/bin/env python3
"""Compares pictures of runs with another model of the machine, bar by bar and mark by mark.

    chart_check.py [--try | PREM PREM_CHART PREM_TIME]

Each example's set is compiled and drawn, whole and cut, and its image is run by machine_model.py: the bars of intervals, execution phases,
idle time, open bus and transfers, with their titles, places and widths, and the marks of cache misses.

A set with devices is drawn once more with each of these distances for all of them: 1500 and 5000 cycles, where requests of the run file
that come sooner are left out. Then the rows of devices are compared too: their names, and a bar for each request that has come, up to the
wait that prem_time tells, with its title, place, width and height. In the model's run each of these requests has to be transferred by its
last moment. And where the run file as it stands doesn't keep a distance of 5000 cycles, there has to be no picture.

PREM, PREM_CHART and PREM_TIME are the built programs (../prem and so on where none are named); --try asks those that `rt try` builds without
proofs. Status 1: a picture differs, or a request was transferred later.
"""
import collections
import glob
import os
import re
import shutil
import sys
import tempfile
import xml.etree.ElementTree as ET

import ask
import machine_model

SVG = "{http://www.w3.org/2000/svg}"
DISTANCES = (1500, 5000)


class Run:
    """A run of an image by the model, with its misses, and its windows for transfers with the task that opened each."""

    def __init__(self, image, run):
        image = machine_model.read_image(image)
        inputs, self.requests = machine_model.read_run(run, image)
        self.machine = machine = machine_model.Machine(image, inputs, self.requests)
        self.tasks = [it["name"].decode() for it in machine.tasks]
        self.devices = [it["name"].decode() for it in machine.devices]
        self.misses, self.windows = [], []
        while any(done < it["jobs"] for done, it in zip(machine.ended, machine.tasks)):
            misses, window, now = machine.misses, machine.window, machine.now
            machine.cycle()
            if machine.misses > misses:
                self.misses.append((self.tasks[machine.task], now))
            if machine.window != window:
                self.windows.append((*machine.window, None if machine.mode == "idle" else self.tasks[machine.task]))
        self.end = machine.now

    def spans(self):
        """Each bar of a whole picture: its title, its class, its first cycle, and the one behind it."""
        for task, kind, first, length in self.machine.intervals:
            yield f"{self.tasks[task]}: {kind} interval, {length} cycles from {first}", kind, first, first + length
        for device, first, told in self.machine.transfers:
            direction, line, value = told.split()
            name, cost = self.devices[device], self.machine.devices[device]["cost"]
            yield f"{name}: {direction} of {value} at line {line}, {cost} cycles from {first}", f"d{device % 8}", first, first + cost
        for first, behind, task in self.windows:
            if task is None:
                yield f"idle: {behind - first + 1} cycles from {first - 1}", "idle", first - 1, behind
            else:
                yield f"{task}: execution phase, {behind - first} cycles from {first}", "execution", first, behind
            yield f"bus: open to devices, {behind - first} cycles from {first}", "open", first, behind

    def shapes(self, first, behind):
        """The bars and marks of the picture of these cycles."""
        for title, look, at, end in self.spans():
            if max(at, first) < min(end, behind):
                yield title, look, *across(first, behind, at, end)
        for task, cycle in self.misses:
            if first <= cycle < behind:
                yield f"{task}: cache miss, cycle {cycle}", "miss", place(first, behind, cycle), 0

    def cycles_of(self, device):
        """When requests of a device come, up to the run's end, and their lines."""
        return [(cycle, line) for cycle, at, line, _ in self.requests if at == device and cycle < self.end]

    def promised(self, first, behind, every, waits):
        """The names and the bars of the rows below the bus, where all devices ask so often and wait so long at most."""
        top = 980 + 200 * ((len(self.devices) + 3) // 4) + 520 * len(self.tasks) + 780
        for row, (name, wait) in enumerate(zip(self.devices, waits)):
            within = "late" if wait is None else f"within {wait}"
            told = "late" if wait is None else f"transferred within {wait} cycles"
            yield f"{name}: requests at least {every} cycles apart, {told}", name, f"every {every}", within
            ended = level = 0
            for cycle, line in self.cycles_of(row) if wait is not None else []:
                level = (level + 1) % 6 if cycle < ended else 0
                ended = cycle + wait
                if max(cycle, first) < min(ended, behind):
                    title = f"{name}: request for line {line}, transferred within {wait} cycles from {cycle}"
                    yield title, f"d{row % 8}", *across(first, behind, cycle, ended), top + 520 * row + 60 + 60 * level, 50

    def late(self, waits):
        """The requests that were transferred behind their last moments, or not at all in a run that was longer; and how many weren't."""
        found, kept = [], 0
        for device, wait in enumerate(waits):
            ends = [at + self.machine.devices[device]["cost"] for it, at, _ in self.machine.transfers if it == device]
            for number, (cycle, line) in enumerate(self.cycles_of(device) if wait is not None else []):
                end = ends[number] if number < len(ends) else self.end + 1
                if end > cycle + wait and self.end > cycle + wait:
                    found.append(f"{self.devices[device]}: line {line} of cycle {cycle} transferred by {end}, wait {wait}")
                else:
                    kept += 1
        return found, kept


def kind_of(shape):
    """What is counted of it."""
    if isinstance(shape[2], str):
        return "names"
    return "requests" if len(shape) == 6 else "other bars and marks"


def place(first, behind, cycle):
    return 1400 + (min(max(cycle, first), behind) - first) * 10300 // (behind - first)


def across(first, behind, at, end):
    """The place and the width of a bar of these cycles."""
    left, right = place(first, behind, at), place(first, behind, end)
    return left, max(right - left, 1)


def drawn(picture):
    """The same, as they stand in a picture."""
    for group in ET.fromstring(picture).iter(SVG + "g"):
        title, bar, mark = (group.find(SVG + it) for it in ("title", "rect", "path"))
        if bar is not None:
            sides = ("x", "width", "y", "height") if ": request for line " in title.text else ("x", "width")
            yield title.text, bar.get("class").removesuffix(" wide"), *(int(bar.get(side)) for side in sides)
        elif mark is not None and mark.get("class") == "miss":
            yield title.text, "miss", int(re.match(r"M(\d+) ", mark.get("d"))[1]), 0
        elif title is not None and ": requests at least " in title.text:
            yield title.text, *(it.text for it in group.findall(SVG + "text"))


def spaced(run, every):
    """The run file without requests of a device that come sooner behind the one before."""
    last, lines = {}, []
    for line in run.decode().splitlines():
        words = line.split()
        if words[:1] == ["req"]:
            if words[2] in last and int(words[1]) < last[words[2]] + every:
                continue
            last[words[2]] = int(words[1])
        lines.append(line)
    return "".join(f"{line}\n" for line in lines).encode()


def waits_in(text):
    """What prem_time tells of each device, where its queue holds the requests that come in its wait."""
    waits = []
    for words in (it.split() for it in text.decode().split("\n")):
        if words[:1] == ["device"]:
            is_held = words[6] == "wait" and int(words[9]) <= int(words[11])
            waits.append(int(words[7]) if is_held else None)
    return waits


def read(path):
    with open(path, "rb") as it:
        return it.read()


class Examples:
    """All sets with a run file, side by side in one folder, so that one build answers for all."""

    def __init__(self, folder, programs):
        self.folder, (self.prem, self.chart, self.time) = folder, programs
        self.runs, self.pictures, self.bad, self.bars = {}, 0, 0, collections.Counter()

    def gather(self):
        for path in sorted(glob.glob(f"{ask.TOP}/examples/*/*.run")):
            if os.path.isfile(f"{path[:-4]}.toml"):
                self.runs[os.path.basename(path)[:-4]] = read(path)
                for file in glob.glob(f"{os.path.dirname(path)}/*.[ct]*"):
                    copy = f"{self.folder}/{os.path.basename(file)}"
                    assert not os.path.exists(copy) or read(copy) == read(file) or file.endswith(".txt"), file
                    shutil.copy(file, copy)
        told = ask.answers([["build", f"{name}.toml"] for name in self.runs], self.folder, self.prem)
        self.images = {name: text for name, (status, text) in zip(self.runs, told) if status == 0}
        self.runs = {name: run for name, run in self.runs.items() if name in self.images}

    def put(self, name, run):
        with open(f"{self.folder}/{name}.run", "wb") as it:
            it.write(run)

    def draw(self, commands):
        return ask.answers(commands, self.folder, self.chart, "prem_chart_cli", 600)

    def compare(self, name, wanted, status, text):
        wanted, found = collections.Counter(wanted), collections.Counter(drawn(text)) if status == 0 else collections.Counter([status])
        self.pictures, self.bad = self.pictures + 1, self.bad + (wanted != found)
        self.bars.update(kind_of(it) for it in found.elements() if status == 0)
        print(f"{name}: {found.total()} bars and marks", *(wanted - found), *(found - wanted), sep="\n  ", flush=True)

    def plain(self):
        """Each run, whole and cut."""
        asked = []
        for name, run in self.runs.items():
            self.put(name, run)
            model = Run(self.images[name], run)
            asked += [(name, model, first, behind) for first, behind in windows(model)]
        told = self.draw([[f"{name}.toml", f"{name}.run", "--from", str(first), "--to", str(behind)] for name, _, first, behind in asked])
        for (name, model, first, behind), (status, text) in zip(asked, told):
            self.compare(f"{name} {first} {behind}", model.shapes(first, behind), status, text)

    def with_devices(self):
        for name in self.runs:
            devices = [it["name"].decode() for it in machine_model.read_image(self.images[name])["devices"]]
            if devices:
                yield name, devices

    def promised(self):
        """Each run with devices that keep distances, whole and cut."""
        asked = []
        sets = [(name, devices, every) for name, devices in self.with_devices() for every in DISTANCES]
        named = lambda devices, every: [f"{device}={every}" for device in devices]
        told = ask.answers([[f"{name}.toml", *named(devices, every)] for name, devices, every in sets], self.folder, self.time, "prem_time_cli")
        for (name, devices, every), (_, text) in zip(sets, told):
            run = spaced(self.runs[name], every)
            self.put(f"{name}_{every}", run)
            model, waits = Run(self.images[name], run), waits_in(text)
            late, kept = model.late(waits)
            self.bad += len(late)
            print(f"{name} every {every}: waits {waits}, {kept} requests transferred by then or still waiting at the end", *late, sep="\n  ")
            words = [f"{name}.toml", f"{name}_{every}.run", *(word for it in named(devices, every) for word in ("--every", it))]
            asked += [(name, model, every, waits, words, first, behind) for first, behind in windows(model)]
        told = self.draw([[*words, "--from", str(first), "--to", str(behind)] for _, _, _, _, words, first, behind in asked])
        for (name, model, every, waits, _, first, behind), (status, text) in zip(asked, told):
            wanted = [*model.shapes(first, behind), *model.promised(first, behind, every, waits)]
            self.compare(f"{name} every {every} {first} {behind}", wanted, status, text)

    def strays(self):
        """Run files as they stand, of which some don't keep the greatest distance."""
        every, sets = max(DISTANCES), list(self.with_devices())
        words = [[word for it in devices for word in ("--every", f"{it}={every}")] for _, devices in sets]
        told = self.draw([[f"{name}.toml", f"{name}.run", *it] for (name, _), it in zip(sets, words)])
        for (name, devices), (status, text) in zip(sets, told):
            _, requests = machine_model.read_run(self.runs[name], machine_model.read_image(self.images[name]))
            cycles = [[cycle for cycle, at, _, _ in requests if at == device] for device in range(len(devices))]
            near = [device for device, all_its in zip(devices, cycles) if any(b < a + every for a, b in zip(all_its, all_its[1:]))]
            wanted = (1, f"refused * requests {near[0]}\n") if near else (0, "")
            found = status, text.decode() if status else ""
            self.bad += wanted != found
            print(f"{name} as it stands, every {every}: {found}", *([] if wanted == found else [wanted]), sep="\n  ", flush=True)


def windows(model):
    return (0, model.end), (model.end // 3, model.end // 2 + 1), (model.end - 1, model.end)


def programs_in(words):
    if words == ["--try"]:
        return None, None, None
    if len(words) == 3 and all(os.path.isfile(it) and os.access(it, os.X_OK) for it in words):
        return words
    if words:
        ask.fail(__doc__.split("\n\n")[1].strip())
    return [f"{ask.TOP}/{it}" for it in ("prem", "prem_chart", "prem_time")]


def main():
    programs = programs_in(sys.argv[1:])
    with tempfile.TemporaryDirectory(prefix="prem-charts-") as folder:
        examples = Examples(folder, programs)
        examples.gather()
        examples.plain()
        examples.promised()
        examples.strays()
    counted = ", ".join(f"{count} {what}" for what, count in sorted(examples.bars.items()))
    print(f"{examples.pictures} pictures with {counted}; {examples.bad} differ")
    sys.exit(examples.bad > 0)


if __name__ == "__main__":
    main()
