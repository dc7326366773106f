#!/usr/bin/env python3
"""Compares dumps of runs with another model of the machine, cycle by cycle and signal by signal.

    wave_check.py [PREM PREM_WAVE]           all examples, by built programs; without them `rt try` builds both
    wave_check.py DUMP IMAGE RUN FROM TO     one dump
    wave_check.py DUMP                       tells the values of a dump, each cycle in which one changes

Each example's set is compiled and dumped, whole and cut, and its image is run by machine_model.py: what docs/WAVES.md says of each signal
is looked up there, in each cycle that the dump shows.
"""
import glob
import os
import re
import sys

import ask
import machine_model

TOP = os.path.dirname(os.path.dirname(os.path.abspath(__file__)))
WORDS = {"state", "holder", "transfer"}  # signals whose numbers spell words


class Dump:
    """A value change dump, read by the grammar of the standard."""

    def __init__(self, text):
        head, self.body = text.split("$enddefinitions $end\n")
        scopes, self.names, self.bits = [], {}, {}
        for kind, rest in re.findall(r"\$(\w+) (.*?)\s*\$end\n", head):
            if kind == "scope":
                scopes.append(rest.split()[1])
            elif kind == "upscope":
                scopes.pop()
            elif kind == "var":
                _, bits, code, name = rest.split()
                assert code not in self.names
                self.names[code], self.bits[code] = ".".join([*scopes, name]), int(bits)
        assert not scopes and re.fullmatch(r"(\$\w+ (.*? )?\$end\n)*", head)
        self.changes, self.end = {}, None
        for line in self.body.splitlines():
            if time := re.fullmatch(r"#(\d+)", line):
                assert self.end is None or self.end < int(time[1])
                self.end = int(time[1])
            else:
                value, code = re.fullmatch(r"b([01]+|z) (\S+)", line).groups()
                assert len(value) <= self.bits[code]
                self.changes.setdefault(self.end, {})[self.names[code]] = self.read(self.names[code], value)

    def read(self, name, value):
        if value == "z":
            return None
        number = int(value, 2)
        if name.rpartition(".")[2] in WORDS:
            return number.to_bytes((number.bit_length() + 7) // 8, "big").decode()
        return number

    def cycles(self, first):
        """The values in each cycle from this one on, by each signal's last change."""
        values = {}
        for cycle in range(self.end):
            values = values | self.changes.get(cycle, {})
            if cycle >= first:
                yield cycle, values


def plain(name):
    return re.sub(r"[^A-Za-z0-9_]", "_", name.decode())


class Before:
    """What is seen of a machine before a cycle."""

    def __init__(self, machine, calls):
        self.now, self.mode, self.phase = machine.now, machine.mode, getattr(machine, "phase", None)
        self.ended, self.next_phase = list(machine.ended), list(machine.next_phase)
        self.window, self.wants = machine.window, f"core{machine.transactions[0][0]}" if machine.transactions else None
        self.misses, self.backs = machine.misses, machine.writebacks
        self.transfers, self.intervals, self.calls = len(machine.transfers), len(machine.intervals), list(calls)
        self.released = [machine.released(task) for task in range(len(machine.tasks))]


def state_of(task, before, after):
    """What a task does in the cycle between."""
    if after.mode == "idle" or task != after.task:
        return "released" if before.ended[task] < before.released[task] else "done"
    if after.mode == "switch":
        return "switch"
    if before.mode == "wait":
        return "wait"
    phase = before.next_phase[task] if after.first == before.now else before.phase
    return {"compatible": "compat", "memory": "memory", "execution": "exec"}[phase]


def on_bus(before, after):
    """The device that has the bus, its line, and the direction."""
    if after.carried:
        device, (_, _, line, put), _, _ = after.carried
        return device, line, "get" if put is None else "put"
    for device, _, told in after.transfers[before.transfers :]:
        direction, line, _ = told.split()
        return device, int(line), direction
    return None, None, None


def told(before, after):
    """The value of each signal in the cycle between."""
    window = before.window
    yield "core.task", None if after.mode == "idle" else after.task
    yield "core.window", int(bool(window) and window[0] <= before.now < window[1])
    for task, it in enumerate(after.tasks):
        yield f"task_{plain(it['name'])}.state", state_of(task, before, after)
        yield f"task_{plain(it['name'])}.job", before.ended[task]
        yield f"task_{plain(it['name'])}.call", before.calls[task]
    has, line, direction = on_bus(before, after)
    yield "bus.holder", "device" if has is not None else before.wants or "free"
    yield "bus.miss", int(after.misses > before.misses)
    yield "bus.back", int(after.writebacks > before.backs)
    for device, it in enumerate(after.devices):
        yield f"device_{plain(it['name'])}.queue", len(after.queues[device])
        yield f"device_{plain(it['name'])}.line", line if device == has else None
        yield f"device_{plain(it['name'])}.transfer", direction if device == has else None


def modelled(machine, limit):
    """The values of all signals, cycle by cycle up to this one, by the model."""
    calls = [0] * len(machine.tasks)  # the marked calls of each task that have ended
    while machine.now < limit and any(done < it["jobs"] for done, it in zip(machine.ended, machine.tasks)):
        before = Before(machine, calls)
        machine.cycle()
        if machine.trap:
            return
        for task, kind, _, _ in machine.intervals[before.intervals :]:
            calls[task] += kind == "predictable"
        yield before.now, dict(told(before, machine))


def differences(text, image, run, first, limit):
    """How many cycles there are, and in which the dump tells other values than the model."""
    dump = Dump(text)
    image = machine_model.read_image(image)
    machine = machine_model.Machine(image, *machine_model.read_run(run, image))
    wanted = [(cycle, values) for cycle, values in modelled(machine, limit) if cycle >= first]
    found = list(dump.cycles(first))
    bad = [(a[0], {k: (a[1].get(k), b[1].get(k)) for k in a[1] | b[1] if a[1].get(k) != b[1].get(k)}) for a, b in zip(wanted, found) if a != b]
    if len(wanted) != len(found) or dump.end != machine.now or wanted and set(wanted[0][1]) != set(dump.names.values()):
        bad.append((dump.end, f"{len(wanted)} cycles up to {machine.now}, {len(found)} dumped"))
    return len(wanted), bad


def read(path, mode="rb"):
    with open(path, mode) as it:
        return it.read()


def tell(dump):
    values = {}
    for cycle, changes in sorted(dump.changes.items()):
        values |= changes
        print(cycle, *(f"{name}={'z' if values[name] is None else values[name]}" for name in dump.names.values()))
    print("end", dump.end)


def examples(prem, wave):
    dumps = bad = 0
    for path in sorted(glob.glob(f"{TOP}/examples/*/*.run")):
        folder, name = os.path.dirname(path), os.path.basename(path)[:-4]
        ((status, image),) = ask.answers([["build", f"{name}.toml"]], folder, prem)
        if status:
            continue
        image_read = machine_model.read_image(image)
        machine = machine_model.Machine(image_read, *machine_model.read_run(read(path), image_read))
        machine.stop(2**40)
        end = machine.now
        cuts = [(0, 2**40), (end // 3, end // 2 + 1), (end - 1, end), (0, end + 5)]
        words = [["--from", str(first), "--to", str(behind)] for first, behind in cuts[1:]]
        answers = ask.answers([[f"{name}.toml", f"{name}.run", *it] for it in [[], *words]], folder, wave, "prem_wave_cli", 600)
        for (first, limit), (status, text) in zip(cuts, answers):
            cycles, wrong = differences(text.decode(), image, read(path), first, limit) if status == 0 else (0, [status])
            dumps, bad = dumps + 1, bad + bool(wrong)
            print(f"{name} {first} {limit}: {cycles} cycles, {len(text)} bytes, {len(wrong)} differ", *wrong[:5], sep="\n  ", flush=True)
    print(f"{dumps} dumps, of which {bad} differ")
    return bad > 0


def main(words):
    if len(words) == 1:
        return tell(Dump(read(words[0], "r")))
    if len(words) == 5:
        cycles, wrong = differences(read(words[0], "r"), read(words[1]), read(words[2]), int(words[3]), int(words[4]))
        print(f"{cycles} cycles, {len(wrong)} differ", *wrong[:20], sep="\n  ")
        return bool(wrong)
    return examples(*(words or [None, None]))


if __name__ == "__main__":
    sys.exit(main(sys.argv[1:]))
