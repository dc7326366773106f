#!/usr/bin/env python3
"""Another model of two cores with one bus and a memory token, from docs/PAIR.md alone, over machine_model.py's model of one core.

    pair_model.py IMAGE IMAGE2 RUN RUN2 [--cycles N] [--intervals]

It prints the report of two image files, as `prem_pair` tells it of the sets that they were compiled from. Where no cycle is named it goes on until
the run ends by itself, or to 10000000. Nothing is shared with the crates.
"""
import sys

import machine_model


class Core(machine_model.Machine):
    def is_done(self):
        return all(ended == task["jobs"] for ended, task in zip(self.ended, self.tasks))

    def stands(self):
        """Whether it stands at a scheduling point."""
        return self.mode == "point" or self.mode == "idle" and self.now >= self.until

    def has_ready(self):
        return any(self.ended[task] < self.released(task) for task in range(len(self.tasks)))

    def asks(self):
        return self.stands() and self.has_ready()

    def act(self, holds):
        """Its part of a cycle. True: a `pm.exec` issued."""
        if self.transactions:
            if holds:
                self.transactions[0][1] -= 1
                if not self.transactions[0][1]:
                    self.transactions.pop(0)
                self.settle()
            return False
        if self.is_done() or self.asks() and not holds:
            return False
        before = getattr(self, "phase", None)
        try:
            self.core()
        except machine_model.Trap as why:
            self.trap = (self.task, self.pc[self.task], str(why))
        return before == "memory" and self.phase == "execution"

    def is_full(self):
        return sum(map(len, self.outputs)) >= machine_model.LOG or len(self.intervals) >= machine_model.LOG


class Pair:
    def __init__(self, images, runs):
        self.cores = [Core(image, *machine_model.read_run(run, image)) for image, run in zip(images, runs)]
        self.holder = None  # 0, 1 or "gates"

    def arrive(self):
        gates = self.cores[0]
        while gates.requests and gates.requests[0][0] == gates.now:
            request = gates.requests.pop(0)
            device = request[1]
            if len(gates.queues[device]) == gates.devices[device]["queue"]:
                gates.dropped[device] += 1
            else:
                gates.queues[device].append(request)

    def give(self):
        gates = self.cores[0]
        if self.holder is None:
            self.holder = next((core for core in (0, 1) if self.cores[core].asks()), None)
        if self.holder is None and any(gates.queues):
            device = next(device for device, queue in enumerate(gates.queues) if queue)
            gates.carried = [device, gates.queues[device].pop(0), gates.now, gates.devices[device]["cost"]]
            self.holder = "gates"

    def transfer(self):
        """A cycle of the transfer. True: its last one."""
        gates = self.cores[0]
        gates.carried[3] -= 1
        if gates.carried[3]:
            return False
        device, (_, _, line, put), first, _ = gates.carried
        at = gates.devices[device]["area"] + line * gates.line
        if put is None:
            told = f"get {line} {int.from_bytes(gates.memory[at:at + 4], 'little')}"
        else:
            gates.memory[at : at + 4] = put.to_bytes(4, "little")
            told = f"put {line} {put}"
        gates.transfers.append((device, first, told))
        gates.carried = None
        return True

    def cycle(self):
        self.arrive()
        self.give()
        wants = [bool(core.transactions) for core in self.cores] + [self.holder == "gates"]
        if sum(wants) > 1:
            self.cores[0].clashes += 1
        is_free = self.holder == "gates" and self.transfer()
        for number, core in enumerate(self.cores):
            is_free |= core.act(self.holder == number) and self.holder == number
            if core.trap:
                return
        for core in self.cores:
            core.now += 1
        if is_free or self.holder in (0, 1) and self.cores[self.holder].stands():
            self.holder = None

    def stop(self, limit):
        while True:
            if all(core.is_done() for core in self.cores):
                return "finished"
            for core in self.cores:
                if core.trap:
                    task, pc, why = core.trap
                    return f"trap {core.tasks[task]['name'].decode()} 0x{pc:08x} {why}"
            if any(core.is_full() for core in self.cores):
                return "full"
            if self.cores[0].now == limit:
                return "stopped"
            self.cycle()

    def report(self, limit, intervals):
        last = self.stop(limit)
        first, lines = self.cores[0], []
        for number, core in enumerate(self.cores):
            names = [task["name"].decode() for task in core.tasks]
            lines.append(f"core {number}")
            for task, name in enumerate(names):
                lines.append(f"task {name} jobs {core.ended[task]}")
                lines += [f"out {word}" for word in core.outputs[task]]
            if intervals:
                lines += [f"interval {names[task]} {kind} {begun} {length}" for task, kind, begun, length in core.intervals]
        if intervals:
            for device, begun, told in first.transfers:
                lines.append(f"transfer {first.devices[device]['name'].decode()} {begun} {first.devices[device]['cost']} {told}")
        sums = lambda *names: " ".join(f"{shown} {sum(getattr(core, name) for core in self.cores)}" for shown, name in names)
        lines.append(f"cycles {first.now}")
        lines.append(sums(("hits", "hits"), ("misses", "misses"), ("writebacks", "writebacks")))
        lines.append(sums(("execmisses", "exec_misses"), ("memstores", "memory_stores"), ("clashes", "clashes"), ("overruns", "overruns")))
        for device, told in enumerate(first.devices):
            done = sum(it == device for it, _, _ in first.transfers)
            waits = len(first.queues[device]) + (first.carried is not None and first.carried[0] == device)
            lines.append(f"device {told['name'].decode()} transferred {done} dropped {first.dropped[device]} waiting {waits}")
        return "".join(f"{line}\n" for line in [*lines, last])


def main():
    words = sys.argv[1:]
    intervals = "--intervals" in words
    words = [word for word in words if word != "--intervals"]
    limit = 10**7
    if len(words) == 6 and words[4] == "--cycles":
        limit, words = int(words[5]), words[:4]
    if len(words) != 4:
        print(__doc__.split("\n\n")[1], file=sys.stderr)
        return 2
    data = []
    for name in words:
        with open(name, "rb") as it:
            data.append(it.read())
    print(Pair([machine_model.read_image(it) for it in data[:2]], data[2:]).report(limit, intervals), end="")
    return 0


if __name__ == "__main__":
    sys.exit(main())
