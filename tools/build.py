#!/usr/bin/env python3
"""Proves a program of this repository with all crates below it, side by side, and builds it.

    build.py CRATE [--jobs N]

On stderr it says how far it is. It can be stopped at any time and goes on where it was, since each crate that is proved stays in its
folder out/, and so does the work on the others. The program is crates/CRATE/out/CRATE then. N is how many crates are worked on at a
time: as many as there are processors where it isn't told, and fewer where memory is short. Status 1: not built, and stderr tells why.

The crates are proved and built by the functions of rt itself, as `rt run` calls them, but side by side, the longest chain first.
"""
import importlib.machinery
import importlib.util
import os
import shutil
import signal
import sys
import threading
import time

TOP = os.path.dirname(os.path.dirname(os.path.abspath(__file__)))


def called():
    """For each program's crate the word by which people call it."""
    with open(f"{TOP}/tools/programs", encoding="utf-8") as it:
        rows = [line.split() for line in it if not line.startswith("#")]
    return {crate: word for word, crate, _ in rows}


def fail(why):
    print(f"{NAME}: {why}", file=sys.stderr)
    sys.exit(1)


def load_rt():
    """The module that the command rt is."""
    file = shutil.which("rt")
    if not file:
        fail("rt isn't on the path; README.md names the kit that has it")
    loader = importlib.machinery.SourceFileLoader("rt", os.path.realpath(file))
    made = importlib.util.module_from_spec(importlib.util.spec_from_loader("rt", loader))
    sys.modules["rt"] = made
    try:
        loader.exec_module(made)
        if hasattr(made, "share_work"):  # (kits before 13f share nothing between calls)
            made.share_work(True)
        # (rt walks crates.txt anew for each, and there are many ways through it)
        made.rtlib.Crate.below = once(made.rtlib.Crate.below)
        made.rtlib.Crate.stamp = once(made.rtlib.Crate.stamp)
    except (OSError, SyntaxError, AttributeError) as error:
        fail(f"this rt isn't that of the kit that README.md names: {error}")
    return made


def once(asked):
    """The method with one answer for each crate."""
    known = {}

    def answer(crate):
        if crate.folder not in known:
            known[crate.folder] = asked(crate)
        told = known[crate.folder]
        return list(told) if isinstance(told, list) else told

    return answer


class Build:
    """The libraries below a program: which are proved, and which are being proved."""

    def __init__(self, rt, program, at_once, log):
        self.program, self.at_once, self.log = program, at_once, log
        self.crates = program.below()
        self.begun, self.turn = time.monotonic(), threading.Condition()
        self.done = {it for it in self.crates if it.is_built()}
        self.running, self.failed, self.killed, self.told = {}, [], set(), None
        self.room, self.need = available(), {it: rt.need(it) for it in self.crates}
        lines = {it: it.count(rb"\n") for it in [*self.crates, program]}
        self.lines, self.rank = lines, {}
        for it in [program, *reversed(self.crates)]:
            above = [self.rank[other] for other in self.rank if it in other.deps]
            self.rank[it] = lines[it] + max(above, default=0)

    def tell(self):
        """Says how far the work is."""
        minutes = int((time.monotonic() - self.begun) / 60)
        said = f"{NAME}: {len(self.done)} of {len(self.crates) + 1} crates proved, {minutes} minute{'s' * (minutes != 1)}"
        if said != self.told:
            is_shown = sys.stderr.isatty()
            print(f"\r{said}" if is_shown else said, end="" if is_shown else "\n", file=sys.stderr, flush=True)
            self.told = said

    def ready(self):
        """The crates that can be begun, those of the longest chain first."""
        waiting = [it for it in self.crates if it not in self.done and it not in self.running]
        waiting = [it for it in waiting if all(dep in self.done for dep in it.deps)]
        return sorted(waiting, key=lambda it: -self.rank[it])

    def jobs_for(self, crate, ready):
        """How many processes share a crate: what the others leave, and two where its chain may last longer than all the rest."""
        spare = self.at_once - self.used() - len(ready) + 1
        left = sum(self.lines[it] for it in self.crates if it not in self.done)
        is_last = self.rank[crate] * (self.at_once + 1) > 2 * left
        return max(1, min(4, spare), 2 if is_last and self.at_once > 1 else 1)

    def used(self):
        """The processes that the running crates have."""
        return sum(self.running.values())

    def has_room(self, crate):
        return not self.running or sum(self.need[it] for it in [*self.running, crate]) <= self.room

    def work(self, crate, jobs):
        file = f"{self.log}/{crate.name}.log"
        with open(file, "w+", encoding="utf-8", errors="replace") as crate.out:
            try:
                status = crate.build_rlib(["--jobs", str(jobs)], anew=False)
            except BaseException as error:  # (the thread would end without a word)
                print(f"rt: {error!r}", file=crate.out)
                status = 2
        with self.turn:
            del self.running[crate]
            if status == -signal.SIGKILL and crate not in self.killed:
                # most likely for memory: once more, with less beside it
                self.killed.add(crate)
                self.at_once = max(1, self.at_once - 1)
            elif status:
                self.failed.append((crate.name, file))
            else:
                self.done.add(crate)
            self.turn.notify()

    def libraries(self):
        """Proves and builds what isn't; whether all went well."""
        with self.turn:
            self.tell()
            while len(self.done) < len(self.crates) and (not self.failed or self.running):
                ready = [] if self.failed else self.ready()
                while ready and self.used() < self.at_once and self.has_room(ready[0]):
                    crate = ready[0]
                    jobs = self.jobs_for(crate, ready)
                    self.running[crate] = jobs
                    threading.Thread(target=self.work, args=(crate, jobs), daemon=True).start()
                    ready = ready[1:]
                self.turn.wait(timeout=15)
                self.tell()
        return not self.failed

    def whole(self):
        """Proves, builds and once runs the program itself, which has no words and so only prints how it is called."""
        file = f"{self.log}/{self.program.name}.log"
        with open(file, "w+", encoding="utf-8", errors="replace") as self.program.out:
            self.program.run(["--jobs", str(min(4, self.at_once))], [])
            self.program.out.seek(0)
            said = self.program.out.read()
        if "rt: running" not in said:
            self.failed.append((self.program.name, file))
            return False
        self.done.add(self.program)
        self.tell()
        return True


def available():
    """Bytes of memory that are free now."""
    with open("/proc/meminfo", encoding="utf-8") as it:
        return next(1024 * int(line.split()[1]) for line in it if line.startswith("MemAvailable"))


def at_once_in(words):
    if words[1:2] == ["--jobs"] and len(words) == 3 and words[2].isdigit() and int(words[2]):
        return int(words[2])
    if len(words) != 1:
        fail("usage: build.py CRATE [--jobs N]")
    return len(os.sched_getaffinity(0))


def stop(*_):
    print(f"\n{NAME}: stopped; what is proved is kept, and the next call goes on", file=sys.stderr, flush=True)
    # what rt has started ends with this process
    os._exit(130)


def main():
    at_once = at_once_in(WORDS)
    rt = load_rt()
    # (before there are threads)
    rt.rtlib.guarded()
    for it in (signal.SIGINT, signal.SIGTERM, signal.SIGHUP):
        signal.signal(it, stop)
    begun = time.time()
    folder = f"{TOP}/crates/{WORDS[0]}"
    if not os.path.isfile(f"{folder}/src/main.rt"):
        fail(f"{WORDS[0]} is no program of this repository")
    os.chdir(folder)
    program = rt.rtlib.Crate(folder, TOP, {})
    program.held = rt.rtlib.lock([*program.below(), program])
    os.makedirs(f"{folder}/out/log", exist_ok=True)
    for it in [program, *program.below()]:
        os.makedirs(f"{it.folder}/out", exist_ok=True)
    build = Build(rt, program, at_once, f"{folder}/out/log")
    is_well = build.libraries() and build.whole()
    if sys.stderr.isatty():
        print(file=sys.stderr)
    for name, file in build.failed:
        with open(file, encoding="utf-8", errors="replace") as it:
            said = it.read().splitlines()[-12:]
        print(f"{NAME}: {name} isn't proved or built; {os.path.relpath(file, TOP)} ends so:", *said, sep="\n", file=sys.stderr)
    if is_well:
        # what is edited from now on, or was meanwhile, is newer than the program
        os.utime(f"{folder}/out/{program.name}", (begun, begun))
    return 0 if is_well else 1


WORDS = sys.argv[1:]
NAME = called().get(WORDS[0], WORDS[0]) if WORDS else "build.py"
if __name__ == "__main__":
    sys.exit(main())
