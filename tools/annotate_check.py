#!/usr/bin/env python3
"""Asks prem_annotate for the annotations of all examples, as they stand and stripped of all that they have, or of sets that are drawn.

    annotate_check.py [PREM PREM_ANNOTATE]                       by built programs; without them `rt try` builds both
    annotate_check.py PREM PREM_ANNOTATE --seeds FIRST COUNT     sets that are drawn (worlds.py), stripped

Of each set below examples/ that `prem check` accepts:
- as it stands, each task's text is written, and may differ from the source in its regions and lengths, and by a RANGE where a parameter has
  none: what differs is shown;
- stripped, without any RANGE and REGION and with PREDICTABLE(1), each task's text is written, and the set of these texts has to be accepted;
- the texts that were written are written once more, and have to stay.
Of each set that is drawn all annotations are taken out. Where each task's text is written then, the set of these texts has to be accepted, to stay
when it is written once more, to put out what the drawn one does in gcc's builds (world_host.py), and to have the lines of `prem source` that the
drawn one has, where that one is accepted. What is refused in place of a text is counted by its rule.
Status 1: one of these isn't so.
"""
import collections
import glob
import os
import re
import sys
import tempfile

import ask
import world_host
import worlds

TOP = os.path.dirname(os.path.dirname(os.path.abspath(__file__)))
RANGE = re.compile(r"\s*\bRANGE\s*\([^)]*\)")
REGION = re.compile(r"\s*\bREGION\s*\([^)]*\)")
LENGTH = re.compile(r"\bPREDICTABLE\s*\([^)]*\)")
BATCH = 50
TASK = re.compile(r'^name = "([^"]*)"\nsource = "([^"]*)"$', re.M)


def read(path):
    with open(path, encoding="utf-8") as it:
        return it.read()


def write(path, text):
    with open(path, "w", encoding="utf-8") as it:
        it.write(text)


def bare(text):
    """A source without ranges, regions and lengths."""
    return LENGTH.sub("PREDICTABLE(1)", REGION.sub("", RANGE.sub("", text)))


def is_kept(source, text):
    """Whether a text has all of a source but for regions and lengths, each RANGE that stands too."""
    ranges = iter(RANGE.findall(text))
    return bare(text) == bare(source) and all(stated in ranges for stated in RANGE.findall(source))


class Sets:
    """Sets with their sources, side by side in one folder, so that one build answers for all."""

    def __init__(self, folder, prem, annotate):
        self.folder, self.prem, self.annotate = folder, prem, annotate

    def put(self, name, text, sources):
        """A set under a name, with the text of each task's source."""
        for number, (task, source) in enumerate(TASK.findall(text)):
            write(f"{self.folder}/{name}_{number}.c", sources[task])
            text = text.replace(f'name = "{task}"\nsource = "{source}"', f'name = "{task}"\nsource = "{name}_{number}.c"')
        write(f"{self.folder}/{name}.toml", text)

    def accepted(self, names):
        """Those that prem check accepts."""
        told = ask.answers([["check", f"{name}.toml"] for name in names], self.folder, self.prem)
        return {name: status == 0 for name, (status, _) in zip(names, told)}, told

    def annotated(self, asked):
        """The text of each set and task that is asked for, or what came in its place."""
        told = ask.answers([[f"{name}.toml", task] for name, task in asked], self.folder, self.annotate, "prem_annotate_cli")
        return {pair: (status, text.decode()) for pair, (status, text) in zip(asked, told)}


def found_sets():
    for path in sorted(glob.glob(f"{TOP}/examples/*/*.toml")):
        tasks = TASK.findall(read(path))
        folder = os.path.dirname(path)
        if tasks and all(os.path.isfile(f"{folder}/{source}") for _, source in tasks):
            name = os.path.relpath(path, f"{TOP}/examples")[:-5].replace("/", "-")
            yield name, read(path), {task: read(f"{folder}/{source}") for task, source in tasks}


class Drawn:
    """A set that is drawn, in a folder as it is, and in another one without annotations."""

    def __init__(self, world, programs, folders):
        self.world, (self.prem, self.annotate), (self.drawn, self.bare) = world, programs, folders
        self.set, self.counts, self.is_accepted = f"{world.name}.toml", collections.Counter(drawn=1), False
        for folder in folders:
            for name, text in world.files().items():
                write(f"{folder}/{name}", text)
        self.put([bare(world.source(it)) for it in world.tasks])

    def put(self, texts):
        for task, text in zip(self.world.tasks, texts):
            write(f"{self.bare}/{task['source']}", text)

    def source(self, folder):
        return ask.run(self.prem, ["source", self.set, f"{self.world.name}.run"], folder)

    def texts(self):
        """The texts of the tasks, or the first refusal."""
        told = [ask.run(self.annotate, [self.set, it["name"]], self.bare) for it in self.world.tasks]
        refusals = [text.decode() for status, text in told if status != 0]
        return ([text.decode() for _, text in told], None) if not refusals else ([], refusals[0])

    def wrong(self):
        """What is wrong with its annotations, if anything is."""
        status, meant = self.source(self.drawn)
        if status != 0 and not meant.startswith(b"refused"):
            return f"source {status}"
        texts, refusal = self.texts()
        if refusal is not None:
            self.counts["refused " + (refusal.split() + ["", "", ""])[2]] += 1
            return None
        self.put(texts)
        if self.texts() != (texts, None):
            return "changes when it is written once more"
        is_taken, text = ask.run(self.prem, ["check", self.set], self.bare)
        if is_taken != 0:
            return f"not accepted: {text}"
        self.counts["accepted"] += 1
        self.is_accepted = True
        if status == 0:
            self.counts["compared by source"] += 1
            if self.source(self.bare) != (0, meant):
                return "means something else"
        return None


def by_gcc(sets, folders):
    """Those of the sets whose drawn sources and whose written ones gcc's builds don't put out the same of."""
    differ, hosts = [], [world_host.Host(it) for it in folders]
    for level in range(3):
        some = [it for it in sets if world_host.level_of(it.world) == level]
        built = [host.build([it.world for it in some]) if some else [] for host in hosts]
        for it, *places in zip(some, *built):
            first, second = (host.outputs(it.world, place) for host, place in zip(hosts, places))
            it.counts["compared by gcc"] += 1
            if first != second:
                differ.append(it)
    return differ


def drawn(programs, first, count):
    counts, bad = collections.Counter(), 0
    for start in range(first, first + count, BATCH):
        with tempfile.TemporaryDirectory(prefix="prem-annotate-") as folder:
            folders = [f"{folder}/drawn", f"{folder}/bare"]
            for it in folders:
                os.mkdir(it)
            sets = [Drawn(worlds.World(seed), programs, folders) for seed in range(start, min(start + BATCH, first + count))]
            found = [(it, it.wrong()) for it in sets]
            found += [(it, "gcc's builds put out something else") for it in by_gcc([it for it in sets if it.is_accepted], folders)]
        for it in sets:
            counts.update(it.counts)
        for it, why in found:
            if why:
                bad += 1
                print(f"{it.world.name}: {why}")
        print(", ".join(f"{key} {number}" for key, number in counts.items()) + f"; {bad} wrong", flush=True)
    return bad > 0


def main(words):
    if len(words) == 5 and words[2] == "--seeds":
        return drawn([os.path.abspath(it) for it in words[:2]], int(words[3]), int(words[4]))
    prem, annotate = words or (None, None)
    bad = 0
    with tempfile.TemporaryDirectory(prefix="prem-annotate-") as folder:
        sets = Sets(folder, prem, annotate)
        known = {name: (text, sources) for name, text, sources in found_sets()}
        for name, (text, sources) in known.items():
            sets.put(name, text, sources)
            sets.put(f"bare-{name}", text, {task: bare(source) for task, source in sources.items()})
        taken, _ = sets.accepted(list(known))
        names = [name for name in known if taken[name]]
        asked = [(name, task) for name in names for task in known[name][1]]
        first = sets.annotated(asked + [(f"bare-{name}", task) for name, task in asked])
        for name, task in asked:
            status, text = first[name, task]
            source = known[name][1][task]
            kept = status == 0 and is_kept(source, text)
            bad += not kept
            print(f"{name} {task}: {'as it is' if text == source else 'other annotations' if kept else f'wrong, status {status}'}")
            for old, new in zip(source.splitlines(), text.splitlines()):
                if old != new:
                    print(f"  - {old}\n  + {new}")
        for name in names:
            sets.put(f"new-{name}", known[name][0], {task: first[f"bare-{name}", task][1] for task in known[name][1]})
        taken, told = sets.accepted([f"new-{name}" for name in names])
        again = sets.annotated([(f"new-{name}", task) for name, task in asked])
        for name, (status, text) in zip(names, told):
            stays = all(again[f"new-{name}", task] == (0, first[f"bare-{name}", task][1]) for task in known[name][1])
            bad += not (taken[f"new-{name}"] and stays)
            print(f"{name} stripped: {'accepted' if status == 0 else text.decode().strip()}, {'stays' if stays else 'CHANGES'}")
    print(f"{len(names)} sets, {len(asked)} tasks, {bad} wrong")
    return bad > 0


if __name__ == "__main__":
    sys.exit(main(sys.argv[1:]))
