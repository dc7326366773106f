"""Builds the tasks of many sets with gcc, include/prem.h and include/host.c, for against-world.

One call of gcc takes the sources of all sets with the same level of optimization, as they stand. So that their names don't meet, each
source stands between macros that give its globals and functions names of their own; and `job`, which host.c calls, goes to the task whose
number the environment has.
"""
import os
import re
import subprocess

import ask

WORDS = ["gcc", "-std=c99", "-fwrapv", "-w"]
DISPATCH = """char *getenv(const char *name);
int atoi(const char *text);
static void (*const jobs[])(void) = {%s};
void job(void) {
  jobs[atoi(getenv("PREM_TASK"))]();
}
"""


def gcc(*words):
    subprocess.run([*WORDS, *words], check=True, capture_output=True)


def level_of(world):
    """0, 1 or 2: sets with each of them come in turn."""
    return sum(map(ord, world.name)) % 3


class Host:
    """The builds of gcc in a folder."""

    def __init__(self, folder):
        self.folder, self.count = folder, 0
        gcc("-O1", "-c", "-o", f"{folder}/host.o", f"{ask.TOP}/include/host.c")

    def build(self, worlds):
        """For each set its program, and the number of its first task there. All sets are built with the level of the first one."""
        self.count += 1
        path, text, names, found = f"{self.folder}/host{self.count}", "", [], []
        for world in worlds:
            found.append((path, len(names)))
            for task in world.tasks:
                own = sorted(set(re.findall(r"\b(?:[fgm]\d+|job)\b", task["text"])))
                text += "".join(f"#define {it} {it}_{len(names)}\n" for it in own)
                text += f'#include "{task["source"]}"\n' + "".join(f"#undef {it}\n" for it in own)
                names.append(f"job_{len(names)}")
        with open(f"{path}.c", "w", encoding="utf-8") as it:
            it.write(text + DISPATCH % ", ".join(names))
        gcc(f"-O{level_of(worlds[0])}", "-DPREM_HOST", "-include", f"{ask.TOP}/include/prem.h", "-o", path, f"{self.folder}/host.o", f"{path}.c")
        return found

    def outputs(self, world, built):
        """What the set's tasks put out, as `source` tells it."""
        (path, first), text = built, ""
        for number, task in enumerate(world.tasks, first):
            words, place = [path, f"{self.folder}/{world.name}.run", task["name"], str(task["jobs"])], {"PREM_TASK": str(number)}
            ran = subprocess.run(words, env=os.environ | place, capture_output=True, check=True, timeout=600)
            text += f"task {task['name']} jobs {task['jobs']}\n{ran.stdout.decode()}"
        return text
