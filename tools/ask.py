"""Asks prem for its answers to many commands, for the other scripts of this folder.

With the path of a built program each command is a run of it. Without one, `rt try` builds the program from the sources as they stand,
once for all commands; that build isn't proved, and an answer has at most 1 MiB.
"""
import os
import re
import shutil
import subprocess
import sys
import tempfile

TOP = os.path.dirname(os.path.dirname(os.path.abspath(__file__)))


class Fault(Exception):
    """The program could not be asked."""


def answers(commands, folder, program=None, crate="prem_cli", seconds=60):
    """The status and the text of each command, a list of words, over the files of the folder; "killed" and what came where one hasn't ended."""
    if program:
        return [run(program, words, folder, seconds) for words in commands]
    return tried(commands, folder, crate, seconds)


def run(program, words, folder, seconds=60):
    try:
        ran = subprocess.run([os.path.abspath(program), *words], cwd=folder, stdin=subprocess.DEVNULL, capture_output=True, timeout=seconds)
    except subprocess.TimeoutExpired as it:
        return "killed", it.stdout or b""
    return ran.returncode, ran.stdout


def files_below(folder):
    for at, folders, names in os.walk(folder):
        folders[:] = [it for it in folders if not it.startswith(".")]
        for name in names:
            path = os.path.join(at, name)
            if os.path.isfile(path):
                yield os.path.relpath(path, folder), path


def tried(commands, folder, crate, seconds):
    if not shutil.which("rt"):
        raise Fault("no rt on the path, and no program was named")
    names = [f"c{number:06}" for number in range(len(commands))]
    words = ["rt", "try", "--seconds", str(seconds)]
    for name, path in files_below(folder):
        words += ["--data", f"{name}={os.path.abspath(path)}"]
    with tempfile.TemporaryDirectory(prefix="prem-ask-") as cases:
        for name, said in zip(names, commands):
            open(f"{cases}/{name}", "w").close()
            with open(f"{cases}/{name}.args", "w", encoding="utf-8") as it:
                it.write("".join(f"{word}\n" for word in said))
        ran = subprocess.run([*words, "--cases", cases], cwd=f"{TOP}/crates/{crate}", stdin=subprocess.DEVNULL, capture_output=True)
    ended = dict(re.findall(rb"^case=(\w+) run=(.*)$", ran.stderr, re.M))
    texts = re.split(rb"^== (c\d{6})\n", ran.stdout, flags=re.M)
    texts = dict(zip(texts[1::2], texts[2::2]))
    found = []
    for name in names:
        how = ended.get(name.encode())
        if how is None:
            raise Fault(ran.stderr.decode(errors="replace")[-2000:])
        status = re.match(rb"ended status=(\d+)", how)
        found.append((int(status[1]) if status else how.decode(), texts.get(name.encode(), b"")))
    return found


def program_in(words):
    """Takes the path of a built program, or --try, from the front of the words: the path, or None for --try or no word. Without either it is ./prem."""
    if words[:1] == ["--try"]:
        del words[0]
        return None
    if words and os.access(words[0], os.X_OK) and os.path.isfile(words[0]):
        return words.pop(0)
    return f"{TOP}/prem"


def fail(why):
    print(f"{os.path.basename(sys.argv[0])}: {why}", file=sys.stderr)
    sys.exit(2)
