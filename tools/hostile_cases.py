#!/usr/bin/env python3
"""The answers to hostile use that crates/prem_answers/stdout has to end with, by another model and by hand.

    hostile_cases.py                 prints them
    hostile_cases.py PROGRAM         gives a built prem the same files and words, as far as no call is made to fail, prints each answer that
                                     differs, and the slowest ones with their seconds

The lines of the files in data build files and ask for answers, as src/hostile of that crate says. Answers to `exec` come from machine_model.py; those
to broken set files, sources and run files stand below, worked out by hand; those to the marked program are the report of its image.
"""
import os
import subprocess
import sys
import tempfile
import time

from machine_model import Machine, Refused, read_image, read_run

DATA = os.path.join(os.path.dirname(os.path.abspath(__file__)), "..", "crates", "prem_answers", "data")
LISTS = ["images.txt", "outside.txt", "rules.txt", "large.txt"]
STATUS = ["Done", "Refused", "Usage", "Form", "ReadFault", "WriteFault", "OutOfMemory", "Missing", "Trap"]
IMAGE_LIMIT = 16842752

# By heading: the status and the text, with | for the end of a line.
BY_HAND = {
    "a line of the device that is not there": "Form form q.run line 1 slot|",
    "a request before the one above it": "Form form q.run line 2 order|",
    "a value of 2^32": "Form form q.run line 1 number|",
    "a cycle past 2^50": "Form form q.run line 1 number|",
    "a word that is neither put nor get": "Form form q.run line 3 word|",
    "a request without a value": "Form form q.run line 1 word|",
    "a device that is not there": "Form form q.run line 1 device|",
    "a task that is not there": "Form form q.run line 2 task|",
    "an input word with a sign in front": "Form form q.run line 1 number|",
    "100001 requests": "Form form q.run line 100001 limit|",
    "an expression that needs twelve registers": "Done out 12|cycles 145|hits 24 misses 9 writebacks 0|",
    "and one that needs thirteen": "Refused refused one depth 3|",
    "a frame of 2048 bytes, and an expression that needs thirteen registers": "Refused refused one frame job|",
    "a job that lies 1048574 bytes and more behind the start": "Refused refused m reach job|",
    "the same in a memory of 1 MiB": "Refused refused * memory 1049136 1048576|",
    "loops of 2^40 turns: the bound of the job": "Refused refused one bound job|",
    "loops of 2^40 turns: the bound of a marked function": "Refused refused one bound f|",
    "262144 outputs of one job": "Refused refused * outputs|",
    "262140 outputs of 65535 jobs": "Done task m bound 379|limit 24903299|",
    "327675 outputs of 65535 jobs": "Refused refused * outputs|",
    "327675 intervals of 65535 jobs": "Refused refused * intervals|",
    "257 functions of one name": "Refused refused one limit functions|",
    "257 globals of one name": "Refused refused one limit globals|",
    "nine parameters of one name": "Refused refused one limit parameters|",
    "33 regions of an unknown name": "Refused refused one limit regions|",
    "an array of 65537 elements": "Refused refused one limit length|",
    "a stated length of 2147483648": "Refused refused one limit stated|",
    "a comment of 65536 bytes": "Form form d.toml key task|",
    "a comment of 65537 bytes": "Form form d.toml too-long|",
    "206 tables of 79 nested tables in an array": "Form form d.toml key a|",
    "tables nested 80 deep in an array, one deeper than is read": "Form form d.toml toml|",
    "412 arrays of 79 nested arrays in an array": "Form form d.toml key a|",
    "arrays nested 80 deep in an array": "Form form d.toml toml|",
    "65534 opened arrays": "Form form d.toml toml|",
    "13106 opened tables": "Form form d.toml toml|",
    "399 headers of 80 names": "Form form d.toml key a|",
    "a header of 81 names": "Form form d.toml toml|",
    "a header of 32766 names": "Form form d.toml toml|",
    "a header and a key of 80 names each, and 80 nested tables": "Form form d.toml key a|",
    "80 names under task": "Form form d.toml kind task|",
    "7281 tasks": "Form form d.toml limit task|",
    "a text of 65528 bytes where tasks are wanted": "Form form d.toml kind task|",
    "a number of 65534 digits": "Form form d.toml toml|",
    "a text that is not closed": "Form form d.toml toml|",
    "bytes that are no text": "Form form d.toml toml|",
    "a name of 1048576 bytes": "Refused refused one token 1 1|",
    "a literal of 1048576 digits": "Refused refused one token 1 1|",
    "a literal of 1048574 hexadecimal digits": "Refused refused one token 1 1|",
    "1048576 tokens": "Refused refused one too-long|",
    "524288 lines of one token": "Refused refused one too-long|",
    "1048576 blanks": "Refused refused one no-job|",
    "1048576 ends of lines and no more": "Refused refused one no-job|",
    "1048577 blanks": "Form form a.c too-long|",
    "a comment of 1048576 bytes that is not closed": "Refused refused one token 1 1|",
    "524288 beginnings of a comment, of which each second one ends it": "Refused refused one token 1 1048573|",
    "174762 tokens with a comment between each two, and one that is not closed": "Refused refused one token 1 1048574|",
    "a closed comment before a job": "Done cycles 61|hits 6 misses 3 writebacks 0|",
    "a comment up to the end behind a job": "Done cycles 61|hits 6 misses 3 writebacks 0|",
    "1562 statements of 64 nested blocks": "Done cycles 61|hits 6 misses 3 writebacks 0|",
    "blocks nested 65 deep": "Refused refused one too-deep 1|",
    "199990 opened blocks": "Refused refused one too-deep 1|",
    "64 nested choices of which the last one has a block": "Refused refused one too-deep 66|",
    "a sum of 199990 tokens": "Refused refused one too-deep 1|",
    "an expression of 257 opened parentheses": "Refused refused one too-deep 1|",
    "an expression of 127 parentheses, closed": "Done out 5|cycles 73|hits 7 misses 4 writebacks 0|",
    "a byte that is no text behind 1048575 blanks": "Refused refused one not-text 1048575|",
    "a skipped line of 4194305 bytes": "Form form r.run too-long|",
    "100001 input words": "Form form r.run line 1 limit|",
    "1000000 blanks": "Form form r.run line 1 word|",
    "2097150 input words, and one that is no number": "Form form r.run line 1 number|",
    "a word of 4194304 bytes": "Form form r.run line 1 word|",
    "a number of 4194299 digits": "Form form r.run line 1 number|",
    "100000 lines without input words, and one of an unknown task": "Form form r.run line 100001 task|",
    "a byte that is no ASCII at the end of a line": "Form form r.run line 1 text|",
    "a carriage return at each place": "Form form r.run line 1 task|",
}

USAGE = (
    "usage: prem one FILE | check SET | build SET | list SET | source SET RUN | run SET RUN [--cycles N] [--intervals]"
    " | exec IMAGE RUN [--cycles N] [--intervals] | sample N | tile FILE FUNCTION K L | color SET"
    " | mail SET RUN MAIL [--cycles N]\n"
)


def lui(rd, upper):
    return (upper & 0xFFFFF) << 12 | rd << 7 | 0x37


def addi(rd, rs, constant):
    return (constant & 0xFFF) << 20 | rs << 15 | rd << 7 | 0x13


def load(rd, offset, rs):
    return (offset & 0xFFF) << 20 | rs << 15 | 2 << 12 | rd << 7 | 0x03


def store(value, offset, rs):
    offset &= 0xFFF
    return (offset >> 5) << 25 | value << 20 | rs << 15 | 2 << 12 | (offset & 31) << 7 | 0x23


def jal(rd, offset):
    n = offset & 0x1FFFFF
    return (n >> 20) << 31 | (n >> 1 & 1023) << 21 | (n >> 11 & 1) << 20 | (n >> 12 & 255) << 12 | rd << 7 | 0x6F


def jalr(rd, rs):
    return rs << 15 | rd << 7 | 0x67


def constant(rd, value):
    return [lui(rd, (value + 0x800) >> 12), addi(rd, rd, value)]


def marked_image(devices):
    """The image of the marked program: a task m of one job in 1000 cycles, and devices (name, queue, cost, lines)."""
    function, job, stub, cell, top = 0x08, 0x2C, 0x5C, 0x108, 0x130
    words = [jal(1, job), 0x300B]
    words += [addi(2, 2, -16), store(1, 0, 2), load(10, 4, 2), *constant(5, cell), store(10, 0, 5)]
    words += [load(1, 0, 2), addi(2, 2, 16), jalr(0, 1)]
    words += [addi(2, 2, -16), store(1, 0, 2), addi(10, 0, 7), store(10, -12, 2), jal(4, stub - job - 16)]
    words += [*constant(5, cell), load(10, 0, 5), 10 << 15 | 0x500B, load(1, 0, 2), addi(2, 2, 16), jalr(0, 1)]
    words.append(0x0B)
    for first, end in ((stub, cell), (function, job), (top - 32, top - 16), (cell, cell + 4)):
        words += [*constant(5, first // 16 * 16), *constant(6, end)]
        words += [0x0062E463, jal(0, 16), load(0, 0, 5), addi(5, 5, 16), jal(0, -16)]  # bltu x5,x6,8
    words += [*constant(5, 491), 5 << 15 | 0x100B]
    words += [jal(1, function - 4 * len(words)), 0x200B, jalr(0, 4)]
    content = b"".join(w.to_bytes(4, "little") for w in words).ljust(top, b"\0")
    image = b"PREM" + b"".join(n.to_bytes(2, "little") for n in (1, 1, len(devices), 0))
    image += b"".join(n.to_bytes(4, "little") for n in (16, 64, 4, 10, 10, 20, 1 << 20, len(content)))
    image += b"\x01m" + b"".join(n.to_bytes(4, "little") for n in (1000, 1, 0, top))
    area = top
    for name, *numbers in devices:
        image += bytes([len(name)]) + name + b"".join(n.to_bytes(4, "little") for n in (*numbers, area))
        area += 16 * numbers[2]
    return image + content


CALLS = """# calls that no command passes on
Range { lo: -5, hi: 3 } and Range { lo: 3, hi: 9 } => Some(Range { lo: 3, hi: 3 })
Range { lo: -5, hi: 3 } and Range { lo: 4, hi: 9 } => None
a name of 0 bytes => false
a name of 1 bytes => true
a name of 64 bytes => true
a name of 65 bytes => false
what waits at a device that is not there => None
a set without tasks => false
"""

SETS = {
    "s.toml": [],
    "two.toml": [(b"dma", 2, 40, 4), (b"nic", 2, 20, 4)],
}


def executed(name, data, run, options):
    if len(data) > IMAGE_LIMIT:
        return "Form", f"form {name} too-long\n"
    try:
        image = read_image(data)
    except Refused as why:
        return "Form", f"form {name} {why}\n"
    limit = int(options[options.index("--cycles") + 1]) if "--cycles" in options else 10000000
    return Machine(image, *read_run(run, image)).report(limit, "--intervals" in options)


def answer(words, files, heading):
    """The status and the text."""
    if heading in BY_HAND:
        status, text = BY_HAND[heading].split(" ", 1)
        return status, text.replace("|", "\n")
    command, *rest = words
    for name in rest[:2]:
        if name not in files and not name.startswith("-"):
            return "Missing", f"missing {name}\n"
    if command == "exec" and rest[1] == "s.toml":
        return "Form", "form s.toml line 1 word\n"
    if command == "exec":
        return executed(rest[0], files[rest[0]], files[rest[1]], rest[2:])
    if command == "run" and len(rest) < 2:
        return "Usage", USAGE
    if command == "run":
        return executed("", marked_image(SETS[rest[0]]), files[rest[1]], rest[2:] + ["--cycles", "975"])
    if command == "source" and rest[0] == "s.toml":
        return "Done", "task m jobs 1\nout 7\n"
    if command == "check" and rest[0] == "s.toml":
        return "Done", "task m bound 975\ninterval set lines 16 most 1 bound 491 stated 491\nlimit 975\n"
    if command == "one" and rest[0] == "b.c":
        return "Refused", "refused one syntax 1 23\n"
    raise KeyError(words)


def reads(words):
    """How many calls read files."""
    return {"run": 3, "source": 3, "exec": 2, "check": 2, "one": 1}[words[0]]


def shown(text):
    told, last, count = "", None, 0

    def line():
        return ("" if last is None else last + "$") + (f"{count} times$" if count > 1 else "")

    for piece in text.splitlines():
        if piece != last:
            told += line()
            last, count = piece, 0
        count += 1
    told += line()
    return told + (".." if text and not text.endswith("\n") else "")


def tell(asked, status, text):
    print(f"{asked} => {status} {shown(text)}")


class Outside:
    """The built program with files in a folder."""

    def __init__(self, program):
        self.program, self.folder = os.path.abspath(program), tempfile.TemporaryDirectory()
        self.wrong, self.times = 0, []

    def tell(self, asked, words, files, status, text, heading):
        for name in files if len(words) < 2 else words[1:]:
            if name in files:
                with open(f"{self.folder.name}/{name}", "wb") as it:
                    it.write(files[name])
        for name in files if words[0] in ("check", "run", "source") else ():
            if name.endswith(".c"):
                with open(f"{self.folder.name}/{name}", "wb") as it:
                    it.write(files[name])
        start = time.time()
        ran = subprocess.run([self.program, *words], cwd=self.folder.name, capture_output=True)
        self.times.append((time.time() - start, heading, asked))
        told = STATUS[ran.returncode] if 0 <= ran.returncode < 9 else f"status {ran.returncode}"
        if (told, ran.stdout) != (status, text.encode()):
            self.wrong += 1
            print(f"{heading}: {asked}: {told} {ran.stdout[-300:]!r}, and not {status} {text[-300:]!r} {ran.stderr[-300:]!r}")


def main():
    outside = Outside(sys.argv[1]) if len(sys.argv) > 1 else None
    if not outside:
        print(CALLS, end="")
    files, newest, put, heading = {}, "", b"", ""
    for name in LISTS:
        with open(os.path.join(DATA, name), encoding="ascii") as it:
            lines = it.read().split("\n")[:-1]
        for line in lines:
            verb, rest = line.split(" ", 1)
            count, _, text = rest.partition(" ")
            if verb == "#":
                heading = rest
                if not outside:
                    print(line)
            elif verb == "put":
                put += text.replace("$", "\n").encode() * int(count)
            elif verb == "bytes":
                put += bytes(int(it, 16) for it in rest.split())
            elif verb == "words":
                put += b"".join(int(it, 16).to_bytes(4, "little") for it in rest.split())
            elif verb == "of":
                put += files[text] * int(count)
            elif verb == "at":
                put = put[: int(count)] + int(text, 16).to_bytes(4, "little") + put[int(count) + 4 :]
            elif verb == "file":
                files[rest], newest, put = put, rest, b""
                if rest == "s.img" and files[rest] != marked_image([]):
                    sys.exit("the image in the list isn't that of the marked program")
            elif verb in ("answer", "reads", "writes"):
                words = rest.split()
                status, text = answer(words, files, heading)
                if outside:
                    outside.tell(rest, words, files, status, text, heading)
                    continue
                if verb == "reads":
                    for call in range(1, reads(words) + 1):
                        tell(f"{rest}, read {call}", "ReadFault", "")
                    tell(f"{rest}, read {call + 1}", status, text)
                elif verb == "writes":
                    calls = -(-len(text) // 8)
                    for call in range(1, calls + 1):
                        tell(f"{rest}, write {call}", "WriteFault", text[: 8 * (call - 1)])
                    tell(f"{rest}, write {calls + 1}", status, text)
                else:
                    tell(rest, status, text)
            elif verb == "cuts":
                words = rest.split()
                for size in range(len(files[newest])):
                    cut = {**files, newest: files[newest][:size]}
                    status, text = answer(words, cut, heading)
                    if outside:
                        outside.tell(f"{rest}, {size} bytes", words, cut, status, text, heading)
                    else:
                        tell(f"{rest}, {size} bytes", status, text)
    if outside:
        for seconds, heading, asked in sorted(outside.times, reverse=True)[:25]:
            print(f"{seconds:.2f} s: {heading}: {asked}")
        print(f"{len(outside.times)} answers, {outside.wrong} differ")
        sys.exit(outside.wrong > 0)


main()
