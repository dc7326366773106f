"""What gas, objdump and qemu make of code that prem lists and builds, for against-world.

Images run under qemu-riscv32, which emulates a process of Linux, in place of the cycle machine, some of them one behind the other in a
process. Each stands at address 0 then, as it is but for the words of custom-0 among its code, and behind it stands what does their work:
  - `pm.mem`, `pm.exec` and `pm.end`, which speak of time alone, become `addi x0,x0,0`;
  - `pm.in`, `pm.out` and `pm.done` become `jal x9`, which no compiled code uses, to code that takes the task's next word, writes a word
    with the task's number, and begins the next job with cleared registers and the stack's top in `x2`, or the next task's first one.
So the tasks run one behind the other, which their outputs don't show, since no task reads what another one writes.
"""
import collections
import functools
import itertools
import os
import re
import struct
import subprocess

ARCH = ["-march=rv32im", "-mabi=ilp32"]
CUSTOM = {"pm.mem": 0, "pm.exec": 1, "pm.end": 2, "pm.done": 3, "pm.in": 4, "pm.out": 5}
BRANCHES = ("beq", "bne", "blt", "bge", "bltu", "bgeu")
# x8 and x9, x22 and x23 are those of the code that stands for custom words.
REGISTERS = [f"x{it}" for it in range(32) if it not in (8, 9, 22, 23)]


# A listed word, and a line of objdump.
LISTED = re.compile(r"^([0-9a-f]{8}) ([0-9a-f]{8}) ((\S*).*)$", re.M)
READ = re.compile(r"^ *([0-9a-f]+):\t[0-9a-f]{8} +\t(\S+)(?:\t([^ \n]*))?", re.M)


class Line:
    """A listed word: its address, the word, and the instruction's text and name."""

    __slots__ = ("address", "word", "text", "name")

    def __init__(self, address, word, text, name):
        self.address, self.word, self.text, self.name = int(address, 16), int(word, 16), text, name

    def operands(self):
        return operands_of(self.text)

    def plain(self):
        """The instruction as objdump's lines are told; custom words have no name there."""
        return hex(self.word) if self.name in CUSTOM else self.text


def operands_of(text):
    operands = text.partition(" ")[2]
    return operands.split(",") if operands else []


# (most instructions come many times)
@functools.lru_cache(maxsize=100_000)
def for_gas(text):
    """An instruction as gas reads it: with targets from here, and custom words by their fields."""
    name, operands = text.partition(" ")[0], operands_of(text)
    if name in CUSTOM:
        register = operands[0] if operands else "x0"
        first, second = (register, "x0") if name == "pm.in" else ("x0", register)
        return f".insn i 0x0b, {CUSTOM[name]}, {first}, {second}, 0\n"
    if name == "jal" or name in BRANCHES:
        return f"{name} {','.join(operands[:-1])},.{int(operands[-1]):+d}\n"
    return f"{text}\n"


def listed(text):
    """The words of a listing, without the lines of tasks and parts."""
    return [Line(*it) for it in LISTED.findall(text)]


def call(*words):
    # (code that is wrong may not end)
    return subprocess.run(words, check=True, capture_output=True, timeout=600).stdout


def parted(found, listings):
    """What was found for the words of all listings, by listing."""
    if len(found) != sum(map(len, listings)):
        raise ValueError(f"{len(found)} answers to {sum(map(len, listings))} words")
    rest = iter(found)
    return [list(itertools.islice(rest, len(it))) for it in listings]


def assembled(text, folder):
    """The bytes that gas makes of a text, and the places of its labels."""
    with open(f"{folder}/gas.s", "w", encoding="utf-8") as it:
        it.write(f".option norelax\n.option norvc\n{text}")
    call("riscv64-unknown-elf-as", *ARCH, "-o", f"{folder}/gas.o", f"{folder}/gas.s")
    call("riscv64-unknown-elf-ld", "-m", "elf32lriscv", "-e", "0", "-Ttext", "0", "-o", f"{folder}/gas.elf", f"{folder}/gas.o")
    call("riscv64-unknown-elf-objcopy", "-O", "binary", "-j", ".text", f"{folder}/gas.elf", f"{folder}/gas.bytes")
    names = call("riscv64-unknown-elf-nm", f"{folder}/gas.elf").decode().splitlines()
    with open(f"{folder}/gas.bytes", "rb") as it:
        return it.read(), {it[2]: int(it[0], 16) for it in map(str.split, names)}


def words_by_gas(listings, folder):
    """The words that gas makes of the texts of each listing."""
    data, _ = assembled("".join(for_gas(line.text) for lines in listings for line in lines), folder)
    return parted(struct.unpack(f"<{len(data) // 4}I", data), listings)


@functools.lru_cache(maxsize=100_000)
def told(name, operands):
    """objdump's line in the listing's words, with numbers in decimal."""
    if name in (".4byte", ".word", ".insn"):
        return hex(int(operands.split(",")[-1].strip(), 16))
    words = [str(int(it, 16)) if it.startswith("0x") else it for it in operands.split(",")] if operands else []
    return f"{name} {','.join(words)}" if words else name


def told_by_objdump(address, name, operands):
    """objdump's line in the listing's words, with targets from here."""
    if name != "jal" and name not in BRANCHES:
        return told(name, operands)
    first, _, target = operands.rpartition(",")
    # (the words of all listings stand behind one another, so that only the distance is the listing's)
    return f"{name} {first},{(int(target, 16) - int(address, 16) + 2**31) % 2**32 - 2**31}"


def texts_by_objdump(listings, folder):
    """The texts that objdump reads from the words of each listing."""
    with open(f"{folder}/objdump.words", "wb") as it:
        it.write(b"".join(line.word.to_bytes(4, "little") for lines in listings for line in lines))
    said = call("riscv64-unknown-elf-objdump", "-D", "-z", "-b", "binary", "-m", "riscv:rv32", "-M", "no-aliases,numeric", f"{folder}/objdump.words")
    return parted([told_by_objdump(*it) for it in READ.findall(said.decode())], listings)


def tasks_in(image):
    """The tasks of an image, with jobs, entry and stack top, and its content."""
    number = lambda at, size=4: int.from_bytes(image[at : at + size], "little")
    tasks, at = [], 44
    for is_device in [False] * number(6, 2) + [True] * number(8, 2):
        length = image[at]
        if not is_device:
            tasks.append((image[at + 1 : at + 1 + length].decode(), *(number(at + 1 + length + 4 * it) for it in (1, 2, 3))))
        at += 1 + length + 16
    return tasks, image[at : at + number(40)]


def harness():
    """The text of the code that does the work of custom words; `x8` holds the running task's record, and behind an image's last one stands one
    without jobs. Then the next image is copied to address 0, with zeros behind it, and told by two words that no task puts out."""
    text = ["_start: la x11, images ; la x10, place ; sw x11, 0(x10) ; j next", "place: .word 0", "told: .word -1, -1"]
    for it in REGISTERS:
        save = " ; ".join(f"sw x{r}, {20 + 4 * n}(x8)" for n, r in enumerate((10, 11, 12, 17)))
        load = save.replace("sw ", "lw ")
        text.append(f"out_{it}: sw {it}, 44(x8) ; {save} ; li x10, 1 ; addi x11, x8, 40 ; li x12, 8 ; li x17, 64 ; ecall ; {load} ; jr x9")
        text.append(f"in_{it}: lw x22, 12(x8) ; lw x23, 16(x8) ; li {it}, 0 ; bgeu x22, x23, 1f ; lw {it}, 0(x22) ; addi x22, x22, 4")
        text.append("sw x22, 12(x8) ; 1: jr x9")
    text.append("done: lw x22, 8(x8) ; addi x22, x22, -1 ; sw x22, 8(x8) ; bnez x22, begin ; addi x8, x8, 48 ; lw x22, 8(x8) ; bnez x22, begin")
    text.append("next: la x10, place ; lw x11, 0(x10) ; addi x12, x11, 16 ; sw x12, 0(x10) ; lw x13, 0(x11) ; lw x14, 4(x11) ; lw x8, 8(x11)")
    text.append("beqz x8, end ; li x15, 0 ; la x16, _start")
    text.append("1: bgeu x13, x14, 2f ; lw x12, 0(x13) ; sw x12, 0(x15) ; addi x13, x13, 4 ; addi x15, x15, 4 ; j 1b")
    text.append("2: bgeu x15, x16, 3f ; sw x0, 0(x15) ; addi x15, x15, 4 ; j 2b")
    text.append("3: .word 0x0000100f ; li x10, 1 ; la x11, told ; li x12, 8 ; li x17, 64 ; ecall ; j begin")
    cleared = " ; ".join(f"li x{it}, 0" for it in (1, 3, 4, 5, 6, 7, *range(10, 22), *range(24, 32)))
    text.append(f"end: li x10, 0 ; li x17, 93 ; ecall ; begin: lw x2, 4(x8) ; {cleared} ; lw x22, 0(x8) ; jr x22")
    return "\n".join([*text, ".balign 16", "images:", ""])


def records(tasks, words, at):
    """The records of the tasks, which stand at this address, and their words: entry, stack top, jobs, where the words begin and end, and room."""
    place, rows, all_words = at + 48 * (len(tasks) + 1), [], []
    for number, (name, jobs, entry, stack) in enumerate(tasks):
        end = place + 4 * len(words[name])
        rows += [entry, stack, jobs, place, end, 0, 0, 0, 0, 0, number, 0]
        place, all_words = end, all_words + words[name]
    return packed([*rows, *[0] * 12, *all_words])


def packed(words):
    return struct.pack(f"<{len(words)}I", *(it % 2**32 for it in words))


def process(content, entry):
    """The file of a process whose memory from address 0 on is the content."""
    head = struct.pack("<16s2H5I6H", b"\x7fELF\x01\x01\x01", 2, 243, 1, entry, 52, 0, 0, 52, 32, 1, 40, 0, 0)
    return (head + struct.pack("<8I", 1, 4096, 0, 0, len(content), len(content), 7, 4096)).ljust(4096, b"\0") + content


class Qemu:
    """Runs images under qemu; the code for custom words is assembled once."""

    def __init__(self, folder):
        self.code, self.labels = assembled(harness(), folder)

    def outputs(self, images, path):
        """What the tasks of each image put out, as `source` tells it, of images with their listings and their words; all run one behind the other
        in the process that is written to the path."""
        parts = [(*tasks_in(image), lines, words) for image, lines, words in images]
        tops = [max(len(content), *(it[3] for it in tasks)) for tasks, content, _, _ in parts]
        base = -(-max(tops) // 4096) * 4096 + 4096
        rows, rest = [], b""
        first = base + len(self.code) + 16 * (len(parts) + 1)
        for tasks, content, lines, words in parts:
            content = self.patched(content, [it for it in lines if it.name in CUSTOM], base)
            content += bytes(-len(content) % 4)
            at = first + len(rest)
            rows += [at, at + len(content), at + len(content), 0]
            rest += content + records(tasks, words, at + len(content))
        with open(path, "wb") as it:
            it.write(process(bytes(base) + self.code + packed([*rows, 0, 0, 0, 0]) + rest, base + self.labels["_start"]))
        os.chmod(path, 0o755)
        return told_by_qemu(call("qemu-riscv32", path), [it[0] for it in parts])

    def patched(self, content, custom, base):
        """The content with its custom words replaced, where the code for them stands at the base."""
        data = bytearray(content)
        for it in custom:
            if data[it.address : it.address + 4] != it.word.to_bytes(4, "little"):
                raise ValueError(f"the image and its listing differ at {it.address}")
            work = work_of(it)
            word = jump_and_link(it.address, base + self.labels[work]) if work else 0x00000013
            data[it.address : it.address + 4] = word.to_bytes(4, "little")
        return bytes(data)


def told_by_qemu(said, images):
    """The outputs by image, of which the tasks are known, from what the process has written: a task's number and a word, or -1 twice before
    an image."""
    if len(said) % 8:
        raise ValueError("what qemu's process wrote is cut")
    found, whole = [], struct.unpack(f"<{len(said) // 4}I", said)
    for number, word in zip(whole[::2], whole[1::2]):
        if number == 2**32 - 1:
            found.append(collections.defaultdict(list))
        else:
            found[-1][number].append(word)
    if len(found) != len(images):
        raise ValueError(f"{len(found)} of {len(images)} images have run")
    texts = []
    for tasks, words in zip(images, found):
        rows = [[f"task {task} jobs {jobs}", *(f"out {it}" for it in words[number])] for number, (task, jobs, *_) in enumerate(tasks)]
        texts.append("".join(f"{line}\n" for row in rows for line in row))
    return texts


def work_of(line):
    """The label of the code that does a custom word's work; none has those that speak of time."""
    if line.name == "pm.done":
        return "done"
    return f"{line.name[3:]}_{line.operands()[0]}" if line.name in ("pm.in", "pm.out") else None


def jump_and_link(at, target):
    """The word of `jal x9` to the target."""
    by = target - at
    assert -(2**20) <= by < 2**20
    return (by >> 20 & 1) << 31 | (by >> 1 & 0x3FF) << 21 | (by >> 11 & 1) << 20 | (by >> 12 & 0xFF) << 12 | 9 << 7 | 0x6F
