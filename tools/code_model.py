"""Another model of compiled code, from its description alone: pieces, words, places, bounds, and the image of a set of one task.

Nothing is shared with the crates. Programs are written as trees here, with the turns of their loops; there is no reader of sources.
"""
import collections

Word = collections.namedtuple("Word", "word cost accesses")
Address = collections.namedtuple("Address", "rd part plus")
Either = collections.namedtuple("Either", "test taken other")
Repeat = collections.namedtuple("Repeat", "turns head test body")
Call = collections.namedtuple("Call", "link part")
Set = collections.namedtuple("Set", "fifo multiplies line sets ways name period jobs devices")

FILL, BACK, SWITCH, MEMORY = 10, 10, 20, 1 << 20
ALU = {"add": (0, 0), "sub": (0, 32), "sll": (1, 0), "slt": (2, 0), "sltu": (3, 0), "xor": (4, 0), "srl": (5, 0), "sra": (5, 32), "or": (6, 0), "and": (7, 0)}
PRODUCTS = {"mul": (0, 4), "div": (4, 20), "divu": (5, 20), "rem": (6, 20), "remu": (7, 20)}
BRANCHES = {"beq": 0, "bne": 1, "blt": 4, "bge": 5, "bltu": 6, "bgeu": 7}
SIZES = {"char": 1, "short": 2, "int": 4}


# instructions
def register(name, rd, a, b):
    if name in PRODUCTS:
        f3, cost = PRODUCTS[name]
        return Word(1 << 25 | b << 20 | a << 15 | f3 << 12 | rd << 7 | 0x33, cost, 1)
    f3, f7 = ALU[name]
    return Word(f7 << 25 | b << 20 | a << 15 | f3 << 12 | rd << 7 | 0x33, 1, 1)


def immediate(name, rd, a, constant):
    f3, f7 = ALU[name]
    return Word((f7 << 25 | (constant & 0xFFF) << 20) | a << 15 | f3 << 12 | rd << 7 | 0x13, 1, 1)


def addi(rd, a, constant):
    return immediate("add", rd, a, constant)


def upper(rd, number):
    return Word((number & 0xFFFFF) << 12 | rd << 7 | 0x37, 1, 1)


def load(rd, offset, a, size=4):
    return Word((offset & 0xFFF) << 20 | a << 15 | {1: 0, 2: 1, 4: 2}[size] << 12 | rd << 7 | 0x03, 2, 2)


def store(value, offset, a, size=4):
    offset &= 0xFFF
    return Word((offset >> 5) << 25 | value << 20 | a << 15 | {1: 0, 2: 1, 4: 2}[size] << 12 | (offset & 31) << 7 | 0x23, 2, 2)


def jump(rd, offset):
    n = offset & 0x1FFFFF
    return Word((n >> 20) << 31 | (n >> 1 & 1023) << 21 | (n >> 11 & 1) << 20 | (n >> 12 & 255) << 12 | rd << 7 | 0x6F, 2, 1)


def back_to(a):
    return Word(a << 15 | 0x67, 2, 1)


def branch(test):
    name, a, b = test
    return Word(8 << 7 | b << 20 | a << 15 | BRANCHES[name] << 12 | 0x63, 2, 1)  # over the jump behind it


def custom(f3, rd=0, a=0):
    return Word(a << 15 | f3 << 12 | rd << 7 | 0x0B, 1, 1)


MEM, END, DONE = custom(0), custom(2), custom(3)


def pair(rd, value):
    return [upper(rd, (value + 0x800) >> 12), addi(rd, rd, value)]


def constant(rd, value):
    value = (value + 2**31) % 2**32 - 2**31
    return [addi(rd, 0, value)] if -2048 <= value <= 2047 else pair(rd, value)


# pieces
def flat(pieces, at, places):
    words = []
    for it in pieces:
        here = at + 4 * len(words)
        if isinstance(it, Word):
            words.append(it)
        elif isinstance(it, Address):
            words += pair(it.rd, places[it.part] + it.plus)
        elif isinstance(it, Call):
            words.append(jump(it.link, places[it.part] - here))
        elif isinstance(it, Either):
            taken = flat(it.taken, here + 8, places)
            other_at = here + 8 + 4 * len(taken) + (4 if it.other else 0)
            other = flat(it.other, other_at, places)
            words += [branch(it.test), jump(0, other_at - here - 4), *taken]
            words += [jump(0, 4 + 4 * len(other)), *other] if it.other else []
        else:
            head = flat(it.head, here, places)
            test_at = here + 4 * len(head)
            body = flat(it.body, test_at + 8, places)
            end = test_at + 8 + 4 * len(body)
            words += [*head, branch(it.test), jump(0, end + 4 - test_at - 4), *body, jump(0, here - end)]
    return words


def size(pieces):
    return 4 * len(flat(pieces, 0, collections.defaultdict(int)))


def cost(pieces, each, called):
    """The greatest cost of a path, where a word costs what `each` tells, and a call what `called` does."""
    two = each(branch(("bne", 0, 0)))
    total = 0
    for it in pieces:
        if isinstance(it, Word):
            total += each(it)
        elif isinstance(it, Address):
            total += 2 * each(addi(0, 0, 0))
        elif isinstance(it, Call):
            total += called(it)
        elif isinstance(it, Either):
            taken, other = cost(it.taken, each, called), cost(it.other, each, called)
            total += two + max(taken + (two if it.other else 0), two + other)
        else:
            head, body = cost(it.head, each, called), cost(it.body, each, called)
            total += it.turns * (head + 2 * two + body) + head + 2 * two
    return total


# expressions: a number; ("local", name); ("global", name); ("element", name, index); (operator, left, right), with u behind the operator
# where it computes in unsigned; or ("-", e)
SIMPLE = {"+": "add", "-": "sub", "&": "and", "|": "or", "^": "xor", "<<": "sll", ">>": "sra", ">>u": "srl"}


def by_steps(operator, r, s):
    if operator in ("*", "*u"):
        body = [immediate("and", 6, s, 1), Either(("bne", 6, 0), [register("add", 5, 5, r)], []), immediate("sll", r, r, 1), immediate("srl", s, s, 1)]
        return [addi(5, 0, 0), Repeat(32, [], ("bne", s, 0), body), addi(r, 5, 0)]
    body = [
        immediate("srl", 30, 7, 31), immediate("sll", 7, 7, 1), immediate("srl", 29, 5, 31), register("or", 7, 7, 29),
        immediate("sll", 5, 5, 1), addi(28, 28, -1), register("sltu", 29, 7, 6), immediate("xor", 29, 29, 1),
        register("or", 29, 29, 30), Either(("bne", 29, 0), [register("sub", 7, 7, 6), immediate("or", 5, 5, 1)], []),
    ]
    divide = [addi(7, 0, 0), addi(28, 0, 32), Repeat(32, [], ("bne", 28, 0), body)]
    if operator.endswith("u"):
        return [addi(5, r, 0), addi(6, s, 0), *divide, addi(r, 5 if operator == "/u" else 7, 0)]
    before = [
        immediate("sra", 29, r, 31), register("xor", 5, r, 29), register("sub", 5, 5, 29), immediate("sra", 31, s, 31),
        register("xor", 6, s, 31), register("sub", 6, 6, 31), addi(r, 29, 0), register("xor", s, 29, 31),
    ]
    after = [register("xor", 5, 5, s), register("sub", r, 5, s)] if operator == "/" else [register("xor", 7, 7, r), register("sub", r, 7, r)]
    return before + divide + after


class Function:
    def __init__(self, name, parameters, locals_, body, stated=None, regions=()):
        self.name, self.parameters, self.locals, self.body = name, parameters, locals_, body
        self.stated, self.regions = stated, regions
        self.slots = {it: 4 + 4 * k for k, it in enumerate([*parameters, *(n for n, _ in locals_)])}
        self.frame = -(-(4 + 4 * len(self.slots)) // 16) * 16
        self.calls = []


class Program:
    def __init__(self, global_list, functions):
        self.globals = {name: (kind, count, values) for name, kind, count, values in global_list}
        self.functions = {f.name: f for f in functions}


class Code:
    """The code of a program's functions, for one of the targets."""

    def __init__(self, program, multiplies):
        self.program, self.multiplies = program, multiplies
        self.pieces = {name: self.function(f) for name, f in program.functions.items()}

    def value(self, f, e, k=0):
        r, s = 10 + k, 11 + k
        if isinstance(e, int):
            return constant(r, e)
        if e[0] == "local":
            return [load(r, f.slots[e[1]], 2)]
        if e[0] == "global":
            return [Address(5, ("global", e[1]), 0), load(r, 0, 5, SIZES[self.program.globals[e[1]][0]])]
        if e[0] == "element":
            width = SIZES[self.program.globals[e[1]][0]]
            return [*self.value(f, e[2], k), *self.scale(r, width), Address(5, ("global", e[1]), 0), register("add", r, r, 5), load(r, 0, r, width)]
        if e[0] == "-" and len(e) == 2:
            return [*self.value(f, e[1], k), register("sub", r, 0, r)]
        operator, left, right = e
        return [*self.value(f, left, k), *self.value(f, right, k + 1), *self.operation(operator, r, s)]

    def scale(self, r, width):
        return [immediate("sll", r, r, width // 2)] if width > 1 else []

    def operation(self, operator, r, s):
        plain = operator.rstrip("u")
        if operator in SIMPLE or plain in ("+", "-", "&", "|", "^", "<<"):
            return [register(SIMPLE.get(operator, SIMPLE.get(plain)), r, r, s)]
        less = "sltu" if operator.endswith("u") else "slt"
        compare = {
            "<": [register(less, r, r, s)], ">": [register(less, r, s, r)],
            "<=": [register(less, r, s, r), immediate("xor", r, r, 1)], ">=": [register(less, r, r, s), immediate("xor", r, r, 1)],
            "==": [register("sub", r, r, s), immediate("sltu", r, r, 1)], "!=": [register("sub", r, r, s), register("sltu", r, 0, r)],
        }
        if plain in compare:
            return compare[plain]
        if self.multiplies:
            return [register({"*": "mul", "*u": "mul", "/": "div", "/u": "divu", "%": "rem", "%u": "remu"}[operator], r, r, s)]
        return by_steps(operator, r, s)

    def assign(self, f, target, e):
        """The value of e goes to ("local", x), ("global", g) or ("element", g, index)."""
        first = self.value(f, e)
        if target[0] == "local":
            return [*first, store(10, f.slots[target[1]], 2)]
        width = SIZES[self.program.globals[target[1]][0]]
        place = Address(5, ("global", target[1]), 0)
        if target[0] == "global":
            return [*first, place, store(10, 0, 5, width)]
        return [*first, *self.value(f, target[2], 1), *self.scale(11, width), place, register("add", 11, 11, 5), store(10, 0, 11, width)]

    def statements(self, f, body):
        return [piece for it in body for piece in self.statement(f, it)]

    def statement(self, f, it):
        kind = it[0]
        if kind == "set":
            return self.assign(f, it[1], it[2])
        if kind == "out":
            return [*self.value(f, it[1]), custom(5, a=10)]
        if kind == "in":
            return [custom(4, rd=10), store(10, f.slots[it[1]], 2)]
        if kind == "if":
            return [*self.value(f, it[1]), Either(("bne", 10, 0), self.statements(f, it[2]), self.statements(f, it[3]))]
        if kind == "for":
            _, i, low, compare, high, turns, body = it
            at = f.slots[i]
            test = ("blt", 10, 11) if compare == "<" else ("bge", 11, 10)
            again = [*self.statements(f, body), load(10, at, 2), addi(10, 10, 1), store(10, at, 2)]
            return [*self.value(f, low), store(10, at, 2), Repeat(turns, [load(10, at, 2), *self.value(f, high, 1)], test, again)]
        called = self.program.functions[it[1]]
        f.calls.append(called)
        pieces = []
        for j, argument in enumerate(it[2]):
            pieces += [*self.value(f, argument), store(10, 4 + 4 * j - called.frame, 2)]
        return [*pieces, Call(4, ("stub", called.name)) if called.stated else Call(1, ("code", called.name))]

    def function(self, f):
        code = [addi(2, 2, -f.frame), store(1, 0, 2)]
        for name, first in f.locals:
            code += self.assign(f, ("local", name), first)
        return [*code, *self.statements(f, f.body), load(1, 0, 2), addi(2, 2, f.frame), back_to(1)]


class Compiled:
    """Places, stubs, bounds and the image of a set of one task, for marked functions that call none."""

    def __init__(self, program, asked):
        self.program, self.asked = program, asked
        self.code = Code(program, asked.multiplies)
        marked = [f for f in program.functions.values() if f.stated]
        job = program.functions["job"]
        stack = job.frame + max([f.frame for f in job.calls + marked], default=0)
        parts = [(("start",), 8, 4)]
        parts += [(("code", name), size(it), 4) for name, it in self.code.pieces.items()]
        parts += [(("stub", f.name), 4 * (7 + 9 * (3 + len(f.regions)) + (5 if asked.fifo else 0)), 4) for f in marked]
        parts += [(("global", name), -(-SIZES[kind] * count // 4) * 4, 4) for name, (kind, count, _) in program.globals.items()]
        parts += [(("stack",), stack, 16)]
        parts += [(("area", name), lines * asked.line, asked.line) for name, _, _, lines in asked.devices]
        self.places, self.sizes, at = {}, {}, 0
        for part, length, align in parts:
            at = -(-at // align) * align
            self.places[part], self.sizes[part] = at, length
            at += length
        self.top = self.places[("stack",)] + stack
        self.stubs = {f.name: self.stub(f) for f in marked}
        for name, it in self.stubs.items():
            assert size(it) == self.sizes[("stub", name)]

    def ranges(self, f):
        def whole(part):
            return self.places[part], self.places[part] + self.sizes[part]

        end = self.top - self.program.functions["job"].frame
        regions = []
        for name, low, high in f.regions:
            at, width = self.places[("global", name)], SIZES[self.program.globals[name][0]]
            regions.append((at + width * low, at + width * (high + 1)))
        return [whole(("stub", f.name)), whole(("code", f.name)), (end - f.frame, end), *regions]

    def lines(self, f):
        return {n for a, b in self.ranges(f) for n in range(a // self.asked.line, -(-b // self.asked.line))}

    def most(self, f):
        """The lines of the fullest set of the cache."""
        return max(collections.Counter(n % self.asked.sets for n in self.lines(f)).values())

    def stub(self, f):
        line, loops = self.asked.line, []
        for a, b in self.ranges(f):
            turns = -(-b // line) - a // line
            loops += [*pair(5, a // line * line), *pair(6, b), Repeat(turns, [], ("bltu", 5, 6), [load(0, 0, 5), addi(5, 5, line)])]
        if self.asked.fifo:
            loops = [addi(7, 0, self.asked.ways), Repeat(self.asked.ways, [], ("bne", 7, 0), [*loops, addi(7, 7, -1)])]
        return [MEM, *loops, *pair(5, f.stated), custom(1, a=5), Call(1, ("code", f.name)), END, back_to(4)]

    def bound(self, f):
        body = cost(self.code.pieces[f.name], lambda word: word.cost, None)
        path = cost(self.stubs[f.name][1:-1], lambda word: word.cost, lambda call: 2 + body)
        return path + len(self.lines(f)) * (FILL + BACK)

    def job_bound(self):
        def each(word):
            return word.cost + word.accesses * (FILL + BACK)

        def called(call):
            f = self.program.functions[call.part[1]]
            if call.part[0] == "code":
                return each(jump(1, 0)) + cost(self.code.pieces[f.name], each, called)
            return each(jump(4, 0)) + each(MEM) + SWITCH + f.stated + SWITCH + each(back_to(4))

        return SWITCH + each(jump(1, 0)) + cost(self.code.pieces["job"], each, called) + each(DONE)

    def limit(self):
        return (self.asked.jobs - 1) * self.asked.period + self.asked.jobs * self.job_bound()

    def content(self):
        words = {("start",): [jump(1, self.places[("code", "job")]), DONE]}
        for kind, pieces in (("code", self.code.pieces), ("stub", self.stubs)):
            for name, it in pieces.items():
                words[(kind, name)] = flat(it, self.places[(kind, name)], self.places)
        content = bytearray(self.top)
        for part, it in words.items():
            data = b"".join(w.word.to_bytes(4, "little") for w in it)
            content[self.places[part] : self.places[part] + len(data)] = data
        for name, (kind, _, values) in self.program.globals.items():
            at, width = self.places[("global", name)], SIZES[kind]
            for k, value in enumerate(values):
                content[at + width * k : at + width * (k + 1)] = (value % 256**width).to_bytes(width, "little")
        return bytes(content)

    def code_bytes(self):
        return sum(n for part, n in self.sizes.items() if part[0] in ("start", "code", "stub"))

    def image(self):
        asked, content = self.asked, self.content()
        traits = asked.fifo + 2 * asked.multiplies

        def words(*numbers):
            return b"".join(n.to_bytes(4, "little") for n in numbers)

        data = b"PREM" + b"".join(n.to_bytes(2, "little") for n in (2 if traits else 1, 1, len(asked.devices), traits))
        data += words(asked.line, asked.sets, asked.ways, FILL, BACK, SWITCH, MEMORY, len(content))
        data += bytes([len(asked.name)]) + asked.name.encode() + words(asked.period, asked.jobs, 0, self.top)
        for name, queue, price, lines in asked.devices:
            data += bytes([len(name)]) + name.encode() + words(queue, price, lines, self.places[("area", name)])
        return data + content
