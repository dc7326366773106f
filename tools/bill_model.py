#!/usr/bin/env python3
"""Another model of what the bound of a job is made of, word by word, from the description in docs/TIME.md alone.

Programs are the trees of `code_model.py`. A bill tells for each address, and for "switch", the instructions, cycles, misses and lines written
back on the path that counts most. Its cycles add up to the `wcet` of `prem_time`.
"""
import collections

from code_model import BACK, DONE, FILL, MEM, SWITCH, Address, Call, Compiled, Either, Function, Program, Set, Word
from code_model import addi, back_to, branch, immediate, jump, load, size, store

JUMP, TEST, MISS = jump(0, 0), branch(("bne", 10, 0)), FILL + BACK


class Bill(collections.Counter):
    """How much of each kind at each home; `cycles` is its sum of cycles."""

    def spend(self, home, cycles, instructions=0, lines=0):
        for kind, n in enumerate((instructions, cycles + lines * MISS, lines, lines)):
            self[home, kind] += n
        return self

    def add(self, other, times=1):
        for key, n in other.items():
            self[key] += times * n
        return self

    @property
    def cycles(self):
        return sum(n for (_, kind), n in self.items() if kind == 1)

    def at(self, home):
        return tuple(self[home, kind] for kind in range(4))


def both(*bills):
    total = Bill()
    for it in bills:
        total.add(it)
    return total


def dearer(a, b):
    return b if b.cycles > a.cycles else a


def cheaper(a, b):
    return b if b.cycles < a.cycles else a


def names(e):
    """The globals that an expression names."""
    if isinstance(e, int) or e[0] == "local":
        return set()
    if e[0] in ("global", "element"):
        return {e[1]}.union(*map(names, e[2:]))
    return set().union(*map(names, e[1:]))


def path(pieces, at, lines, called):
    """The bill of pieces at a place, where a word at a place may bring in so many lines; and where they end."""
    bill = Bill()

    def word(here, w):
        bill.spend(here, w.cost, 1, lines(here, w))

    def one(here, w):
        return Bill().spend(here, w.cost, 1, lines(here, w))

    for it in pieces:
        if isinstance(it, Word):
            word(at, it)
            at += 4
        elif isinstance(it, Address):
            word(at, addi(0, 0, 0))
            word(at + 4, addi(0, 0, 0))
            at += 8
        elif isinstance(it, Call):
            word(at, JUMP)
            bill.add(called(it))
            at += 4
        elif isinstance(it, Either):
            word(at, TEST)
            first, end = path(it.taken, at + 8, lines, called)
            if it.other:
                first.add(one(end, JUMP))
                end += 4
            second, end = path(it.other, end, lines, called)
            bill.add(dearer(first, both(one(at + 4, JUMP), second)))
            at = end
        else:
            head, test_at = path(it.head, at, lines, called)
            body, end = path(it.body, test_at + 8, lines, called)
            bill.add(both(head, one(test_at, TEST), body, one(end, JUMP)), it.turns)
            bill.add(both(head, one(test_at, TEST), one(test_at + 4, JUMP)))
            at = end + 4
    return bill, at


def by_rule(_, w):
    return w.accesses


class Statement:
    """A statement with its pieces, the globals that it names itself, and what is inside."""

    def __init__(self, task, f, it):
        code = task.compiled.code
        self.kind, self.pieces, self.inner = it[0], code.statement(f, it), []
        self.size = size(self.pieces)
        if self.kind == "set":
            self.names = names(it[1]) | names(it[2])
        elif self.kind == "out":
            self.names = names(it[1])
        elif self.kind == "in":
            self.names = set()
        elif self.kind == "if":
            self.names, self.condition = names(it[1]), code.value(f, it[1])
            self.inner = [task.block(f, it[2]), task.block(f, it[3])]
        elif self.kind == "for":
            _, i, low, _, high, self.turns, body = it
            slot = f.slots[i]
            self.names = (set() if isinstance(low, int) else names(low)) | (set() if isinstance(high, int) else names(high))
            self.first = [*code.value(f, low), store(10, slot, 2)]
            self.head = [load(10, slot, 2), *code.value(f, high, 1)]
            self.step = [load(10, slot, 2), immediate("add", 10, 10, 1), store(10, slot, 2)]
            self.inner = [task.block(f, body)]
        else:
            self.callee, self.count = task.compiled.program.functions[it[1]], len(it[2])
            self.names = set().union(*map(names, it[2]))
            self.arguments, self.call = self.pieces[:-1], self.pieces[-1]

    def all_names(self):
        return self.names.union(*(s.all_names() for block in self.inner for s in block))

    def callees(self):
        inside = [f for block in self.inner for s in block for f in s.callees()]
        return [self.callee] if self.kind not in ("set", "out", "in", "if", "for") else inside


class Edge:
    def __init__(self, pieces=(), named=(), below=()):
        self.pieces, self.names, self.below = list(pieces), set(named), list(below)


class Facts:
    """Of a function: the bytes of the code that a call runs and of the data that it touches, and whether a marked call is in it."""

    def __init__(self, code, data, cuts):
        self.code, self.data, self.cuts = code, data, cuts


class Task:
    """The bill of a job of a compiled program."""

    def __init__(self, compiled):
        self.compiled, self.facts, self.least_of, self.parted_of = compiled, {}, {}, {}
        asked, places = compiled.asked, compiled.places
        job = compiled.program.functions["job"]
        bottom, edge = places[("stack",)], compiled.top - job.frame
        self.line, self.sets, self.ways = asked.line, asked.sets, asked.ways
        for f in compiled.program.functions.values():
            self.stack = (edge, compiled.top) if f is job else (bottom, edge)
            self.learn(f)

    def part(self, part):
        return self.compiled.places[part], self.compiled.places[part] + self.compiled.sizes[part]

    def block(self, f, body):
        return [Statement(self, f, it) for it in body]

    # scopes
    def lines_of(self, ranges):
        return {n for a, b in ranges for n in range(a // self.line, -(-b // self.line)) if a < b}

    def scope(self, at, pieces, named, callees, below=()):
        data = [self.stack, *(self.part(("global", g)) for g in named), *(r for f in callees for r in self.facts[f.name].data), *below]
        code = [(at, at + size(pieces)), *(r for f in callees for r in self.facts[f.name].code)]
        held, touched = self.lines_of(code + data), self.lines_of(data)
        fullness = collections.Counter(n % self.sets for n in held)

        def roomy(n):
            return fullness[n % self.sets] <= self.ways

        crowded = not all(map(roomy, touched))

        def lines(here, w):
            return (not roomy(here // self.line)) + (crowded and w.accesses == 2)

        def called(call):
            place = self.compiled.places[call.part]
            return path(self.compiled.code.pieces[call.part[1]], place, lines, called)[0]

        bill = path(pieces, at, lines, called)[0]
        return bill.spend(at, 0, 0, len([n for n in held if roomy(n)]))

    def own(self, at, pieces):
        return path(pieces, at, by_rule, None)[0]

    def word(self, at, w):
        return self.own(at, [w])

    # statements without marked calls
    def scope_of(self, at, block):
        pieces = [p for s in block for p in s.pieces]
        return self.scope(at, pieces, set().union(*(s.all_names() for s in block)), [f for s in block for f in s.callees()])

    def least(self, at, block):
        return cheaper(self.scope_of(at, block), self.apart(at, block))

    def apart(self, at, block):
        bill = Bill()
        for s in block:
            bill.add(cheaper(self.scope_of(at, [s]), self.divided(at, s, self.least, lambda f: self.least_of[f.name])))
            at += s.size
        return bill

    def divided(self, at, s, inside, called):
        """A statement by its parts, where statements inside and called functions have such bills."""
        if s.kind == "if":
            test_at = at + size(s.condition)
            first = inside(test_at + 8, s.inner[0])
            end = test_at + 8 + sum(x.size for x in s.inner[0])
            skip = bool(s.inner[1]) and bool([p for x in s.inner[1] for p in x.pieces])
            if skip:
                first.add(self.word(end, JUMP))
            second = both(self.word(test_at + 4, JUMP), inside(end + 4 * skip, s.inner[1]))
            return both(self.own(at, s.condition), self.word(test_at, TEST), dearer(first, second))
        if s.kind == "for":
            head_at = at + size(s.first)
            head, test_at = path(s.head, head_at, by_rule, None)
            end = test_at + 8 + sum(x.size for x in s.inner[0])
            step, back_at = path(s.step, end, by_rule, None)
            turn = both(head, self.word(test_at, TEST), inside(test_at + 8, s.inner[0]), step, self.word(back_at, JUMP))
            out = both(head, self.word(test_at, TEST), self.word(test_at + 4, JUMP))
            return self.own(at, s.first).add(turn, s.turns).add(out)
        if s.kind in ("set", "out", "in"):
            return self.own(at, s.pieces)
        return both(self.own(at, s.arguments), self.word(at + size(s.arguments), JUMP), called(s.callee))

    # statements with marked calls
    def cuts(self, s):
        return any(f.stated or self.facts[f.name].cuts for f in s.callees())

    def passage(self, at, before, block, last):
        pieces = [*before.pieces, *(p for s in block for p in s.pieces), *last.pieces]
        named = before.names | last.names | set().union(*(s.all_names() for s in block))
        whole = self.scope(at, pieces, named, [f for s in block for f in s.callees()], before.below + last.below)
        inner = at + size(before.pieces)
        end = inner + sum(s.size for s in block)
        return cheaper(whole, both(self.own(at, before.pieces), self.least(inner, block), self.own(end, last.pieces)))

    def marked(self, f):
        if not f.stated:
            return self.parted_of[f.name]
        at = self.compiled.places[("stub", f.name)]
        return both(self.word(at, MEM), self.word(at, back_to(4))).spend("switch", 2 * SWITCH).spend(at, f.stated)

    def parted(self, at, before, block, last):
        bill, start, waiting, here = Bill(), at, [], at + size(before.pieces)
        for s in block:
            if not self.cuts(s):
                waiting.append(s)
                here += s.size
                continue
            if s.kind in ("if", "for"):
                bill.add(self.passage(start, before, waiting, Edge()))
                bill.add(self.divided(here, s, lambda place, inner: self.parted(place, Edge(), inner, Edge()), None))
                start = here + s.size
            else:
                low = self.stack[0] - s.callee.frame + 4
                below = [(low, low + 4 * s.count)] if s.count else []
                bill.add(self.passage(start, before, waiting, Edge(s.arguments, s.names, below)))
                call_at = here + size(s.arguments)
                bill.add(both(self.word(call_at, JUMP), self.marked(s.callee)))
                start = call_at + 4
            before, waiting, here = Edge(), [], here + s.size
        return bill.add(self.passage(start, before, waiting, last))

    # functions and the job
    def learn(self, f):
        code = self.compiled.code
        at, end = self.part(("code", f.name))
        block = self.block(f, f.body)
        opening = [addi(2, 2, -f.frame), store(1, 0, 2), *(p for n, first in f.locals for p in code.assign(f, ("local", n), first))]
        closing = [load(1, 0, 2), addi(2, 2, f.frame), back_to(1)]
        named = set().union(*(names(first) for _, first in f.locals))
        callees = [g for s in block for g in s.callees()]
        all_names = named.union(*(s.all_names() for s in block))
        quiet = [g for g in callees if not g.stated]
        inner = at + size(opening)
        last = inner + sum(s.size for s in block)
        cuts = any(self.cuts(s) for s in block)
        data = [self.stack, *(self.part(("global", g)) for g in all_names), *(r for g in quiet for r in self.facts[g.name].data)]
        if cuts:
            self.parted_of[f.name] = self.parted(at, Edge(opening, named), block, Edge(closing))
        else:
            whole = self.scope(at, code.pieces[f.name], all_names, callees)
            self.least_of[f.name] = cheaper(whole, both(self.own(at, opening), self.least(inner, block), self.own(last, closing)))
        self.facts[f.name] = Facts([(at, end), *(r for g in quiet for r in self.facts[g.name].code)], data, cuts)

    def bill(self):
        start = self.compiled.places[("start",)]
        around = both(self.word(start, JUMP), self.word(start + 4, DONE)).spend("switch", SWITCH)
        if self.facts["job"].cuts:
            return around.add(self.parted_of["job"])
        self.stack = (0, 0)
        job = self.compiled.program.functions["job"]
        whole = self.scope(start, [Call(1, ("code", "job")), DONE], (), [job]).spend("switch", SWITCH)
        return cheaper(whole, around.add(self.least_of["job"]))


def bill_of(program, asked):
    return Task(Compiled(program, asked)).bill()


# the programs of prem_profile/proofs/BoundLemmas/Words
def say():
    """void say(void) { out(1); if (g) { out(2); } else { out(3); out(4); } }"""
    return Function("say", [], [], [("out", 1), ("if", ("global", "g"), [("out", 2)], [("out", 3), ("out", 4)])])


GLOBALS = [("g", "int", 1, []), ("a", "int", 8, [])]


def quiet():
    """A loop with a choice in it, and calls."""
    element = ("element", "a", ("local", "i"))
    turn = [("if", element, [("out", 1), ("call", "say", [])], [("out", element), ("out", 3), ("out", 4)])]
    body = [("call", "say", []), ("for", "i", 0, "<", 5, 5, turn), ("call", "say", [])]
    return Program(GLOBALS, [say(), Function("job", [], [("i", 0)], body)])


def mixed():
    """Marked calls in a loop and in a choice."""
    store_x = Function("set", ["x"], [], [("set", ("global", "g"), ("local", "x"))], 491, [("g", 0, 0)])
    choice = ("if", ("global", "g"), [("call", "set", [3]), ("out", ("element", "a", 2))], [("out", 1)])
    body = [("for", "i", 0, "<", 5, 5, [("call", "set", [7]), ("call", "say", [])]), ("call", "say", []), choice]
    return Program(GLOBALS, [store_x, say(), Function("job", [], [("i", 0)], body)])


def rows(program, sets, ways):
    """Instructions, cycles and misses of each word up to the last one that is billed."""
    bill = bill_of(program, Set(False, False, 16, sets, ways, "m", 1000, 1, []))
    last = max(home for home, _ in bill if home != "switch")
    words = [bill.at(at)[:3] for at in range(0, last + 4, 4)]
    return bill.cycles, bill.at("switch")[1], words


if __name__ == "__main__":
    for name, program, sets, ways in [("quiet", quiet, 8, 2), ("quiet", quiet, 4, 1), ("mixed", mixed, 8, 1)]:
        cycles, switches, words = rows(program(), sets, ways)
        print(f"{name}, {sets} sets of {ways}: {cycles} cycles, {switches} of them in switches, {len(words)} words")
        print("    ≡ " + " ∷ ".join(f"({i}, ({c}, {m}))" for i, c, m in words) + " ∷ []")
