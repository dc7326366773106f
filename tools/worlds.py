"""Draws task sets from seeds, for against-world: programs that use the whole language, with plants, devices, inputs and requests.

Most of them break no rule: indices are cut to their arrays, divisors are never 0, arguments lie in their ranges, and a marked function's
regions cover what it was drawn to touch. Stated lengths are left open, as `{length of NAME}`, until the bounds are known. No expression
is drawn whose value C leaves open, but for sums past an int's range, which gcc's -fwrapv settles as the language does.
"""
import random

WIDTHS = {"int": 32, "unsigned": 32, "unsigned int": 32, "short": 16, "unsigned short": 16, "signed char": 8, "unsigned char": 8}
WORDS = ("int", "unsigned", "unsigned int")
PLAIN = ["+", "-", "*", "&", "|", "^", "<", "<=", ">", ">=", "==", "!=", "&&", "||"]
STEPS = [" = {}", " += {}", " -= {}", "++", "--"]
# Statements that a job, and a function, may take in all its turns.
MOST_OF_JOB, MOST_OF_FUNCTION = 400, 60


class Variable:
    """A global, parameter or local: its length where it is an array, the RANGE that is stated, and the ends of its values where they are known."""

    def __init__(self, name, kind, length=None, stated=None):
        self.name, self.kind, self.length, self.stated, self.ends = name, kind, length, stated, None
        self.is_int = not kind.startswith("unsigned") or kind in ("unsigned short", "unsigned char")


class Function:
    def __init__(self, name, result, is_marked=False):
        self.name, self.result, self.is_marked = name, result, is_marked
        self.params, self.touched, self.is_system, self.weight = [], {}, False, 1


class Program:
    """One task's source, drawn piece by piece."""

    def __init__(self, draw):
        self.draw, self.globals, self.functions, self.items = draw, [], [], []
        self.function, self.scope, self.fixed, self.turns = None, [], set(), 1

    # Values

    def literal(self, is_int):
        draw = self.draw
        number = draw.choice([draw.randrange(10), draw.randrange(256), draw.randrange(65536), draw.randrange(2**31), 2**31 - 1])
        if is_int:
            return draw.choice([str(number), hex(number), f"0X{number:X}"])
        number = draw.choice([number, draw.randrange(2**32), 2**32 - 1])
        return draw.choice([f"{number}u", f"{number}U", f"{number:#x}u"] + [hex(number)] * (number > 2**31 - 1))

    def touch(self, variable, low, high):
        touched = self.function.touched
        first, last = touched.get(variable.name, (low, high))
        touched[variable.name] = min(first, low), max(last, high)

    def index(self, array, depth):
        """An index of the array, and the ends between which it lies."""
        draw, last = self.draw, array.length - 1
        counters = [it for it in self.scope if it.ends and 0 <= it.ends[0] and it.ends[1] <= last]
        if counters and draw.random() < 0.5:
            counter = draw.choice(counters)
            plus = draw.randrange(last - counter.ends[1] + 1)
            text = counter.name if plus == 0 else f"{counter.name} + {plus}"
            return text, counter.ends[0] + plus, counter.ends[1] + plus
        if draw.random() < 0.3:
            at = draw.randrange(array.length)
            return str(at), at, at
        mask = draw.choice([it for it in (0, 1, 3, 7, 15, 31, 63) if it <= last])
        plus = draw.randrange(last - mask + 1)
        text = f"({self.value(True, depth - 1)}) & {mask}"
        return (text, 0, mask) if plus == 0 else (f"{plus} + (({text}))", plus, plus + mask)

    def place(self, variable, depth):
        """The variable as it is read or assigned."""
        if variable not in self.globals:
            return variable.name
        if variable.length is None:
            self.touch(variable, 0, 0)
            return variable.name
        text, low, high = self.index(variable, depth)
        self.touch(variable, low, high)
        return f"{variable.name}[{text}]"

    def atom(self, is_int, depth):
        choices = [it for it in [*self.scope, *self.globals] if it.is_int or not is_int]
        if not choices or self.draw.random() < 0.3:
            return self.literal(is_int)
        return self.place(self.draw.choice(choices), depth)

    def whole(self, is_int, depth):
        """A value that an operator can take as it stands."""
        return self.atom(is_int, depth) if depth <= 0 or self.draw.random() < 0.4 else f"({self.value(is_int, depth - 1)})"

    def divisor(self, is_int, depth):
        """A value that is neither 0 nor -1."""
        draw = self.draw
        if draw.random() < 0.4:
            return f"({self.whole(is_int, depth - 1)} & {draw.choice([1, 7, 15, 255])}) + {draw.randrange(1, 9)}"
        number = draw.choice([draw.randrange(1, 20), draw.randrange(1, 2**31 - 1)])
        return f"-{number + 1}" if draw.random() < 0.3 else str(number) if is_int else f"{number}u"

    def value(self, is_int, depth):
        """An expression, of type int where this is asked for."""
        draw, roll = self.draw, self.draw.random()
        if depth <= 0 or roll < 0.2:
            return self.atom(is_int, depth)
        left = self.whole(is_int, depth - 1)
        if roll < 0.3:
            return draw.choice(["-", "~", "!"]) + f"({left})"
        if roll < 0.42:
            return f"{left} {draw.choice('/%')} ({self.divisor(is_int, depth - 1)})"
        if roll < 0.55:
            count = str(draw.randrange(32)) if draw.random() < 0.6 else f"({self.whole(True, depth - 1)} & 31)"
            return f"{left} {draw.choice(['<<', '>>'])} {count}"
        right = self.whole(is_int, depth - 1)
        if draw.random() < 0.3:
            right = self.value(is_int, depth - 2)
        return f"{left} {draw.choice(PLAIN)} {right}"

    def within(self, kind, ends):
        """A value that lies between the ends, as the analysis of ranges sees it."""
        draw, (low, high), is_int = self.draw, ends, kind == "int"
        if draw.random() < 0.3:
            return str(draw.randint(low, high))
        if low == 0:
            return f"({self.value(is_int, 1)}) & {high}"
        return f"({self.value(True, 1)}) % {high + 1}"

    # Statements

    def locals_of(self, are_written=False):
        return [it for it in self.scope if not (are_written and it.name in self.fixed)]

    def assign(self):
        draw = self.draw
        choices = self.locals_of(are_written=True) + [it for it in self.globals if draw.random() < 0.7]
        if not choices:
            return self.skip()
        variable = draw.choice(choices)
        if variable not in self.globals:
            variable.ends = None
        step = draw.choice(STEPS[:1] * 4 + STEPS)
        return f"{self.place(variable, 2)}{step.format(self.value(False, 3))};"

    def skip(self):
        return "{ }"

    def system(self):
        """A word that comes in or goes out."""
        targets = self.locals_of(are_written=True)
        if self.function.is_marked or not self.function.is_system:
            return self.assign()
        if targets and self.draw.random() < 0.4:
            target = self.draw.choice(targets)
            target.ends = None
            return f"{target.name} = in();"
        return f"out({self.value(False, 3)});"

    def call(self):
        draw, is_job = self.draw, self.function.name == "job"
        choices = [it for it in self.functions if is_job or not it.is_marked]
        choices = [it for it in choices if self.function.is_system or not it.is_system]
        most = MOST_OF_JOB if is_job else MOST_OF_FUNCTION
        choices = [it for it in choices if self.function.weight + self.turns * it.weight <= most]
        if not choices:
            return self.assign()
        callee = draw.choice(choices)
        self.function.weight += self.turns * callee.weight
        for name, (low, high) in callee.touched.items():
            self.touch(next(it for it in self.globals if it.name == name), low, high)
        arguments = [self.within(it.kind, it.stated) if it.stated else self.value(False, 2) for it in callee.params]
        targets = self.locals_of(are_written=True)
        text = f"{callee.name}({', '.join(arguments)});"
        if callee.result != "void" and targets and draw.random() < 0.8:
            target = draw.choice(targets)
            target.ends = None
            return f"{target.name} = {text}"
        return text

    def forget(self):
        """What is known of locals that aren't counted with."""
        for it in self.scope:
            if it.name not in self.fixed:
                it.ends = None

    def count(self, depth):
        """A counting loop."""
        draw = self.draw
        counters = [it for it in self.locals_of(are_written=True) if it.kind == "int" and it not in self.function.params]
        if not counters or self.turns > 24:
            return self.assign()
        counter = draw.choice(counters)
        counter.ends = None
        low, high, step = draw.randrange(3), draw.randrange(1, 9), draw.choice([1, 1, 1, 2, 3])
        closed = draw.random() < 0.3
        bound = str(high) if draw.random() < 0.6 else f"({self.value(True, 1)} & {high})"
        if bound.startswith("("):
            bound = f"(({bound[1:].rsplit(' & ', 1)[0]}) & {high})"
        most = high if closed else high - 1
        shapes = [f"{counter.name}++"] * (step == 1) + [f"{counter.name} += {step}", f"{counter.name} = {counter.name} + {step}"]
        head = f"for ({counter.name} = {low}; {counter.name} {'<=' if closed else '<'} {bound}; {draw.choice(shapes)})"
        was, turns = self.turns, max(1, most - low + 1)
        self.turns, counter.ends = was * turns, (low, max(low, most))
        self.fixed.add(counter.name)
        self.forget()
        body = self.statement(depth - 1)
        self.forget()
        self.fixed.discard(counter.name)
        self.turns, counter.ends = was, None
        return f"{head} {body}"

    def bounded(self, depth):
        """A loop that says itself how many turns it takes at most."""
        if self.turns > 24:
            return self.assign()
        most, was = self.draw.randrange(1, 6), self.turns
        self.forget()
        condition = self.value(False, 2)
        self.turns = was * most
        body = self.statement(depth - 1)
        self.turns = was
        self.forget()
        return f"BOUNDED({most}) while ({condition}) {body}"

    def choose(self, depth):
        condition = self.value(False, 3)
        text = f"if ({condition}) {self.block(depth - 1)}"
        self.forget()
        if self.draw.random() < 0.5:
            text += f" else {self.block(depth - 1)}"
            self.forget()
        return text

    def block(self, depth):
        return "{ " + " ".join(self.statement(depth) for _ in range(self.draw.randrange(1, 4))) + " }"

    def statement(self, depth):
        self.function.weight += self.turns
        most = MOST_OF_JOB if self.function.name == "job" else MOST_OF_FUNCTION
        roll = self.draw.random()
        if depth <= 0 or self.function.weight > most:
            return self.system() if roll < 0.3 else self.assign()
        for limit, kind in ((0.12, self.choose), (0.26, self.count), (0.33, self.bounded), (0.4, self.block)):
            if roll < limit:
                return kind(depth)
        return self.call() if roll < 0.55 else self.system() if roll < 0.7 else self.assign()

    # Items

    def declare_global(self):
        draw = self.draw
        length = draw.choice([None, None, 1, 2, 4, 5, 8, 16, 40])
        kind = draw.choice(list(WIDTHS))
        variable = Variable(f"g{len(self.globals)}", kind, length)
        text = f"{kind} {variable.name}" + (f"[{length}]" if length else "")
        constant = lambda: draw.choice(["", "-"]) + self.literal(draw.random() < 0.7)
        if draw.random() < 0.7:
            text += f" = {{{', '.join(constant() for _ in range(draw.randrange(1, length + 1)))}}}" if length else f" = {constant()}"
        self.globals.append(variable)
        self.items.append(text + ";")

    def declare_params(self, function):
        draw, texts = self.draw, []
        for number in range(draw.choice([0, 1, 1, 2, 2, 3, 6])):
            kind, stated = draw.choice(WORDS), None
            text = f"{kind} p{number}"
            if draw.random() < 0.6:
                high = draw.choice([0, 1, 3, 7, 15, 1023])
                stated = (-high, high) if kind == "int" and draw.random() < 0.4 else (0, high)
                text += f" RANGE({stated[0]}, {stated[1]})"
            param = Variable(f"p{number}", kind, stated=stated)
            if stated and draw.random() < 0.7:
                # an index may rest on it, so it isn't assigned
                param.ends = stated
                self.fixed.add(param.name)
            function.params.append(param)
            texts.append(text)
        return ", ".join(texts) or "void"

    def declare(self, name, result, is_marked=False, is_system=False):
        draw, function = self.draw, Function(name, result, is_marked)
        function.is_system = is_system
        self.function, self.fixed, self.turns = function, set(), 1
        params = "void" if name == "job" else self.declare_params(function)
        self.scope = list(function.params)
        lines = []
        for number in range(draw.randrange(1, 6)):
            kind = "int" if number == 0 else draw.choice(WORDS)
            lines.append(f"  {kind} l{number} = {self.value(False, 2)};")
            self.scope.append(Variable(f"l{number}", kind))
        lines += [f"  {self.statement(3)}" for _ in range(draw.randrange(2, 7))]
        if name == "job":
            lines += [f"  {self.call()}" for _ in range(3)] + [f"  out({self.value(False, 2)});"]
            # what the globals hold then
            lines += [f"  out({self.place(it, 1)});" for it in self.globals]
        if result != "void":
            lines.append(f"  return {self.value(False, 2)};")
        head = [f"{result} {name}({params}) {{"]
        if is_marked:
            regions = [f" REGION({it}, {low}, {high})" for it, (low, high) in function.touched.items()]
            head = [f"PREDICTABLE({{length of {name}}}){''.join(regions)}", *head]
        self.items.append("\n".join([*head, *lines, "}"]))
        self.functions.append(function)

    def text(self):
        """The source, with its stated lengths left open."""
        draw = self.draw
        for _ in range(draw.randrange(1, 6)):
            self.declare_global()
        for number in range(draw.randrange(3)):
            self.declare(f"f{number}", draw.choice(["void", "int", "unsigned"]), is_system=draw.random() < 0.3)
        for number in range(draw.randrange(1, 4)):
            if draw.random() < 0.3:
                self.declare_global()
            self.declare(f"m{number}", "void", is_marked=True)
        self.declare("job", "void", is_system=True)
        return "\n".join(self.items) + "\n"


class World:
    """A set with its sources, its words and requests; lengths are the stated ones, by task and function, and open where they aren't told."""

    def __init__(self, seed, is_plain=False):
        draw = self.draw = random.Random(seed)
        self.name, self.lengths = f"w{seed}", {}
        self.plant = {"line": draw.choice([16, 16, 32, 64]), "sets": draw.choice([64, 128, 256]), "ways": draw.choice([2, 4, 8])}
        self.plant |= {"fill": draw.randrange(1, 20), "back": draw.randrange(1, 20), "switch": draw.choice([0, 1, 20, 50])}
        policy, target = draw.choice(["lru", "fifo"]), draw.choice(["rv32i", "rv32im"])
        if not is_plain:
            self.plant |= {"policy": policy, "target": target}
        self.tasks = [self.task(number) for number in range(draw.choice([1, 1, 2, 3]))]
        self.devices = [self.device(number) for number in range(draw.randrange(4))]
        self.words = {it["name"]: [draw.randrange(-(2**31), 2**32) for _ in range(draw.randrange(30))] for it in self.tasks}
        self.requests = sorted((self.request() for _ in range(draw.randrange(20) if self.devices else 0)), key=lambda it: it[0])

    def task(self, number):
        draw, name = self.draw, f"t{number}"
        program = Program(draw)
        text = program.text()
        marked = [it.name for it in program.functions if it.is_marked]
        return {"name": name, "source": f"{self.name}_{name}.c", "period": draw.randrange(1, 200000), "jobs": draw.randrange(1, 4), "text": text, "marked": marked}

    def device(self, number):
        draw = self.draw
        return {"name": f"d{number}", "queue": draw.randrange(1, 5), "cost": draw.choice([1, 10, 40, 100]), "lines": draw.randrange(1, 5)}

    def request(self):
        draw, device = self.draw, self.draw.choice(self.devices)
        line = draw.randrange(device["lines"])
        what = f"put {line} {draw.randrange(-5, 2**32)}" if draw.random() < 0.7 else f"get {line}"
        return draw.randrange(300000), f"{device['name']} {what}"

    def source(self, task):
        text = task["text"]
        for name in task["marked"]:
            text = text.replace(f"{{length of {name}}}", str(self.lengths.get((task["name"], name), 2**31 - 1)))
        return text

    def files(self):
        """The texts of the set's files, by name."""
        lines = ["[plant]", *[f"{key} = {value!r}".replace("'", '"') for key, value in self.plant.items()]]
        for kind, rows in (("task", self.tasks), ("device", self.devices)):
            for row in rows:
                lines += ["", f"[[{kind}]]"] + [f"{key} = {value!r}".replace("'", '"') for key, value in row.items() if key not in ("text", "marked")]
        found = {f"{self.name}.toml": "\n".join(lines) + "\n"}
        run = [f"in {name} {' '.join(map(str, words))}" for name, words in self.words.items()]
        found[f"{self.name}.run"] = "\n".join(run + [f"req {cycle} {what}" for cycle, what in self.requests]) + "\n"
        return found | {it["source"]: self.source(it) for it in self.tasks}
