"""The run of a process on rows of inputs, worked out cycle by cycle from docs/language.md and apart from the program.

The threads of a process are read from its text by the grammar of that page. An act is an object that is asked, again and again within a
cycle until nothing changes, whether it has ended. `Watch` keeps the exchanges whose lives go on, and tells lines of the log and the first
broken promise; runs of modules use it too.
"""

import re

TOKEN = re.compile(r"\s*([A-Za-z_][A-Za-z_0-9]*|[0-9]+'[dhb][0-9A-Fa-f]+|[0-9]+|:=|>>|[=!<>]=|.)", re.S)
LEVELS = [["|"], ["^"], ["&"], ["==", "!=", "<", "<=", ">", ">="], ["+", "-"], ["*"]]
BINARY = {"+": lambda a, b: a + b, "-": lambda a, b: a - b, "*": lambda a, b: a * b, "&": lambda a, b: a & b, "|": lambda a, b: a | b,
          "^": lambda a, b: a ^ b, "==": lambda a, b: a == b, "!=": lambda a, b: a != b, "<": lambda a, b: a < b,
          "<=": lambda a, b: a <= b, ">": lambda a, b: a > b, ">=": lambda a, b: a >= b}
COMPARES = LEVELS[3]


class Reader:
    """Terms and expressions as tuples; each expression has its width."""

    def __init__(self, text, widths):
        self.tokens, self.place = TOKEN.findall(text.strip()), 0
        self.registers, self.scope = widths, {}

    def peek(self, ahead=0):
        return self.tokens[self.place + ahead] if self.place + ahead < len(self.tokens) else ""

    def take(self, wanted=None):
        token = self.peek()
        assert wanted is None or token == wanted, (token, wanted)
        self.place += 1
        return token

    def term(self):
        """A list of (name, act, joint)."""
        before, parts = dict(self.scope), []
        while True:
            name = None
            if self.peek() == "let":
                self.take()
                name = self.take()
                self.take("=")
            act, width = self.act()
            joint = self.take() if self.peek() in (">>", ";") else None
            parts.append((name, act, joint))
            if name:
                self.scope[name] = width
            if joint is None:
                self.scope = before
                return parts, width

    def block(self):
        self.take("{")
        made = self.term()
        self.take("}")
        return made

    def act(self):
        word = self.peek()
        if word == "cycle":
            self.take()
            return ("cycle", int(self.take())), None
        if word == "set":
            self.take()
            name = self.take()
            self.take(":=")
            return ("set", name, self.expression()), None
        if word in ("send", "recv"):
            self.take()
            endpoint = self.take()
            self.take(".")
            port = endpoint, self.take()
            if word == "recv":
                return ("recv", port), self.ports[port]
            self.take("(")
            value = self.expression()
            self.take(")")
            return ("send", port, value), None
        if word == "if":
            self.take()
            condition = self.expression()
            first, width = self.block()
            second = None
            if self.peek() == "else":
                self.take()
                second, _ = self.block()
            return ("if", condition, first, second), width if second else None
        if word == "{":
            made, width = self.block()
            return ("block", made), width
        if re.match(r"[A-Za-z_]", word) and self.peek(1) in (">>", ";", "}"):
            return ("word", self.take()), self.scope[word]
        if word == "(" and self.peek(1) == ")":
            self.take()
            self.take()
            return ("unit",), None
        value = self.expression()
        return ("pure", value), value[0]

    def expression(self):
        left = self.level(0)
        if self.peek() != "?":
            return left
        self.take()
        yes = self.expression()
        self.take(":")
        return yes[0], "choose", left, yes, self.expression()

    def level(self, level):
        if level == len(LEVELS):
            return self.unary()
        left = self.level(level + 1)
        while self.peek() in LEVELS[level]:
            mark = self.take()
            right = self.level(level + 1)
            left = (1 if mark in COMPARES else left[0]), "binary", mark, left, right
        return left

    def unary(self):
        token = self.take()
        if token == "~":
            inner = self.unary()
            return inner[0], "not", inner
        if token == "*":
            name = self.take()
            return self.registers[name], "register", name
        if token in ("shl", "shr", "cat"):
            self.take("(")
            left = self.expression()
            self.take(",")
            right = self.expression()
            self.take(")")
            return left[0] + right[0] if token == "cat" else left[0], token, left, right
        if token == "(":
            inner = self.expression()
            self.take(")")
            return inner
        if "'" in token:
            width, digits = token.split("'")
            return int(width), "literal", int(digits[1:], {"d": 10, "h": 16, "b": 2}[digits[0]])
        if self.peek() == "[":
            self.take()
            high = int(self.take())
            self.take(":")
            low = int(self.take())
            self.take("]")
            return high - low + 1, "slice", token, high, low
        return self.scope[token], "variable", token


class NotMade(Exception):
    """A variable that is not made yet in this cycle."""


def value_of(expression, run, scope):
    width, kind = expression[:2]
    parts = expression[2:]
    if kind == "literal":
        return parts[0]
    if kind == "register":
        return run.now[parts[0]]
    if kind in ("variable", "slice"):
        cell = scope[parts[0]]
        if not cell.done:
            raise NotMade
        return cell.value if kind == "variable" else cell.value >> parts[2] & (1 << width) - 1
    if kind == "choose":
        return value_of(parts[1] if value_of(parts[0], run, scope) else parts[2], run, scope)
    if kind == "not":
        made = ~value_of(parts[0], run, scope)
    elif kind == "binary":
        made = int(BINARY[parts[0]](value_of(parts[1], run, scope), value_of(parts[2], run, scope)))
    else:
        left, right = value_of(parts[0], run, scope), value_of(parts[1], run, scope)
        if kind == "cat":
            made = left << parts[1][0] | right
        else:
            made = 0 if right >= width else left << right if kind == "shl" else left >> right
    return made & (1 << width) - 1


class Act:
    """An act that has begun. It is done in the cycle in which it ends, and has its value then."""

    def __init__(self, kind, run, scope, begin):
        self.kind, self.run, self.scope, self.begin = kind, run, scope, begin
        self.done, self.value, self.told, self.inner = False, None, None, None

    def end(self, value=None):
        self.done, self.value = True, value
        self.run.changed = True

    def ask(self, cycle):
        if self.done:
            return
        try:
            getattr(self, "ask_" + self.kind[0])(cycle)
        except NotMade:
            pass

    def tell(self, expression):
        """The value of an expression in the cycle of the begin."""
        if self.told is None:
            self.told = value_of(expression, self.run, self.scope)
            self.run.changed = True
        return self.told

    def ask_cycle(self, cycle):
        if cycle == self.begin + self.kind[1]:
            self.end()

    def ask_set(self, cycle):
        self.run.after[self.kind[1]] = self.tell(self.kind[2]) if cycle == self.begin else self.run.after[self.kind[1]]
        if cycle == self.begin + 1:
            self.end()

    def ask_send(self, cycle):
        self.run.offered[self.kind[1]] = self.tell(self.kind[2])
        if self.run.inputs[self.kind[1]][0]:
            self.end()

    def ask_recv(self, cycle):
        self.run.taken.add(self.kind[1])
        valid, data = self.run.inputs[self.kind[1]]
        if valid:
            self.end(data)

    def ask_if(self, cycle):
        if self.inner is None:
            side = self.kind[2] if self.tell(self.kind[1]) else self.kind[3]
            if side is None:
                return self.end()
            self.inner = Term(side, self.run, self.scope, cycle)
        self.ask_inner(cycle)

    def ask_block(self, cycle):
        self.inner = self.inner or Term(self.kind[1], self.run, self.scope, cycle)
        self.ask_inner(cycle)

    def ask_inner(self, cycle):
        self.inner.ask(cycle)
        if self.inner.done:
            self.end(self.inner.value)

    def ask_word(self, cycle):
        if self.scope[self.kind[1]].done:
            self.end(self.scope[self.kind[1]].value)

    def ask_unit(self, cycle):
        self.end()

    def ask_pure(self, cycle):
        self.end(self.tell(self.kind[1]))


class Term:
    """A term that has begun: its first act, and behind it the rest."""

    def __init__(self, parts, run, scope, begin):
        self.run, self.scope, self.rest, self.parts = run, scope, None, parts
        self.first = Act(parts[0][1], run, scope, begin)
        self.done, self.value = False, None

    def ask(self, cycle):
        if self.done:
            return
        name, _, joint = self.parts[0]
        self.first.ask(cycle)
        if joint and self.rest is None and (joint == ";" or self.first.done):
            self.rest = Term(self.parts[1:], self.run, {**self.scope, name: self.first} if name else self.scope, cycle)
            self.run.changed = True
        if self.rest:
            self.rest.ask(cycle)
        last = self.rest or (self.first if not joint else None)
        if self.first.done and last is not None and last.done:
            self.done, self.value = True, last.value
            self.run.changed = True


class Run:
    """The registers, and a turn of each thread."""

    def __init__(self, process):
        self.process = process
        ports = {(endpoint, message.name): message.width for endpoint, message, _ in process.ports}
        self.bodies = []
        for thread in process.threads:
            reader = Reader(thread[len("loop {"):-1], dict(process.registers))
            reader.ports = ports
            self.bodies.append(reader.term()[0])
        self.now = dict(process.resets)
        self.turns = [Term(body, self, {}, 0) for body in self.bodies]

    def step(self, cycle, inputs):
        """What is offered and taken in a cycle."""
        self.inputs, self.offered, self.taken = inputs, {}, set()
        self.after = dict(self.now)
        self.changed = True
        while self.changed:
            self.changed = False
            for index, turn in enumerate(self.turns):
                turn.ask(cycle)
                if turn.done:
                    self.turns[index] = Term(self.bodies[index], self, {}, cycle)
                    self.changed = True


class Watch:
    """The exchanges of each port whose lives go on."""

    def __init__(self, process):
        self.process, self.lives = process, {(endpoint, message.name): [] for endpoint, message, _ in process.ports}

    def line(self, cycle, wires, registers):
        """The line of a cycle by the valid, ack and data of each port, and the first port whose promise is broken in it."""
        parts, broken = [], None
        exchanged = {port for port, (valid, ack, _) in wires.items() if valid and ack}
        for endpoint, message, received in self.process.ports:
            port = endpoint, message.name
            lives = self.lives[port]
            valid, ack, data = wires[port]
            if port in exchanged:
                lives.append((data, cycle + message.cycles - 1))
            if received and any(kept != data for kept, _ in lives):
                broken = broken or f"{endpoint}.{message.name}"
            parts.append(f"{endpoint}.{message.name}=v{valid}a{ack}d{data if received or valid or lives else '-'}")
        for endpoint, message, _ in self.process.ports:
            lives = self.lives[endpoint, message.name]
            if message.until and (endpoint, message.until) in exchanged:
                lives.clear()
            elif not message.until:
                lives[:] = [one for one in lives if one[1] > cycle]
        parts += [f"{name}={registers[name]}" for name, _ in self.process.registers]
        return " ".join(parts) + "\n", broken


def rows_of(process, stimulus):
    """Of each row the inputs by port: valid and data, or ack."""
    lines = stimulus.replace(b"\r\n", b"\n").decode().split("\n")
    for line in lines[:-1] if lines[-1] == "" else lines:
        inputs = {}
        for (endpoint, message, _), field in zip(process.ports, line.split(" ")):
            inputs[endpoint, message.name] = tuple(int(part) for part in field.split(":"))
        yield inputs


def source_log(process, stimulus):
    """The log of the run of a process, and the line of the first broken promise, or none."""
    run, watch, lines = Run(process), Watch(process), []
    for cycle, inputs in enumerate(rows_of(process, stimulus)):
        run.step(cycle, inputs)
        wires = {}
        for endpoint, message, received in process.ports:
            port = endpoint, message.name
            if received:
                wires[port] = inputs[port][0], int(port in run.taken), inputs[port][1]
            else:
                kept = watch.lives[port][-1][0] if watch.lives[port] else 0
                wires[port] = int(port in run.offered), inputs[port][0], run.offered.get(port, kept)
        line, broken = watch.line(cycle, wires, run.now)
        if broken:
            return "".join(lines).encode(), f"breach: cycle {cycle} port {broken}\n".encode()
        lines.append(line)
        run.now = run.after
    return "".join(lines).encode(), b""
