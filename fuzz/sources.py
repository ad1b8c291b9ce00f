"""Source files of the language, well-formed and typed, most of them within the timing rules.

A thread is made act by act with what is known of time: which received values still live, which registers a value that is on its way
rests on, and how many cycles a message needs before it comes again. With `care` below 1 some of that is left out of account, so that
the checks have something to refuse.
"""

WIDTHS = [1, 1, 2, 4, 8, 8, 8, 16, 32, 48, 63, 64]
FOREVER = 1 << 30


class Message:
    def __init__(self, name, left, width, cycles=None, until=None):
        self.name, self.left, self.width, self.cycles, self.until = name, left, width, cycles, until

    def text(self):
        life = self.until if self.until else f"#{self.cycles}"
        return f"{'left' if self.left else 'right'} {self.name} : (logic[{self.width}]@{life})"


class Process:
    """The name, the ports as (endpoint, message, received), the registers as (name, width), their resets, the threads and the text."""

    def __init__(self, name):
        self.name, self.ports, self.registers, self.resets, self.threads, self.text = name, [], [], {}, [], ""


def width_of(random):
    return random.choice(WIDTHS) if random.random() < 0.9 else random.randint(1, 64)


def literal(random, width):
    value = random.choice([0, 1, (1 << width) - 1, random.getrandbits(width)]) & ((1 << width) - 1)
    form = random.random()
    if form < 0.8:
        return f"{width}'d{value}"
    return f"{width}'h{value:x}" if form < 0.9 else f"{width}'b{value:b}"


class Expressions:
    """Expressions of a width over registers and variables, in parentheses wherever they are inside another."""

    def __init__(self, random, registers, variables):
        self.random, self.registers, self.variables = random, registers, variables
        self.reads = set()
        self.uses = set()

    def make(self, width, depth):
        random = self.random
        if depth <= 0 or random.random() < 0.3:
            return self.leaf(width)
        kind = random.random()
        if width == 1 and kind < 0.4:
            inner = width_of(random)
            mark = random.choice(["==", "!=", "<", "<=", ">", ">="])
            return f"({self.make(inner, depth - 1)} {mark} {self.make(inner, depth - 1)})"
        if kind < 0.6:
            mark = random.choice(["+", "-", "*", "&", "|", "^"])
            return f"({self.make(width, depth - 1)} {mark} {self.make(width, depth - 1)})"
        if kind < 0.7:
            return f"~{self.make(width, depth - 1)}" if random.random() < 0.9 else f"({self.make(width, depth - 1)})"
        if kind < 0.8:
            shift = random.choice(["shl", "shr"])
            return f"{shift}({self.make(width, depth - 1)}, {self.make(width_of(random), depth - 1)})"
        if kind < 0.9 and width > 1:
            high = random.randint(1, width - 1)
            return f"cat({self.make(high, depth - 1)}, {self.make(width - high, depth - 1)})"
        return f"({self.make(1, depth - 1)} ? {self.make(width, depth - 1)} : {self.make(width, depth - 1)})"

    def leaf(self, width):
        random = self.random
        choices = [("reg", name) for name, own in self.registers if own == width]
        choices += [("var", name) for name, own in self.variables if own == width]
        choices += [("slice", name, own) for name, own in self.variables if own > width]
        if not choices or random.random() < 0.25:
            return literal(random, width)
        choice = random.choice(choices)
        if choice[0] == "reg":
            self.reads.add(choice[1])
            return f"*{choice[1]}"
        self.uses.add(choice[1])
        if choice[0] == "var":
            return choice[1]
        low = random.randint(0, choice[2] - width)
        return f"{choice[1]}[{low + width - 1}:{low}]"


class State:
    """What is known of time at one point of a thread."""

    def __init__(self):
        self.live = {}    # variable: (width, cycles for which it may still be used, or the message that ends it)
        self.locks = {}   # register: cycles before it may be set, or the message before which it may not
        self.gaps = {}    # message: cycles before it may come again, or the message that has to come before

    def copy(self):
        other = State()
        other.live, other.locks, other.gaps = dict(self.live), dict(self.locks), dict(self.gaps)
        return other

    def advance(self, least, most):
        kept = {}
        for name, (width, life) in self.live.items():
            if isinstance(life, int):
                if life > most:
                    kept[name] = width, life - most
            else:
                kept[name] = width, life
        self.live = kept
        for table in (self.locks, self.gaps):
            for key in list(table):
                if isinstance(table[key], int):
                    table[key] -= least
                    if table[key] <= 0:
                        del table[key]

    def exchange(self, message):
        """What ends with an exchange in the present cycle."""
        for name, (width, life) in list(self.live.items()):
            if life == message:
                self.live[name] = width, 1
        for table in (self.locks, self.gaps):
            for key in list(table):
                if table[key] == message:
                    table[key] = 1

    def merge(self, other):
        self.live = {name: self.live[name] for name in self.live if other.live.get(name) == self.live[name]}
        for mine, others in ((self.locks, other.locks), (self.gaps, other.gaps)):
            for key, value in others.items():
                if key not in mine or isinstance(value, str) or isinstance(mine[key], int) and mine[key] < value:
                    mine[key] = value


class Thread:
    """One `loop` over its endpoints, with the registers that it sets and those that it reads."""

    def __init__(self, random, care, endpoints, own, others):
        self.random, self.care, self.endpoints, self.own, self.others = random, care, endpoints, own, others
        self.state = State()
        self.count = 0
        self.ahead = {name: list(messages) for name, messages, _ in endpoints}

    def careful(self):
        return self.random.random() < self.care

    def expression(self, width, registers, variables, depth=2):
        made = Expressions(self.random, registers, variables)
        text = made.make(width, self.random.randint(0, depth))
        return text, made

    def variables(self):
        return [(name, width) for name, (width, _) in self.state.live.items()]

    def wait(self, cycles):
        self.state.advance(cycles, cycles)
        return f"cycle {cycles}"

    def set_act(self):
        free = [pair for pair in self.own if not isinstance(self.state.locks.get(pair[0]), str) or not self.careful()]
        if not free:
            return [self.wait(1)]
        name, width = self.random.choice(free)
        acts = []
        held = self.state.locks.get(name, 0)
        if isinstance(held, int) and held > 0 and self.careful():
            acts.append(self.wait(held))
        text, _ = self.expression(width, self.own + self.others, self.variables())
        self.state.advance(1, 1)
        return acts + [f"set {name} := {text}"]

    def ready(self, key):
        """The acts before a message may come again."""
        gap = self.state.gaps.get(key, 0)
        if isinstance(gap, int) and gap > 0 and self.careful():
            return [self.wait(gap)]
        return []

    def receive(self, endpoint, message):
        key = f"{endpoint}.{message.name}"
        acts = self.ready(key)
        self.state.advance(0, FOREVER)
        self.state.exchange(key)
        self.state.gaps[key] = 1
        if self.random.random() < 0.2:
            return acts + [f"recv {key}"]
        self.count += 1
        name = f"x{self.count}"
        self.state.live[name] = message.width, f"{endpoint}.{message.until}" if message.until else message.cycles
        return acts + [f"let {name} = recv {key}"]

    def send(self, endpoint, message):
        key = f"{endpoint}.{message.name}"
        acts = self.ready(key)
        end = f"{endpoint}.{message.until}" if message.until else message.cycles
        variables = self.variables()
        if self.careful():
            variables = [(name, width) for name, width in variables
                         if isinstance(self.state.live[name][1], str) and (self.state.live[name][1] == end or end == 1)]
        text, made = self.expression(message.width, self.own, variables, 1)
        self.state.advance(0, FOREVER)
        self.state.exchange(key)
        for name in made.reads:
            self.state.locks[name] = end
        self.state.gaps[key] = end
        return acts + [f"send {key}({text})"]

    def exchange_act(self):
        open_ones = [(name, received) for name, messages, received in self.endpoints if self.ahead[name]]
        if not open_ones:
            return self.set_act() if self.own else [self.wait(1)]
        name, receives = self.random.choice(open_ones)
        message = self.ahead[name].pop(0)
        return self.receive(name, message) if receives(message) else self.send(name, message)

    def if_act(self, depth):
        condition, _ = self.expression(1, self.own + self.others, self.variables())
        before = self.state.copy()
        first = self.chain(depth - 1, self.random.randint(1, 3), quiet=True)
        after = self.state
        self.state = before
        if self.random.random() < 0.3:
            second = ""
        else:
            self.state = before.copy()
            second = f" else {{ {self.chain(depth - 1, self.random.randint(1, 3), quiet=True)} }}"
        after.merge(self.state)
        self.state = after
        return [f"if {condition} {{ {first} }}{second}"]

    def together(self):
        """Acts that begin together: sets of different registers, and a wait."""
        free = [pair for pair in self.own if pair[0] not in self.state.locks]
        self.random.shuffle(free)
        parts = []
        for name, width in free[: self.random.randint(1, 3)]:
            text, _ = self.expression(width, self.own + self.others, self.variables())
            parts.append(f"set {name} := {text}")
        cycles = self.random.randint(1, 3)
        parts.append(f"cycle {cycles}")
        self.random.shuffle(parts)
        self.state.advance(cycles, cycles)
        return [f"{{ {' ; '.join(parts)} }}"]

    def both(self):
        """Two partners that are waited for together."""
        ready = []
        for name, messages, receives in self.endpoints:
            left = self.ahead[name]
            if left and receives(left[0]) and left[0].until and f"{name}.{left[0].name}" not in self.state.gaps:
                ready.append(name)
        own = [(name, width) for name, width in self.own if name not in self.state.locks]
        if len(ready) < 2 or not own:
            return self.exchange_act()
        names = ready[:2]
        made = [self.ahead[name].pop(0) for name in names]
        before = dict(self.state.live)
        lets = []
        for name, message in zip(names, made):
            self.count += 1
            lets.append((f"x{self.count}", name, message))
        self.state.advance(0, FOREVER)
        for variable, name, message in lets:
            self.state.exchange(f"{name}.{message.name}")
            self.state.gaps[f"{name}.{message.name}"] = 1
            self.state.live[variable] = message.width, f"{name}.{message.until}"
        target, width = self.random.choice(own)
        text, _ = self.expression(width, self.own, [(variable, message.width) for variable, _, message in lets])
        heads = " ; ".join(f"let {variable} = recv {name}.{message.name}" for variable, name, message in lets)
        waits = " >> ".join(variable for variable, _, _ in lets)
        self.state.advance(1, 1)
        self.state.live = {name: life for name, life in self.state.live.items() if name in before}
        return [f"{{ {heads} ; {waits} >> set {target} := {text} }}"]

    def value_act(self):
        """A name for a value that is used at once."""
        if not self.own:
            return [self.wait(1)]
        name, width = self.random.choice(self.own)
        if name in self.state.locks:
            return [self.wait(1)]
        text, _ = self.expression(width, self.own, self.variables())
        self.count += 1
        variable = f"x{self.count}"
        if self.random.random() < 0.4:
            condition, _ = self.expression(1, self.own, self.variables())
            other, _ = self.expression(width, self.own, self.variables())
            text = f"if {condition} {{ {text} }} else {{ {other} }}"
        self.state.advance(1, 1)
        return [f"let {variable} = {text}", f"set {name} := {variable}"]

    def act(self, depth, quiet):
        kind = self.random.random()
        if not quiet and self.endpoints and kind < 0.45:
            return self.both() if kind < 0.08 else self.exchange_act()
        if kind < 0.62 and self.own:
            return self.set_act()
        if kind < 0.70 and depth > 0:
            return self.if_act(depth)
        if kind < 0.78 and self.own:
            return self.together()
        if kind < 0.86:
            return self.value_act()
        if kind < 0.9 and depth > 0:
            names = set(self.state.live)
            text = self.chain(depth - 1, self.random.randint(1, 3), quiet)
            self.state.live = {name: life for name, life in self.state.live.items() if name in names}
            return [f"{{ {text} }}"]
        if kind < 0.92:
            return [self.random.choice(list(self.state.live))] if self.state.live else ["()"]
        return [self.wait(self.random.randint(1, 4))]

    def chain(self, depth, count, quiet):
        names = set(self.state.live)
        acts = []
        for _ in range(count):
            acts += self.act(depth, quiet)
        if acts[-1].startswith("let "):
            acts.append(self.wait(1))
        if quiet:
            self.state.live = {name: life for name, life in self.state.live.items() if name in names}
        return " >> ".join(acts)

    def text(self):
        acts = [self.chain(2, self.random.randint(1, 6), False)]
        begun = [name for name, messages, _ in self.endpoints if len(self.ahead[name]) < len(messages)]
        for name in begun:
            receives = next(one[2] for one in self.endpoints if one[0] == name)
            while self.ahead[name] and self.random.random() < 0.5 + self.care / 2:
                message = self.ahead[name].pop(0)
                acts += self.receive(name, message) if receives(message) else self.send(name, message)
        left = [value for table in (self.state.locks, self.state.gaps) for value in table.values() if isinstance(value, int)]
        acts.append(f"cycle {max(left + [1]) if self.careful() else 1}")
        return f"loop {{ {' >> '.join(acts)} }}"


class Source:
    """A file: its text and its processes."""

    def __init__(self, random):
        self.random = random
        self.care = random.choice([1, 1, 1, 0.9, 0.7, 0.4])
        self.classes = [self.channel(number) for number in range(random.choice([0, 1, 1, 2, 3]))]
        self.processes = [self.process(number) for number in range(random.choice([1, 1, 1, 2, 3]))]
        parts = [f"chan {name} {{ {', '.join(message.text() for message in messages)} }}" for name, messages in self.classes]
        parts += [process.text for process in self.processes]
        self.text = random.choice(["\n", " "]).join(parts) + random.choice(["\n", ""])

    def channel(self, number):
        random = self.random
        messages = []
        count = random.randint(1, 4)
        for index in range(count):
            later = [f"m{next_one}" for next_one in range(index + 1, count)]
            ends = later and random.random() < 0.5
            messages.append(Message(f"m{index}", random.random() < 0.5, width_of(random),
                                    cycles=random.choice([1, 1, 1, 2, 3, 7]), until=random.choice(later) if ends else None))
        return f"c{number}", messages

    def process(self, number):
        random = self.random
        process = Process(f"p{number}")
        endpoints = []
        for index in range(random.randint(0, 3) if self.classes else 0):
            name, messages = random.choice(self.classes)
            left = random.random() < 0.5
            endpoints.append((f"e{index}", name, messages, left))
            process.ports += [(f"e{index}", message, message.left == left) for message in messages]
        process.registers = [(f"r{index}", width_of(random)) for index in range(random.randint(0, 5))]
        registers = ""
        for name, width in process.registers:
            process.resets[name] = random.getrandbits(width) if random.random() < 0.3 else 0
            reset = f" = {width}'d{process.resets[name]}" if process.resets[name] else ""
            registers += f"reg {name} : logic[{width}]{reset}; "
        count = random.choice([1, 1, 2, 3])
        owner = {name: random.randrange(count) for name, _ in process.registers}
        holder = {name: random.randrange(count) for name, _, _, _ in endpoints}
        for index in range(count):
            mine = [(name, messages, (lambda left: lambda message: message.left == left)(left))
                    for name, _, messages, left in endpoints if holder[name] == index]
            own = [pair for pair in process.registers if owner[pair[0]] == index]
            others = [pair for pair in process.registers if owner[pair[0]] != index]
            process.threads.append(Thread(random, self.care, mine, own, others).text())
        heads = ", ".join(f"{name} : {'left' if left else 'right'} {kind}" for name, kind, _, left in endpoints)
        process.text = f"proc {process.name}({heads}) {{ {registers}{' '.join(process.threads)} }}"
        return process
