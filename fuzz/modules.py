"""Well-formed module texts by docs/formats.md, with the ports and source registers of a process, of nets that no `compile` writes.

What such a module shows on a stimulus is worked out here too, by the rules of that page and apart from the program.
"""

from runs import BINARY, Watch, rows_of


class Module:
    def __init__(self, random, process):
        self.random, self.process = random, process
        self.operands = []  # (name, width), no literals
        self.nets = []      # name, width, text, operands, meaning
        self.outputs = {}   # wire: operand
        states = [(f"s__{index}", random.choice([1, 1, 2, 8, 64])) for index in range(random.randint(0, 4))]
        self.registers = [(f"{name}__q", width) for name, width in process.registers] + states
        for endpoint, message, received in process.ports:
            base = f"{endpoint}__{message.name}__"
            self.operands += [(base + "data", message.width), (base + "valid", 1)] if received else [(base + "ack", 1)]
        self.operands += self.registers
        for index in range(random.choice([0, 1, 5, 20, 60])):
            self.net(index)
        self.text = self.lines()

    def literal(self, width):
        value = self.random.choice([0, 1, (1 << width) - 1, self.random.getrandbits(width)]) & ((1 << width) - 1)
        return f"{width}'d{value}"

    def operand(self, width, no_literal=False):
        fitting = [name for name, own in self.operands if own == width]
        if fitting and (no_literal or self.random.random() < 0.8):
            return self.random.choice(fitting)
        return None if no_literal else self.literal(width)

    def any_width(self):
        if self.operands and self.random.random() < 0.7:
            return self.random.choice(self.operands)[1]
        return self.random.choice([1, 2, 8, 16, 63, 64])

    def net(self, index):
        random = self.random
        width = self.any_width()
        kind = random.randrange(7)
        name = f"n__{index}"
        made = None
        if kind == 0:
            made = "~{}", [self.operand(width)], width, lambda a: ~a
        elif kind in (1, 2):
            mark = random.choice(list(BINARY)[:6] if kind == 1 else list(BINARY)[6:])
            made = "{} " + mark + " {}", [self.operand(width), self.operand(width)], width if kind == 1 else 1, BINARY[mark]
        elif kind == 3:
            left, right = self.operand(width), self.operand(self.any_width())
            if random.random() < 0.5:
                made = "{} << {}", [left, right], width, lambda a, b: a << b if b < 64 else 0
            else:
                made = "{} >> {}", [left, right], width, lambda a, b: a >> b if b < 64 else 0
        elif kind == 4:
            other = self.any_width()
            if width + other <= 64:
                made = "{{{}, {}}}", [self.operand(width), self.operand(other)], width + other, lambda a, b: a << other | b
        elif kind == 5:
            source = self.operand(width, no_literal=True)
            if source:
                high = random.randrange(width)
                low = random.randint(0, high)
                made = "{}[" + f"{high}:{low}" + "]", [source], high - low + 1, lambda a: a >> low
        if made is None:
            made = "{} ? {} : {}", [self.operand(1), self.operand(width), self.operand(width)], width, lambda c, a, b: a if c else b
        form, operands, width, meaning = made
        self.nets.append((name, width, form, operands, meaning))
        self.operands.append((name, width))

    def lines(self):
        ports, outputs, nets = [], [], []
        for endpoint, message, received in self.process.ports:
            base = f"{endpoint}__{message.name}__"
            inward, outward = ("input", "output") if received else ("output", "input")
            ports += [f"  {inward} logic [{message.width - 1}:0] {base}data", f"  {inward} logic [0:0] {base}valid",
                      f"  {outward} logic [0:0] {base}ack"]
            wanted = [("ack", 1)] if received else [("data", message.width), ("valid", 1)]
            for wire, width in wanted:
                self.outputs[base + wire] = self.operand(width)
                outputs.append(f"  assign {base}{wire} = {self.outputs[base + wire]};")
        head = ["  input logic clk_i", "  input logic rst_ni", *ports]
        lines = [f"module anvil__{self.process.name} (", *[line + "," for line in head[:-1]], head[-1], ");"]
        for name, width, form, operands, _ in self.nets:
            nets += [f"  logic [{width - 1}:0] {name};", f"  assign {name} = {form.format(*operands)};"]
        lines += [f"  logic [{width - 1}:0] {name};" for name, width in self.registers] + nets + outputs
        self.resets = {name: self.literal(width) for name, width in self.registers}
        self.nexts = {name: self.operand(width) for name, width in self.registers}
        if self.registers:
            lines += ["  always_ff @(posedge clk_i) begin", "    if (!rst_ni) begin"]
            lines += [f"      {name} <= {value};" for name, value in self.resets.items()]
            lines += ["    end else begin"]
            lines += [f"      {name} <= {value};" for name, value in self.nexts.items()]
            lines += ["    end", "  end"]
        return ("\n".join(lines + ["endmodule"]) + "\n").encode()

    def log(self, stimulus):
        """The log of the module on rows, and the line of the first broken promise, or none."""
        now = {name: value_of(literal, {}) for name, literal in self.resets.items()}
        watch, lines = Watch(self.process), []
        for cycle, inputs in enumerate(rows_of(self.process, stimulus)):
            values = {**now, **self.given(inputs)}
            for name, width, _, operands, meaning in self.nets:
                values[name] = int(meaning(*(value_of(operand, values) for operand in operands))) & ((1 << width) - 1)
            for wire, operand in self.outputs.items():
                values[wire] = value_of(operand, values)
            wires = {(endpoint, message.name): tuple(values[f"{endpoint}__{message.name}__{wire}"] for wire in ("valid", "ack", "data"))
                     for endpoint, message, _ in self.process.ports}
            line, broken = watch.line(cycle, wires, {name: values[name + "__q"] for name, _ in self.process.registers})
            if broken:
                return "".join(lines).encode(), f"breach: cycle {cycle} port {broken}\n".encode()
            lines.append(line)
            now = {name: value_of(operand, values) for name, operand in self.nexts.items()}
        return "".join(lines).encode(), b""

    def given(self, inputs):
        """The values of the input ports."""
        values = {}
        for endpoint, message, received in self.process.ports:
            base = f"{endpoint}__{message.name}__"
            if received:
                values[base + "valid"], values[base + "data"] = inputs[endpoint, message.name]
            else:
                values[base + "ack"] = inputs[endpoint, message.name][0]
        return values


def value_of(operand, values):
    return int(operand.split("'d")[1]) if "'" in operand else values[operand]
