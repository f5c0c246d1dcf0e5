"""Runs a text of `compile`, cycle by cycle, and shows what stands at its nets: what tools/waves.py stands on.

It reads the subset of docs/VERILOG.md as `compile` lays it out, and knows nothing of `sim`. A net that is looked at is computed, and what it is
computed from; a choice looks at one side alone.
"""
import re

LINE = re.compile(r'  (?:(input|output) wire|wire|reg) \[(\d+):0\] (\w+)(?: \[0:(\d+)\])?')
TOKEN = re.compile(r"\s*(\d+'h[0-9a-f]+|\w+|==|!=|<=|>=|<<|>>|.)")
MIXED = {'==': lambda a, b: int(a == b), '!=': lambda a, b: int(a != b), '<': lambda a, b: int(a < b), '>': lambda a, b: int(a > b),
         '<=': lambda a, b: int(a <= b), '>=': lambda a, b: int(a >= b)}
SAME = {'+': lambda a, b: a + b, '-': lambda a, b: a - b, '*': lambda a, b: a * b, '&': lambda a, b: a & b, '|': lambda a, b: a | b,
        '^': lambda a, b: a ^ b, '<<': lambda a, b: a << min(b, 256), '>>': lambda a, b: a >> min(b, 256)}


class Module:
    """The lines of a module by what they are."""

    def __init__(self, name, text):
        self.name = name
        self.ports, self.widths, self.arrays, self.assigns, self.instances = [], {}, {}, {}, []
        self.resets, self.steps, self.stores = {}, {}, []
        body, _, block = text.partition('  always @(posedge clk) begin\n')
        self.read_body(body)
        reset, _, step = block.partition('    end else begin\n')
        self.read_steps(reset, self.resets)
        self.read_steps(step, self.steps)

    def read_body(self, body):
        for line in body.split('\n'):
            named = LINE.match(line)
            if named and named.group(4) is not None:
                self.arrays[named.group(3)] = int(named.group(2)) + 1, int(named.group(4)) + 1
            elif named:
                self.widths[named.group(3)] = int(named.group(2)) + 1
                if named.group(1):
                    self.ports.append((named.group(3), named.group(1)))
            elif line.startswith('  assign '):
                name, _, given = line[len('  assign '):-1].partition(' = ')
                self.assigns[name] = given
            elif re.match(r'  \w+ \w+\(\.', line):
                kind, name = line.split('(')[0].split()
                self.instances.append((kind, name, dict(re.findall(r'\.(\w+)\((\w+)\)', line))))

    def read_steps(self, block, into):
        for guard, target, index, given in re.findall(r'^      (?:if \((.*)\) )?(\w+)(?:\[(\w+(?:\[\d+:\d+\])?|\d+\'h[0-9a-f]+)\])? <= (.*);$', block, flags=re.M):
            if index:
                self.stores.append((guard, target, index, given))
            else:
                into[target] = given


class Scope:
    """An instance: its nets by name, each a number or a way to compute it; registers and words have numbers."""

    def __init__(self, run, module, path, outer):
        self.run, self.module, self.path, self.outer = run, module, path, outer
        self.registers = {name: 0 for name in module.steps}
        self.words = {name: [0] * count for name, (_, count) in module.arrays.items()}
        self.readers, self.known, self.inside = {}, {}, {}
        for kind, name, ports in module.instances:
            self.inside[name] = Scope(run, run.modules[kind], path + (name,), (self, ports))
        self.fed = {net: (self.inside[name], port) for _, name, ports in module.instances for port, net in ports.items()
                    if (port, 'output') in run.modules[_].ports}

    def value(self, name):
        if name not in self.known:
            self.known[name] = self.computed(name)
        return self.known[name]

    def computed(self, name):
        if name in self.registers:
            return self.registers[name]
        if name in self.module.assigns:
            return self.read(self.module.assigns[name])
        if name in self.fed:
            child, port = self.fed[name]
            return child.value(port)
        if self.outer is None:
            return self.run.given[name]
        around, ports = self.outer
        return around.value(ports[name])

    def read(self, text):
        if text not in self.readers:
            self.readers[text] = Reading(self, text).whole()
        return self.readers[text]()

    def step(self, reset):
        """What the registers and words are after an edge, as a call that sets it."""
        lines = self.module.resets if reset else self.module.steps
        registers = {name: self.read(given) for name, given in lines.items()}
        stores = [(name, self.read(index), self.read(given)) for guard, name, index, given in ([] if reset else self.module.stores)
                  if not guard or self.read(guard)]
        later = [it.step(reset) for it in self.inside.values()]

        def done():
            self.registers.update(registers)
            for name, index, word in stores:
                if index < len(self.words[name]):
                    self.words[name][index] = word
            self.known.clear()
            for it in later:
                it()
        return done


class Reading:
    """An expression as a call, with its width."""

    def __init__(self, scope, text):
        self.scope, self.tokens, self.at = scope, TOKEN.findall(text), 0

    def whole(self):
        return self.part()[1]

    def next(self):
        self.at += 1
        return self.tokens[self.at - 1]

    def part(self):
        token = self.next()
        if token == '(':
            made = self.bracket()
        elif token == '~':
            width, value = self.part()
            made = width, lambda: (1 << width) - 1 - value()
        elif token == '{':
            made = self.joined()
        elif "'h" in token:
            width, _, digits = token.partition("'h")
            number = int(digits, 16)
            made = int(width), lambda: number
        else:
            made = self.named(token)
        return made

    def named(self, name):
        scope = self.scope
        if name in scope.module.arrays:
            self.next()
            _, index = self.part()
            self.next()
            width, words = scope.module.arrays[name][0], scope.words[name]

            def word():
                at = index()
                return words[at] if at < len(words) else 0
            return width, word
        if self.tokens[self.at:self.at + 1] == ['[']:
            high, low = int(self.tokens[self.at + 1]), int(self.tokens[self.at + 3])
            self.at += 5
            return high - low + 1, lambda: (scope.value(name) >> low) & ((1 << (high - low + 1)) - 1)
        return scope.module.widths[name], lambda: scope.value(name)

    def joined(self):
        parts = [self.part()]
        while self.next() == ',':
            parts.append(self.part())

        def value():
            total = 0
            for width, part in parts:
                total = (total << width) | part()
            return total
        return sum(width for width, _ in parts), value

    def bracket(self):
        if self.tokens[self.at] == '~':
            made = self.part()
            self.next()
            return made
        width, left = self.part()
        operator = self.next()
        other, right = self.part()
        if operator == '?':
            self.next()
            _, last = self.part()
            made = other, lambda: right() if left() else last()
        elif operator in MIXED:
            made = 1, lambda: MIXED[operator](left(), right())
        else:
            made = width, lambda: SAME[operator](left(), right()) % (1 << width)
        self.next()
        return made


class Run:
    """A text from reset: one edge with reset, and then cycle 0."""

    def __init__(self, text, words):
        self.modules = {name: Module(name, body) for name, body in re.findall(r'^module (\w+)\(\n(.*?)^endmodule', text, flags=re.M | re.S)}
        self.given = {'clk': 0, 'reset': 1, 'go': 0}
        self.main = Scope(self, self.modules['main'], (), None)
        self.externals = {line.split(' ')[0]: line.split(' ')[1] for line in re.findall(r'^// external (.*)$', text, flags=re.M)}
        for name, instance in self.externals.items():
            (array,) = self.main.inside[instance].words
            self.main.inside[instance].words[array][:] = words[name]
        self.main.step(True)()
        self.given.update(reset=0, go=1)
        self.main.known.clear()

    def is_done(self):
        return self.main.value('done') == 1

    def step(self):
        self.main.step(False)()

    def scopes(self, at=None):
        """All instances, each before those in it."""
        at = at or self.main
        yield at
        for it in at.inside.values():
            yield from self.scopes(it)
