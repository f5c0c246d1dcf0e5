"""Reads designs: what the tools of this folder stand on.

It reads what `check` reads (docs/LANGUAGE.md), and of other forms of Calyx those that `tools/calyx port` has to know: these are listed in `foreign`. Of a text
that goes on no sentence of the grammar it tells the token and what could stand there. It judges nothing: what it reads may break a rule.

Places are those that calyx_cli tells: lines and columns from 1, columns in bytes, so a text is read as latin-1.
"""
import dataclasses
import re
from typing import NamedTuple

TOKEN = re.compile(r'(?P<space>\s+|//[^\n]*|/\*.*?\*/)|(?P<token>\d+\'[dboxh][0-9a-fA-F]+|[A-Za-z_]\w*|\d+|"[^"\n]*"|#\{.*?\}#|->|=>|[=!<>]=|.)', re.S | re.A)
WORDS = {'import', 'component', 'cells', 'wires', 'group', 'control', 'comb', 'static', 'seq', 'par', 'if', 'else', 'while', 'repeat', 'invoke', 'with', 'ref'}
OWN_PORTS = {'go', 'done', 'clk', 'reset'}


class Token(NamedTuple):
    text: str
    at: int
    line: int
    column: int

    @property
    def end(self):
        return self.at + len(self.text)

    @property
    def place(self):
        return self.line, self.column


def tokens_of(text):
    """The tokens of a text, and behind them one without letters where the text ends."""
    found, line, start = [], 1, 0
    for piece in TOKEN.finditer(text):
        if piece.group('token') is not None:
            found.append(Token(piece.group('token'), piece.start(), line, piece.start() - start + 1))
        breaks = piece.group().count('\n')
        if breaks:
            line, start = line + breaks, piece.start() + piece.group().rindex('\n') + 1
    found.append(Token('', len(text), line, len(text) - start + 1))
    return found


class Unexpected(Exception):
    """A token that goes on no sentence of the grammar, with what could stand there."""

    def __init__(self, token, wanted):
        super().__init__(token.text)
        self.token, self.wanted = token, wanted


class Foreign(NamedTuple):
    """A form of Calyx that `check` refuses: its name, and its first and last token."""

    name: str
    first: Token
    last: Token


@dataclasses.dataclass
class Operand:
    """A port of a cell, a port of the signature (no cell), a hole (a group), or a literal."""

    first: Token
    last: Token
    cell: str = ''
    port: str = ''
    group: str = ''
    literal: str = ''

    @property
    def text(self):
        if self.literal:
            return self.literal
        if self.group:
            return f'{self.group}[{self.port}]'
        return f'{self.cell}.{self.port}' if self.cell else self.port

    @property
    def line(self):
        return self.first.line

    def width_and_value(self):
        """The two numbers of a literal; None of what is none."""
        found = re.fullmatch(r"(\d+)'([dboxh])([0-9a-fA-F]+)", self.literal)
        if not found:
            return None
        base = {'d': 10, 'b': 2, 'o': 8, 'x': 16, 'h': 16}[found.group(2)]
        try:
            return int(found.group(1)), int(found.group(3), base)
        except ValueError:
            return None


@dataclasses.dataclass
class Guard:
    """`kind` is port, not, and, or, time or a comparison; a port has one operand, a comparison two, a time its first cycle and the one behind its last."""

    kind: str
    parts: list = dataclasses.field(default_factory=list)
    operands: list = dataclasses.field(default_factory=list)
    cycles: tuple = ()

    def all_operands(self):
        yield from self.operands
        for part in self.parts:
            yield from part.all_operands()

    def nodes(self):
        """How many nodes the size of a design counts of it."""
        return 1 + sum(part.nodes() for part in self.parts)


@dataclasses.dataclass
class Assign:
    target: Operand
    guard: Guard
    source: Operand
    last: Token

    @property
    def line(self):
        return self.target.line

    def read(self):
        """All that it reads, guard first."""
        return [*(self.guard.all_operands() if self.guard else ()), self.source]


@dataclasses.dataclass
class Cell:
    name: str
    kind: str
    numbers: list
    attributes: list
    token: Token
    first: Token
    last: Token
    is_ref: bool = False

    @property
    def line(self):
        return self.token.line

    @property
    def is_external(self):
        return 'external' in self.attributes

    def told(self):
        return f'{self.kind}({", ".join(map(str, self.numbers))})'


@dataclasses.dataclass
class Group:
    """`length` is that of a static group, else None; `call` is the invoke that it stands for, else None; `copied` what a group of a flat design is a copy of (tools/flattening.py)."""

    name: str
    comb: bool
    length: int
    assigns: list
    attributes: list
    token: Token
    first: Token
    last: Token
    call: object = None
    copied: object = None

    @property
    def line(self):
        return self.token.line


@dataclasses.dataclass
class Port:
    name: str
    width: int
    attributes: list
    token: Token


@dataclasses.dataclass
class Statement:
    """`kind` is enable, seq, par, if, while, repeat, invoke or empty; `name` the group or cell; `parts` its statements in order.

    `called` is the name of a cell, with the number of the call behind it where there are more than one; `cycles` what an invoke of a static component takes.
    """

    kind: str
    token: Token
    name: str = ''
    called: str = ''
    static: bool = False
    length: int = None
    cycles: int = None
    count: int = 0
    test: Operand = None
    comb: str = ''
    parts: list = dataclasses.field(default_factory=list)
    inputs: list = dataclasses.field(default_factory=list)
    outputs: list = dataclasses.field(default_factory=list)
    attributes: list = dataclasses.field(default_factory=list)
    last: Token = None

    @property
    def line(self):
        return self.token.line

    def told(self):
        """The statement in a few words."""
        words = ['static'] if self.static and self.kind != 'enable' else []
        words += {'enable': [self.name], 'invoke': ['invoke', self.called], 'repeat': ['repeat', str(self.count)],
                  'if': ['if', self.test.text if self.test else ''], 'while': ['while', self.test.text if self.test else '']}.get(self.kind, [self.kind])
        return ' '.join(words)

    def all(self):
        """It and all in it, in the order of the text."""
        yield self
        for part in self.parts:
            yield from part.all()


@dataclasses.dataclass
class Component:
    name: str
    token: Token
    first: Token
    comb: bool = False
    static: int = None
    marks: list = dataclasses.field(default_factory=list)
    in_ports: list = dataclasses.field(default_factory=list)
    out_ports: list = dataclasses.field(default_factory=list)
    cells: list = dataclasses.field(default_factory=list)
    cells_end: Token = None
    groups: dict = dataclasses.field(default_factory=dict)
    assigns: list = dataclasses.field(default_factory=list)
    wires_end: Token = None
    control: Statement = None
    last: Token = None

    @staticmethod
    def data_ports(ports):
        return [port for port in ports if not OWN_PORTS & {port.name, *port.attributes}]

    @property
    def inputs(self):
        """The names of the inputs but go, clk and reset."""
        return [port.name for port in self.data_ports(self.in_ports)]

    @property
    def outputs(self):
        return [port.name for port in self.data_ports(self.out_ports)]

    def cell(self, name):
        return next((cell for cell in self.cells if cell.name == name), None)

    def all_assigns(self):
        """Of each assignment its group, None of a continuous one; those of calls too."""
        yield from ((None, assign) for assign in self.assigns)
        for group in self.groups.values():
            yield from ((group, assign) for assign in group.assigns)


class Reader:
    def __init__(self, text):
        self.text, self.tokens, self.at = text, tokens_of(text), 0
        self.foreign, self.imports = [], []

    @property
    def token(self):
        return self.tokens[self.at]

    @property
    def before(self):
        return self.tokens[self.at - 1]

    def sees(self, *words):
        return self.token.text in words

    def sees_name(self):
        return re.fullmatch(r'[A-Za-z_]\w*', self.token.text, re.A) and self.token.text not in WORDS

    def next(self):
        token = self.token
        self.at = min(self.at + 1, len(self.tokens) - 1)
        return token

    def takes(self, word):
        if self.sees(word):
            return self.next()
        return None

    def wants(self, *words):
        """The next token, which has to be one of these."""
        if not self.sees(*words):
            raise Unexpected(self.token, [f'`{word}`' for word in words])
        return self.next()

    def name(self, of='a name'):
        if not self.sees_name():
            raise Unexpected(self.token, [of])
        return self.next()

    def number(self):
        if not re.fullmatch(r'\d+', self.token.text):
            raise Unexpected(self.token, ['a number'])
        return int(self.next().text)

    def is_foreign(self, name, first):
        self.foreign.append(Foreign(name, first, self.before))

    def attributes(self):
        """The names of attributes; those of other forms than `@name` and `@name(4)` are foreign."""
        names = []
        while self.sees('@'):
            first = self.next()
            names.append(self.next().text)
            if self.takes('('):
                self.number()
                self.wants(')')
            elif self.sees('{'):
                self.inside('{', '}')
                self.is_foreign('set attribute', first)
        return names

    def marks(self):
        """The strings of `<"name"=4>`."""
        names = []
        if self.takes('<'):
            while not self.takes('>'):
                names.append(self.next().text.strip('"'))
                self.wants('=')
                self.number()
                if not self.sees('>'):
                    self.wants(',', '>')
        return names

    def inside(self, begin, end):
        """Passes over what stands between two brackets, with brackets in between."""
        self.wants(begin)
        depth = 1
        while depth:
            if not self.token.text:
                raise Unexpected(self.token, [f'`{end}`'])
            depth += self.sees(begin) - self.sees(end)
            self.next()

    def file(self):
        parts = []
        while self.token.text:
            first = self.token
            if self.takes('import'):
                self.imports.append(self.next())
                self.wants(';')
            elif self.sees('extern'):
                self.next()
                self.next()
                self.inside('{', '}')
                self.is_foreign('extern', first)
            elif self.sees('primitive') or (self.sees('comb', 'static') and self.tokens[self.at + 1].text == 'primitive'):
                self.primitive(first)
            elif self.sees('metadata', 'sourceinfo'):
                name = self.next().text
                if not self.token.text.startswith('#{'):
                    raise Unexpected(self.token, ['`#{`'])
                self.next()
                self.is_foreign(name, first)
            else:
                parts.append(self.component())
        return parts

    def primitive(self, first):
        while not self.sees('{', ';', ''):
            self.next()
        if self.sees('{'):
            self.inside('{', '}')
            self.takes(';')
        else:
            self.next()
        self.is_foreign('primitive', first)

    def component(self):
        first = self.token
        self.attributes()
        comb, length = bool(self.takes('comb')), None
        static = self.takes('static')
        if static:
            length = self.static_length()
        if not self.sees('component'):
            raise Unexpected(self.token, ['`component`'] if self.at else ['`import`', '`component`'])
        self.next()
        token = self.name('the name of the component')
        part = Component(token.text, token, first, comb, length)
        if comb:
            self.is_foreign('comb component', first)
        part.marks = self.marks()
        part.in_ports, part.out_ports = self.ports(), self.ports() if self.takes('->') else []
        self.wants('{')
        self.cells(part)
        self.wires(part)
        part.control = Statement('empty', self.token)
        if self.takes('control'):
            part.control = self.block(False, part)
        part.last = self.wants('}')
        return part

    def static_length(self):
        if self.takes('<'):
            length = self.number()
            self.wants('>')
            return length
        return None

    def ports(self):
        self.wants('(')
        ports = []
        while not self.takes(')'):
            attributes, token = self.attributes(), self.name('the name of a port')
            self.wants(':')
            ports.append(Port(token.text, self.number(), attributes, token))
            if not self.sees(')'):
                self.wants(',', ')')
        return ports

    def cells(self, part):
        self.wants('cells')
        self.wants('{')
        while not self.sees('}'):
            first = self.token
            attributes = self.attributes()
            is_ref = bool(self.takes('ref'))
            token = self.name('the name of a cell')
            self.marks()
            self.wants('=')
            kind = self.name('the name of a primitive or a component')
            cell = Cell(token.text, kind.text, self.numbers(), attributes, token, first, self.wants(';'), is_ref)
            if is_ref:
                self.is_foreign('ref cell', first)
            part.cells.append(cell)
        part.cells_end = self.next()

    def numbers(self):
        self.wants('(')
        numbers = []
        while not self.takes(')'):
            numbers.append(self.number())
            if not self.sees(')'):
                self.wants(',', ')')
        return numbers

    def wires(self, part):
        self.wants('wires')
        self.wants('{')
        while not self.sees('}'):
            first = self.token
            attributes = self.attributes()
            if self.sees('comb', 'static', 'group'):
                group = self.group(first, attributes)
                part.groups.setdefault(group.name, group)
            elif self.sees('fsm'):
                self.fsm(first)
            else:
                part.assigns.append(self.assign())
        part.wires_end = self.next()

    def fsm(self, first):
        while not self.sees('{', ''):
            self.next()
        self.inside('{', '}')
        self.is_foreign('fsm', first)

    def group(self, first, attributes):
        comb, length = bool(self.takes('comb')), None
        static = bool(self.takes('static'))
        if static:
            length = self.static_length()
        self.wants('group')
        token = self.name('the name of a group')
        if static and length is None and self.sees('<'):
            length = self.static_length()
            self.is_foreign('length behind the name', first)
        else:
            self.marks()
        self.wants('{')
        assigns = []
        while not self.sees('}'):
            self.attributes()
            assigns.append(self.assign())
        return Group(token.text, comb, length, assigns, attributes, token, first, self.next())

    def operand(self, of='a port or a literal'):
        first = self.token
        if re.fullmatch(r"\d+'[dboxh][0-9a-fA-F]+", first.text):
            self.next()
            return Operand(first, first, literal=first.text)
        name = self.name(of).text
        if self.takes('.'):
            port = self.name('the name of a port')
            return Operand(first, port, cell=name, port=port.text)
        if self.takes('['):
            port = self.name('`go` or `done`')
            return Operand(first, self.wants(']'), group=name, port=port.text)
        return Operand(first, first, port=name)

    def assign(self):
        target = self.operand('an assignment, a group or `}`')
        self.wants('=')
        guard, source = None, None
        at = self.at
        source = self.operand() if not self.sees('!', '(', '%') else None
        if source is None or not self.sees(';'):
            self.at = at
            guard = self.guard()
            if not self.sees('?'):
                raise Unexpected(self.token, ['`;`', '`?`', '`&`', '`|`', '`==`'] if source else ['`?`', '`&`', '`|`'])
            self.next()
            source = self.operand()
        if not self.sees(';'):
            raise Unexpected(self.token, ['`;`'])
        return Assign(target, guard, source, self.next())

    def guard(self):
        return self.joined('|', 'or', lambda: self.joined('&', 'and', self.compared))

    def joined(self, word, kind, part):
        parts = [part()]
        while self.takes(word):
            parts.append(part())
        return Guard(kind, parts) if len(parts) > 1 else parts[0]

    def compared(self):
        found = self.unary()
        if found.kind == 'port' and self.sees('==', '!=', '<', '>', '<=', '>='):
            word = self.next().text
            return Guard(word, operands=[found.operands[0], self.operand()])
        return found

    def unary(self):
        if self.takes('!'):
            return Guard('not', [self.unary()])
        if self.takes('('):
            found = self.guard()
            self.wants(')')
            return found
        if self.takes('%'):
            if self.takes('['):
                low = self.number()
                self.wants(':')
                high = self.number()
                self.wants(']')
            else:
                low = self.number()
                high = low + 1
            return Guard('time', cycles=(low, high))
        return Guard('port', operands=[self.operand('a guard')])

    def block(self, static, part):
        """A block of several statements is a seq, one of none is empty."""
        first = self.token
        parts = self.statements(part)
        if len(parts) == 1:
            return parts[0]
        return Statement('seq' if parts else 'empty', first, static=static, parts=parts)

    def statements(self, part):
        self.wants('{')
        parts = []
        while not self.sees('}'):
            found = self.statement(part)
            if found:
                parts.append(found)
        self.next()
        return parts

    def statement(self, part):
        first = self.token
        attributes = self.attributes()
        if attributes and self.takes(';'):
            self.is_foreign('empty statement', first)
            return None
        token = self.token
        static = bool(self.takes('static'))
        length = self.static_length() if static else None
        made = Statement('', token, static=static, length=length, attributes=attributes)
        if self.sees('seq', 'par'):
            made.kind = self.next().text
            self.marks()
            made.parts = self.statements(part)
        elif self.sees('if', 'while'):
            self.tested(made, part)
        elif self.takes('repeat'):
            made.kind, made.count = 'repeat', self.number()
            made.parts = [self.block(static, part)]
        elif self.takes('invoke'):
            self.invoke(made, first)
        else:
            made.kind, made.name = 'enable', self.name('a statement or `}`').text
            self.marks()
            self.wants(';')
            group = part.groups.get(made.name)
            made.static = group is not None and group.length is not None
        if self.sees('with') and made.kind == 'enable':
            raise Unexpected(self.token, ['a statement'])
        made.last = self.before
        return made

    def tested(self, made, part):
        made.kind = self.next().text
        made.test = self.operand('a port')
        if self.takes('with'):
            made.comb = self.name('the name of a comb group').text
        made.parts = [self.block(made.static, part)]
        if made.kind == 'if':
            other = self.token
            if not self.takes('else'):
                made.parts.append(Statement('empty', made.token))
            elif self.sees('if') or self.sees('static'):
                made.parts.append(self.statement(part))
                self.is_foreign('else if', other)
            else:
                made.parts.append(self.block(made.static, part))

    def invoke(self, made, first):
        made.kind, made.name = 'invoke', self.name('the name of a cell').text
        if self.sees('['):
            self.inside('[', ']')
            self.is_foreign('cells handed to an invoke', first)
        made.inputs, made.outputs = self.binds(), self.binds()
        if self.takes('with'):
            made.comb = self.name('the name of a comb group').text
            self.wants(';')
            self.is_foreign('invoke with', first)
        else:
            self.wants(';')

    def binds(self):
        self.wants('(')
        pairs = []
        while not self.takes(')'):
            token = self.name('the name of a port')
            self.wants('=')
            pairs.append((token, self.operand()))
            if not self.sees(')'):
                self.wants(',', ')')
        return pairs


def read_calls(it, part):
    """Behind the groups of a component stand those of its invokes, in the order of the text: a call, or the captures of a static component."""
    counts = {}
    for made in part.control.all():
        if made.kind == 'invoke':
            counts[made.name] = counts.get(made.name, 0) + 1
            made.called = made.name if counts[made.name] == 1 else f'{made.name} {counts[made.name]}'
            cell = part.cell(made.name)
            called = it.by_name.get(cell.kind) if cell else None
            is_static = called is not None and called.static is not None
            if made.static and not is_static:
                it.foreign.append(Foreign('static invoke', made.token, made.last))
            made.static = is_static
            made.cycles = called.static + (1 if made.outputs else 0) if is_static else None
            group = captures_of(made) if made.static else call_of(made, cell)
            if group:
                part.groups[group.name] = group


def starts_by(kind):
    """The port that starts a cell when it is invoked."""
    if kind.startswith('seq_mem'):
        return 'content_en'
    return 'write_en' if kind == 'std_reg' or '_mem_d' in kind else 'go'


def call_name(it):
    """The name that the group of an invoke has here."""
    return f'invoke {it.called}'


def captures_of(it):
    """The group that captures the outputs of a static component, in the cycle behind it; None where nothing is captured."""
    token = it.token
    assigns = []
    for name, target in it.outputs:
        assigns.append(Assign(target, None, Operand(token, token, cell=it.name, port=name.text), token))
        assigns.append(Assign(Operand(token, token, cell=target.cell, port='write_en'), None, Operand(token, token, literal="1'd1"), token))
    return Group(call_name(it), False, 1, assigns, [], token, token, it.last or token, it) if assigns else None


def call_of(it, cell):
    """The group that an invoke stands for (docs/LANGUAGE.md)."""
    token, go = it.token, starts_by(cell.kind if cell else '')

    def port(name, cell=it.name):
        return Operand(token, token, cell=cell, port=name)

    def one():
        return Operand(token, token, literal="1'd1")
    assigns = [Assign(port(name.text), None, source, token) for name, source in it.inputs]
    free = Guard('not', [Guard('port', operands=[port('done')])]) if it.outputs else None
    assigns.append(Assign(port(go), free, one(), token))
    for name, target in it.outputs:
        assigns += [Assign(target, None, port(name.text), token), Assign(port('write_en', target.cell), None, port('done'), token)]
    name = call_name(it)
    dones = [Guard('port', operands=[port('done', target.cell)]) for _, target in it.outputs]
    hole = Operand(token, token, group=name, port='done')
    if len(dones) < 2:
        assigns.append(Assign(hole, None, dones[0].operands[0] if dones else port('done'), token))
    else:
        assigns.append(Assign(hole, Guard('and', dones), one(), token))
    return Group(name, False, None, assigns, [], token, token, it.last or token, it)


class Design:
    """A design that was read: its components in order, and what it has of other forms."""

    def __init__(self, text):
        reader = Reader(text)
        self.text, self.lines = text, text.split('\n')
        self.parts = reader.file()
        self.by_name = {part.name: part for part in reversed(self.parts)}
        self.foreign, self.imports, self.tokens = reader.foreign, reader.imports, reader.tokens
        for part in self.parts:
            if part.name == 'main' and part.static is not None:
                self.foreign.append(Foreign('static main', part.first, part.token))
            read_calls(self, part)

    def component_at(self, line, column=1):
        """The component in which a place stands, else the last that begins before it."""
        before = [part for part in self.parts if part.first.place <= (line, column)]
        return before[-1] if before else self.parts[0]


def read(text):
    return Design(text)
