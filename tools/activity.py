"""What goes on in the turns of a run: where control of each instance and of each arm of a `par` is, and which groups are active.

A turn is the cycle of that number of what `compile` writes (tools/moment.py). The text is run by Icarus Verilog, where that is installed, and else by
tools/verilog.py, which takes a second for some thousand cycles and is cut off after SECONDS. A stretch is a run of turns, from its first to the one behind its last.
"""
import bisect
import dataclasses
import os
import shutil
import subprocess
import tempfile
import time

import given
import numbering
import testbench
import verilog

SECONDS = 120
BENCH = """`timescale 1ns / 1ns
module bench;
  reg clk, reset, go;
  wire done;
  integer cycle, k;
  wire [{high}:0] seen;
  reg [{high}:0] last;
  main dut(.clk(clk), .reset(reset), .go(go), .done(done));
  assign seen = {{{seen}}};
  initial begin
    clk = 0; reset = 1; go = 0; cycle = 0;
{words}
    #1 clk = 1;
    #1 clk = 0; reset = 0; go = 1;
    #1;
    while (done !== 1'b1 && cycle < {cycles}) begin
      if (seen !== last) begin
        $display("%0d %b", cycle, seen);
        last = seen;
      end
      #1 clk = 1;
      #1 clk = 0; cycle = cycle + 1;
      #1;
    end
    $display("end %0d %b", cycle, done);
    $finish;
  end
endmodule
"""


@dataclasses.dataclass
class Stretch:
    """Turns in which one thing goes on: `of` is a statement, or the name of a group."""

    begin: int
    end: int
    of: object

    @property
    def turns(self):
        return self.end - self.begin

    def within(self, begin, end):
        """What of it lies between two turns; None where nothing does."""
        first, last = max(begin, self.begin), min(end, self.end)
        return Stretch(first, last, self.of) if first < last else None


class Stretches:
    """Stretches in order, none of which lies in another."""

    def __init__(self, found=()):
        self.all = sorted(found, key=lambda it: it.begin)
        self.begins = [it.begin for it in self.all]

    def __iter__(self):
        return iter(self.all)

    def __bool__(self):
        return bool(self.all)

    def within(self, begin, end):
        """What of them lies between two turns."""
        at = max(bisect.bisect_right(self.begins, begin) - 1, 0)
        last = bisect.bisect_left(self.begins, end)
        return [it for it in (one.within(begin, end) for one in self.all[at:last]) if it]


@dataclasses.dataclass
class Lane:
    """Control that goes on by itself: that of an instance, or one arm of a `par` in it. `around` is the lane in which the `par`, or the call, stands."""

    path: str
    part: object
    root: object
    par: object = None
    arm: int = 0
    around: object = None
    stretches: object = dataclasses.field(default_factory=Stretches)

    def told(self):
        where = self.path or 'main'
        return where if self.par is None else f'{where}: arm {self.arm + 1} of the par in line {self.par.line}'

    def within(self, begin, end):
        return self.stretches.within(begin, end)


@dataclasses.dataclass
class Inner:
    """An instance of a static component, which runs as copies of its groups where it is invoked: by the name of each its copies, with their stretches."""

    path: str
    copies: dict = dataclasses.field(default_factory=dict)
    par = None

    def told(self):
        return self.path

    def has_run(self):
        return any(one for found in self.copies.values() for _, one in found)

    def active(self, begin, end):
        """Of each group when it is active between two turns, by any copy."""
        return {name: [it for _, one in found for it in one.within(begin, end)] for name, found in self.copies.items()}


class Net:
    """A wire of an instance that is looked at: that control is `at` a statement, that a group does `go`, that a `par` comes to its `end`."""

    def __init__(self, scope, name, kind, path, of):
        self.scope, self.name, self.kind, self.path, self.of = scope, name, kind, path, of
        self.begin, self.stretches = None, []

    def turn(self, value, cycle):
        """What it is from a cycle on."""
        if value and self.begin is None:
            self.begin = cycle
        elif not value and self.begin is not None:
            self.stretches.append(Stretch(self.begin, cycle, self.of))
            self.begin = None


class Activity:
    """A run: its turns, whether it came to its end, its lanes, and the stretches of each group by instance and name."""

    def __init__(self, design, text, data, cycles):
        self.design = design
        self.parts = dict(numbering.module_names(design))
        self.bodies = numbering.modules_of(text)
        words = {name: [word % (1 << width) for word in given.flat(data[name]['data'])] for name, _, width, _ in given.externals(text)}
        self.run = verilog.Run(text, words)
        self.lanes, self.nets = [], []
        self.look('', self.run.main, None)
        by_icarus = self.by_icarus(text, data, cycles) if shutil.which('iverilog') and shutil.which('vvp') else None
        self.turns, self.is_whole = by_icarus or self.by_itself(cycles)
        for net in self.nets:
            net.turn(0, self.turns)
        self.gather()

    def look(self, path, scope, around):
        """The lanes and the nets of an instance and of those below it."""
        part = self.parts[scope.module.name]
        at = {id(net.of): number for number, net in enumerate(numbering.wires(part)) if net.kind == 'at'}
        ends = {id(net.of): number for number, net in enumerate(numbering.wires(part)) if net.kind == 'end'}
        own, holder = [], {}
        for number, root in numbering.regions(part):
            net = numbering.registers(part)[number]
            outer = around if net.par is None else holder[id(net.par)]
            lane = Lane(path, part, root, net.par, net.arm, outer)
            own.append(lane)
            for it in numbering.positions(root):
                holder[id(it)] = lane
                if id(it) in at:
                    self.nets.append(Net(scope, f'cx_w{at[id(it)]}', 'at', lane, it))
                if it.kind == 'par' and not it.static and id(it) in ends:
                    self.nets.append(Net(scope, f'cx_w{ends[id(it)]}', 'end', path, it))
        self.lanes += own
        self.nets += [Net(scope, name, 'go', path, group) for name, kind, group in numbering.holes(part, self.bodies[scope.module.name]) if kind == 'go']
        for number, cell in enumerate(part.cells):
            inner = scope.inside.get(f'cx_i{number}')
            if inner and inner.module.name in self.parts:
                self.look(f'{path}.{cell.name}' if path else cell.name, inner, own[0])

    def by_icarus(self, text, data, cycles):
        """Runs the text by Icarus Verilog; None where that fails."""
        loads = '\n'.join(testbench.loads(testbench.Text(text), data))
        seen = ', '.join('.'.join(('dut', *net.scope.path, net.name)) for net in self.nets)
        with tempfile.TemporaryDirectory(prefix='calyx_') as folder:
            for name, content in (('text.v', text), ('bench.v', BENCH.format(high=max(len(self.nets) - 1, 0), seen=seen or "1'b0", words=loads, cycles=cycles))):
                with open(os.path.join(folder, name), 'w', encoding='ascii') as file:
                    file.write(content)
            made = subprocess.run(['iverilog', '-g2005', '-s', 'bench', '-o', 'run.vvp', 'bench.v', 'text.v'], cwd=folder, capture_output=True, check=False)
            if made.returncode:
                return None
            with subprocess.Popen(['vvp', '-n', 'run.vvp'], cwd=folder, stdout=subprocess.PIPE, stderr=subprocess.DEVNULL, text=True) as ran:
                return self.follow(ran.stdout)

    def follow(self, lines):
        last = '0' * len(self.nets)
        for line in lines:
            words = line.split()
            if words[0] == 'end':
                return int(words[1]), words[2] == '1'
            for at, (before, now) in enumerate(zip(last, words[1])):
                if before != now:
                    self.nets[at].turn(now == '1', int(words[0]))
            last = words[1]
        return None

    def by_itself(self, cycles):
        cycle, ends = 0, time.monotonic() + SECONDS
        while not self.run.is_done():
            if cycle >= cycles or time.monotonic() > ends:
                return cycle, False
            for net in self.nets:
                net.turn(net.scope.value(net.name), cycle)
            self.run.step()
            cycle += 1
        return cycle, True

    def gather(self):
        """What stands at the nets, by lanes and groups."""
        self.groups, self.ends, by_lane = {}, {}, {}
        for net in self.nets:
            if net.kind == 'at':
                by_lane.setdefault(id(net.path), []).extend(net.stretches)
            elif net.kind == 'go':
                self.groups[net.path, net.of] = Stretches(net.stretches)
            else:
                self.ends[net.path, id(net.of)] = Stretches(net.stretches)
        for lane in self.lanes:
            lane.stretches = Stretches(by_lane.get(id(lane), ()))

    def active(self, path, name, begin, end):
        """When a group of an instance is active, between two turns."""
        return self.groups.get((path, name), Stretches()).within(begin, end)

    def inner(self, lane):
        """The instances of static components that are invoked in that of a lane, in the order of their cells."""
        found = {}
        for group in lane.part.groups.values() if lane.par is None else ():
            if group.copied and group.call is None:
                path = f'{lane.path}.{group.copied.cell}' if lane.path else group.copied.cell
                one = found.setdefault(path, Inner(path))
                one.copies.setdefault(group.copied.name, []).append((group, self.groups.get((lane.path, group.name), Stretches())))
        order = {cell.name.rpartition('.')[0]: at for at, cell in reversed(list(enumerate(lane.part.cells)))}
        return sorted(found.values(), key=lambda it: order.get(it.path.removeprefix(f'{lane.path}.'), len(order)))

    def arms(self, lane, par):
        return [it for it in self.lanes if it.par is par and it.path == lane.path]

    def rounds(self, lane, stretch):
        """A stretch of a `par`, cut where it began anew."""
        begin = stretch.begin
        for one in self.ends.get((lane.path, id(stretch.of)), Stretches()).within(stretch.begin, stretch.end - 1):
            for turn in range(one.begin, one.end):
                yield Stretch(begin, turn + 1, stretch.of)
                begin = turn + 1
        yield Stretch(begin, stretch.end, stretch.of)

    def child(self, path):
        """The lane of an instance."""
        return next((it for it in self.lanes if it.path == path and it.par is None), None)

    def called(self, lane, statement):
        """The lane of the instance that a statement calls, by an `invoke` or by a group that drives its `go`; None where it calls none."""
        cell = statement.name if statement.kind == 'invoke' else None
        if statement.kind == 'enable':
            cell = next((it.target.cell for it in lane.part.groups[statement.name].assigns if it.target.cell and it.target.port == 'go'), None)
        return self.child(f'{lane.path}.{cell}' if lane.path else cell) if cell else None
