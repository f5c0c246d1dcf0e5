#!/usr/bin/env python3
"""Tells what a gate costs: processor seconds and peak memory of each crate's proof, of its tests and of its must-fail edits, dearest first.

    bench/gate.py [WORD..]          runs .ci/run, or the command WORD.., at the top of the repository and watches it; ends with its status
    bench/gate.py --watch [PID]     watches the `rt ci` that runs, or that with this number, until it ends or this script is interrupted

What an earlier run on the machine has passed costs nothing again: for a gate from nothing where something is kept, WORD.. is `rt ci --anew`.

The processes that `rt ci` starts are looked at twice a second in /proc (Linux alone): a check in a crate's folder is its proof, or that of its
tests where the tests are built; one in a folder of edits is an edit, or a check of the whole crate that its edits begin or end with. With the
proof of a program its builds and runs are counted. Seconds are of user and system time. Those of the last half second of a process are missed,
and processes that are shorter: the system's count, which is told too where this script runs the gate, misses nothing. Peaks are of one process,
of resident memory.

What is printed is Markdown: the table of crates, that of lanes (a check with N jobs takes N of them; a lane is a processor, or by RT_JOBS), and
the stretches of a minute or more in which a lane stood idle, with what ran beside.
"""
import glob
import os
import re
import resource
import subprocess
import sys
import time

TOP = os.path.join(os.path.dirname(os.path.abspath(__file__)), '..')
TICKS = os.sysconf('SC_CLK_TCK')
KINDS = ('proof', 'tests', 'edits')
BETWEEN = 0.5
SHORT, LONG = 2, 60


def read(path):
    """The text of a file of /proc, empty where its process has ended."""
    try:
        with open(path, encoding='utf-8', errors='replace') as file:
            return file.read()
    except OSError:
        return ''


def words_of(pid):
    return read(f'/proc/{pid}/cmdline').split('\0')[:-1]


def folder_of(pid):
    try:
        return os.readlink(f'/proc/{pid}/cwd')
    except OSError:
        return ''


def processes():
    """Of each process its parent, the moment when it started and its seconds, with those of its children that have ended."""
    found = {}
    for pid in filter(str.isdigit, os.listdir('/proc')):
        fields = read(f'/proc/{pid}/stat').rpartition(')')[2].split()
        if fields:
            found[int(pid)] = int(fields[1]), int(fields[19]), sum(map(int, fields[11:15])) / TICKS
    return found


def is_gate(words):
    return len(words) > 2 and os.path.basename(words[1]) == 'rt' and words[2] == 'ci'


def is_below(pid, top, found):
    while pid in found and pid != top:
        pid = found[pid][0]
    return pid == top


def after(words, flag, otherwise):
    return words[words.index(flag) + 1] if flag in words[:-1] else otherwise


def task_of(words, folder):
    """The crate and the kind of work of a process that `rt ci` started, and how many lanes it takes; None where it is no such work."""
    name = after(words, '--crate-name', '')
    if name:
        kind = 'edits' if '/rt-edit-' in folder else 'tests' if after(words, '-o', '').endswith('_tests.o') else 'proof'
        return name, kind, int(after(words, '--jobs', '1'))
    ran = re.search(r'/rt-run-[^/]*/bin/(\w+)', ' '.join(words))
    if not ran:
        return None
    name = ran[1].removesuffix('_tests')
    return name, 'proof' if name == ran[1] else 'tests', 1


class Work:
    """One process that `rt ci` started."""

    def __init__(self, task):
        self.crate, self.kind, self.lanes = task
        self.seconds = self.peak = 0

    def see(self, pid, seconds):
        held = re.search(r'^VmHWM:\s+(\d+) kB', read(f'/proc/{pid}/status'), re.M)
        self.seconds = max(self.seconds, seconds)
        self.peak = max(self.peak, int(held[1]) if held else 0)


class Watch:
    """What has been seen of a gate."""

    def __init__(self):
        self.gate, self.root, self.works, self.spans = None, TOP, {}, []
        self.began = self.seen = time.time()

    def look(self, top):
        """Looks at what runs below the process `top` now, and returns whether that still runs."""
        found = processes()
        if top not in found:
            return False
        if self.gate not in found:
            self.gate = next((it for it in found if is_below(it, top, found) and is_gate(words_of(it))), None)
            self.root = folder_of(self.gate) or self.root
        running = [self.work_of(pid, *found[pid][1:]) for pid in found if self.gate and found[pid][0] == self.gate]
        self.note([it for it in running if it])
        return True

    def work_of(self, pid, started, seconds):
        """The work of a process, with what it has taken so far; None where it is none, or none yet."""
        if (pid, started) not in self.works:
            task = task_of(words_of(pid), folder_of(pid))
            if not task:
                return None
            self.works[pid, started] = Work(task)
        work = self.works[pid, started]
        work.see(pid, seconds)
        return work

    def note(self, running):
        """Keeps what ran since the last look: spans of time with the works of each."""
        now = time.time()
        if self.spans and self.spans[-1][2] == running:
            self.spans[-1][1] = now
        else:
            self.spans.append([self.seen, now, running])
        self.seen = now


def costs(watch):
    """Of each crate and kind of work the seconds and the peak in kB."""
    found = {}
    for work in watch.works.values():
        seconds, peak = found.get((work.crate, work.kind), (0, 0))
        found[work.crate, work.kind] = seconds + work.seconds, max(peak, work.peak)
    return found


def row(words):
    return f'| {" | ".join(words)} |'


def crates_table(watch):
    """A line for each crate: its name, then of each kind of work seconds and peak, then the sum."""
    found = costs(watch)
    sums = {name: sum(found.get((name, kind), (0, 0))[0] for kind in KINDS) for name, _ in found}
    yield row(['Crate', *(f'{kind.capitalize()}, seconds | GB' for kind in KINDS), 'Seconds together'])
    yield '|---|' + '---|' * (2 * len(KINDS) + 1)
    for name in sorted(sums, key=lambda it: -sums[it]):
        cells = [f'`{name}`']
        for kind in KINDS:
            seconds, peak = found.get((name, kind), (None, 0))
            edits = len(glob.glob(f'{watch.root}/crates/{name}/must-fail/*.edit')) if kind == 'edits' else 0
            cells.append(' | ' if seconds is None else f'{seconds:.0f}{f" of {edits}" if edits else ""} | {peak / 1e6:.1f}')
        yield row([*cells, f'{sums[name]:.0f}'])
    whole = [sum(it[0] for (_, kind), it in found.items() if kind == one) for one in KINDS]
    yield row(['all', *(f'{it:.0f} | ' for it in whole), f'{sum(whole):.0f}'])


def lanes_table(watch, lanes):
    """How long so many lanes were taken."""
    took = {}
    for begin, end, running in watch.spans:
        taken = min(lanes, sum(it.lanes for it in running))
        took[taken] = took.get(taken, 0) + end - begin
    yield row(['Lanes taken', 'Minutes by the clock'])
    yield '|---|---|'
    for taken in sorted(took, reverse=True):
        yield row([f'{taken} of {lanes}', f'{took[taken] / 60:.1f}'])


def idle_stretches(watch, lanes):
    """A line for each stretch of a minute or more with an idle lane, and what ran longest in it. All lanes taken for a moment end no stretch."""
    stretches = [[]]
    for begin, end, running in watch.spans:
        if sum(it.lanes for it in running) < lanes:
            stretches[-1].append((begin, end, running))
        elif end - begin > SHORT:
            stretches.append([])
    for stretch in stretches:
        if stretch and stretch[-1][1] - stretch[0][0] >= LONG:
            yield told_stretch(watch, stretch)


def told_stretch(watch, stretch):
    took = {}
    for begin, end, running in stretch:
        for work in running:
            took[f'{work.crate} ({work.kind})'] = took.get(f'{work.crate} ({work.kind})', 0) + end - begin
    first, last = ((it - watch.began) / 60 for it in (stretch[0][0], stretch[-1][1]))
    beside = ', '.join(sorted(took, key=lambda it: -took[it])[:4])
    return f'- minutes {first:.1f} to {last:.1f}: a lane idle beside {beside or "nothing"}'


def tell(watch, whole=None):
    """Prints the tables, with the seconds of the system where they are known."""
    jobs = os.environ.get('RT_JOBS', '')
    lanes = int(jobs) if jobs.isdigit() and int(jobs) else len(os.sched_getaffinity(0))
    took = sum(it.seconds for it in watch.works.values())
    print('\n'.join(crates_table(watch)), end='\n\n')
    print(f'{took / 60:.1f} minutes of processor time as looked at', end='')
    print(f', {whole / 60:.1f} as the system counts' if whole else '', end='')
    print(f', in {(watch.seen - watch.began) / 60:.1f} minutes by the clock.\n')
    print('\n'.join(lanes_table(watch, lanes)), end='\n\n')
    print('\n'.join(idle_stretches(watch, lanes)) or 'No lane stood idle for a minute.', flush=True)


def watched(top):
    """Watches the process `top` to its end."""
    watch = Watch()
    try:
        while watch.look(top):
            time.sleep(BETWEEN)
    except KeyboardInterrupt:
        pass
    return watch


def run(words):
    """Runs a command at the top of the repository, tells what it cost and returns its status."""
    watch = Watch()
    with subprocess.Popen(words, cwd=TOP) as started:
        while started.poll() is None:
            watch.look(started.pid)
            time.sleep(BETWEEN)
    of = resource.getrusage(resource.RUSAGE_CHILDREN)
    tell(watch, of.ru_utime + of.ru_stime)
    return started.returncode


def main():
    words = sys.argv[1:]
    if words[:1] != ['--watch']:
        return run(words or ['bash', '.ci/run'])
    running = [int(words[1])] if words[1:] else [it for it in processes() if is_gate(words_of(it))]
    if len(running) != 1:
        sys.exit(f'{len(running)} runs of rt ci: {running}')
    tell(watched(running[0]))
    return 0


if __name__ == '__main__':
    sys.exit(main())
