"""Tests of tools/profile.py: counts as they are written, what is seen of runs, and the pictures."""
import os
import re
import subprocess
import sys
import unittest
import xml.etree.ElementTree

from common import EXAMPLES, TOOLS, Folder, example

import activity
import design
import flattening
import given
import pictures
import profile
import program


def seen(text, data, cycles=1000000):
    """A run of a design that is given as a text."""
    written, told = program.compiled(text)
    assert written, told
    with Folder(d__json=data) as folder:
        held = given.memories(os.path.join(folder, 'd.json'), written)
    return activity.Activity(flattening.flattened(design.read(text)), written, held, cycles)


def store(name, cell, value):
    return f"group {name} {{ {cell}.in = {value}; {cell}.write_en = 1'd1; {name}[done] = {cell}.done; }} "


# The arms take 2, 6 and 4 turns, twice.
THREE_ARMS = ('component main() -> () { cells { r = std_reg(32); s = std_reg(32); t = std_reg(32); } wires { '
              + store('one', 'r', "32'd1") + store('two', 's', "32'd2") + store('three', 't', "32'd3")
              + '} control { repeat 2 { par { one; seq { two; two; two; } seq { three; three; } } } } }')


class Counts(unittest.TestCase):
    def test_lines_of_the_program(self):
        text = '{"cycles":12,"memories":{"mem":[10]}}\nactive st 1\nactive su 0\nactive c.p 2\nactive c.q 2\n'
        self.assertEqual(profile.read_counts(text), (12, {'st': 1, 'su': 0, 'c.p': 2, 'c.q': 2}))

    def test_no_groups(self):
        self.assertEqual(profile.read_counts('{"cycles":1,"memories":{"mem":[5]}}\n'), (1, {}))

    def test_other_lines(self):
        with self.assertRaises(SystemExit):
            profile.read_counts('{"cycles":1,"memories":{}}\ncounted a 3\n')

    def test_a_loop(self):
        run = seen(example('matrix_product.futil'), example('matrix_product.json'))
        turns, counts = profile.seen(run)
        self.assertEqual(turns, 4650)
        self.assertEqual((counts['times'], counts['accumulate'], counts['first_row']), (2048, 512, 1))

    def test_calls_are_not_counted(self):
        _, counts = profile.seen(seen(example('call_tree.futil'), example('call_tree.json')))
        self.assertEqual(counts, {'read_a': 1, 'read_b': 1, 'write': 1, 'sums.add': 1, 'sums.first.times.multiply': 4, 'sums.second.times.multiply': 4})


class Arms(unittest.TestCase):
    def test_waits(self):
        (rounds,) = profile.pars(seen(THREE_ARMS, '{}'))
        self.assertEqual((rounds.times, rounds.turns, rounds.taken, rounds.slowest), (2, 12, [4, 12, 8], [0, 2, 0]))

    def test_each_turn_once(self):
        for text, data in ((THREE_ARMS, '{}'), *((example(f'{name}.futil'), example(f'{name}.json')) for name in ('call_tree', 'static_pipeline', 'swap'))):
            run = seen(text, data)
            passed = profile.Passed(run)
            self.assertEqual(sum(passed.kinds.values()), run.turns)
            self.assertEqual(sum(passed.ways.values()), run.turns)

    def test_without_icarus(self):
        kept, activity.shutil.which = activity.shutil.which, lambda name: None
        try:
            (rounds,) = profile.pars(seen(THREE_ARMS, '{}'))
        finally:
            activity.shutil.which = kept
        self.assertEqual((rounds.turns, rounds.taken), (12, [4, 12, 8]))


# Each invoke of `m` runs `p` one cycle and `q` two; `h` has an `m` of its own, which it invokes twice.
TWO_LEVELS = ("component main() -> () { cells { m = low(); h = high(); x = std_reg(32); } wires { static<1> group own { x.in = 32'd1; x.write_en = 1'd1; } } control { repeat 2 { "
              "static seq { static invoke m(x = x.out)(); own; static invoke h(x = x.out)(); static invoke m(x = x.out)(); } } } }\n"
              'static<7> component high(x: 32) -> () { cells { m = low(); k = std_reg(32); } wires { } control { static seq { static invoke m(x = x)(); static invoke m(x = x)(y = k.in); } } }\n'
              "static<3> component low(x: 32) -> (y: 32) { cells { r = std_reg(32); } wires { y = r.out; static<1> group p { r.in = x; r.write_en = 1'd1; } static<2> group q { r.in = %0 ? 32'd2; "
              "r.in = %1 ? 32'd3; r.write_en = 1'd1; } group never { r.in = 32'd9; r.write_en = 1'd1; never[done] = r.done; } } control { static seq { p; q; } } }\n")


class StaticComponents(unittest.TestCase):
    def test_counts_are_those_of_copies(self):
        for text, data in ((TWO_LEVELS, '{}'), (example('static_component.futil'), example('static_component.json'))):
            with Folder(d__futil=text, d__json=data) as folder:
                status, out, told = program.run('profile', os.path.join(folder, 'd.futil'), os.path.join(folder, 'd.json'), '1000')
            self.assertEqual(status, 0, told)
            turns, counts = profile.read_counts(out.decode())
            seen_turns, seen_counts = profile.seen(seen(text, data))
            self.assertEqual((seen_turns, seen_counts), (turns, {path: count for path, count in counts.items() if count or path in seen_counts}))

    def test_rows_of_invokes(self):
        run = seen(TWO_LEVELS, '{}')
        rows = list(profile.group_rows(design.read(TWO_LEVELS), run, *profile.seen(run)))
        self.assertEqual([row[:2] + row[3:] for row in rows], [
            ('q', 8, 'h.m', 3), ('  by invoke h / invoke m', 4, '', '1,2'), ('  by invoke h / invoke m 2', 4, '', '1,2'),
            ('q', 8, 'm', 3), ('  by invoke m', 4, '', '1'), ('  by invoke m 2', 4, '', '1'),
            ('p', 4, 'h.m', 3), ('  by invoke h / invoke m', 2, '', '1,2'), ('  by invoke h / invoke m 2', 2, '', '1,2'),
            ('p', 4, 'm', 3), ('  by invoke m', 2, '', '1'), ('  by invoke m 2', 2, '', '1'), ('own', 2, 'main', 1)])

    def test_a_lane_for_each_instance(self):
        run = seen(TWO_LEVELS, '{}')
        found = {lane.told(): list(pictures.pieces(run, lane, 0, 15)) for lane, _ in pictures.in_order(run)}
        self.assertEqual(list(found), ['main', 'm', 'h.m'])
        self.assertEqual([it[:3] for it in found['m']], [(0, 1, 'p'), (1, 3, 'q'), (11, 12, 'p'), (12, 14, 'q')])
        self.assertEqual([it[:3] for it in found['h.m']], [(4, 5, 'p'), (5, 7, 'q'), (7, 8, 'p'), (8, 10, 'q')])
        self.assertEqual(pictures.stem('m 2.p & h.m.q1 & own'), 'p & q1 & own')


class Pictures(unittest.TestCase):
    def pictures_of(self, text, data):
        run = seen(text, data)
        made = (pictures.flame(profile.Passed(run).ways, run.turns), pictures.timeline(run, 0, run.turns))
        for one in made:
            xml.etree.ElementTree.fromstring(one)
        return made

    def test_few_turns(self):
        flame, timeline = self.pictures_of(THREE_ARMS, '{}')
        self.assertIn('two: turns 4 to 5', re.sub(r' \(line \d+\)', '', timeline))
        self.assertIn('arm 2', flame)

    def test_many_turns(self):
        long = THREE_ARMS.replace('repeat 2', 'repeat 20000')
        _, timeline = self.pictures_of(long, '{}')
        self.assertLess(len(timeline), 2000000)


class Printed(unittest.TestCase):
    def test_a_file_of_counts(self):
        with Folder(c='{"cycles":6,"memories":{"mem":[8]}}\nactive read 1\nactive add 1\nactive write 1\n') as folder:
            ran = subprocess.run([sys.executable, os.path.join(TOOLS, 'profile.py'), os.path.join(EXAMPLES, 'add_three.futil'), os.path.join(EXAMPLES, 'add_three.json'),
                                  '--counts', os.path.join(folder, 'c')], capture_output=True, text=True, check=False)
        self.assertEqual(ran.returncode, 0, ran.stderr)
        self.assertRegex(ran.stdout, r'(?m)^add +1 +16\.7% +main +17$')
        self.assertIn('a group is seen to be done      3   50.0%', ran.stdout)


if __name__ == '__main__':
    unittest.main()
