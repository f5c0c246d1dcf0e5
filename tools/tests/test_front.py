"""The front: its commands, their statuses, its warnings, names and waves."""
import os
import re
import unittest

import common
import design
import lint

NEW = """component main() -> () {
  cells { @extern m = std_mem_d1(8, 2, 1); s = seq_mem_d1(8, 2, 1); r = std_reg(8); q = std_reg(8); p = std_mult_pipe(8); c = one(); }
  wires {
    group read { s.addr0 = 1'd0; r.in = s.read_data; r.write_en = 1'd1; read[done] = r.done; }
    group wait { q.in = 8'd1; wait[done] = q.done; }
    group times { p.left = r.out; p.right = r.out; p.go = 1'd1; r.in = p.out; r.write_en = p.done; times[done] = r.done; }
    group idle { r.in = 8'd1; r.write_en = 1'd1; idle[done] = r.done; }
  }
  control { seq { read; wait; times; invoke c()(); } }
}
component one(x: 8) -> () { cells { r = std_reg(8); } wires { group g { r.in = x; r.write_en = 1'd1; g[done] = r.done; } } control { g; } }
"""
WARNED = ['`@extern` has no meaning', '`m` is never used', 'drives `s`, and not its `content_en`', 'waits for `q.done`, and does not start `q`', '`p` begins again',
          'group `idle` is never enabled', 'does not bind `x`']


class Warnings(unittest.TestCase):
    def test_what_is_warned_of(self):
        texts = [message.text for message in lint.warnings(design.read(NEW))]
        for said in WARNED:
            self.assertTrue(any(said in text for text in texts), said)
        self.assertEqual(len(texts), len(WARNED))

    def test_examples_have_none(self):
        for name in os.listdir(common.EXAMPLES):
            if name.endswith('.futil'):
                texts = [message.text for message in lint.warnings(design.read(common.example(name)), os.path.join(common.EXAMPLES, name.replace('.futil', '.json')))]
                self.assertEqual(texts, [], name)

    def test_a_warning_leaves_the_status(self):
        text = common.example('add_three.futil').replace('@external', '@extern')
        with common.Folder(d__futil=text, d__json=common.example('add_three.json')) as folder:
            status, out, told = common.calyx('run', 'd.futil', 'd.json', '--lint', folder=folder)
            self.assertEqual((status, out), (0, '{"cycles":6,"memories":{}}\n'))
            self.assertIn('d.futil:5:5: warning: `@extern` has no meaning', told)
            self.assertIn('d.json: warning: `mem` is a memory without `@external`', told)
            told = common.calyx('run', 'd.futil', 'd.json', folder=folder)[2]
            self.assertEqual(told, 'd.json: warning: `mem` is a memory without `@external` (line 5), so its words are passed over\n1 warning: --lint shows it\n')


class Front(unittest.TestCase):
    def test_words(self):
        self.assertEqual(common.calyx('--help')[0], 0)
        self.assertEqual(common.calyx('nothing')[0], 1)
        self.assertEqual(common.calyx('check')[0], 1)
        self.assertEqual(common.calyx('check', 'a.futil', '--other')[0], 1)
        self.assertRegex(common.calyx('--version')[1], r'^yarnchert .*rattle-kit-\w+ logic \w+')

    def test_rules_are_explained(self):
        self.assertIn('race: a design breaks this rule where one arm', common.calyx('explain', 'race')[1])
        self.assertIn('is `width` meant', common.calyx('explain', 'widht')[2].replace('or `', ''))

    def test_outputs_are_passed_on(self):
        path = os.path.join(common.EXAMPLES, 'swap')
        self.assertEqual(common.calyx('check', f'{path}.futil'), (0, 'accepted\n', ''))
        self.assertEqual(common.calyx('run', f'{path}.futil', f'{path}.json', '--sim'), (0, common.example('swap.dump'), 'sim: the same line\n'))
        self.assertIn('error: this file could not be read', common.calyx('check', 'there_is_none.futil')[2])

    def test_other_designs(self):
        path = os.path.join(common.EXAMPLES, 'add_three')
        with common.Folder() as folder:
            for command, turns in (('share', 6), ('promote', 4)):
                self.assertEqual(common.calyx(command, f'{path}.futil', '-o', 'other.futil', folder=folder), (0, '', ''))
                self.assertIn(f'"cycles":{turns},', common.calyx('run', 'other.futil', f'{path}.json', folder=folder)[1])

    def test_no_colour_outside_a_terminal(self):
        with common.Folder(d__futil='component') as folder:
            self.assertNotIn('\x1b', common.calyx('check', 'd.futil', folder=folder)[2])

    def test_verilog(self):
        with common.Folder(d__v='module main(\nno\n', d__json='{}') as folder:
            status, _, told = common.calyx('sim', 'd.v', 'd.json', '5', folder=folder)
            self.assertEqual((status, told.split('\n')[0]), (2, 'verilog 2:1 syntax'))
            self.assertIn('d.v:2:1: error: syntax:', told)


class Waves(unittest.TestCase):
    def test_names_and_their_waves(self):
        path = os.path.join(common.EXAMPLES, 'histogram')
        with common.Folder() as folder:
            self.assertEqual(common.calyx('compile', f'{path}.futil', '-o', 'h.v', folder=folder)[0], 0)
            told = common.calyx('names', f'{path}.futil', 'h.v', folder=folder)[1]
            self.assertIn('main cx_r0 = 1: line 55: while below.out\n', told)
            vcd = '\n'.join(['$scope module bench $end', '$var wire 1 ! clk $end', '$scope module dut $end', '$var reg 32 " cx_r0 [31:0] $end', '$var wire 5 # cx_c2_2 [4:0] $end',
                             '$scope module cx_i2 $end', '$var reg 5 $ cx_value [4:0] $end', '$upscope $end', '$upscope $end', '$upscope $end', '$enddefinitions $end', '#0', 'b1 "'])
            with open(f'{folder}/own.vcd', 'w', encoding='utf-8') as file:
                file.write(vcd + '\n')
            named = common.calyx('names', f'{path}.futil', 'h.v', '--vcd', 'own.vcd', folder=folder)[1]
            self.assertEqual(re.findall(r'\$(?:var|scope) .*', named), [
                '$scope module bench $end', '$var wire 1 ! clk $end', '$scope module dut $end', '$var reg 32 " position_of_control [31:0] $end', '$var wire 5 # i_out [4:0] $end',
                '$scope module i $end', '$var reg 5 $ value [4:0] $end'])

    def test_waves_of_a_run(self):
        path = os.path.join(common.EXAMPLES, 'static_pipeline')
        with common.Folder() as folder:
            self.assertEqual(common.calyx('wave', f'{path}.futil', f'{path}.json', '-o', 'w.vcd', '--words', '--ports', 'pipe', folder=folder)[0], 0)
            with open(f'{folder}/w.vcd', encoding='utf-8') as file:
                waves = file.read()
        names = re.findall(r'^\$var (\w+) (\d+) \S+ (\S+) \$end$', waves, flags=re.M)
        self.assertIn(('string', '1', 'control'), names)
        self.assertIn(('wire', '32', 'time_51_static_seq'), names)
        self.assertIn(('wire', '1', 'go_multiply'), names)
        self.assertIn(('wire', '32', 'word_results_7'), names)
        self.assertIn(('wire', '32', 'port_pipe_left'), names)
        self.assertIn('$comment main, the position of control: position 0 = line 51: static seq $end', waves)
        self.assertTrue(waves.endswith('#350\n'), waves[-20:])


if __name__ == '__main__':
    unittest.main()
