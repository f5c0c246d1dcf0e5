"""What is read of designs: places, forms, and the primitives as docs/PRIMITIVES.md has them."""
import glob
import os
import re
import unittest

import common
import cells
import design
import numbering
import rules


class Reading(unittest.TestCase):
    def test_places(self):
        it = design.read('component main() -> () {\n  cells { r = std_reg(8); }\n  wires { r.in = 8\'d1; // a comment\n  }\n}\n')
        self.assertEqual(it.parts[0].cells[0].token.place, (2, 11))
        self.assertEqual(it.parts[0].assigns[0].target.first.place, (3, 11))
        self.assertEqual(it.parts[0].assigns[0].source.width_and_value(), (8, 1))

    def test_examples_have_no_foreign_forms(self):
        for path in glob.glob(f'{common.EXAMPLES}/*.futil'):
            with open(path, 'rb') as file:
                self.assertEqual(design.read(file.read().decode('latin-1')).foreign, [], path)

    def test_what_is_unexpected(self):
        cases = [('component main() -> () { cells { r = std_reg(8) } wires { } }', '}', '`;`'), ('component main(', '', 'the name of a port'),
                 ('component main() -> () { cells { } wires { a.b = 1 } }', '1', 'a port or a literal')]
        for text, token, wanted in cases:
            with self.assertRaises(design.Unexpected) as caught:
                design.read(text)
            self.assertEqual(caught.exception.token.text, token, text)
            self.assertIn(wanted, caught.exception.wanted)

    def test_a_call_stands_for_a_group(self):
        it = design.read(common.example('shared_call.futil'))
        group = it.by_name['main'].groups['invoke left']
        self.assertEqual([assign.target.text for assign in group.assigns], ['left.x', 'left.y', 'left.go', 'of_a_b.in', 'of_a_b.write_en', 'invoke left[done]'])
        self.assertIn('invoke left 2', it.by_name['main'].groups)


class Primitives(unittest.TestCase):
    def test_ports_are_those_of_the_page(self):
        page, found = common.text_of('docs', 'PRIMITIVES.md'), set()
        for name, numbers, ports in re.findall(r'^\| `(\w+)\(([A-Z0-9_, ]+)\)`[^|]*\| ([^|]+) \|', page, flags=re.M):
            found.add(name)
            values = [{'WIDTH': 7, 'VALUE': 5, 'IN_WIDTH': 9, 'OUT_WIDTH': 11, 'SIZE0': 12, 'IDX_SIZE0': 13}[word] for word in numbers.split(', ')]
            known = dict(zip(numbers.split(', '), values))
            wanted = [(port.rstrip('!'), known.get(width, 1) if width != '1' else 1, '!' in port) for port, width in re.findall(r'(\w+!?): (\w+)', ports)]
            self.assertEqual([(port.name, port.width, port.side == 'enable') for port in cells.ports_of(name, values)], wanted, name)
        self.assertEqual(found | {f'{kind}_d{sizes}' for kind in ('std_mem', 'comb_mem', 'seq_mem') for sizes in (2, 3, 4)}, set(cells.NAMES))


class Rules(unittest.TestCase):
    def test_each_rule_of_the_page_has_a_way_to_mend_it(self):
        self.assertEqual(set(rules.rules()) - set(rules.mends()), set())
        self.assertEqual(set(rules.faults()), {'conflict', 'undefined', 'range'})
        self.assertTrue(all(rules.told(name) for name in rules.names()))


class Positions(unittest.TestCase):
    def test_a_position_is_where_control_is(self):
        """In each cycle of a run the statement at the position is the one whose wire says that control is at it."""
        import given
        import faults
        import program
        import verilog
        for name in ('shared_call', 'histogram', 'sorting_network', 'systolic_array', 'static_pipeline'):
            it = design.read(common.example(f'{name}.futil'))
            text, told = program.compiled(it.text)
            self.assertEqual(told, '')
            run = verilog.Run(text, faults.words_of(text, given.memories(os.path.join(common.EXAMPLES, f'{name}.json'), text)))
            part = it.by_name['main']
            at = {id(net.of): f'cx_w{number}' for number, net in enumerate(numbering.wires(part)) if net.kind == 'at'}
            found = numbering.positions(part.control)
            for _ in range(60):
                position = run.main.value('cx_r0')
                if position < len(found):
                    self.assertEqual(run.main.value(at[id(found[position])]), 1, (name, position))
                run.step()


if __name__ == '__main__':
    unittest.main()
