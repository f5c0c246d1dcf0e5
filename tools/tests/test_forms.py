"""Each row of the table 'Calyx as it is written elsewhere' of docs/LANGUAGE.md: what `check` tells, and what tools/calyx port makes of it."""
import os
import re
import unittest

import common
import program
import port
import recipes

FORMS = os.path.join(common.TOOLS, 'tests', 'forms')


def rows():
    page = common.text_of('docs', 'LANGUAGE.md')
    return re.findall(r'^\| \[\w+\]\(\.\./tools/tests/forms/(\w+)\.futil\) \| .* \| `([^`]*)` \| .* \| ?(port)? ?\|$', page, flags=re.M)


class Forms(unittest.TestCase):
    def test_each_design_has_a_row(self):
        self.assertEqual({f'{name}.futil' for name, _, _ in rows()} | {'accepted.futil'}, set(os.listdir(FORMS)))

    def test_what_is_told_and_what_port_makes(self):
        for name, told, by in rows():
            with self.subTest(name), common.Folder() as folder:
                path = os.path.join(FORMS, f'{name}.futil')
                status, _, line = program.run('check', path)
                self.assertEqual((status, re.sub(r'^refused \d+:\d+ ', '', line).strip()), (2, told))
                made, _, left = port.ported(path, common.text_of('tools', 'tests', 'forms', f'{name}.futil'))
                with open(f'{folder}/d.futil', 'wb') as file:
                    file.write(made.encode('latin-1'))
                status, _, line = program.run('check', f'{folder}/d.futil')
                self.assertEqual((status == 0, not left) if by else status, (True, True) if by else 2, line)

    def test_what_is_read_as_it_stands(self):
        self.assertEqual(program.run('check', os.path.join(FORMS, 'accepted.futil')), (0, b'accepted\n', ''))

    def test_port_changes_no_design_that_is_read(self):
        for name in os.listdir(common.EXAMPLES):
            if name.endswith('.futil'):
                text = common.example(name)
                self.assertEqual(port.ported(name, text), (text, [], []), name)


class Recipes(unittest.TestCase):
    def test_words_of_a_shift_with_sign(self):
        """The recipes of a shift and of a sign, at the edges, beside Python's shifts of negative numbers."""
        words = [0, 1, 127, 128, 129, 200, 255]
        for shift in (0, 1, 3, 7, 8, 200):
            for word in words:
                signed = word - 256 if word > 127 else word
                turned, by = word ^ 128, min(shift, 7)
                self.assertEqual(((turned >> by) - (128 >> by)) % 256, (signed >> shift) % 256, (word, shift))
        self.assertIsNone(recipes.recipe_of('std_bit_slice', [32, 0, 3, 5]))
        self.assertIsNone(recipes.recipe_of('std_fp_mult_pipe', [128, 64, 64]))

    def test_data_files(self):
        made, done, left = port.ported_data('{"a": {"data": [1.5, -0.25], "format": {"numeric_type": "fixed_point", "is_signed": true, "width": 32, "int_width": 16}},'
                                            ' "b": {"data": [7], "bitwidth": 8}, "c": {"data": [0.1], "format": {"numeric_type": "fixed_point", "is_signed": false, "width": 8, "int_width": 4}}}')
        self.assertIn('98304', made)
        self.assertIn('-16384', made)
        self.assertEqual((len(done), len(left)), (2, 1))


if __name__ == '__main__':
    unittest.main()
