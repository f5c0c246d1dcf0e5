"""Each rule of docs/RULES.md by its smallest design: the program tells what the page says, and the explanation begins at a place of that line."""
import re
import unittest

import common
import rules

LINES = 'component main() -> () {\ncells {\n%s\n} wires {\n%s\n} control {\n%s\n} }\n'
CALLED = 'component p(x: 1) -> (y: 1) { cells { r = std_reg(1); } wires { y = r.out; } }\n'
WHOLE = {
    'open-string': 'import "a\nb";', 'unexpected': '',
    'too-deep': LINES % ('b = std_reg(1); r = std_reg(1);', 'r.in = ' + 65 * '!' + 'b.out ? 1\'d1;', ''),
}


def design_of(name, smallest):
    """The text of the smallest design that the page gives of a rule."""
    if name in WHOLE:
        return WHOLE[name]
    whole = re.match(r'the text `(.*)`$', smallest)
    if whole:
        return whole.group(1)
    behind = re.match(r'behind the eight lines `(.*)`$', smallest)
    parts = [re.search(rf'{word} `([^`]*)`', smallest) for word in ('CELLS', 'WIRES', 'CONTROL')]
    text = LINES % tuple(part.group(1) if part else '' for part in parts)
    return text + (behind.group(1) + '\n' if behind else '') + (CALLED if 'component `p`' in smallest else '')


class Smallest(unittest.TestCase):
    def test_each_rule(self):
        for name, (_, smallest, told) in rules.rules().items():
            if not smallest:
                continue
            with self.subTest(name), common.Folder(d__futil=design_of(name, smallest)) as folder:
                status, out, lines = common.calyx('check', 'd.futil', folder=folder)
                first, _, rest = lines.partition('\n')
                self.assertEqual((status, out, first), (2, '', f'refused {told.strip("`")}'))
                self.assertRegex(rest, r'^d\.futil:\d+:\d+: error: ')
                self.assertNotIn('no explanation', rest)

    def test_the_size_of_a_design(self):
        """Of a design over the size the components that make it are told, with sizes that sum to it."""
        calls = ' '.join(['invoke c(x = r.out)(y = r.in);'] * 2000)
        text = LINES % ('c = p(); r = std_reg(1);', '', f'seq {{ {calls} }}') + CALLED
        with common.Folder(d__futil=text) as folder:
            status, _, told = common.calyx('compile', 'd.futil', folder=folder)
        self.assertEqual((status, told.split('\n')[0]), (2, 'refused 1:1 too-large 18010'))
        self.assertIn('of it `main` 18,003, `p` 5', told)


if __name__ == '__main__':
    unittest.main()
